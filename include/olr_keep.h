/* olr-keep as a library: registers of a road map and named paths, which take records and return replies as the
 * program does.
 *
 *     olr_keep keep = OLR_KEEP_INIT;
 *     int status = olr_keep_make(&keep);
 *     if (status == OLR_KEEP_ACCEPTED) status = olr_keep_ask(&keep, "node,1,6.1,49.6", 15);
 *     size_t length;
 *     const char *reply = olr_keep_text(&keep, &length);
 *     olr_keep_drop(&keep);
 *
 * Compile and link with `pkg-config --cflags --libs olr_keep`. docs/LIMITS.md has the records, the replies and the limits.
 *
 * Conditions that the caller has to meet, since the library can't test them:
 *
 * - An olr_keep is initialized with OLR_KEEP_INIT, and its members are changed only by the library. It may be moved; of two
 *   copies only one may be used afterwards.
 * - A pointer that is not NULL points to as many bytes as its length argument says, and `buffer` doesn't overlap the olr_keep.
 * - A register is used by one thread at a time, and not in a signal handler. Different registers are independent.
 * - malloc, realloc and free are those of the process, belong to one allocator, and align to 16 bytes.
 *
 * No call retains the caller's memory. The functions olr_c_* are proved, on condition that no pointer is NULL and no length is
 * greater than any object has. The functions olr_keep_* are written in C: they test this first and call them.
 */
#ifndef OLR_KEEP_H
#define OLR_KEEP_H

#include <stdbool.h>
#include <stddef.h>
#include <stdint.h>

#ifdef __cplusplus
extern "C" {
#endif

/* The version of this header, and as a number: 10000 times the first part, plus 100 times the second, plus the third. */
#define OLR_KEEP_VERSION "2.0.0"
#define OLR_KEEP_VERSION_NUMBER 20000

/* A register, or none. */
typedef struct olr_keep {
    void *at_of_the_library;
    bool full_of_the_library;
} olr_keep;

#define OLR_KEEP_INIT \
    { NULL, false }

/* Statuses. */
enum {
    OLR_KEEP_ACCEPTED = 0,    /* done; for records: each was accepted. An empty line is not a record and has an empty reply */
    OLR_KEEP_REJECTED = 1,    /* a record was rejected: its reply is a fault, and it changed nothing */
    OLR_KEEP_NO_REGISTER = 2, /* the olr_keep has no register: make one first */
    OLR_KEEP_TOO_SHORT = 3,   /* the buffer is shorter than the reply, and was not changed */
    OLR_KEEP_NO_MEMORY = 4,   /* out of memory. After olr_keep_ask: at the last record with a complete reply or at the
                                 next one; `show` or `report` prints whether that one was carried out */
    OLR_KEEP_NULL = 5,        /* an argument is NULL */
    OLR_KEEP_BAD_LENGTH = 6   /* a length is greater than PTRDIFF_MAX */
};

/* The version of the library that is loaded, such as "2.0.0". */
const char *olr_keep_version(void);

/* What a status means, in English and without a line end, such as "out of memory". Never NULL. */
const char *olr_keep_status_text(int status);

/* Makes a register with an empty map and no paths. Frees the register that the olr_keep had, if any. */
int olr_keep_make(olr_keep *keep);

/* Frees the register. An olr_keep without a register is left unchanged. */
void olr_keep_drop(olr_keep *keep);

/* Carries out a record, with or without its line end. Fields may be quoted as in CSV. If there are several records, the
 * reply is their replies in order. */
int olr_keep_ask(olr_keep *keep, const void *record, size_t length);

/* The length of the last reply in bytes, with its line ends; 0 if there is no reply or no register. */
size_t olr_keep_length(olr_keep *keep);

/* The last reply itself, without a copy, and its length if `length` is not NULL. It is valid until the next olr_keep_make,
 * olr_keep_ask or olr_keep_drop of this register. Without a reply "" and 0; never NULL. No zero byte is appended to a reply. */
const char *olr_keep_text(olr_keep *keep, size_t *length);

/* Copies the last reply to the start of a buffer of `size` bytes. No zero byte is appended. */
int olr_keep_reply(olr_keep *keep, void *buffer, size_t size);

/* The proved functions. No pointer may be NULL, no length greater than PTRDIFF_MAX, and no two arguments may overlap. */
uint8_t olr_c_make(olr_keep *keep);
void olr_c_drop(olr_keep *keep);
uint8_t olr_c_ask(olr_keep *keep, const uint8_t *records, size_t length);
size_t olr_c_length(olr_keep *keep);
uint8_t olr_c_at(olr_keep *keep, const uint8_t **at);
uint8_t olr_c_reply(olr_keep *keep, uint8_t *buffer, size_t size);

#ifdef __cplusplus
}
#endif

#endif
