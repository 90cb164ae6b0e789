/* Does what the program does, with the library: reads a record per line from standard input, and writes the reply to each to
 * standard output. Exit statuses are those of the program: 0 all accepted, 1 some rejected, 3 a stream failed, 4 out of
 * memory. */
#define _POSIX_C_SOURCE 200809L
#include "olr_keep.h"
#include <stdio.h>
#include <stdlib.h>

enum { STREAM_FAILED = 3 };

/* Writes the last reply, and returns whether that succeeded, as a status. */
static int write_reply(olr_keep *keep) {
    size_t length;
    const char *reply = olr_keep_text(keep, &length);
    return fwrite(reply, 1, length, stdout) == length ? OLR_KEEP_ACCEPTED : STREAM_FAILED;
}

/* Carries out all records of the input. */
static int run(olr_keep *keep) {
    char *line = NULL;
    size_t size = 0;
    ssize_t length;
    int ended = OLR_KEEP_ACCEPTED;
    while (ended < STREAM_FAILED && (length = getline(&line, &size, stdin)) >= 0) {
        int status = olr_keep_ask(keep, line, (size_t)length);
        if (status == OLR_KEEP_ACCEPTED || status == OLR_KEEP_REJECTED) {
            int written = write_reply(keep);
            if (written != OLR_KEEP_ACCEPTED) status = written;
        }
        if (status > ended) ended = status;
    }
    if (ended < STREAM_FAILED && !feof(stdin)) ended = STREAM_FAILED;
    free(line);
    return ended;
}

int main(void) {
    olr_keep keep = OLR_KEEP_INIT;
    int status = olr_keep_make(&keep);
    if (status == OLR_KEEP_ACCEPTED) status = run(&keep);
    olr_keep_drop(&keep);
    if (fflush(stdout) != 0 && status < STREAM_FAILED) status = STREAM_FAILED;
    if (status > OLR_KEEP_REJECTED && status != STREAM_FAILED) fprintf(stderr, "library: %s\n", olr_keep_status_text(status));
    return status;
}
