/* The functions of the library that are written in C: they test the arguments for what C allows and the proved functions
 * don't, and call these. */
#include "olr_keep.h"

const char *olr_keep_version(void) { return OLR_KEEP_VERSION; }

const char *olr_keep_status_text(int status) {
    switch (status) {
    case OLR_KEEP_ACCEPTED: return "accepted";
    case OLR_KEEP_REJECTED: return "a record was rejected";
    case OLR_KEEP_NO_REGISTER: return "there is no register";
    case OLR_KEEP_TOO_SHORT: return "the buffer is shorter than the reply";
    case OLR_KEEP_NO_MEMORY: return "out of memory";
    case OLR_KEEP_NULL: return "an argument is NULL";
    case OLR_KEEP_BAD_LENGTH: return "a length is greater than PTRDIFF_MAX";
    default: return "not a status of olr-keep";
    }
}

int olr_keep_make(olr_keep *keep) { return keep ? olr_c_make(keep) : OLR_KEEP_NULL; }

void olr_keep_drop(olr_keep *keep) {
    if (keep) olr_c_drop(keep);
}

int olr_keep_ask(olr_keep *keep, const void *record, size_t length) {
    if (!keep || (!record && length)) return OLR_KEEP_NULL;
    if (length > PTRDIFF_MAX) return OLR_KEEP_BAD_LENGTH;
    return olr_c_ask(keep, record ? (const uint8_t *)record : (const uint8_t *)"", length);
}

size_t olr_keep_length(olr_keep *keep) { return keep ? olr_c_length(keep) : 0; }

const char *olr_keep_text(olr_keep *keep, size_t *length) {
    const uint8_t *at = NULL;
    size_t size = olr_keep_length(keep);
    if (length) *length = size;
    if (!size || olr_c_at(keep, &at) != OLR_KEEP_ACCEPTED) return "";
    return (const char *)at;
}

int olr_keep_reply(olr_keep *keep, void *buffer, size_t size) {
    uint8_t none = 0;
    if (!keep || (!buffer && size)) return OLR_KEEP_NULL;
    if (size > PTRDIFF_MAX) return OLR_KEEP_BAD_LENGTH;
    return olr_c_reply(keep, buffer ? (uint8_t *)buffer : &none, size);
}
