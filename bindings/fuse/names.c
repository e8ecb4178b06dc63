/* The proved library converts names and texts; here are only the buffers of the mount. */
#include "names.h"

#include <errno.h>

enum { LOW_BITS = 0xFF };

int name_of_host(const char *host, struct name *name) {
    const int32_t status = jip_name_of_host(host, strlen(host), name->bytes, sizeof name->bytes, &name->length);
    if (status == JIP_NO_MEMORY) return ENOMEM;
    if (status != JIP_DONE) return EINVAL;
    if (name->length > sizeof name->bytes) return ENAMETOOLONG;
    return jip_is_name(name->bytes, name->length) ? 0 : EINVAL;
}

void host_of_name(const uint8_t *bytes, size_t length, char host[HOST_NAME_ROOM]) {
    size_t end = 0;
    const int32_t status = jip_host_of_name(bytes, length, host, HOST_NAME_ROOM - 1, &end);
    host[status == JIP_DONE && end < HOST_NAME_ROOM ? end : 0] = '\0';
}

size_t letters_of_comment(const jip_entry *entry, char letters[COMMENT_ROOM]) {
    size_t end = 0;
    const int32_t status = jip_letters_of_bytes(entry->comment, entry->comment_length, letters, COMMENT_ROOM - 1, &end);
    if (status != JIP_DONE || end >= COMMENT_ROOM) end = 0;
    letters[end] = '\0';
    return end;
}

bool comment_of_letters(const char *letters, size_t length, uint8_t comment[JIP_COMMENT_BYTES], size_t *comment_length) {
    const int32_t status = jip_bytes_of_letters(letters, length, comment, JIP_COMMENT_BYTES, comment_length);
    return status == JIP_DONE && *comment_length <= JIP_COMMENT_BYTES;
}

void letters_of_protection(uint32_t bits, char letters[PROTECTION_LETTERS]) {
    size_t length = 0;
    (void)jip_letters_of_protection(bits, letters, PROTECTION_LETTERS, &length);
}

bool protection_of_letters(const char *letters, size_t length, uint32_t *bits) {
    uint32_t low = 0;
    if (length == 0 || jip_protection_of_letters(letters, length, &low) != JIP_DONE) return false;
    *bits = (*bits & ~(uint32_t)LOW_BITS) | low;
    return true;
}
