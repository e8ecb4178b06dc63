/* Names and texts: an Amiga's bytes, which are letters of ISO 8859-1, and the host's letters, which are UTF-8. */
#ifndef ADF_MOUNT_NAMES_H
#define ADF_MOUNT_NAMES_H

#include "jiponuwha.h"

#include <stdbool.h>

/* A byte of a name is at most three letters, as `%HH`. A byte of a comment is at most two bytes of UTF-8. */
enum { HOST_NAME_ROOM = 3 * JIP_NAME_BYTES + 1, COMMENT_ROOM = 2 * JIP_COMMENT_BYTES + 1, PROTECTION_LETTERS = 8 };

/* The name of an entry. Its bytes may include a zero. */
struct name {
    size_t length;
    uint8_t bytes[JIP_NAME_BYTES];
};

/* The name for a host's name: its letters, with each `%` and two hexadecimal digits as that byte. Returns 0, EINVAL if
   no entry can have this name, ENAMETOOLONG, or ENOMEM. */
int name_of_host(const char *host, struct name *name);

/* The host's name of an entry: its letters, with `%HH` for control characters, for `%` and `\`, and for the first dot
   of `.` and `..`. It is empty if memory runs out. */
void host_of_name(const uint8_t *bytes, size_t length, char host[HOST_NAME_ROOM]);

/* The UTF-8 of a comment's letters, and its length in bytes. It is empty if memory runs out. */
size_t letters_of_comment(const jip_entry *entry, char letters[COMMENT_ROOM]);

/* The bytes of a comment's letters; false if a letter is no byte, if there are too many, or if memory runs out. */
bool comment_of_letters(const char *letters, size_t length, uint8_t comment[JIP_COMMENT_BYTES], size_t *comment_length);

/* The low eight protection bits as `hsparwed`: a dash for clear h, s, p, a and for set r, w, e, d. */
void letters_of_protection(uint32_t bits, char letters[PROTECTION_LETTERS]);

/* The protection bits with the low eight from letters: eight such places, or some of the letters in any order. */
bool protection_of_letters(const char *letters, size_t length, uint32_t *bits);

#endif
