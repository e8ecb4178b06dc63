/* The checks of pointers and lengths that the checked functions share. */
#ifndef JIPONUWHA_CHECKS_H
#define JIPONUWHA_CHECKS_H

#include <jiponuwha.h>

/* Whether this many bytes can exist at a pointer. */
static inline int may_hold(const void *at, size_t length) {
    return length == 0 || (at != NULL && length <= (size_t)PTRDIFF_MAX && length <= UINTPTR_MAX - (uintptr_t)at);
}

/* Whether a pointer is not null and has this alignment. */
static inline int may_stand(const void *at, size_t alignment) { return at != NULL && (uintptr_t)at % alignment == 0; }

/* Returns the length of a path, which JIP_TO_ZERO leaves to its first zero byte. */
static inline size_t length_of(const char *path, size_t length) {
    return length == JIP_TO_ZERO && path != NULL ? strlen(path) : length;
}

/* Whether two ranges do not overlap. */
static inline int apart(const void *first, size_t length, const void *second, size_t other_length) {
    const uintptr_t a = (uintptr_t)first, b = (uintptr_t)second;
    return length == 0 || other_length == 0 || (a < b ? length <= b - a : other_length <= a - b);
}

/* Whether a pointer can be that of a handle, which does not overlap these bytes. */
static inline int may_be_handle(const jip_handle *handle, const void *bytes, size_t length) {
    return may_stand(handle, _Alignof(jip_handle)) && apart(handle, sizeof *handle, bytes, length);
}

/* Whether an array of these elements can exist at a pointer, next to a count. Each element has the alignment of uint32_t. */
static inline int may_be_list(const void *at, size_t room, size_t size, const size_t *count) {
    return room <= (size_t)PTRDIFF_MAX / size && may_hold(at, room * size) && (room == 0 || may_stand(at, _Alignof(uint32_t))) &&
           may_stand(count, _Alignof(size_t)) && apart(count, sizeof *count, at, room * size);
}

#endif
