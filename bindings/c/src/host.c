/* Reads images from files of the host, and replaces such files whole. */
#define _XOPEN_SOURCE 700
#include "checks.h"

#include <errno.h>
#include <fcntl.h>
#include <stdbool.h>
#include <stdio.h>
#include <stdlib.h>
#include <sys/file.h>
#include <sys/stat.h>
#include <time.h>
#include <unistd.h>

enum { MOST_BYTES = JIP_MOST_BLOCKS * JIP_BLOCK_BYTES, FIRST_ROOM = 1 << 20, TRIES = 1000, ACCESS_BITS = 0777, MILLISECOND = 1000000 };

/* The name of the new file in the directory of the old one. Each try uses another number. */
static const char beside_name[] = ".jiponuwha-%u.new";

/* The bytes that have been read from a file. */
struct gathered {
    uint8_t *bytes;
    size_t length, room;
};

/* Grows the buffer, to at most one byte more than the largest image. Returns false if memory runs out. */
static bool grow(struct gathered *all, size_t room) {
    uint8_t *bytes;
    if (room > (size_t)MOST_BYTES + 1) room = (size_t)MOST_BYTES + 1;
    bytes = realloc(all->bytes, room);
    if (bytes == NULL) return false;
    all->bytes = bytes;
    all->room = room;
    return true;
}

/* Reads a file to its end, or to one byte more than the largest image. Returns a status. */
static int32_t gather(int from, struct gathered *all) {
    struct stat stat;
    const bool is_file = fstat(from, &stat) == 0 && S_ISREG(stat.st_mode) && stat.st_size < MOST_BYTES;
    if (!grow(all, is_file ? (size_t)stat.st_size + 1 : (size_t)FIRST_ROOM)) return JIP_NO_MEMORY;
    while (all->length <= MOST_BYTES) {
        ssize_t count;
        if (all->length == all->room && !grow(all, 2 * all->room)) return JIP_NO_MEMORY;
        count = read(from, all->bytes + all->length, all->room - all->length);
        if (count < 0 && errno == EINTR) continue;
        if (count < 0) return JIP_HOST_FAILED;
        if (count == 0) break;
        all->length += (size_t)count;
    }
    return JIP_DONE;
}

/* jip_open or jip_open_read_only. */
typedef int32_t opener(const void *bytes, size_t length, jip_handle *handle, jip_fault *fault);

static int32_t load_by(opener *open_bytes, const char *path, jip_handle *handle, jip_fault *fault) {
    struct gathered all = {NULL, 0, 0};
    int32_t result;
    int from, error;
    if (path == NULL || !may_be_handle(handle, path, strlen(path) + 1)) return JIP_WRONG_ARGUMENT;
    if (!may_stand(fault, _Alignof(jip_fault)) || !apart(fault, sizeof *fault, path, strlen(path) + 1)) return JIP_WRONG_ARGUMENT;
    from = open(path, O_RDONLY | O_CLOEXEC);
    if (from < 0) return JIP_HOST_FAILED;
    result = gather(from, &all);
    error = errno;
    (void)close(from);
    if (result == JIP_DONE) result = open_bytes(all.bytes, all.length, handle, fault);
    free(all.bytes);
    errno = error;
    return result;
}

int32_t jip_load(const char *path, jip_handle *handle, jip_fault *fault) { return load_by(jip_open, path, handle, fault); }

int32_t jip_load_read_only(const char *path, jip_handle *handle, jip_fault *fault) {
    return load_by(jip_open_read_only, path, handle, fault);
}

static bool write_all(int to, const uint8_t *bytes, size_t length) {
    while (length > 0) {
        const ssize_t count = write(to, bytes, length);
        if (count < 0 && errno == EINTR) continue;
        if (count <= 0) return false;
        bytes += count;
        length -= (size_t)count;
    }
    return true;
}

/* Writes to an existing device or pipe. */
static bool write_straight(const char *path, const uint8_t *bytes, size_t length) {
    const int to = open(path, O_WRONLY | O_CLOEXEC);
    bool done;
    if (to < 0) return false;
    done = write_all(to, bytes, length);
    return close(to) == 0 && done;
}

/* Sets the owner and the permissions of a new file to those of the old one. Failing to set the owner is ignored, because
   only a privileged process may set it. */
static bool take_after(int to, const struct stat *old) {
    int given = fchown(to, old->st_uid, old->st_gid);
    if (given != 0) given = fchown(to, (uid_t)-1, old->st_gid);
    (void)given;
    return fchmod(to, old->st_mode & ACCESS_BITS) == 0;
}

/* Creates a file in the directory of another. If it will replace a file, only its owner may access it at first. Returns
   its descriptor, or -1. */
static int make_beside(char *beside, size_t room, int folder_length, const char *path, bool replaces) {
    for (unsigned number = 0; number < TRIES; number++) {
        const int begin = snprintf(beside, room, "%.*s", folder_length, path);
        int made;
        (void)snprintf(beside + begin, room - (size_t)begin, beside_name, number);
        made = open(beside, O_WRONLY | O_CREAT | O_EXCL | O_CLOEXEC, replaces ? 0600 : 0666);
        if (made >= 0 || errno != EEXIST) return made;
    }
    return -1;
}

/* Syncs a directory to disk after the rename. Failures are ignored: some file systems cannot do it. */
static void settle_folder(char *folder, int length) {
    int opened;
    folder[length] = 0;
    opened = open(length == 0 ? "." : folder, O_RDONLY | O_DIRECTORY | O_CLOEXEC);
    if (opened < 0) return;
    (void)fsync(opened);
    (void)close(opened);
}

/* Writes a new file and renames it to the path. After a failure the old file is unchanged and the new one is removed. */
static bool replace(const char *path, const struct stat *old, const uint8_t *bytes, size_t length) {
    const char *slash = strrchr(path, '/');
    const int folder_length = slash == NULL ? 0 : (int)(slash - path) + 1;
    const size_t room = (size_t)folder_length + sizeof beside_name + 10;
    char *beside = malloc(room);
    const int to = beside == NULL ? -1 : make_beside(beside, room, folder_length, path, old != NULL);
    bool done = to >= 0 && write_all(to, bytes, length) && (old == NULL || take_after(to, old)) && fsync(to) == 0;
    int error;
    if (to >= 0 && close(to) != 0) done = false;
    done = done && rename(beside, path) == 0;
    error = errno;
    if (!done && to >= 0) (void)unlink(beside);
    if (done) settle_folder(beside, folder_length);
    free(beside);
    errno = error;
    return done;
}

/* Locks the file. Returns false if another program has it locked, such as adf_mount, or adf_serve during a change. A program
   that only looks for the lock has it shared for a moment. While that is so, the lock is tried again, for a second or more. */
static bool is_free(int held) {
    const struct timespec pause = {0, MILLISECOND};
    for (int tries = 0; tries < TRIES; tries++) {
        if (flock(held, LOCK_EX | LOCK_NB) == 0 || errno != EWOULDBLOCK) return true;
        if (flock(held, LOCK_SH | LOCK_NB) != 0) return errno != EWOULDBLOCK;
        (void)flock(held, LOCK_UN);
        (void)nanosleep(&pause, NULL);
    }
    errno = EWOULDBLOCK;
    return false;
}

/* Replaces the regular file at a path, after links, if this process may write to it. */
static bool replace_found(const char *path, const uint8_t *bytes, size_t length) {
    char *real = realpath(path, NULL);
    const int held = real == NULL ? -1 : open(real, O_WRONLY | O_CLOEXEC | O_NOFOLLOW);
    struct stat old;
    const bool done = held >= 0 && fstat(held, &old) == 0 && is_free(held) && replace(real, &old, bytes, length);
    const int error = errno;
    if (held >= 0) (void)close(held);
    free(real);
    errno = error;
    return done;
}

/* Writes the bytes to the file at a path, which is created if it does not exist. A dangling link fails with ENOENT. */
static bool put(const char *path, const uint8_t *bytes, size_t length) {
    struct stat found;
    if (stat(path, &found) == 0) return S_ISREG(found.st_mode) ? replace_found(path, bytes, length) : write_straight(path, bytes, length);
    if (errno != ENOENT) return false;
    if (lstat(path, &found) == 0) {
        errno = ENOENT;
        return false;
    }
    return replace(path, NULL, bytes, length);
}

int32_t jip_store(jip_handle *handle, const char *path) {
    const size_t length = jip_image_length(handle);
    uint8_t *bytes;
    int32_t result;
    int error;
    if (path == NULL || length == 0 || !may_be_handle(handle, path, strlen(path) + 1)) return JIP_WRONG_ARGUMENT;
    bytes = calloc(length, 1);
    if (bytes == NULL) return JIP_NO_MEMORY;
    result = jip_copy_image(handle, bytes, length);
    if (result == JIP_DONE && !put(path, bytes, length)) result = JIP_HOST_FAILED;
    error = errno;
    free(bytes);
    errno = error;
    return result;
}
