#include "image_file.h"

#include <errno.h>
#include <fcntl.h>
#include <stdbool.h>
#include <stdio.h>
#include <stdlib.h>
#include <string.h>
#include <sys/file.h>
#include <sys/random.h>
#include <sys/stat.h>
#include <time.h>
#include <unistd.h>

enum { MOST_TRIES = 100, MILLISECOND = 1000000, SUFFIX = 6 };

static void close_once(int *opened) {
    if (*opened >= 0) (void)close(*opened);
    *opened = -1;
}

/* Opens the directory of an absolute path that has no symbolic link. A link that is there now was put there meanwhile, and is
   refused. */
static int open_folder(struct image_file *file) {
    char part[PATH_MAX];
    const char *at = file->path + 1;
    file->folder = open("/", O_PATH | O_DIRECTORY | O_CLOEXEC);
    for (const char *end = strchr(at, '/'); file->folder >= 0 && end != NULL; at = end + 1, end = strchr(at, '/')) {
        memcpy(part, at, (size_t)(end - at));
        part[end - at] = '\0';
        const int next = openat(file->folder, part, O_PATH | O_DIRECTORY | O_NOFOLLOW | O_CLOEXEC);
        const int error = errno;
        close_once(&file->folder);
        errno = error;
        file->folder = next;
    }
    file->name = *at == '\0' ? "." : at;
    return file->folder < 0 ? errno : 0;
}

/* Finds the file's directory and its name there. */
static int find(struct image_file *file, const char *path) {
    file->folder = file->held = -1;
    return realpath(path, file->path) == NULL ? errno : open_folder(file);
}

/* Whether the name is still that of this file. A process that had it locked may have replaced it. */
static bool is_named(const struct image_file *file) {
    struct stat here, there;
    return fstat(file->held, &here) == 0 && fstatat(file->folder, file->name, &there, AT_SYMLINK_NOFOLLOW) == 0 &&
           here.st_dev == there.st_dev && here.st_ino == there.st_ino;
}

/* Opens the file and locks it by this operation of flock, without waiting. EWOULDBLOCK if it is locked, or was replaced
   meanwhile. */
static int open_locked(struct image_file *file, int operation) {
    struct stat stat;
    close_once(&file->held);
    file->held = openat(file->folder, file->name, O_RDONLY | O_NOFOLLOW | O_CLOEXEC | O_NONBLOCK);
    if (file->held < 0 || fstat(file->held, &stat) != 0) return errno;
    if (!S_ISREG(stat.st_mode)) return EINVAL;
    if (flock(file->held, operation | LOCK_NB) != 0) return errno;
    return is_named(file) ? 0 : EWOULDBLOCK;
}

static struct timespec moment(void) {
    struct timespec time = {0, 0};
    (void)clock_gettime(CLOCK_MONOTONIC, &time);
    return time;
}

/* Finds the file and locks it, as soon as no other process has it locked. */
static int lock_within(struct image_file *file, const char *path, int operation, unsigned seconds) {
    const struct timespec began = moment(), pause = {0, 10 * MILLISECOND};
    int error = find(file, path);
    if (error != 0) return error;
    for (;;) {
        error = open_locked(file, operation);
        if (error != EWOULDBLOCK) return error;
        const struct timespec time = moment();
        if (time.tv_sec - began.tv_sec > (time_t)seconds) return error;
        if (time.tv_sec - began.tv_sec == (time_t)seconds && time.tv_nsec >= began.tv_nsec) return error;
        (void)nanosleep(&pause, NULL);
    }
}

int image_file_hold(struct image_file *file, const char *path, unsigned seconds) { return lock_within(file, path, LOCK_EX, seconds); }

int image_file_wait(struct image_file *file, const char *path, unsigned seconds) {
    const int error = lock_within(file, path, LOCK_SH, seconds);
    if (error == 0) (void)flock(file->held, LOCK_UN);
    return error;
}

int image_file_read(const struct image_file *file, size_t most, uint8_t **bytes, size_t *length) {
    struct stat stat;
    if (fstat(file->held, &stat) != 0) return errno;
    if ((uintmax_t)stat.st_size > most) return EFBIG;
    *length = (size_t)stat.st_size;
    *bytes = malloc(*length + 1);
    if (*bytes == NULL) return ENOMEM;
    size_t done = 0;
    while (done < *length) {
        const ssize_t count = pread(file->held, *bytes + done, *length - done, (off_t)done);
        if (count < 0 && errno == EINTR) continue;
        if (count <= 0) {
            const int error = count < 0 ? errno : EIO;
            free(*bytes);
            *bytes = NULL;
            return error;
        }
        done += (size_t)count;
    }
    return 0;
}

bool image_file_may_be_replaced(const struct image_file *file) {
    return faccessat(file->folder, file->name, W_OK, 0) == 0 && faccessat(file->folder, ".", W_OK | X_OK, 0) == 0;
}

/* Makes a new file beside the image's, with six random letters after its name. */
static int make_beside(const struct image_file *file, char beside[NAME_MAX + 1], int *made) {
    static const char letters[] = "abcdefghijklmnopqrstuvwxyz012345";
    unsigned char drawn[SUFFIX];
    char suffix[SUFFIX + 1] = {0};
    for (int tries = 0; tries < MOST_TRIES; tries++) {
        if (getrandom(drawn, sizeof drawn, 0) != (ssize_t)sizeof drawn) return EIO;
        for (size_t i = 0; i < SUFFIX; i++) suffix[i] = letters[drawn[i] % 32];
        if (snprintf(beside, NAME_MAX + 1, "%s.%s", file->name, suffix) > NAME_MAX) return ENAMETOOLONG;
        *made = openat(file->folder, beside, O_RDWR | O_CREAT | O_EXCL | O_NOFOLLOW | O_CLOEXEC, 0600);
        if (*made >= 0) return 0;
        if (errno != EEXIST) return errno;
    }
    return EEXIST;
}

static int write_all(int to, const uint8_t *bytes, size_t length) {
    while (length > 0) {
        const ssize_t count = write(to, bytes, length);
        if (count < 0 && errno == EINTR) continue;
        if (count <= 0) return count < 0 ? errno : EIO;
        bytes += count;
        length -= (size_t)count;
    }
    return 0;
}

/* Gives a new file the bytes, and the owner and mode of the locked one. It is synced to disk and locked. */
static int fill(int to, int held, const uint8_t *bytes, size_t length) {
    struct stat stat;
    if (fstat(held, &stat) != 0 || flock(to, LOCK_EX | LOCK_NB) != 0) return errno;
    const int error = write_all(to, bytes, length);
    if (error != 0) return error;
    /* The new file keeps the owner if the host allows it. Otherwise this process owns it. */
    if (fchown(to, stat.st_uid, stat.st_gid) != 0 && errno != EPERM) return errno;
    return fchmod(to, stat.st_mode & 0777) == 0 && fsync(to) == 0 ? 0 : errno;
}

/* Syncs the folder to disk. Some file systems cannot, and need not. */
static void settle_folder(int folder) {
    const int opened = openat(folder, ".", O_RDONLY | O_DIRECTORY | O_CLOEXEC);
    if (opened < 0) return;
    (void)fsync(opened);
    (void)close(opened);
}

int image_file_replace(struct image_file *file, const uint8_t *bytes, size_t length) {
    char beside[NAME_MAX + 1];
    int made = -1;
    int error = make_beside(file, beside, &made);
    if (error != 0) return error;
    error = fill(made, file->held, bytes, length);
    if (error == 0 && !is_named(file)) error = ESTALE;
    if (error == 0 && renameat(file->folder, beside, file->folder, file->name) != 0) error = errno;
    if (error != 0) {
        (void)unlinkat(file->folder, beside, 0);
        (void)close(made);
        return error;
    }
    close_once(&file->held);
    file->held = made;
    settle_folder(file->folder);
    return 0;
}

void image_file_release(struct image_file *file) {
    close_once(&file->held);
    close_once(&file->folder);
}
