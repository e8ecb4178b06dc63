/* The image's file on the host: locked against other mounts, read whole, and replaced whole. It is found once: from then on it is
   a name in an open directory. Functions return 0 or an errno. */
#ifndef ADF_MOUNT_IMAGE_FILE_H
#define ADF_MOUNT_IMAGE_FILE_H

#include <limits.h>
#include <stdbool.h>
#include <stddef.h>
#include <stdint.h>

struct image_file {
    char path[PATH_MAX]; /* absolute, with no symbolic link in it: only for messages */
    int folder;          /* the directory of the file, or -1 */
    const char *name;    /* its name there, in `path` */
    int held;            /* the file, locked by flock while it is open, or -1 */
};

/* A file that is not found yet. */
#define IMAGE_FILE_NONE {.folder = -1, .held = -1}

/* Finds the file and locks it. Where another process has it locked, this waits up to so many seconds: that process may be a
   mount that saves. EWOULDBLOCK if it is locked then; EINVAL if it is not a regular file. */
int image_file_hold(struct image_file *file, const char *path, unsigned seconds);

/* Finds the file and waits up to so many seconds until no process has it locked. It is then open, and not locked. Errors are those
   of `image_file_hold`. */
int image_file_wait(struct image_file *file, const char *path, unsigned seconds);

/* Reads the whole file into memory that the caller frees. EFBIG if it has more than `most` bytes. */
int image_file_read(const struct image_file *file, size_t most, uint8_t **bytes, size_t *length);

/* Whether the file can be replaced: it is writable, and so is its folder. */
bool image_file_may_be_replaced(const struct image_file *file);

/* Replaces the locked file by one with these bytes, and with its owner and permissions. The new file is locked before the
   rename. After a failure the old file is unchanged. ESTALE if another file has its name, or none. */
int image_file_replace(struct image_file *file, const uint8_t *bytes, size_t length);

void image_file_release(struct image_file *file);

#endif
