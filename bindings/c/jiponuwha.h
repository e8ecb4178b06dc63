/* An AmigaDOS handler for floppy images. A program sends it DOS packets, and it answers them and changes the image.
 *
 *     #include <jiponuwha.h>
 *     #include <stdio.h>
 *
 *     int main(void) {
 *         const jip_date now = {17861, 720, 0}; // days since 1 January 1978, minutes, ticks of 1/50 second
 *         jip_handle floppy = JIP_CLOSED;
 *         jip_fault fault;
 *         char text[4096];
 *         size_t length;
 *         int32_t result = jip_load("work.adf", &floppy, &fault);
 *         if (result == JIP_DONE) result = jip_read_file(&floppy, "Docs/hello", JIP_TO_ZERO, text, sizeof text, &length);
 *         if (result == JIP_DONE) result = jip_write_file(&floppy, now, "Docs/copy", JIP_TO_ZERO, text, length);
 *         if (result == JIP_DONE) result = jip_store(&floppy, "work.adf");
 *         if (result != JIP_DONE) fprintf(stderr, "%s\n", jip_error_text(result));
 *         jip_close(&floppy);
 *         return result;
 *     }
 *
 * WHAT THE CALLER GUARANTEES. Nothing in a C program can be proved from here, so each call relies on these:
 *
 *  1. A pointer that is not null points to as many bytes as the length next to it, or to one whole struct of its type. It
 *     is aligned as C requires. The memory stays allocated until the call returns, and no other code reads or writes it
 *     meanwhile.
 *  2. The memory of two pointers of one call does not overlap, unless both are only read. No pointer points into memory
 *     that a handle owns.
 *  3. All bytes of a handle, of a packet, and of everything that a call reads or fills are initialized. This includes a
 *     buffer that READ fills, but not an answer, a fault or a count.
 *  4. A jip_handle is JIP_CLOSED before its first use. Only these calls change it, and its pointer is never dereferenced.
 *     A handle has one owner: after the handle or a copy of it was used, no other copy is used.
 *  5. One call at a time uses a handle. It may move to another thread if a lock, the start or join of a thread, or a
 *     memory_order_seq_cst atomic orders the calls. Any number of handles may be used in parallel, on any threads.
 *  6. malloc, realloc and free are from one allocator. It aligns a block to each power of two up to 16 that divides its
 *     size.
 *  7. No call is made from a signal handler, or in the forked child of a process with threads.
 *  8. A visitor of jip_walk makes no call that changes the image or closes the handle.
 *
 * WHAT IS CHECKED. A call returns JIP_WRONG_ARGUMENT and changes nothing in these cases: a null pointer where bytes or a
 * struct are needed; a struct or a number that is not aligned; a length beyond memory; an overlap against item 2; a text
 * longer than 255 bytes; a wrong name, size or format; a closed handle; and an open handle where a closed one is needed.
 * A null pointer with length 0 is an empty text or buffer. The other items cannot be checked from here.
 */
#ifndef JIPONUWHA_H
#define JIPONUWHA_H

#include <stddef.h>
#include <stdint.h>
#include <string.h>

#ifdef __cplusplus
extern "C" {
#endif

/* The version of this header. jip_version returns that of the library. A program that was built for a library runs with
   any later library of the same major version. */
#define JIP_VERSION_MAJOR 1
#define JIP_VERSION_MINOR 3
#define JIP_VERSION_PATCH 0

/* The status of a call. A refused packet is still answered: its results have the error, and the status is JIP_DONE. */
enum jip_status {
    JIP_DONE = 0,
    JIP_NOT_AN_IMAGE = 1,
    JIP_NO_MEMORY = 2,
    JIP_WRONG_ARGUMENT = 3,
    JIP_HOST_FAILED = 4 /* from jip_load and jip_store: errno has the reason */
};

/* OFS, the old file system, and FFS, the fast one. */
enum jip_format { JIP_OFS = 0, JIP_FFS = 1 };

/* The number of blocks of a double-density floppy and of a high-density floppy. */
enum jip_size { JIP_DOUBLE_DENSITY = 1760, JIP_HIGH_DENSITY = 3520 };

/* The reasons why bytes are not an image. */
enum jip_fault_kind {
    JIP_FAULT_NONE = 0,
    JIP_FAULT_NOT_A_DOS_DISK = 1,
    JIP_FAULT_UNSUPPORTED_KIND = 2,
    JIP_FAULT_BAD_SUM = 3,
    JIP_FAULT_BAD_TYPE = 4,
    JIP_FAULT_BAD_OWN_KEY = 5,
    JIP_FAULT_BAD_PARENT = 6,
    JIP_FAULT_BAD_POINTER = 7,
    JIP_FAULT_BLOCK_USED_TWICE = 8,
    JIP_FAULT_WRONG_CHAIN = 9,
    JIP_FAULT_BAD_NAME = 10,
    JIP_FAULT_DUPLICATE_NAME = 11,
    JIP_FAULT_BAD_COMMENT = 12,
    JIP_FAULT_BAD_COUNT = 13,
    JIP_FAULT_BAD_SEQUENCE = 14,
    JIP_FAULT_LINK_ENTRY = 15,
    JIP_FAULT_MARKED_FREE = 17,
    JIP_FAULT_NOT_WHOLE_BLOCKS = 101,
    JIP_FAULT_TOO_FEW_BLOCKS = 102,
    JIP_FAULT_TOO_MANY_BLOCKS = 103
};

/* The actions that are served, with their numbers in the AmigaDOS Technical Reference. */
enum jip_action {
    JIP_ACTION_DIE = 5,
    JIP_ACTION_LOCATE_OBJECT = 8,
    JIP_ACTION_RENAME_DISK = 9,
    JIP_ACTION_FREE_LOCK = 15,
    JIP_ACTION_DELETE_OBJECT = 16,
    JIP_ACTION_RENAME_OBJECT = 17,
    JIP_ACTION_COPY_DIR = 19,
    JIP_ACTION_SET_PROTECT = 21,
    JIP_ACTION_CREATE_DIR = 22,
    JIP_ACTION_EXAMINE_OBJECT = 23,
    JIP_ACTION_EXAMINE_NEXT = 24,
    JIP_ACTION_DISK_INFO = 25,
    JIP_ACTION_INFO = 26,
    JIP_ACTION_SET_COMMENT = 28,
    JIP_ACTION_PARENT = 29,
    JIP_ACTION_SET_DATE = 34,
    JIP_ACTION_SAME_LOCK = 40,
    JIP_ACTION_READ = 82,
    JIP_ACTION_WRITE = 87,
    JIP_ACTION_FINDUPDATE = 1004,
    JIP_ACTION_FINDINPUT = 1005,
    JIP_ACTION_FINDOUTPUT = 1006,
    JIP_ACTION_END = 1007,
    JIP_ACTION_SEEK = 1008,
    JIP_ACTION_SET_FILE_SIZE = 1022
};

/* The second result of a refused packet. */
enum jip_error {
    JIP_ERROR_NO_FREE_STORE = 103,
    JIP_ERROR_OBJECT_IN_USE = 202,
    JIP_ERROR_OBJECT_EXISTS = 203,
    JIP_ERROR_DIR_NOT_FOUND = 204,
    JIP_ERROR_OBJECT_NOT_FOUND = 205,
    JIP_ERROR_ACTION_NOT_KNOWN = 209,
    JIP_ERROR_INVALID_COMPONENT_NAME = 210,
    JIP_ERROR_INVALID_LOCK = 211,
    JIP_ERROR_OBJECT_WRONG_TYPE = 212,
    JIP_ERROR_DISK_WRITE_PROTECTED = 214,
    JIP_ERROR_DIRECTORY_NOT_EMPTY = 216,
    JIP_ERROR_DEVICE_NOT_MOUNTED = 218,
    JIP_ERROR_SEEK_ERROR = 219,
    JIP_ERROR_COMMENT_TOO_BIG = 220,
    JIP_ERROR_DISK_FULL = 221,
    JIP_ERROR_DELETE_PROTECTED = 222,
    JIP_ERROR_WRITE_PROTECTED = 223,
    JIP_ERROR_READ_PROTECTED = 224,
    JIP_ERROR_NOT_A_DOS_DISK = 225,
    JIP_ERROR_NO_MORE_ENTRIES = 232
};

/* DOSTRUE and DOSFALSE; the modes of a lock, and of SEEK and SET_FILE_SIZE; the types of an entry; the states of a disk. */
enum jip_result { JIP_DOSFALSE = 0, JIP_DOSTRUE = -1 };
enum jip_lock_mode { JIP_SHARED_LOCK = -2, JIP_EXCLUSIVE_LOCK = -1 };
enum jip_seek_mode { JIP_OFFSET_BEGINNING = -1, JIP_OFFSET_CURRENT = 0, JIP_OFFSET_END = 1 };
enum jip_entry_type { JIP_ROOT = 1, JIP_DIRECTORY = 2, JIP_FILE = -3 };
enum jip_disk_state { JIP_WRITE_PROTECTED = 80, JIP_VALIDATING = 81, JIP_VALIDATED = 82 };

/* The low eight protection bits. A file is marked as archived until its bytes change. */
enum jip_protection {
    JIP_DENIES_DELETE = 1,
    JIP_DENIES_EXECUTE = 2,
    JIP_DENIES_WRITE = 4,
    JIP_DENIES_READ = 8,
    JIP_IS_ARCHIVED = 16,
    JIP_IS_PURE = 32,
    JIP_IS_SCRIPT = 64,
    JIP_IS_HELD = 128
};

/* The most bytes of a name, of a comment and of a path; the bytes in a block; the fewest and the most blocks of an
   image. */
enum jip_limit {
    JIP_NAME_BYTES = 30,
    JIP_COMMENT_BYTES = 79,
    JIP_PATH_BYTES = 255,
    JIP_BLOCK_BYTES = 512,
    JIP_FEWEST_BLOCKS = 16,
    JIP_MOST_BLOCKS = 101602
};

/* A handler over its own image; or a closed handle, JIP_CLOSED or all zeros. */
typedef struct jip_handle {
    void *behind;
} jip_handle;

#define JIP_CLOSED {NULL}

/* Days since 1 January 1978, minutes since midnight, ticks of 1/50 second in the minute. */
typedef struct jip_date {
    uint32_t days;
    uint32_t minutes;
    uint32_t ticks;
} jip_date;

/* The reason why bytes are not an image, a jip_fault_kind, and the number of the block that shows it. */
typedef struct jip_fault {
    int32_t kind;
    uint32_t block;
} jip_fault;

/* A packet. Only the fields that the action uses are read; the inline functions below fill them. Texts are an Amiga's
   bytes, letters of ISO 8859-1, with a length of at most JIP_PATH_BYTES. */
typedef struct jip_packet {
    int32_t action;
    uint32_t lock;    /* 0 is the root */
    uint32_t to_lock; /* the lock for the new place of RENAME_OBJECT, or the second lock of SAME_LOCK */
    uint32_t handle;  /* the number of a file handle, from an answer */
    uint32_t key;     /* the entry before the one that EXAMINE_NEXT returns, or the directory itself */
    uint32_t bits;    /* of SET_PROTECT */
    int32_t offset;   /* in bytes */
    int32_t mode;     /* a jip_lock_mode or a jip_seek_mode */
    jip_date date;    /* of SET_DATE */
    jip_date moment;  /* the time stamp of the packet: what it changes gets this date */
    const uint8_t *path; /* a path, or the new name of RENAME_DISK */
    size_t path_length;
    const uint8_t *text; /* the path for the new place of RENAME_OBJECT, or a comment */
    size_t text_length;
    uint8_t *buffer; /* the bytes that READ fills or WRITE writes */
    size_t buffer_length;
} jip_packet;

/* The result of EXAMINE_OBJECT and EXAMINE_NEXT. Each text has zeros after it. */
typedef struct jip_entry {
    uint32_t key;        /* the block number of its header, for EXAMINE_NEXT */
    int32_t entry_type;  /* a jip_entry_type */
    uint32_t protection; /* as in SET_PROTECT; 0 for the root */
    uint32_t size;       /* of a file, in bytes; 0 for a directory */
    uint32_t blocks;     /* its header, and the data and extension blocks of a file */
    jip_date date;       /* of its last change */
    uint32_t name_length;
    uint32_t comment_length;
    uint8_t name[32];
    uint8_t comment[80];
} jip_entry;

/* The result of DISK_INFO and INFO. */
typedef struct jip_disk {
    uint32_t state;           /* JIP_VALIDATED, or JIP_WRITE_PROTECTED with a read-only handle */
    uint32_t blocks;          /* after the two boot blocks */
    uint32_t used;            /* of these blocks */
    uint32_t bytes_per_block; /* the bytes of a file that fit into a data block: 488 or 512 */
    uint32_t disk_type;       /* `DOS` and the format, as a big-endian number of four bytes */
} jip_disk;

/* The answer to a packet. Fields that the packet does not set are 0. */
typedef struct jip_answer {
    int32_t res1;    /* JIP_DOSTRUE or JIP_DOSFALSE, or a number, as described at the functions below */
    int32_t res2;    /* 0, or a jip_error */
    uint32_t handle; /* the new file handle of FINDINPUT, FINDOUTPUT and FINDUPDATE */
    jip_entry entry;
    jip_disk disk;
} jip_answer;

/* Opens a closed handle on a copy of an image's bytes, after a check. The caller keeps the bytes, and they are not used
   afterwards. The handle owns memory until jip_close. JIP_NOT_AN_IMAGE: the fault has the reason. JIP_NO_MEMORY,
   JIP_WRONG_ARGUMENT: the fault is unchanged. In all three cases the handle is unchanged. A bitmap that is marked as
   not valid is rebuilt, and the image then differs from the bytes. */
int32_t jip_open(const void *bytes, size_t length, jip_handle *handle, jip_fault *fault);

/* Opens a closed handle on a blank volume in a jip_format. The number of blocks is JIP_FEWEST_BLOCKS to
   JIP_MOST_BLOCKS, such as a jip_size. Its three dates are `moment`. The name has 1 to 30 bytes, without `/` and `:`.
   The handle owns memory until jip_close. JIP_NO_MEMORY, JIP_WRONG_ARGUMENT: the handle is unchanged. */
int32_t jip_blank(int32_t format, uint32_t blocks, const void *name, size_t length, jip_date moment, jip_handle *handle);

/* Closes a handle and frees everything that it owns. Locks and file handles from its packets end too. A closed handle
   stays closed. This is the only call that frees memory. */
int32_t jip_close(jip_handle *handle);

/* Serves one packet. JIP_DONE: the answer is written, and its two results say whether the packet was refused; an
   unknown action is refused with 209. READ fills the first res1 bytes of the buffer and leaves the rest. No other
   action writes to it, so WRITE may have constant bytes. The caller keeps texts and buffer. JIP_NO_MEMORY (for a copy
   of the texts or the buffer), JIP_WRONG_ARGUMENT: nothing is served or written. */
int32_t jip_serve(jip_handle *handle, const jip_packet *packet, jip_answer *answer);

/* The length of the image in bytes; 0 for a closed handle. */
size_t jip_image_length(jip_handle *handle);

/* Copies the whole image to a buffer of the same length, in the order of its file. Another length is
   JIP_WRONG_ARGUMENT. */
int32_t jip_copy_image(jip_handle *handle, void *to, size_t length);

/* A count that grows with every packet that changed the image; 0 for a closed handle. While it is the same, so is the
   image. A packet that wrote what was there already may count too. */
uint64_t jip_changes(jip_handle *handle);

/* Lists the blocks that changed since the last call, and updates the caller's own copy of the image. Only these blocks
   have to be written. `copy` has the bytes from jip_open, from jip_copy_image or from the last call of this function,
   and the length of the image. `numbers` gets the changed blocks, lowest first, and `*count` their number. One number
   for each 512 bytes of the image is always enough room; too little room is JIP_WRONG_ARGUMENT. Block b starts at byte
   512 * b of the copy. While jip_changes is the same, no block has changed, and no call is needed. A refusal changes
   nothing. */
int32_t jip_copy_changed(jip_handle *handle, void *copy, size_t length, uint32_t *numbers, size_t room, size_t *count);

/* ---- Versions and texts ---- */

/* Returns the library's version, such as "1.3.0", with " (not proved)" after it if the library was compiled without proof. Each text
   of the library is in English, ends with a zero byte, and stays valid until the program ends. */
const char *jip_version(void);

/* Returns the message of AmigaDOS for a jip_error, or that of jip_status_text for a jip_status. Any other number is
   "unknown error". */
const char *jip_error_text(int32_t error);

/* Returns the message for a jip_fault_kind. Any other number is "unknown fault". */
const char *jip_fault_text(int32_t kind);

/* Returns the message for a jip_status. Any other number is "unknown status". */
const char *jip_status_text(int32_t status);

/* ---- Whole files and whole paths: C that sends packets ----
 *
 * Each call returns JIP_DONE, another jip_status, or the jip_error of a refused packet, which is 103 or more. It frees all
 * its locks and file handles, except the lock that jip_reach returns. A path starts at the root and has the syntax of
 * packets, but any length. It ends after path_length bytes, or at its first zero byte if path_length is JIP_TO_ZERO. A refusal
 * of a change leaves the image unchanged, unless the text says otherwise. */
#define JIP_TO_ZERO SIZE_MAX

/* Reads a file. The buffer gets its first `room` bytes, or the whole file if it is shorter. `*length` is set to the size
   of the file in bytes, so room 0 asks for the size alone. A refusal leaves `*length` unchanged. Errors include 202 (in use),
   205 (not found), 212 (a directory) and 224 (protected). */
int32_t jip_read_file(jip_handle *handle, const char *path, size_t path_length, void *to, size_t room, size_t *length);

/* Replaces the content of a file by these bytes, and creates the file if it does not exist. A refusal leaves the image
   unchanged. The one exception is running out of memory half way: then a new file is deleted again, and an old one may
   keep its old size. Errors include 202 (in use), 212 (a directory), 221 (disk full) and 223 (protected). */
int32_t jip_write_file(jip_handle *handle, jip_date moment, const char *path, size_t path_length, const void *bytes, size_t length);

/* Makes a directory. Errors include 203 (exists already), 204 (no parent) and 221 (disk full). */
int32_t jip_make_directory(jip_handle *handle, jip_date moment, const char *path, size_t path_length);

/* Deletes a file or an empty directory. Errors include 202 (in use), 205 (not found), 216 (not empty) and 222 (protected). */
int32_t jip_delete(jip_handle *handle, jip_date moment, const char *path, size_t path_length);

/* Moves a file or a directory to another path, under the last name of that. An existing object there is not replaced: that is
   refused with 203. */
int32_t jip_rename(jip_handle *handle, jip_date moment, const char *path, size_t path_length, const char *to, size_t to_length);

/* Describes the object at a path. A refusal leaves the entry unchanged. Errors include 205 (not found) and 202 (an exclusive
   lock). */
int32_t jip_stat(jip_handle *handle, const char *path, size_t path_length, jip_entry *entry);

/* Lists a directory: its entries are written to the start of an array, as many as it has room for, and `*count` is set to how
   many there are, so room 0 asks for the count alone. A refusal leaves `*count` unchanged. Errors include 205 (not found), 212
   (a file) and 202 (an exclusive lock). */
int32_t jip_list(jip_handle *handle, const char *path, size_t path_length, jip_entry *entries, size_t room, size_t *count);

/* jip_walk calls a visitor for each entry. The path starts at the root, and a zero byte follows it. Path and entry are
   valid until the visitor returns. It returns 0 to continue the walk, and any other number to end it. */
typedef int32_t (*jip_visitor)(void *context, const char *path, size_t path_length, const jip_entry *entry);

/* Calls the visitor once for each entry of the volume except the root, and for a directory before its contents. If the
   visitor ends the walk, its number is returned. A directory with an exclusive lock ends the walk with
   JIP_ERROR_OBJECT_IN_USE (202). */
int32_t jip_walk(jip_handle *handle, jip_visitor visitor, void *context);

/* Splits a long path for use in a packet: `*lock` is a shared lock on a directory, and `*rest` the rest of the path from
   there, in at most JIP_PATH_BYTES. It points into the path. The caller frees the lock. A path of at most JIP_PATH_BYTES
   is returned whole, with lock 0, the root. A refusal leaves all three results unchanged, and no lock. Errors include 205
   (not found) and 210 (no directory ends within 255 bytes, or the rest has a `:`). */
int32_t jip_reach(jip_handle *handle, const char *path, size_t path_length, uint32_t *lock, const char **rest, size_t *rest_length);

/* ---- Files of the host: C ----
 *
 * The path is one of the host. JIP_HOST_FAILED: errno has the reason. */

/* Opens a closed handle on a copy of the image in a file, as jip_open does. A refusal leaves the handle unchanged, and only
   JIP_NOT_AN_IMAGE sets the fault. */
int32_t jip_load(const char *path, jip_handle *handle, jip_fault *fault);

/* Replaces or creates a file with the image, whole or not at all. It writes a new file in the same directory, syncs it to
   disk, and renames it. The new file has the old permissions, and the old owner if the host allows that. The target of a
   symbolic link is replaced. A device or a pipe is written directly, and a failure may leave part of the bytes there.
   JIP_HOST_FAILED with EWOULDBLOCK: another program holds the file by flock, as adf_mount does. A program that holds it shared
   only looks for that lock, and is waited for a second. */
int32_t jip_store(jip_handle *handle, const char *path);

/* ---- Packets ---- */

/* A packet of an action without arguments, with a time stamp. */
static inline void jip_begin(jip_packet *packet, int32_t action, jip_date moment) {
    memset(packet, 0, sizeof *packet);
    packet->action = action;
    packet->moment = moment;
}

/* A null pointer is an empty text. */
static inline void jip_put_path(jip_packet *packet, const char *path) {
    packet->path = (const uint8_t *)path;
    packet->path_length = path == NULL ? 0 : strlen(path);
}

static inline void jip_put_text(jip_packet *packet, const char *text) {
    packet->text = (const uint8_t *)text;
    packet->text_length = text == NULL ? 0 : strlen(text);
}

static inline void jip_on_lock(jip_packet *packet, int32_t action, jip_date moment, uint32_t lock, const char *path) {
    jip_begin(packet, action, moment);
    packet->lock = lock;
    jip_put_path(packet, path);
}

static inline void jip_on_handle(jip_packet *packet, int32_t action, jip_date moment, uint32_t handle) {
    jip_begin(packet, action, moment);
    packet->handle = handle;
}

/* One function for each packet, with its results. A path or a comment is a C string. The packet only points to it, so it
 * has to stay valid until the packet is served. For bytes that include zeros, fill the fields yourself.
 *
 * A path starts at the object of the lock before it. Lock 0 is the root, and so is a path with a `:`. A `/` without a
 * name before it is the parent, and the empty path is the object of the lock itself.
 *
 * Unless the text says otherwise, res1 is JIP_DOSTRUE. For a refused packet it is JIP_DOSFALSE, with an error in res2. A
 * new lock or file handle is held until FREE_LOCK, END or jip_close. */

/* Refuses each later packet with 218. It is itself refused with 202 while any lock or file handle is held. */
static inline void jip_die(jip_packet *packet, jip_date moment) { jip_begin(packet, JIP_ACTION_DIE, moment); }

/* A lock on an object: res1 is its number, at least 1. JIP_EXCLUSIVE_LOCK is refused with 202 if the object has a lock
   or handle. Any other mode is a shared lock, which only an exclusive lock or handle refuses. */
static inline void jip_locate_object(jip_packet *packet, jip_date moment, uint32_t lock, const char *path, int32_t mode) {
    jip_on_lock(packet, JIP_ACTION_LOCATE_OBJECT, moment, lock, path);
    packet->mode = mode;
}

/* Renames the volume. */
static inline void jip_rename_disk(jip_packet *packet, jip_date moment, const char *name) {
    jip_on_lock(packet, JIP_ACTION_RENAME_DISK, moment, 0, name);
}

/* Frees the lock. Lock 0 always succeeds. */
static inline void jip_free_lock(jip_packet *packet, jip_date moment, uint32_t lock) {
    jip_on_lock(packet, JIP_ACTION_FREE_LOCK, moment, lock, NULL);
}

/* Deletes a file or an empty directory without locks and handles. */
static inline void jip_delete_object(jip_packet *packet, jip_date moment, uint32_t lock, const char *path) {
    jip_on_lock(packet, JIP_ACTION_DELETE_OBJECT, moment, lock, path);
}

/* Moves an object to another place, under the last name of the second path. An existing object there is not replaced.
   */
static inline void jip_rename_object(jip_packet *packet, jip_date moment, uint32_t lock, const char *path, uint32_t to_lock,
                                     const char *to) {
    jip_on_lock(packet, JIP_ACTION_RENAME_OBJECT, moment, lock, path);
    packet->to_lock = to_lock;
    jip_put_text(packet, to);
}

/* One more shared lock on the object of a shared lock: res1 is its number. A copy of lock 0 is 0. */
static inline void jip_copy_dir(jip_packet *packet, jip_date moment, uint32_t lock) {
    jip_on_lock(packet, JIP_ACTION_COPY_DIR, moment, lock, NULL);
}

/* Sets the protection bits. Set bits 0 to 3 deny deleting, executing, writing and reading; bits 4 to 7 are a, p, s and
   h. */
static inline void jip_set_protect(jip_packet *packet, jip_date moment, uint32_t lock, const char *path, uint32_t bits) {
    jip_on_lock(packet, JIP_ACTION_SET_PROTECT, moment, lock, path);
    packet->bits = bits;
}

/* Makes a directory: res1 is the number of an exclusive lock on it, which the caller has to free. */
static inline void jip_create_dir(jip_packet *packet, jip_date moment, uint32_t lock, const char *path) {
    jip_on_lock(packet, JIP_ACTION_CREATE_DIR, moment, lock, path);
}

/* Describes the object of a lock: the answer has an entry. */
static inline void jip_examine_object(jip_packet *packet, jip_date moment, uint32_t lock) {
    jip_on_lock(packet, JIP_ACTION_EXAMINE_OBJECT, moment, lock, NULL);
}

/* Describes the entry after the one with this key, as EXAMINE_OBJECT does. The directory's own key asks for its first
   entry. After the last one it is refused with 232. */
static inline void jip_examine_next(jip_packet *packet, jip_date moment, uint32_t lock, uint32_t key) {
    jip_on_lock(packet, JIP_ACTION_EXAMINE_NEXT, moment, lock, NULL);
    packet->key = key;
}

/* Describes the volume: the answer has a disk. */
static inline void jip_disk_info(jip_packet *packet, jip_date moment) { jip_begin(packet, JIP_ACTION_DISK_INFO, moment); }

/* The same, with any lock on the volume. */
static inline void jip_info(jip_packet *packet, jip_date moment, uint32_t lock) {
    jip_on_lock(packet, JIP_ACTION_INFO, moment, lock, NULL);
}

/* Sets a comment of at most 79 bytes. */
static inline void jip_set_comment(jip_packet *packet, jip_date moment, uint32_t lock, const char *path, const char *comment) {
    jip_on_lock(packet, JIP_ACTION_SET_COMMENT, moment, lock, path);
    jip_put_text(packet, comment);
}

/* A shared lock on the directory that contains the object of a lock: res1 is its number, and 0 for the root's parent. */
static inline void jip_parent(jip_packet *packet, jip_date moment, uint32_t lock) {
    jip_on_lock(packet, JIP_ACTION_PARENT, moment, lock, NULL);
}

/* Sets the date of an object. */
static inline void jip_set_date(jip_packet *packet, jip_date moment, uint32_t lock, const char *path, jip_date date) {
    jip_on_lock(packet, JIP_ACTION_SET_DATE, moment, lock, path);
    packet->date = date;
}

/* Whether two locks are on one object: res1 is JIP_DOSTRUE, or JIP_DOSFALSE without an error. */
static inline void jip_same_lock(jip_packet *packet, jip_date moment, uint32_t first, uint32_t second) {
    jip_on_lock(packet, JIP_ACTION_SAME_LOCK, moment, first, NULL);
    packet->to_lock = second;
}

/* Reads from the position of a file handle: res1 is the number of bytes read, fewer than requested at the end of the
   file, or -1 if it is refused. The position moves after them. */
static inline void jip_read(jip_packet *packet, jip_date moment, uint32_t handle, void *buffer, size_t length) {
    jip_on_handle(packet, JIP_ACTION_READ, moment, handle);
    packet->buffer = (uint8_t *)buffer;
    packet->buffer_length = length;
}

/* Writes at the position, and makes the file longer if necessary: res1 is `length`, or -1 if it is refused, and then
   nothing is written. The bytes are only read: the cast lets the packet's one field point to them. */
static inline void jip_write(jip_packet *packet, jip_date moment, uint32_t handle, const void *bytes, size_t length) {
    jip_on_handle(packet, JIP_ACTION_WRITE, moment, handle);
    packet->buffer = (uint8_t *)(uintptr_t)bytes;
    packet->buffer_length = length;
}

/* Opens a file, which is made if it does not exist. Others may open it too. The answer has the number of its handle. */
static inline void jip_findupdate(jip_packet *packet, jip_date moment, uint32_t lock, const char *path) {
    jip_on_lock(packet, JIP_ACTION_FINDUPDATE, moment, lock, path);
}

/* Opens an existing file. Others may open it too. The answer has the number of its handle. */
static inline void jip_findinput(jip_packet *packet, jip_date moment, uint32_t lock, const char *path) {
    jip_on_lock(packet, JIP_ACTION_FINDINPUT, moment, lock, path);
}

/* Opens a file that no one else may open. It is made, or emptied if it exists. The answer has the number of its handle.
   */
static inline void jip_findoutput(jip_packet *packet, jip_date moment, uint32_t lock, const char *path) {
    jip_on_lock(packet, JIP_ACTION_FINDOUTPUT, moment, lock, path);
}

/* Closes the file handle. */
static inline void jip_end(jip_packet *packet, jip_date moment, uint32_t handle) {
    jip_on_handle(packet, JIP_ACTION_END, moment, handle);
}

/* Moves the position to an offset in bytes, counted from the place that the mode selects: res1 is the old position, or -1
   if it is refused. */
static inline void jip_seek(jip_packet *packet, jip_date moment, uint32_t handle, int32_t offset, int32_t mode) {
    jip_on_handle(packet, JIP_ACTION_SEEK, moment, handle);
    packet->offset = offset;
    packet->mode = mode;
}

/* Sets the size of a file in bytes, counted from the place that the mode selects. New bytes are 0. Positions after the new
   end move to it. */
static inline void jip_set_file_size(jip_packet *packet, jip_date moment, uint32_t handle, int32_t offset, int32_t mode) {
    jip_seek(packet, moment, handle, offset, mode);
    packet->action = JIP_ACTION_SET_FILE_SIZE;
}

/* ---- Faults, and the map of blocks ----
 *
 * These calls fill an array: elements are written to its start, as many as it has room for, and `*count` is set to how many
 * there are. Room 0 asks for the count alone. A refusal leaves everything unchanged. */

/* Lists the faults of an image, lowest block first and then by kind: at most JIP_MOST_FAULTS of them. JIP_DONE also for bytes
   that are no image; an image that jip_open accepts has no faults. Of an image that is no DOS disk, or one of an unsupported
   kind, only that is listed. `*more` is set to 1 if the image shows others, so that these are the first ones, and else to 0. */
int32_t jip_check(const void *bytes, size_t length, jip_fault *faults, size_t room, size_t *count, int32_t *more);

#define JIP_MOST_FAULTS 1000

/* A fault with the number that shows it. A long is a big-endian number of four bytes, and a block has 128 of them. */
typedef struct jip_finding {
    int32_t kind; /* a jip_fault_kind */
    uint32_t block;
    uint32_t known;  /* 0: no long of the block shows the fault alone. 1: `at` and `found` are set. 2: so is `wanted` */
    uint32_t at;     /* which long of the block, from 0 to 127 */
    uint32_t found;  /* the long as it is */
    uint32_t wanted; /* the long as it has to be, if only one number is right */
} jip_finding;

/* Lists the faults of an image as jip_check does, each with the number that shows it. */
int32_t jip_check_values(const void *bytes, size_t length, jip_finding *findings, size_t room, size_t *count, int32_t *more);

/* What a block is used for. A lost block is used by nothing, but the bitmap says that it is in use. */
enum jip_role {
    JIP_ROLE_FREE = 0,
    JIP_ROLE_BOOT = 1,
    JIP_ROLE_ROOT = 2,
    JIP_ROLE_BITMAP = 3,
    JIP_ROLE_DIRECTORY = 4,
    JIP_ROLE_FILE = 5, /* the header of a file */
    JIP_ROLE_EXTENSION = 6,
    JIP_ROLE_DATA = 7,
    JIP_ROLE_LOST = 8
};

/* Who owns a block. */
typedef struct jip_owner {
    uint32_t role;   /* a jip_role */
    uint32_t header; /* the block number of the header of its file or directory, also for that header itself; else 0 */
    uint32_t index;  /* which data block, extension block or bitmap block it is, from 0; else 0 */
} jip_owner;

/* Lists the owner of each block of the image, block 0 first. `*count` is the number of blocks, one for each 512 bytes of the
   image. The root is a directory. */
int32_t jip_map(jip_handle *handle, jip_owner *owners, size_t room, size_t *count);

/* ---- Salvage ----
 *
 * What can be told of an image that jip_open refuses: its files and directories whose headers are sound, wherever they are;
 * those with a damaged header that their directory names, as far as they can be told; and the entries that are lost: they are
 * named too, and have no such header. Deleted files and directories are left out, if the bitmap can be trusted. For an image that
 * jip_open accepts, these are all its files and directories, whole; and behind them, if the bitmap can be trusted, those with a
 * sound header among the lost blocks, which are marked used although nothing names them. A refused image is read as the kind of
 * disk that its blocks say. The list has each header once, and a directory before its entries. Positions in it count from 0. */

/* A list of entries; or a closed one, JIP_CLOSED or all zeros. Items 4 and 5 hold for it as for a handle. */
typedef struct jip_salvage {
    void *behind;
} jip_salvage;

/* How much of an entry is left. Later versions may have more states. */
enum jip_state {
    JIP_STATE_DIRECTORY = 1,
    JIP_STATE_WHOLE = 2, /* a file, and no other sound file uses one of its blocks; if the root leads to it, no other to which it leads */
    JIP_STATE_BROKEN = 3, /* a file of which some data blocks are missing, or are used by another file too */
    JIP_STATE_LOST = 4, /* an entry with no header to tell: only its name, its header's number and its directory mean something */
    JIP_STATE_DOUBTFUL = 5, /* a file that lacks no data block but is not whole: a block is damaged, used by another file too, or holds a
                               known filler in a refused image, or the header is gone, and OFS data blocks name it */
    JIP_STATE_DOUBTFUL_DIRECTORY = 6 /* a directory whose header has a wrong checksum or too long a comment */
};

/* The directory of an entry in the root, or directly in `lost+found`. */
#define JIP_NO_DIRECTORY SIZE_MAX

/* An entry. Its bytes are read by jip_salvage_read. The comment has zeros after it. */
typedef struct jip_salvaged {
    size_t directory;  /* the position of its directory, which is before it; or JIP_NO_DIRECTORY */
    size_t size;       /* of a file, in bytes: what jip_salvage_read gives; 0 for a directory */
    uint32_t state;    /* a jip_state */
    uint32_t header;   /* the block number of its header, which may be gone */
    uint32_t is_found; /* 1 if no hash chain from the root leads to it, else 0: its path then starts with `lost+found` */
    uint32_t missing;  /* how many data blocks of a broken file are missing; else 0 */
    uint32_t is_cut;   /* 1 if a broken file ends early, because all of them together would be too long; else 0 */
    uint32_t protection;
    jip_date date;
    uint32_t comment_length;
    uint8_t comment[80];
} jip_salvaged;

/* Opens a closed list on a copy of an image's bytes. The list owns memory until jip_salvage_close. JIP_NOT_AN_IMAGE: the bytes
   are not whole blocks, or too few or too many of them. A refusal leaves the list unchanged. */
int32_t jip_salvage_open(const void *bytes, size_t length, jip_salvage *salvage);

/* Closes a list and frees everything that it owns. A closed list stays closed. */
int32_t jip_salvage_close(jip_salvage *salvage);

/* The number of entries; 0 for a closed list. */
size_t jip_salvage_count(jip_salvage *salvage);

/* Tells the entry at a position. JIP_WRONG_ARGUMENT: there is none. */
int32_t jip_salvage_entry(jip_salvage *salvage, size_t place, jip_salvaged *entry);

/* The name of an entry in its directory. If another entry of the directory has the name of its header already, `~` and the
   number of its header follow, so it may have more than JIP_NAME_BYTES bytes. Name, path and bytes are written to the start
   of a buffer with `room` bytes, and `*length` is set to the number of bytes that they need. If that is more than `room`, the
   buffer is unchanged, so room 0 asks for the length alone. A refusal leaves both unchanged. */
int32_t jip_salvage_name(jip_salvage *salvage, size_t place, void *name, size_t room, size_t *length);

/* The path of an entry from the root, with a `/` between names. That of an entry that no directory of the tree has starts with
   `lost+found`, and then has the directories above it, as far as their headers are sound. */
int32_t jip_salvage_path(jip_salvage *salvage, size_t place, void *path, size_t room, size_t *length);

/* The bytes of a file: all of a whole file; of one that is not whole those that are left, in their places, with zeros between. */
int32_t jip_salvage_read(jip_salvage *salvage, size_t place, void *to, size_t room, size_t *length);

/* What a block is to jip_salvage_blocks, besides what a jip_role says: the header of a deleted entry. */
#define JIP_ROLE_DELETED 9

/* A block with what it is. */
typedef struct jip_told {
    uint32_t block;  /* a block that an image names may be past its end */
    uint32_t role;   /* JIP_ROLE_DELETED or another jip_role */
    uint32_t header; /* the block number of the header of the root, file or deleted entry that it belongs to; else 0 */
    uint32_t index;  /* which data block or bitmap block it is, from 0; else 0 */
    uint32_t holder; /* the block with the pointer to a data block of a whole file: the header or an extension block; else 0 */
} jip_told;

/* Lists what the blocks of the image are, whatever faults it has: the boot blocks; the root; the bitmap blocks that it names; the data
   blocks of whole files; the blocks given to files that are not whole, and the extension blocks of these; the lost blocks, which are
   used and part of nothing; and the headers of deleted entries. Headers of entries are not in the list. A block that is several of these
   is there several times. The blocks are written to the start of an array with `room` elements, as many as fit, and `*count` is how many
   there are. */
int32_t jip_salvage_blocks(jip_salvage *salvage, jip_told *told, size_t room, size_t *count);

/* Whether the bitmap of the image can be trusted: 1 or 0, and 0 for a closed list. If so, all blocks that it does not mark free are
   used, and deleted entries are known. If not, all blocks are used that are not filled with zeros or that the root leads to. */
int32_t jip_salvage_trusts_bitmap(jip_salvage *salvage);

/* ---- Labels and boot blocks of any image ----
 *
 * These calls read the bytes of an image, whether jip_open accepts it or not. JIP_NOT_AN_IMAGE: the bytes are not whole blocks, or too
 * few or too many of them. A refusal leaves everything unchanged. */

/* The label: the name in the root block, whatever else is wrong there. It has at most JIP_NAME_BYTES bytes, and is written as
   jip_salvage_name writes a name. JIP_WRONG_ARGUMENT: there is no valid name. */
int32_t jip_label(const void *bytes, size_t length, void *label, size_t room, size_t *label_length);

/* What a boot block is. */
enum jip_boot_code {
    JIP_BOOT_NONE = 0,  /* only zeros follow the DOS type */
    JIP_BOOT_WRONG = 1, /* a wrong checksum: no machine boots from it */
    JIP_BOOT_STANDARD = 2,
    JIP_BOOT_CUSTOM = 3 /* another one with the right checksum */
};

/* The kind of a jip_boot without the letters `DOS`. */
#define JIP_NO_DOS 256

/* The boot block of an image. */
typedef struct jip_boot {
    uint32_t kind;      /* the byte after the letters `DOS`: a jip_format or another number; or JIP_NO_DOS */
    uint32_t code;      /* a jip_boot_code */
    uint32_t sum;       /* the checksum in it */
    uint32_t right_sum; /* the checksum that belongs there */
} jip_boot;

/* Tells what the boot block of an image is. */
int32_t jip_boot_block(const void *bytes, size_t length, jip_boot *boot);

/* Installs the standard boot block in the bytes of an image. The DOS type stays, and so does everything after the two boot blocks. */
int32_t jip_install_boot(void *bytes, size_t length);

/* ---- Read-only handles ----
 *
 * The image of a read-only handle never changes. A packet that would set the disk's date is refused with 214 (disk is
 * write-protected). This comes after every other refusal except 221 (disk full) and 103 (out of memory). DISK_INFO and INFO
 * have the state JIP_WRITE_PROTECTED. All other packets are served as by any handle. */

/* Opens a closed handle as jip_open does, but read-only. */
int32_t jip_open_read_only(const void *bytes, size_t length, jip_handle *handle, jip_fault *fault);

/* Opens a closed handle as jip_load does, but read-only. */
int32_t jip_load_read_only(const char *path, jip_handle *handle, jip_fault *fault);

/* ---- Names, letters, notes and dates ----
 *
 * An Amiga's bytes are letters of ISO 8859-1, and texts of the host are UTF-8. Each text has its length next to it, and no
 * zero byte after it. It is written to the start of a buffer with `room` bytes, and `*length` is set to the number of bytes
 * that it needs. If that is more than `room`, the buffer is unchanged, so room 0 asks for the length alone. Any other status
 * than JIP_DONE leaves everything unchanged. */

/* Whether the bytes are a valid name of an entry: 1 to 30 bytes, without `/` and `:`. Returns 1 or 0. */
int32_t jip_is_name(const void *name, size_t length);

/* The name of the host file for an entry's name. The bytes 00 to 1F and 7F to 9F, `%`, `\`, and the first dot of `.` and
   `..` become `%` and two hexadecimal digits. It needs at most 3 * JIP_NAME_BYTES bytes. JIP_WRONG_ARGUMENT: the bytes are
   not a valid name. */
int32_t jip_host_of_name(const void *name, size_t name_length, char *host, size_t room, size_t *length);

/* The bytes that the name of a host file stands for: its letters, with each `%` and two hexadecimal digits as that byte.
   jip_is_name says whether they are a valid name. JIP_WRONG_ARGUMENT: it is not UTF-8, or has a letter past U+00FF. */
int32_t jip_name_of_host(const char *host, size_t host_length, void *name, size_t room, size_t *length);

/* The letters of bytes, such as a path or a comment, in UTF-8. They need at most twice as many bytes. */
int32_t jip_letters_of_bytes(const void *bytes, size_t bytes_length, char *letters, size_t room, size_t *length);

/* The bytes of letters. JIP_WRONG_ARGUMENT: the text is not UTF-8, or has a letter past U+00FF. */
int32_t jip_bytes_of_letters(const char *letters, size_t letters_length, void *bytes, size_t room, size_t *length);

/* The low eight protection bits as the 8 letters `hsparwed`. h, s, p and a are shown for set bits 7 to 4, r, w, e and d for
   clear bits 3 to 0, and a dash otherwise. */
int32_t jip_letters_of_protection(uint32_t bits, char *letters, size_t room, size_t *length);

/* The protection bits of such letters: all eight places, or some of the letters in any order, each once. Bits 8 to 31 are
   0. JIP_WRONG_ARGUMENT: the text is neither. */
int32_t jip_protection_of_letters(const char *letters, size_t length, uint32_t *bits);

/* The metadata in a `.uaem` file, which emulators keep next to a host file. The comment has zeros after it. */
typedef struct jip_note {
    uint32_t bits; /* protection bits; only the low eight are in the file */
    jip_date date;
    uint32_t comment_length;
    uint8_t comment[80];
} jip_note;

/* The line of a `.uaem` file: `hsparwed YYYY-MM-DD hh:mm:ss.cc COMMENT` and a line feed. JIP_WRONG_ARGUMENT: the comment has
   more than JIP_COMMENT_BYTES bytes. */
int32_t jip_uaem_line(uint32_t bits, jip_date date, const void *comment, size_t comment_length, char *line, size_t room, size_t *length);

/* Reads a `.uaem` file. JIP_WRONG_ARGUMENT: it is not one line of this form. */
int32_t jip_read_uaem(const void *file, size_t file_length, jip_note *note);

/* The text of a date: `YYYY-MM-DD hh:mm:ss.cc` with hundredths of a second; or `raw DAYS MINUTES TICKS` after the year 9999,
   or if minutes or ticks are no time of a day. It needs at most 36 bytes. */
int32_t jip_text_of_date(jip_date date, char *text, size_t room, size_t *length);

/* The date that has this text. JIP_WRONG_ARGUMENT: no date has it, such as a day that does not exist, or odd hundredths. */
int32_t jip_date_of_text(const char *text, size_t length, jip_date *date);

/* The date at a time of the host, in seconds and nanoseconds since 1 January 1970: the last tick that is not after it. A time
   before 1978 is the first date, and a time after all dates is the last one. Zones do not matter: for a date in UTC, give a time
   in UTC. JIP_WRONG_ARGUMENT: the nanoseconds are a second or more. */
int32_t jip_date_of_time(int64_t seconds, uint32_t nanoseconds, jip_date *date);

/* The time of a date, which is the start of its tick. Minutes beyond a day and ticks beyond a minute are added. */
int32_t jip_time_of_date(jip_date date, int64_t *seconds, uint32_t *nanoseconds);

#ifdef __cplusplus
}
#endif

#endif
