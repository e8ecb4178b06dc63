/* adf_mount: an image as a directory of Linux. Each operation sends packets to the handler of the library for C.
 *
 * Each object that the kernel knows is a node with a shared lock on it. So it is found again after a move, and under
 * any spelling of its name. The kernel's number of a node is its address. */
#define FUSE_USE_VERSION 35
#include "image_file.h"
#include "names.h"

#include <errno.h>
#include <fuse_lowlevel.h>
#include <signal.h>
#include <stdio.h>
#include <stdlib.h>
#include <syslog.h>
#include <sys/stat.h>
#include <sys/statvfs.h>
#include <sys/xattr.h>
#include <time.h>
#include <unistd.h>

enum status { STATUS_DONE = 0, STATUS_WORDS = 1, STATUS_HOST = 2, STATUS_IMAGE = 3 };

/* How long a new mount waits for one that still saves, and how long `--wait` does, in seconds. */
enum { LONGEST_START = 5, LONGEST_WAIT = 60 };

static const char hidden_form[] = ".adf_mount %08x";
static const char comment_attribute[] = "user.amiga.comment";
static const char protection_attribute[] = "user.amiga.protection";
static const char attribute_list[] = "user.amiga.protection\0user.amiga.comment";

/* An object that the kernel knows, or that is open. */
struct node {
    uint32_t key;
    uint32_t lock; /* 0 is the root */
    uint64_t lookups;
    uint32_t opens;
    bool is_directory;
    bool is_gone;       /* deleted: it has no lock any more */
    struct name hidden; /* the name in the root under which a deleted file is kept until it is closed; else empty */
};

struct open_file {
    struct node *node;
    uint32_t handle;
    bool is_changed; /* since the image was saved */
};

/* The entries of a directory when its reading began. */
struct listing {
    struct node *node;
    jip_entry *entries;
    size_t count;
};

static struct volume {
    jip_handle handle;
    jip_handle *asked; /* the one that packets go to */
    struct image_file file;
    uint8_t *bytes; /* room for the whole image */
    size_t length;
    uint64_t saved; /* the count of changes that the file has */
    bool is_read_only;
    struct node root;
    struct node **nodes; /* by key */
    size_t node_room;
    uint32_t hidden_count;
} volume = {.handle = JIP_CLOSED, .asked = &volume.handle, .file = IMAGE_FILE_NONE};

/* ---- Errors ---- */

/* The errno nearest to a DOS error. `other` is for a directory in place of a file, or a name that is too long. */
static const struct error_row {
    int32_t error;
    int number;
    int other;
} error_rows[] = {
    {JIP_ERROR_NO_FREE_STORE, ENOMEM, ENOMEM},
    {JIP_ERROR_OBJECT_IN_USE, EBUSY, EBUSY},
    {JIP_ERROR_OBJECT_EXISTS, EEXIST, EEXIST},
    {JIP_ERROR_DIR_NOT_FOUND, ENOENT, ENOENT},
    {JIP_ERROR_OBJECT_NOT_FOUND, ENOENT, ENOENT},
    {JIP_ERROR_ACTION_NOT_KNOWN, ENOSYS, ENOSYS},
    {JIP_ERROR_INVALID_COMPONENT_NAME, EINVAL, ENAMETOOLONG},
    {JIP_ERROR_INVALID_LOCK, ESTALE, ESTALE},
    {JIP_ERROR_OBJECT_WRONG_TYPE, ENOTDIR, EISDIR},
    {JIP_ERROR_DISK_WRITE_PROTECTED, EROFS, EROFS},
    {JIP_ERROR_DIRECTORY_NOT_EMPTY, ENOTEMPTY, ENOTEMPTY},
    {JIP_ERROR_SEEK_ERROR, EINVAL, EINVAL},
    {JIP_ERROR_COMMENT_TOO_BIG, ERANGE, ERANGE},
    {JIP_ERROR_DISK_FULL, ENOSPC, ENOSPC},
    {JIP_ERROR_DELETE_PROTECTED, EPERM, EPERM},
    {JIP_ERROR_WRITE_PROTECTED, EACCES, EACCES},
    {JIP_ERROR_READ_PROTECTED, EACCES, EACCES},
};

static int number_of(int32_t error, bool other) {
    if (error == 0) return 0;
    for (size_t i = 0; i < sizeof error_rows / sizeof error_rows[0]; i++)
        if (error_rows[i].error == error) return other ? error_rows[i].other : error_rows[i].number;
    return EIO;
}

static int errno_of(int32_t error) { return number_of(error, false); }

/* ---- Packets: each function answers 0 or a DOS error ---- */

static jip_date date_of(struct timespec time) {
    jip_date date = {0, 0, 0};
    (void)jip_date_of_time(time.tv_sec, (uint32_t)time.tv_nsec, &date);
    return date;
}

static struct timespec time_of(jip_date date) {
    int64_t seconds = 0;
    uint32_t nanoseconds = 0;
    (void)jip_time_of_date(date, &seconds, &nanoseconds);
    return (struct timespec){.tv_sec = (time_t)seconds, .tv_nsec = (long)nanoseconds};
}

static jip_date now(void) {
    struct timespec time = {0, 0};
    (void)clock_gettime(CLOCK_REALTIME, &time);
    return date_of(time);
}

static int32_t ask(jip_packet *packet, jip_answer *answer) {
    const int32_t status = jip_serve(volume.asked, packet, answer);
    if (status == JIP_DONE) return answer->res2;
    *answer = (jip_answer){0};
    return status == JIP_NO_MEMORY ? JIP_ERROR_NO_FREE_STORE : JIP_ERROR_INVALID_COMPONENT_NAME;
}

/* Puts a name where the functions of the header expect a text that ends in a zero. */
static void put_name(jip_packet *packet, const struct name *name) {
    packet->path = name->bytes;
    packet->path_length = name->length;
}

static int32_t locate(uint32_t directory, const struct name *name, uint32_t *lock) {
    jip_packet packet;
    jip_answer answer;
    jip_locate_object(&packet, now(), directory, NULL, JIP_SHARED_LOCK);
    put_name(&packet, name);
    const int32_t error = ask(&packet, &answer);
    *lock = (uint32_t)answer.res1;
    return error;
}

static void free_lock(uint32_t lock) {
    jip_packet packet;
    jip_answer answer;
    jip_free_lock(&packet, now(), lock);
    (void)ask(&packet, &answer);
}

static int32_t examine(uint32_t lock, jip_entry *entry) {
    jip_packet packet;
    jip_answer answer;
    jip_examine_object(&packet, now(), lock);
    const int32_t error = ask(&packet, &answer);
    *entry = answer.entry;
    return error;
}

static int32_t protect(uint32_t lock, uint32_t bits) {
    jip_packet packet;
    jip_answer answer;
    jip_set_protect(&packet, now(), lock, NULL, bits);
    return ask(&packet, &answer);
}

static int32_t delete_object(uint32_t directory, const struct name *name) {
    jip_packet packet;
    jip_answer answer;
    jip_delete_object(&packet, now(), directory, NULL);
    put_name(&packet, name);
    return ask(&packet, &answer);
}

static int32_t rename_object(uint32_t directory, const struct name *name, uint32_t to_directory, const struct name *to) {
    jip_packet packet;
    jip_answer answer;
    jip_rename_object(&packet, now(), directory, NULL, to_directory, NULL);
    put_name(&packet, name);
    packet.text = to->bytes;
    packet.text_length = to->length;
    return ask(&packet, &answer);
}

static int32_t open_locked(uint32_t lock, uint32_t *handle) {
    jip_packet packet;
    jip_answer answer;
    jip_findinput(&packet, now(), lock, NULL);
    const int32_t error = ask(&packet, &answer);
    *handle = answer.handle;
    return error;
}

static void end(uint32_t handle) {
    jip_packet packet;
    jip_answer answer;
    jip_end(&packet, now(), handle);
    (void)ask(&packet, &answer);
}

static int32_t seek(uint32_t handle, int32_t offset) {
    jip_packet packet;
    jip_answer answer;
    jip_seek(&packet, now(), handle, offset, JIP_OFFSET_BEGINNING);
    return ask(&packet, &answer);
}

/* Serves a packet on an open file. Access to an open file continues even if its protection has changed since: the bits
   that deny are cleared for the packet. */
static int32_t ask_on_open(uint32_t lock, jip_packet *packet, jip_answer *answer) {
    jip_entry before;
    int32_t error = ask(packet, answer);
    if (error != JIP_ERROR_WRITE_PROTECTED && error != JIP_ERROR_READ_PROTECTED) return error;
    if (examine(lock, &before) != 0) return error;
    uint32_t bits = before.protection;
    if (protect(lock, bits & ~(uint32_t)(JIP_DENIES_WRITE | JIP_DENIES_READ)) != 0) return error;
    error = ask(packet, answer);
    if (error == 0 && packet->action != JIP_ACTION_READ) bits &= ~(uint32_t)JIP_IS_ARCHIVED;
    (void)protect(lock, bits);
    return error;
}

static int32_t resize_open(const struct open_file *file, int32_t size) {
    jip_packet packet;
    jip_answer answer;
    jip_set_file_size(&packet, now(), file->handle, size, JIP_OFFSET_BEGINNING);
    return ask_on_open(file->node->lock, &packet, &answer);
}

/* ---- Nodes ---- */

static struct node *node_of(fuse_ino_t number) {
    return number == FUSE_ROOT_ID ? &volume.root : (struct node *)(uintptr_t)number; // NOLINT
}

static fuse_ino_t number_of_node(const struct node *node) {
    return node == &volume.root ? FUSE_ROOT_ID : (fuse_ino_t)(uintptr_t)node;
}

static struct node *known_node(uint32_t key) { return key < volume.node_room ? volume.nodes[key] : NULL; }

/* A new node for an object, which has this lock from now on; NULL if memory runs out. */
static struct node *new_node(const jip_entry *entry, uint32_t lock) {
    if (entry->key >= volume.node_room) {
        const size_t room = 2 * ((size_t)entry->key + 1);
        struct node **const nodes = realloc(volume.nodes, room * sizeof *nodes);
        if (nodes == NULL) return NULL;
        for (size_t i = volume.node_room; i < room; i++) nodes[i] = NULL;
        volume.nodes = nodes;
        volume.node_room = room;
    }
    struct node *const node = calloc(1, sizeof *node);
    if (node == NULL) return NULL;
    node->key = entry->key;
    node->lock = lock;
    node->is_directory = entry->entry_type != JIP_FILE;
    volume.nodes[entry->key] = node;
    return node;
}

/* The object no longer exists, or is no longer locked. The node stays for those who still know it. */
static void lose(struct node *node) {
    volume.nodes[node->key] = NULL;
    node->is_gone = true;
}

static void drop_if_unused(struct node *node) {
    if (node == &volume.root || node->lookups > 0 || node->opens > 0) return;
    if (!node->is_gone) {
        free_lock(node->lock);
        lose(node);
    }
    free(node);
}

/* Describes an entry of a directory. A hidden file does not exist. */
static int32_t look_at(const struct node *directory, const struct name *name, jip_entry *entry) {
    uint32_t lock;
    int32_t error = locate(directory->lock, name, &lock);
    if (error != 0) return error;
    error = examine(lock, entry);
    free_lock(lock);
    const struct node *const node = known_node(entry->key);
    return error == 0 && node != NULL && node->hidden.length > 0 ? JIP_ERROR_OBJECT_NOT_FOUND : error;
}

/* The node of an entry, with its description. A new node has no use yet. */
static int32_t find_node(const struct node *directory, const struct name *name, struct node **node, jip_entry *entry) {
    uint32_t lock;
    int32_t error = locate(directory->lock, name, &lock);
    if (error != 0) return error;
    error = examine(lock, entry);
    *node = error == 0 ? known_node(entry->key) : NULL;
    if (*node == NULL && error == 0) {
        *node = new_node(entry, lock);
        if (*node != NULL) return 0;
        error = JIP_ERROR_NO_FREE_STORE;
    } else if (error == 0 && (*node)->hidden.length > 0) {
        error = JIP_ERROR_OBJECT_NOT_FOUND;
    }
    free_lock(lock);
    return error;
}

/* ---- Attributes for the kernel ---- */

static uint32_t bits_of_mode(uint32_t bits, mode_t mode) {
    const uint32_t all = JIP_DENIES_DELETE | JIP_DENIES_EXECUTE | JIP_DENIES_WRITE | JIP_DENIES_READ;
    const uint32_t denied = (~mode >> 6 & 7) << 1;
    return (bits & ~all) | denied | ((denied & JIP_DENIES_WRITE) != 0 ? (uint32_t)JIP_DENIES_DELETE : 0U);
}

/* The owner's rights are the bits r, w and e. Everyone else may read and run what the owner may, and write nothing. */
static mode_t mode_of(const jip_entry *entry) {
    const mode_t owner = ~entry->protection >> 1 & 7, others = owner & 5;
    return (entry->entry_type == JIP_FILE ? S_IFREG : S_IFDIR) | owner << 6 | others << 3 | others;
}

static struct stat stat_of(const jip_entry *entry) {
    struct stat stat = {0};
    const struct node *const node = known_node(entry->key);
    stat.st_ino = entry->key;
    stat.st_mode = mode_of(entry);
    stat.st_nlink = node != NULL && node->hidden.length > 0 ? 0 : 1;
    stat.st_uid = getuid();
    stat.st_gid = getgid();
    stat.st_size = entry->size;
    stat.st_blocks = entry->blocks;
    stat.st_mtim = stat.st_atim = stat.st_ctim = time_of(entry->date);
    return stat;
}

/* The kernel caches nothing, because another spelling of a name may have led to the same object. */
static struct fuse_entry_param told(struct node *node, const jip_entry *entry) {
    node->lookups++;
    return (struct fuse_entry_param){.ino = number_of_node(node), .attr = stat_of(entry)};
}

static void unlook(struct node *node, uint64_t count) {
    node->lookups -= count < node->lookups ? count : node->lookups;
    drop_if_unused(node);
}

/* ---- Saving ---- */

/* Deletes the hidden files, whose handles will never do so. Returns an errno. */
static int delete_hidden(void) {
    for (size_t key = 0; key < volume.node_room; key++) {
        const struct node *const node = volume.nodes[key];
        uint32_t lock;
        if (node == NULL || node->hidden.length == 0) continue;
        int32_t error = locate(0, &node->hidden, &lock);
        if (error == 0) {
            (void)protect(lock, 0);
            free_lock(lock);
            error = delete_object(0, &node->hidden);
        }
        if (error != 0) return errno_of(error);
    }
    return 0;
}

/* Removes the hidden files from the bytes to be saved: for everyone else they are deleted. */
static int without_hidden(void) {
    jip_fault fault;
    jip_handle copy = JIP_CLOSED;
    if (jip_open(volume.bytes, volume.length, &copy, &fault) != JIP_DONE) return ENOMEM;
    volume.asked = &copy;
    int error = delete_hidden();
    volume.asked = &volume.handle;
    if (error == 0 && jip_copy_image(&copy, volume.bytes, volume.length) != JIP_DONE) error = EIO;
    (void)jip_close(&copy);
    return error;
}

/* Replaces the image's file if the image has changed since. Returns 0 or an errno. */
static int save(void) {
    const uint64_t changes = jip_changes(&volume.handle);
    if (changes == volume.saved) return 0;
    int error = jip_copy_image(&volume.handle, volume.bytes, volume.length) == JIP_DONE ? 0 : EIO;
    if (error == 0 && volume.hidden_count > 0) error = without_hidden();
    if (error == 0) error = image_file_replace(&volume.file, volume.bytes, volume.length);
    if (error == 0) {
        volume.saved = changes;
    } else {
        syslog(LOG_ERR, "%s was not saved: %s", volume.file.path, strerror(error));
    }
    return error;
}

static int save_file(struct open_file *file) {
    const int error = file->is_changed ? save() : 0;
    if (error == 0) file->is_changed = false;
    return error;
}

/* ---- Operations on names ---- */

/* Reads the name. If no entry of the directory can have it, it replies an error to the kernel. */
static bool is_refused(fuse_req_t request, const struct node *directory, const char *host, struct name *name) {
    int error = directory->is_gone ? ENOENT : name_of_host(host, name);
    if (error != 0) (void)fuse_reply_err(request, error);
    return error != 0;
}

static void reply_error(fuse_req_t request, int32_t error) { (void)fuse_reply_err(request, errno_of(error)); }

static void reply_node(fuse_req_t request, const struct node *directory, const struct name *name) {
    struct node *node;
    jip_entry entry;
    const int32_t error = find_node(directory, name, &node, &entry);
    if (error != 0) {
        reply_error(request, error);
        return;
    }
    const struct fuse_entry_param param = told(node, &entry);
    if (fuse_reply_entry(request, &param) != 0) unlook(node, 1);
}

static void lookup(fuse_req_t request, fuse_ino_t parent, const char *host) {
    const struct node *const directory = node_of(parent);
    struct name name;
    const int fault = name_of_host(host, &name);
    if (directory->is_gone || fault == EINVAL) {
        (void)fuse_reply_err(request, ENOENT);
    } else if (fault != 0) {
        (void)fuse_reply_err(request, number_of(JIP_ERROR_INVALID_COMPONENT_NAME, true));
    } else {
        reply_node(request, directory, &name);
    }
}

static void forget(fuse_req_t request, fuse_ino_t number, uint64_t count) {
    struct node *const node = node_of(number);
    if (node != &volume.root) unlook(node, count);
    fuse_reply_none(request);
}

static void make_directory(fuse_req_t request, fuse_ino_t parent, const char *host, mode_t mode) {
    const struct node *const directory = node_of(parent);
    struct name name;
    jip_packet packet;
    jip_answer answer;
    if (is_refused(request, directory, host, &name)) return;
    jip_create_dir(&packet, now(), directory->lock, NULL);
    put_name(&packet, &name);
    const int32_t error = ask(&packet, &answer);
    if (error != 0) {
        reply_error(request, error);
        return;
    }
    const uint32_t bits = bits_of_mode(0, mode);
    if (bits != 0) (void)protect((uint32_t)answer.res1, bits);
    free_lock((uint32_t)answer.res1);
    reply_node(request, directory, &name);
}

/* Deletes an object without open file handles. A node's lock on it is freed before, and taken again if the object
   stays. */
static int32_t delete_closed(const struct node *directory, const struct name *name, uint32_t key) {
    struct node *const node = known_node(key);
    if (node != NULL) free_lock(node->lock);
    const int32_t error = delete_object(directory->lock, name);
    if (node != NULL && (error == 0 || locate(directory->lock, name, &node->lock) != 0)) lose(node);
    return error;
}

/* Keeps an open file under a hidden name in the root until it is closed. */
static int32_t hide(const struct node *directory, const struct name *name, struct node *node, uint32_t protection) {
    static uint32_t tries = 0;
    if ((protection & JIP_DENIES_DELETE) != 0) return JIP_ERROR_DELETE_PROTECTED;
    char text[JIP_NAME_BYTES + 1];
    struct name hidden;
    int32_t error;
    do {
        (void)snprintf(text, sizeof text, hidden_form, tries++);
        if (name_of_host(text, &hidden) != 0) return JIP_ERROR_INVALID_COMPONENT_NAME;
        error = rename_object(directory->lock, name, 0, &hidden);
    } while (error == JIP_ERROR_OBJECT_EXISTS);
    if (error == 0) {
        node->hidden = hidden;
        volume.hidden_count++;
    }
    return error;
}

/* Deletes an entry, which has to be a directory or must not be one. Returns an errno. */
static int remove_entry(const struct node *directory, const struct name *name, bool is_directory) {
    jip_entry entry;
    const int32_t fault = look_at(directory, name, &entry);
    if (fault != 0) return errno_of(fault);
    if ((entry.entry_type == JIP_DIRECTORY) != is_directory) return number_of(JIP_ERROR_OBJECT_WRONG_TYPE, !is_directory);
    struct node *const node = known_node(entry.key);
    const bool is_open = node != NULL && node->opens > 0 && !is_directory;
    return errno_of(is_open ? hide(directory, name, node, entry.protection) : delete_closed(directory, name, entry.key));
}

static void remove_file(fuse_req_t request, fuse_ino_t parent, const char *host) {
    struct name name;
    if (is_refused(request, node_of(parent), host, &name)) return;
    (void)fuse_reply_err(request, remove_entry(node_of(parent), &name, false));
}

static void remove_directory(fuse_req_t request, fuse_ino_t parent, const char *host) {
    struct name name;
    if (is_refused(request, node_of(parent), host, &name)) return;
    (void)fuse_reply_err(request, remove_entry(node_of(parent), &name, true));
}

/* Moves an entry. Another object with the new name is deleted. Returns an errno. */
static int move_entry(const struct node *from, const struct name *name, const struct node *to, const struct name *new_name,
                      bool may_replace) {
    jip_entry entry, there;
    int32_t error = look_at(from, name, &entry);
    if (error != 0) return errno_of(error);
    error = look_at(to, new_name, &there);
    if (error != 0 && error != JIP_ERROR_OBJECT_NOT_FOUND) return errno_of(error);
    if (error == 0 && there.key != entry.key) {
        if (!may_replace) return EEXIST;
        const int number = remove_entry(to, new_name, entry.entry_type == JIP_DIRECTORY);
        if (number != 0) return number;
    }
    return errno_of(rename_object(from->lock, name, to->lock, new_name));
}

static void rename_entry(fuse_req_t request, fuse_ino_t parent, const char *host, fuse_ino_t new_parent, const char *new_host,
                         unsigned flags) {
    struct name name, new_name;
    if (is_refused(request, node_of(parent), host, &name)) return;
    if (is_refused(request, node_of(new_parent), new_host, &new_name)) return;
    const bool may_replace = (flags & RENAME_NOREPLACE) == 0;
    const int error = (flags & ~(unsigned)RENAME_NOREPLACE) != 0
                          ? EINVAL
                          : move_entry(node_of(parent), &name, node_of(new_parent), &new_name, may_replace);
    (void)fuse_reply_err(request, error);
}

/* ---- Open files ---- */

static struct open_file *file_of(const struct fuse_file_info *info) { return (struct open_file *)(uintptr_t)info->fh; } // NOLINT

/* Opens a file, and empties it if the flags say so. The kernel caches no pages of it: it would write them page by page,
   and not as the caller did. Returns an errno. */
static int open_node(struct node *node, int flags, struct fuse_file_info *info) {
    jip_entry entry;
    if (node->is_directory) return number_of(JIP_ERROR_OBJECT_WRONG_TYPE, true);
    int32_t error = examine(node->lock, &entry);
    if (error != 0) return errno_of(error);
    const int access = flags & O_ACCMODE;
    if (access != O_RDONLY && (entry.protection & JIP_DENIES_WRITE) != 0) return errno_of(JIP_ERROR_WRITE_PROTECTED);
    if (access != O_WRONLY && (entry.protection & JIP_DENIES_READ) != 0) return errno_of(JIP_ERROR_READ_PROTECTED);
    struct open_file *const file = calloc(1, sizeof *file);
    if (file == NULL) return ENOMEM;
    file->node = node;
    error = open_locked(node->lock, &file->handle);
    if (error == 0 && (flags & O_TRUNC) != 0) {
        error = resize_open(file, 0);
        file->is_changed = true;
        if (error != 0) end(file->handle);
    }
    if (error != 0) {
        free(file);
        return errno_of(error);
    }
    node->opens++;
    info->fh = (uint64_t)(uintptr_t)file;
    info->direct_io = 1;
    return 0;
}

/* Closes a file. A hidden one is deleted with its last handle. */
static void close_file(struct open_file *file) {
    struct node *const node = file->node;
    end(file->handle);
    free(file);
    if (--node->opens == 0 && node->hidden.length > 0) {
        (void)protect(node->lock, 0);
        (void)delete_closed(&volume.root, &node->hidden, node->key);
        volume.hidden_count--;
    }
    drop_if_unused(node);
}

static void open_file(fuse_req_t request, fuse_ino_t number, struct fuse_file_info *info) {
    struct node *const node = node_of(number);
    const int error = node->is_gone ? ENOENT : open_node(node, info->flags, info);
    if (error != 0) {
        (void)fuse_reply_err(request, error);
    } else if (fuse_reply_open(request, info) != 0) {
        close_file(file_of(info));
    }
}

/* Makes a file with a mode, if it does not exist. Returns an errno. */
static int make_file(const struct node *directory, const struct name *name, mode_t mode, bool *is_made) {
    jip_packet packet;
    jip_answer answer;
    jip_entry entry;
    uint32_t lock;
    int32_t error = look_at(directory, name, &entry);
    *is_made = error == JIP_ERROR_OBJECT_NOT_FOUND;
    if (!*is_made) return errno_of(error);
    jip_findupdate(&packet, now(), directory->lock, NULL);
    put_name(&packet, name);
    error = ask(&packet, &answer);
    if (error != 0) return errno_of(error);
    const uint32_t bits = bits_of_mode(0, mode);
    if (bits != 0 && locate(directory->lock, name, &lock) == 0) {
        (void)protect(lock, bits);
        free_lock(lock);
    }
    end(answer.handle);
    return 0;
}

/* The maker of a file may write to it whatever its mode. */
static int open_made(struct node *node, const jip_entry *entry, struct fuse_file_info *info) {
    (void)protect(node->lock, 0);
    const int error = open_node(node, info->flags, info);
    (void)protect(node->lock, entry->protection);
    if (error == 0) file_of(info)->is_changed = true;
    return error;
}

static void create(fuse_req_t request, fuse_ino_t parent, const char *host, mode_t mode, struct fuse_file_info *info) {
    const struct node *const directory = node_of(parent);
    struct node *node;
    struct name name;
    jip_entry entry;
    bool is_made;
    if (is_refused(request, directory, host, &name)) return;
    int error = make_file(directory, &name, mode, &is_made);
    if (error == 0 && !is_made && (info->flags & O_EXCL) != 0) error = EEXIST;
    if (error == 0) error = errno_of(find_node(directory, &name, &node, &entry));
    if (error == 0) {
        error = is_made ? open_made(node, &entry, info) : open_node(node, info->flags, info);
        if (error != 0) drop_if_unused(node);
    }
    if (error != 0) {
        (void)fuse_reply_err(request, error);
        return;
    }
    const struct fuse_entry_param param = told(node, &entry);
    if (fuse_reply_create(request, &param, info) != 0) {
        node->lookups--;
        close_file(file_of(info));
    }
}

static void make_node(fuse_req_t request, fuse_ino_t parent, const char *host, mode_t mode, dev_t device) {
    const struct node *const directory = node_of(parent);
    struct name name;
    bool is_made;
    (void)device;
    if (is_refused(request, directory, host, &name)) return;
    int error = S_ISREG(mode) ? make_file(directory, &name, mode, &is_made) : EPERM;
    if (error == 0 && !is_made) error = EEXIST;
    if (error != 0) {
        (void)fuse_reply_err(request, error);
    } else {
        reply_node(request, directory, &name);
    }
}

static void read_file(fuse_req_t request, fuse_ino_t number, size_t size, off_t offset, struct fuse_file_info *info) {
    const struct open_file *const file = file_of(info);
    jip_packet packet;
    jip_answer answer = {0};
    (void)number;
    uint8_t *const room = calloc(1, size + 1);
    if (room == NULL) {
        (void)fuse_reply_err(request, ENOMEM);
        return;
    }
    int32_t error = offset > INT32_MAX ? JIP_ERROR_SEEK_ERROR : seek(file->handle, (int32_t)offset);
    if (error == 0) {
        jip_read(&packet, now(), file->handle, room, size);
        error = ask_on_open(file->node->lock, &packet, &answer);
    } else if (error == JIP_ERROR_SEEK_ERROR) {
        error = 0; /* there are no bytes after the end */
    }
    if (error != 0) {
        reply_error(request, error);
    } else {
        (void)fuse_reply_buf(request, (const char *)room, (size_t)answer.res1);
    }
    free(room);
}

/* Writes bytes at a position, all or none. If they start after the end, the file first gets its whole new size, with
   zeros between, and a disk that is too full refuses that. Returns an errno. */
static int write_at(struct open_file *file, const char *bytes, size_t size, off_t offset) {
    jip_packet packet;
    jip_answer answer;
    if (offset > INT32_MAX - (off_t)size) return EFBIG;
    int32_t error = seek(file->handle, (int32_t)offset);
    if (error == JIP_ERROR_SEEK_ERROR) {
        error = resize_open(file, (int32_t)offset + (int32_t)size);
        if (error == 0) error = seek(file->handle, (int32_t)offset);
    }
    if (error != 0) return errno_of(error);
    jip_write(&packet, now(), file->handle, bytes, size);
    file->is_changed = true;
    return errno_of(ask_on_open(file->node->lock, &packet, &answer));
}

static void write_file(fuse_req_t request, fuse_ino_t number, const char *bytes, size_t size, off_t offset,
                       struct fuse_file_info *info) {
    (void)number;
    const int error = size == 0 ? 0 : write_at(file_of(info), bytes, size, offset);
    if (error != 0) {
        (void)fuse_reply_err(request, error);
    } else {
        (void)fuse_reply_write(request, size);
    }
}

static void flush(fuse_req_t request, fuse_ino_t number, struct fuse_file_info *info) {
    (void)number;
    (void)fuse_reply_err(request, save_file(file_of(info)));
}

static void sync_all(fuse_req_t request, fuse_ino_t number, int only_data, struct fuse_file_info *info) {
    (void)number;
    (void)only_data;
    (void)info;
    (void)fuse_reply_err(request, save());
}

static void release(fuse_req_t request, fuse_ino_t number, struct fuse_file_info *info) {
    struct open_file *const file = file_of(info);
    (void)number;
    const int error = save_file(file);
    close_file(file);
    (void)fuse_reply_err(request, error);
}

/* ---- Directories ---- */

/* Reads the entries of a directory, without hidden files. */
static int32_t read_entries(struct listing *listing) {
    uint32_t key = listing->node->key;
    size_t room = 0;
    listing->count = 0;
    for (;;) {
        jip_packet packet;
        jip_answer answer;
        jip_examine_next(&packet, now(), listing->node->lock, key);
        const int32_t error = ask(&packet, &answer);
        if (error != 0) return error == JIP_ERROR_NO_MORE_ENTRIES ? 0 : error;
        key = answer.entry.key;
        const struct node *const node = known_node(key);
        if (node != NULL && node->hidden.length > 0) continue;
        if (listing->count >= room) {
            room = 2 * room + 32;
            jip_entry *const entries = realloc(listing->entries, room * sizeof *entries);
            if (entries == NULL) return JIP_ERROR_NO_FREE_STORE;
            listing->entries = entries;
        }
        listing->entries[listing->count++] = answer.entry;
    }
}

static void open_directory(fuse_req_t request, fuse_ino_t number, struct fuse_file_info *info) {
    struct listing *const listing = calloc(1, sizeof *listing);
    if (listing == NULL) {
        (void)fuse_reply_err(request, ENOMEM);
        return;
    }
    listing->node = node_of(number);
    info->fh = (uint64_t)(uintptr_t)listing;
    if (fuse_reply_open(request, info) != 0) free(listing);
}

static struct listing *listing_of(const struct fuse_file_info *info) { return (struct listing *)(uintptr_t)info->fh; } // NOLINT

static void release_directory(fuse_req_t request, fuse_ino_t number, struct fuse_file_info *info) {
    struct listing *const listing = listing_of(info);
    (void)number;
    free(listing->entries);
    free(listing);
    (void)fuse_reply_err(request, 0);
}

/* Adds one entry with its attributes if it fits, and returns the number of bytes used; 0 if the entry is gone
   meanwhile. */
static size_t put_entry(fuse_req_t request, const struct listing *listing, size_t place, char *at, size_t room) {
    char host[HOST_NAME_ROOM];
    struct name name;
    struct node *node;
    jip_entry entry = listing->entries[place];
    name.length = entry.name_length;
    memcpy(name.bytes, entry.name, name.length);
    if (find_node(listing->node, &name, &node, &entry) != 0) return 0;
    host_of_name(entry.name, entry.name_length, host);
    const struct fuse_entry_param param = told(node, &entry);
    const size_t size = fuse_add_direntry_plus(request, at, room, host, &param, (off_t)place + 3);
    if (size > room) unlook(node, 1);
    return size;
}

static size_t put_dots(fuse_req_t request, const struct listing *listing, size_t place, char *at, size_t room) {
    const struct fuse_entry_param param = {.attr = {.st_ino = listing->node->key, .st_mode = S_IFDIR}};
    return fuse_add_direntry_plus(request, at, room, place == 0 ? "." : "..", &param, (off_t)place + 1);
}

static void read_directory(fuse_req_t request, fuse_ino_t number, size_t size, off_t offset, struct fuse_file_info *info) {
    struct listing *const listing = listing_of(info);
    (void)number;
    const int32_t error = offset == 0 && !listing->node->is_gone ? read_entries(listing) : 0;
    char *const room = error == 0 ? malloc(size) : NULL;
    if (room == NULL) {
        (void)fuse_reply_err(request, error == 0 ? ENOMEM : errno_of(error));
        return;
    }
    size_t used = 0;
    for (size_t place = (size_t)offset; place < listing->count + 2; place++) {
        const size_t taken = place < 2 ? put_dots(request, listing, place, room + used, size - used)
                                       : put_entry(request, listing, place - 2, room + used, size - used);
        if (taken > size - used) break;
        used += taken;
    }
    (void)fuse_reply_buf(request, room, used);
    free(room);
}

/* ---- Attributes ---- */

static void reply_attributes(fuse_req_t request, const struct node *node) {
    jip_entry entry;
    const int32_t error = node->is_gone ? JIP_ERROR_OBJECT_NOT_FOUND : examine(node->lock, &entry);
    if (error != 0) {
        reply_error(request, error);
    } else {
        const struct stat stat = stat_of(&entry);
        (void)fuse_reply_attr(request, &stat, 0);
    }
}

static void get_attributes(fuse_req_t request, fuse_ino_t number, struct fuse_file_info *info) {
    (void)info;
    reply_attributes(request, node_of(number));
}

/* Sets the size of a file: through its open handle, or by opening it. Returns an errno. */
static int set_size(struct node *node, off_t size, const struct fuse_file_info *info) {
    struct fuse_file_info opened = {.flags = O_WRONLY};
    if (size > INT32_MAX) return EFBIG;
    int error = info != NULL ? 0 : open_node(node, opened.flags, &opened);
    if (error != 0) return error;
    struct open_file *const file = file_of(info != NULL ? info : &opened);
    error = errno_of(resize_open(file, (int32_t)size));
    file->is_changed = true;
    if (info != NULL) return error;
    if (error == 0) error = save_file(file);
    close_file(file);
    return error;
}

static int set_mode(const struct node *node, mode_t mode) {
    jip_entry entry;
    const int32_t error = examine(node->lock, &entry);
    return errno_of(error != 0 ? error : protect(node->lock, bits_of_mode(entry.protection, mode)));
}

static int set_date(const struct node *node, jip_date date) {
    jip_packet packet;
    jip_answer answer;
    jip_set_date(&packet, now(), node->lock, NULL, date);
    return errno_of(ask(&packet, &answer));
}

static bool is_other_owner(const struct stat *stat, int what) {
    const bool is_other_user = (what & FUSE_SET_ATTR_UID) != 0 && stat->st_uid != getuid();
    return is_other_user || ((what & FUSE_SET_ATTR_GID) != 0 && stat->st_gid != getgid());
}

/* No packet sets the protection or the date of the root: setting them succeeds without effect. */
static void set_attributes(fuse_req_t request, fuse_ino_t number, struct stat *stat, int what, struct fuse_file_info *info) {
    struct node *const node = node_of(number);
    int error = node->is_gone ? ENOENT : is_other_owner(stat, what) ? EPERM : 0;
    if (error == 0 && (what & FUSE_SET_ATTR_SIZE) != 0) error = set_size(node, stat->st_size, info);
    if (node != &volume.root) {
        if (error == 0 && (what & FUSE_SET_ATTR_MODE) != 0) error = set_mode(node, stat->st_mode);
        if (error == 0 && (what & FUSE_SET_ATTR_MTIME_NOW) != 0) {
            error = set_date(node, now());
        } else if (error == 0 && (what & FUSE_SET_ATTR_MTIME) != 0) {
            error = set_date(node, date_of(stat->st_mtim));
        }
    }
    if (error != 0) {
        (void)fuse_reply_err(request, error);
    } else {
        reply_attributes(request, node);
    }
}

static void may_access(fuse_req_t request, fuse_ino_t number, int wanted) {
    const struct node *const node = node_of(number);
    jip_entry entry;
    int error = errno_of(node->is_gone ? JIP_ERROR_OBJECT_NOT_FOUND : examine(node->lock, &entry));
    if (error == 0 && (wanted & W_OK) != 0 && volume.is_read_only) error = EROFS;
    if (error == 0 && ((mode_t)wanted & 7 & ~(mode_of(&entry) >> 6)) != 0) error = EACCES;
    (void)fuse_reply_err(request, error);
}

static void get_room(fuse_req_t request, fuse_ino_t number) {
    jip_packet packet;
    jip_answer answer;
    (void)number;
    jip_disk_info(&packet, now());
    const int32_t error = ask(&packet, &answer);
    if (error != 0) {
        reply_error(request, error);
        return;
    }
    const jip_disk *const disk = &answer.disk;
    const struct statvfs room = {
        .f_bsize = disk->bytes_per_block,
        .f_frsize = disk->bytes_per_block,
        .f_blocks = disk->blocks,
        .f_bfree = disk->blocks - disk->used,
        .f_bavail = disk->blocks - disk->used,
        .f_namemax = JIP_NAME_BYTES,
    };
    (void)fuse_reply_statfs(request, &room);
}

/* ---- Extended attributes ---- */

/* Replies with a text for this much room, or with its length if there is none. */
static void reply_text(fuse_req_t request, const char *text, size_t length, size_t room) {
    if (room == 0) {
        (void)fuse_reply_xattr(request, length);
    } else if (room < length) {
        (void)fuse_reply_err(request, ERANGE);
    } else {
        (void)fuse_reply_buf(request, text, length);
    }
}

/* The root's metadata is fixed, so it has none of these attributes. */
static bool has_none(fuse_req_t request, const struct node *node, int error, jip_entry *entry) {
    if (node->is_gone) {
        error = ENOENT;
    } else if (node != &volume.root) {
        error = errno_of(examine(node->lock, entry));
    }
    if (error != 0) (void)fuse_reply_err(request, error);
    return error != 0;
}

static void get_extended(fuse_req_t request, fuse_ino_t number, const char *name, size_t room) {
    jip_entry entry;
    char letters[COMMENT_ROOM];
    if (has_none(request, node_of(number), ENODATA, &entry)) return;
    if (strcmp(name, protection_attribute) == 0) {
        letters_of_protection(entry.protection, letters);
        reply_text(request, letters, PROTECTION_LETTERS, room);
    } else if (strcmp(name, comment_attribute) == 0 && entry.comment_length > 0) {
        const size_t length = letters_of_comment(&entry, letters);
        reply_text(request, letters, length, room);
    } else {
        (void)fuse_reply_err(request, ENODATA);
    }
}

static void list_extended(fuse_req_t request, fuse_ino_t number, size_t room) {
    const struct node *const node = node_of(number);
    jip_entry entry;
    if (node == &volume.root) {
        reply_text(request, "", 0, room);
    } else if (!has_none(request, node, 0, &entry)) {
        const size_t length = entry.comment_length > 0 ? sizeof attribute_list : sizeof protection_attribute;
        reply_text(request, attribute_list, length, room);
    }
}

/* Returns an errno. */
static int set_comment(const struct node *node, const char *letters, size_t length) {
    uint8_t comment[JIP_COMMENT_BYTES];
    jip_packet packet;
    jip_answer answer;
    size_t comment_length;
    if (!comment_of_letters(letters, length, comment, &comment_length))
        return length > JIP_COMMENT_BYTES ? errno_of(JIP_ERROR_COMMENT_TOO_BIG) : EINVAL;
    jip_set_comment(&packet, now(), node->lock, NULL, NULL);
    packet.text = comment;
    packet.text_length = comment_length;
    return errno_of(ask(&packet, &answer));
}

static void set_extended(fuse_req_t request, fuse_ino_t number, const char *name, const char *value, size_t length, int flags) {
    const struct node *const node = node_of(number);
    jip_entry entry;
    if (has_none(request, node, EPERM, &entry)) return;
    const bool is_comment = strcmp(name, comment_attribute) == 0;
    const bool is_there = !is_comment || entry.comment_length > 0;
    int error = is_comment || strcmp(name, protection_attribute) == 0 ? 0 : EOPNOTSUPP;
    if (error == 0 && is_there && (flags & XATTR_CREATE) != 0) error = EEXIST;
    if (error == 0 && !is_there && (flags & XATTR_REPLACE) != 0) error = ENODATA;
    if (error == 0 && is_comment) {
        error = set_comment(node, value, length);
    } else if (error == 0) {
        uint32_t bits = entry.protection;
        error = protection_of_letters(value, length, &bits) ? errno_of(protect(node->lock, bits)) : EINVAL;
    }
    (void)fuse_reply_err(request, error);
}

/* Without protection bits, an object denies nothing. */
static void remove_extended(fuse_req_t request, fuse_ino_t number, const char *name) {
    const struct node *const node = node_of(number);
    jip_entry entry;
    if (has_none(request, node, ENODATA, &entry)) return;
    int error = ENODATA;
    if (strcmp(name, comment_attribute) == 0 && entry.comment_length > 0) {
        error = set_comment(node, "", 0);
    } else if (strcmp(name, protection_attribute) == 0) {
        error = errno_of(protect(node->lock, entry.protection & ~(uint32_t)0xFF));
    }
    (void)fuse_reply_err(request, error);
}

/* ---- Unsupported operations ---- */

static void make_link(fuse_req_t request, fuse_ino_t number, fuse_ino_t parent, const char *name) {
    (void)number;
    (void)parent;
    (void)name;
    (void)fuse_reply_err(request, EPERM);
}

static void make_symbolic_link(fuse_req_t request, const char *target, fuse_ino_t parent, const char *name) {
    (void)target;
    (void)parent;
    (void)name;
    (void)fuse_reply_err(request, EPERM);
}

static const struct fuse_lowlevel_ops operations = {
    .lookup = lookup,
    .forget = forget,
    .getattr = get_attributes,
    .setattr = set_attributes,
    .access = may_access,
    .statfs = get_room,
    .mkdir = make_directory,
    .unlink = remove_file,
    .rmdir = remove_directory,
    .rename = rename_entry,
    .mknod = make_node,
    .link = make_link,
    .symlink = make_symbolic_link,
    .create = create,
    .open = open_file,
    .read = read_file,
    .write = write_file,
    .flush = flush,
    .fsync = sync_all,
    .release = release,
    .opendir = open_directory,
    .readdirplus = read_directory,
    .fsyncdir = sync_all,
    .releasedir = release_directory,
    .getxattr = get_extended,
    .setxattr = set_extended,
    .listxattr = list_extended,
    .removexattr = remove_extended,
};

/* ---- The program ---- */

static const char usage[] = "usage: adf_mount [-o ro] [-f] IMAGE DIR\n"
                            "       adf_mount --wait IMAGE\n"
                            "  -o ro   the image is only read\n"
                            "  -f      stays in the foreground\n"
                            "  --wait  mounts nothing, and ends when no mount has the image any more\n"
                            "`fusermount3 -u DIR` unmounts, and the image's file is written where it has changed.\n";

struct words {
    char *image;
    bool is_read_only;
    bool waits;
};

enum { WORD_READ_ONLY = 1, WORD_WAIT = 2 };

static const struct fuse_opt options[] = {FUSE_OPT_KEY("ro", WORD_READ_ONLY), FUSE_OPT_KEY("--wait", WORD_WAIT), FUSE_OPT_END};

static int take_word(void *data, const char *word, int key, struct fuse_args *rest) {
    struct words *const words = data;
    (void)rest;
    if (key == WORD_READ_ONLY) words->is_read_only = true;
    if (key == WORD_WAIT) {
        words->waits = true;
        return 0;
    }
    if (key != FUSE_OPT_KEY_NONOPT || words->image != NULL) return 1;
    words->image = strdup(word);
    return 0;
}

static int tell(int status, const char *what, const char *why) {
    (void)fprintf(stderr, "adf_mount: %s: %s\n", what, why);
    return status;
}

static int tell_refused(const char *path, jip_fault fault) {
    (void)fprintf(stderr, "adf_mount: %s: it is refused: fault %d, block %u\n", path, fault.kind, fault.block);
    return STATUS_IMAGE;
}

/* Reports why the image's file is not held. Returns a status. */
static int tell_not_held(const char *path, int error) {
    if (error == EWOULDBLOCK) return tell(STATUS_HOST, path, "it is mounted, or another program has it locked");
    if (error == EINVAL) return tell(STATUS_HOST, path, "it is no regular file");
    return tell(STATUS_HOST, path, strerror(error));
}

/* Reads and opens the image of the file that was found. Returns a status. */
static int read_image(const char *path) {
    jip_fault fault = {0, 0};
    const int error = image_file_read(&volume.file, (size_t)JIP_MOST_BLOCKS * JIP_BLOCK_BYTES, &volume.bytes, &volume.length);
    if (error == EFBIG) return tell_refused(path, (jip_fault){JIP_FAULT_TOO_MANY_BLOCKS, 0});
    if (error != 0) return tell(STATUS_HOST, path, strerror(error));
    const int32_t status = volume.is_read_only ? jip_open_read_only(volume.bytes, volume.length, &volume.handle, &fault)
                                               : jip_open(volume.bytes, volume.length, &volume.handle, &fault);
    if (status == JIP_NO_MEMORY) return tell(STATUS_HOST, path, strerror(ENOMEM));
    return status == JIP_DONE ? STATUS_DONE : tell_refused(path, fault);
}

/* Locks, reads and opens the image. Returns a status. */
static int open_image(const char *path) {
    jip_packet packet;
    jip_answer answer;
    const int error = image_file_hold(&volume.file, path, LONGEST_START);
    if (error != 0) return tell_not_held(path, error);
    if (!volume.is_read_only && !image_file_may_be_replaced(&volume.file))
        return tell(STATUS_HOST, path, "it, or its folder, may not be written; -o ro only reads it");
    const int status = read_image(path);
    if (status != STATUS_DONE) return status;
    volume.saved = jip_changes(&volume.handle);
    jip_examine_object(&packet, now(), 0);
    if (ask(&packet, &answer) != 0) return tell(STATUS_HOST, path, "its root cannot be examined");
    volume.root = (struct node){.key = answer.entry.key, .lookups = 1, .is_directory = true};
    return STATUS_DONE;
}

/* Waits until no mount has the image any more. What is then no image is refused. Returns a status. */
static int wait_for_image(const char *path) {
    const int error = image_file_wait(&volume.file, path, LONGEST_WAIT);
    return error == 0 ? read_image(path) : tell_not_held(path, error);
}

/* Serves the kernel until the directory is unmounted, and saves. Returns a status. */
static int serve(struct fuse_args *args, const char *directory, bool stays) {
    struct fuse_session *const session = fuse_session_new(args, &operations, sizeof operations, NULL);
    if (session == NULL) return STATUS_WORDS;
    int status = STATUS_HOST;
    if (fuse_set_signal_handlers(session) == 0) {
        if (fuse_session_mount(session, directory) == 0) {
            if (fuse_daemonize(stays) == 0) status = fuse_session_loop(session) < 0 ? STATUS_HOST : STATUS_DONE;
            if (save() != 0) status = STATUS_HOST;
            fuse_session_unmount(session);
        }
        fuse_remove_signal_handlers(session);
    }
    fuse_session_destroy(session);
    return status;
}

/* Shows the image as the source of the mount. */
static int add_source(struct fuse_args *args) {
    char source[PATH_MAX + 8];
    char *joined = NULL;
    (void)snprintf(source, sizeof source, "fsname=%s", volume.file.path);
    const bool is_added = fuse_opt_add_opt(&joined, "subtype=adf") == 0 && fuse_opt_add_opt_escaped(&joined, source) == 0 &&
                          fuse_opt_add_arg(args, "-o") == 0 && fuse_opt_add_arg(args, joined) == 0;
    free(joined);
    return is_added ? STATUS_DONE : tell(STATUS_HOST, "options", strerror(ENOMEM));
}

/* Mounts the image, or waits for it. Returns a status. */
static int run(struct fuse_args *args, const struct words *own, const struct fuse_cmdline_opts *shared) {
    if (shared->show_help || shared->show_version) {
        (void)fputs(usage, stdout);
        return STATUS_DONE;
    }
    if (own->image == NULL || (shared->mountpoint == NULL) != own->waits) {
        (void)fputs(usage, stderr);
        return STATUS_WORDS;
    }
    if (own->waits) return wait_for_image(own->image);
    volume.is_read_only = own->is_read_only;
    int status = open_image(own->image);
    if (status == STATUS_DONE) status = add_source(args);
    return status == STATUS_DONE ? serve(args, shared->mountpoint, shared->foreground != 0) : status;
}

int main(int count, char *words[]) {
    struct fuse_args args = FUSE_ARGS_INIT(count, words);
    struct fuse_cmdline_opts shared = {0};
    struct words own = {NULL, false, false};
    int status = STATUS_WORDS;
    openlog("adf_mount", LOG_PERROR, LOG_DAEMON);
    /* A write past a limit on the length of files fails, and does not end the process. */
    (void)signal(SIGXFSZ, SIG_IGN);
    if (fuse_opt_parse(&args, &own, options, take_word) == 0 && fuse_parse_cmdline(&args, &shared) == 0)
        status = run(&args, &own, &shared);
    (void)jip_close(&volume.handle);
    image_file_release(&volume.file);
    for (size_t key = 0; key < volume.node_room; key++) free(volume.nodes[key]);
    free(volume.nodes);
    free(volume.bytes);
    free(own.image);
    free(shared.mountpoint);
    fuse_opt_free_args(&args);
    return status;
}
