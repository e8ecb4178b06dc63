/* Tests whole files, walks, files of the host, texts and versions. It writes to the current directory. */
#define _XOPEN_SOURCE 700
#include "asking.h"

#include <errno.h>
#include <fcntl.h>
#include <signal.h>
#include <stdbool.h>
#include <sys/file.h>
#include <sys/stat.h>
#include <sys/wait.h>
#include <time.h>
#include <unistd.h>

#define TEXT(bytes) bytes, sizeof(bytes) - 1

static int32_t put(jip_handle *h, const char *path, const void *bytes, size_t length) {
    return jip_write_file(h, now, path, JIP_TO_ZERO, bytes, length);
}

static int has(jip_handle *h, const char *path, const char *bytes) {
    char found[256];
    size_t length = 0;
    const int32_t result = jip_read_file(h, path, JIP_TO_ZERO, found, sizeof found, &length);
    return result == JIP_DONE && length == strlen(bytes) && memcmp(found, bytes, length) == 0;
}

/* Checks that nothing is held: DIE is refused while a lock or a file handle exists. */
static void ends(const char *name, jip_handle *h) {
    RESULTS(name, die(h), JIP_DOSTRUE, 0);
    EXPECT(name, jip_close(h) == JIP_DONE);
}

static void versions(void) {
    char version[32];
    (void)snprintf(version, sizeof version, "%d.%d.%d", JIP_VERSION_MAJOR, JIP_VERSION_MINOR, JIP_VERSION_PATCH);
    const size_t length = strlen(version);
    const char *proof = strlen(jip_version()) < length ? "none" : jip_version() + length;
    EXPECT("version", strncmp(jip_version(), version, length) == 0 && (*proof == 0 || strcmp(proof, " (not proved)") == 0));
}

static void texts(void) {
    static const int32_t errors[] = {103, 202, 203, 204, 205, 209, 210, 211, 212, 216, 218, 219, 220, 221, 222, 223, 224, 225, 232};
    static const int32_t faults[] = {0, 1, 2, 3, 4, 5, 6, 7, 8, 9, 10, 11, 12, 13, 14, 15, 17, 101, 102, 103};
    for (size_t i = 0; i < sizeof errors / sizeof errors[0]; i++)
        EXPECT("error_text", strcmp(jip_error_text(errors[i]), "unknown error") != 0);
    for (size_t i = 0; i < sizeof faults / sizeof faults[0]; i++)
        EXPECT("fault_text", strcmp(jip_fault_text(faults[i]), "unknown fault") != 0);
    for (int32_t status = JIP_DONE; status <= JIP_HOST_FAILED; status++)
        EXPECT("status_text", strcmp(jip_error_text(status), jip_status_text(status)) == 0);
    EXPECT("error_text", strcmp(jip_error_text(JIP_ERROR_DISK_FULL), "disk is full") == 0);
    EXPECT("error_text", strcmp(jip_error_text(1000), "unknown error") == 0);
    EXPECT("fault_text", strcmp(jip_fault_text(16), "unknown fault") == 0);
    EXPECT("status_text", strcmp(jip_status_text(-1), "unknown status") == 0);
}

static void whole_files(int32_t format) {
    jip_handle h = blank(format, JIP_DOUBLE_DENSITY);
    char found[8] = "-------";
    size_t length = 99;
    EXPECT("a file is made", put(&h, "f", TEXT("first bytes")) == JIP_DONE && has(&h, "F", "first bytes"));
    EXPECT("it gets fewer bytes", put(&h, "f", TEXT("less")) == JIP_DONE && has(&h, "f", "less"));
    EXPECT("it gets more bytes", put(&h, "f", TEXT("more than before")) == JIP_DONE && has(&h, "f", "more than before"));
    EXPECT("the size", jip_read_file(&h, "f", 1, NULL, 0, &length) == JIP_DONE && length == 16);
    EXPECT("a part", jip_read_file(&h, "f", 1, found, 4, &length) == JIP_DONE && length == 16 && strcmp(found, "more---") == 0);
    EXPECT("it is emptied", put(&h, "f", NULL, 0) == JIP_DONE && has(&h, "f", ""));
    EXPECT("a zero in a name", jip_write_file(&h, now, "a\0b", 3, "z", 1) == JIP_DONE);
    EXPECT("a zero in a name", jip_read_file(&h, "A\0B", 3, found, sizeof found, &length) == JIP_DONE && length == 1);
    EXPECT("no such file", jip_read_file(&h, "g", 1, found, sizeof found, &length) == JIP_ERROR_OBJECT_NOT_FOUND);
    EXPECT("no such directory", put(&h, "no/g", TEXT("x")) == JIP_ERROR_DIR_NOT_FOUND);
    make_directory(&h, "d");
    EXPECT("a directory", put(&h, "d", TEXT("x")) == JIP_ERROR_OBJECT_WRONG_TYPE);
    EXPECT("a directory", jip_read_file(&h, "d", 1, found, sizeof found, &length) == JIP_ERROR_OBJECT_WRONG_TYPE);
    RESULTS("protect", protect(&h, "f", 8), JIP_DOSTRUE, 0);
    EXPECT("read protected", jip_read_file(&h, "f", 1, found, sizeof found, &length) == JIP_ERROR_READ_PROTECTED);
    EXPECT("in a directory", put(&h, "d/e", TEXT("deep")) == JIP_DONE && has(&h, "Work:D/E", "deep"));
    ends("whole files", &h);
}

/* A refused write leaves every byte of the image unchanged. */
static void refused_files(int32_t format) {
    jip_handle h = blank(format, JIP_DOUBLE_DENSITY);
    static const char many[1000000];
    size_t length, again;
    uint8_t *before, *after;
    EXPECT("old", put(&h, "old", TEXT("old bytes")) == JIP_DONE);
    EXPECT("write protected", put(&h, "kept", TEXT("kept")) == JIP_DONE);
    RESULTS("protect", protect(&h, "kept", 4), JIP_DOSTRUE, 0);
    before = image_of(&h, &length);
    const uint64_t changes = jip_changes(&h);
    EXPECT("no room for a new file", put(&h, "new", many, sizeof many) == JIP_ERROR_DISK_FULL);
    EXPECT("no room for an old file", put(&h, "old", many, sizeof many) == JIP_ERROR_DISK_FULL);
    EXPECT("a protected file", put(&h, "kept", TEXT("other")) == JIP_ERROR_WRITE_PROTECTED);
    after = image_of(&h, &again);
    EXPECT("the image is as it was", length == again && memcmp(before, after, length) == 0 && jip_changes(&h) == changes);
    EXPECT("a file that nearly fills it", put(&h, "new", many, 800000) == JIP_DONE);
    EXPECT("its bytes", jip_read_file(&h, "new", 3, NULL, 0, &again) == JIP_DONE && again == 800000);
    free(before);
    free(after);
    ends("refused files", &h);
}

struct seen {
    char paths[2048];
    size_t count;
    size_t last; /* the number of the entry that ends the walk */
};

static int32_t see(void *context, const char *path, size_t path_length, const jip_entry *entry) {
    struct seen *seen = (struct seen *)context;
    EXPECT("a zero behind the path", strlen(path) == path_length);
    strcat(seen->paths, path);
    strcat(seen->paths, entry->entry_type == JIP_DIRECTORY ? "/ " : " ");
    return ++seen->count == seen->last ? 77 : 0;
}

static void walks(void) {
    jip_handle h = blank(JIP_FFS, JIP_DOUBLE_DENSITY);
    struct seen seen = {"", 0, 0}, part = {"", 0, 2};
    EXPECT("an empty volume", jip_walk(&h, see, &seen) == JIP_DONE && seen.count == 0);
    make_directory(&h, "a");
    make_directory(&h, "a/b");
    make_file(&h, "a/b/c", 3);
    make_file(&h, "d", 1);
    EXPECT("a walk", jip_walk(&h, see, &seen) == JIP_DONE && seen.count == 4);
    EXPECT("directories first", strstr(seen.paths, "a/ a/b/ a/b/c ") != NULL && strstr(seen.paths, "d ") != NULL);
    EXPECT("a walk that ends", jip_walk(&h, see, &part) == 77 && part.count == 2);
    EXPECT("no visitor", jip_walk(&h, NULL, NULL) == JIP_WRONG_ARGUMENT);
    RESULTS("an exclusive lock", locate(&h, 0, "a/b", JIP_EXCLUSIVE_LOCK), 1, 0);
    seen.paths[0] = 0;
    EXPECT("a directory in use", jip_walk(&h, see, &seen) == JIP_ERROR_OBJECT_IN_USE);
    RESULTS("free", free_lock(&h, 1), JIP_DOSTRUE, 0);
    ends("walks", &h);
}

/* Makes twenty nested directories with names of thirty letters, and uses their path. */
static void long_paths(void) {
    jip_handle h = blank(JIP_OFS, JIP_DOUBLE_DENSITY);
    char path[1000] = "", odd[1000];
    uint32_t lock = 0;
    const char *rest = NULL;
    size_t rest_length = 0;
    for (int i = 0; i < 20; i++) {
        jip_packet p;
        strcat(path, "abcdefghijklmnopqrstuvwxyz1234");
        EXPECT("reach", jip_reach(&h, path, JIP_TO_ZERO, &lock, &rest, &rest_length) == JIP_DONE && rest_length <= JIP_PATH_BYTES);
        jip_create_dir(&p, now, lock, rest);
        RESULTS("free", free_lock(&h, (uint32_t)asked(&h, &p).res1), JIP_DOSTRUE, 0);
        RESULTS("free", free_lock(&h, lock), JIP_DOSTRUE, 0);
        strcat(path, "/");
    }
    strcpy(odd, path);
    strcat(path, "file");
    EXPECT("a long path", put(&h, path, TEXT("far down")) == JIP_DONE && has(&h, path, "far down"));
    strcat(odd, "/abcdefghijklmnopqrstuvwxyz1234/FILE");
    EXPECT("up and down", has(&h, odd, "far down"));
    path[300] = ':';
    EXPECT("a colon far behind", put(&h, path, TEXT("x")) == JIP_ERROR_INVALID_COMPONENT_NAME);
    memset(path, 'x', 999);
    EXPECT("a name without an end", put(&h, path, TEXT("x")) == JIP_ERROR_INVALID_COMPONENT_NAME);
    ends("long paths", &h);
}

static void wrong_arguments(void) {
    jip_handle closed = JIP_CLOSED, h = blank(JIP_OFS, JIP_DOUBLE_DENSITY);
    struct seen seen = {"", 0, 0};
    char byte;
    size_t length;
    EXPECT("closed", jip_read_file(&closed, "f", 1, &byte, 1, &length) == JIP_WRONG_ARGUMENT);
    EXPECT("closed", jip_write_file(&closed, now, "f", 1, "x", 1) == JIP_WRONG_ARGUMENT);
    EXPECT("closed", jip_walk(&closed, see, &seen) == JIP_WRONG_ARGUMENT && jip_store(&closed, "f") == JIP_WRONG_ARGUMENT);
    EXPECT("null", jip_read_file(NULL, "f", 1, &byte, 1, &length) == JIP_WRONG_ARGUMENT);
    EXPECT("null", jip_read_file(&h, NULL, 1, &byte, 1, &length) == JIP_WRONG_ARGUMENT);
    EXPECT("null", jip_read_file(&h, "f", 1, NULL, 1, &length) == JIP_WRONG_ARGUMENT);
    EXPECT("null", jip_read_file(&h, "f", 1, &byte, 1, NULL) == JIP_WRONG_ARGUMENT);
    EXPECT("null", jip_write_file(&h, now, "f", 1, NULL, 1) == JIP_WRONG_ARGUMENT);
    EXPECT("null", jip_load(NULL, &closed, NULL) == JIP_WRONG_ARGUMENT && jip_store(&h, NULL) == JIP_WRONG_ARGUMENT);
    ends("wrong arguments", &h);
}

static int32_t load(const char *path, jip_handle *h, jip_fault *fault) {
    errno = 0;
    return jip_load(path, h, fault);
}

/* Stores to a file that another process has locked, shared, for so long. */
static int32_t store_beside_reader(jip_handle *h, const char *path, long milliseconds) {
    const struct timespec pause = {milliseconds / 1000, milliseconds % 1000 * 1000000};
    int ready[2];
    char byte = 0;
    if (pipe(ready) != 0) return JIP_WRONG_ARGUMENT;
    const pid_t reader = fork();
    if (reader == 0) {
        const int held = open(path, O_RDONLY);
        const bool told = held >= 0 && flock(held, LOCK_SH) == 0 && write(ready[1], &byte, 1) == 1;
        _exit(told && nanosleep(&pause, NULL) == 0 ? 0 : 1);
    }
    const bool waits = reader > 0 && read(ready[0], &byte, 1) == 1;
    const int32_t stored = waits ? jip_store(h, path) : JIP_WRONG_ARGUMENT;
    const int error = errno;
    if (reader > 0) (void)(kill(reader, SIGKILL), waitpid(reader, NULL, 0));
    (void)(close(ready[0]), close(ready[1]));
    errno = error;
    return stored;
}

static void host_files(void) {
    jip_handle h = blank(JIP_FFS, JIP_DOUBLE_DENSITY), other = JIP_CLOSED;
    jip_fault fault = {0, 0};
    struct stat kept;
    EXPECT("a new file", jip_store(&h, "whole.adf") == JIP_DONE && chmod("whole.adf", 0640) == 0);
    EXPECT("f", put(&h, "f", TEXT("stored")) == JIP_DONE);
    EXPECT("a file is replaced", jip_store(&h, "./whole.adf") == JIP_DONE);
    EXPECT("its mode stays", stat("whole.adf", &kept) == 0 && (kept.st_mode & 0777) == 0640);
    EXPECT("it is loaded", load("whole.adf", &other, &fault) == JIP_DONE && has(&other, "f", "stored"));
    EXPECT("an open handle", load("whole.adf", &other, &fault) == JIP_WRONG_ARGUMENT);
    (void)jip_close(&other);
    EXPECT("no file", load("none.adf", &other, &fault) == JIP_HOST_FAILED && errno == ENOENT);
    EXPECT("a directory", load(".", &other, &fault) == JIP_HOST_FAILED && errno == EISDIR);
    EXPECT("no image", load("/dev/null", &other, &fault) == JIP_NOT_AN_IMAGE && fault.kind == JIP_FAULT_TOO_FEW_BLOCKS);
    EXPECT("a device", jip_store(&h, "/dev/null") == JIP_DONE);
    EXPECT("no folder", jip_store(&h, "none/whole.adf") == JIP_HOST_FAILED && errno == ENOENT);
    EXPECT("a folder", jip_store(&h, ".") == JIP_HOST_FAILED && errno == EISDIR);
    EXPECT("a link", symlink("whole.adf", "link.adf") == 0 && jip_store(&h, "link.adf") == JIP_DONE);
    EXPECT("it stays", lstat("link.adf", &kept) == 0 && S_ISLNK(kept.st_mode));
    EXPECT("a link to nothing", symlink("nowhere", "lost.adf") == 0 && jip_store(&h, "lost.adf") == JIP_HOST_FAILED && errno == ENOENT);
    const int held = open("whole.adf", O_RDONLY);
    EXPECT("a file that is held", flock(held, LOCK_EX) == 0 && jip_store(&h, "whole.adf") == JIP_HOST_FAILED && errno == EWOULDBLOCK);
    EXPECT("and given up", close(held) == 0 && jip_store(&h, "whole.adf") == JIP_DONE);
    EXPECT("a reader", store_beside_reader(&h, "whole.adf", 200) == JIP_DONE);
    EXPECT("without end", store_beside_reader(&h, "whole.adf", 60000) == JIP_HOST_FAILED && errno == EWOULDBLOCK);
    EXPECT("nothing is left beside", access(".jiponuwha-0.new", F_OK) != 0);
    (void)unlink("link.adf");
    (void)unlink("lost.adf");
    (void)unlink("whole.adf");
    ends("host files", &h);
}

int main(void) {
    versions();
    texts();
    for (int32_t format = JIP_OFS; format <= JIP_FFS; format++) {
        whole_files(format);
        refused_files(format);
    }
    walks();
    long_paths();
    wrong_arguments();
    host_files();
    return summed_up();
}
