/* What `bench` times, by ADFlib in the same process: adflib_peer list FILE | read FILE | changes FILE ofs|ffs FILES DIRS |
 * add FILE DIRECTORY | deleted FILE. What was done goes to standard output, and microseconds from the start on, after each step,
 * to standard error. */
#define _XOPEN_SOURCE 700
#include <dirent.h>
#include <stdint.h>
#include <stdio.h>
#include <stdlib.h>
#include <string.h>
#include <sys/stat.h>
#include <time.h>

#include "adflib.h"

enum { SMALL = 100, LARGE = 819200, PIECE = 512, BUFFER = 65536, CYLINDERS = 1250, SECTORS = 16 };

/* What a volume has, as far as it was looked through. */
struct found {
    long files;
    long long bytes;
};

static unsigned char buffer[LARGE];

static void fail(const char *what) {
    fprintf(stderr, "adflib_peer: %s\n", what);
    exit(1);
}

static long long micros(void) {
    struct timespec now;
    timespec_get(&now, TIME_UTC);
    return now.tv_sec * 1000000LL + now.tv_nsec / 1000;
}

/* The name of a small file, and that of its directory, both ended by 0. */
static void name_file(char name[6], long n) {
    snprintf(name, 6, "%05ld", n % 100000);
}

static void name_dir(char name[2], long n) {
    name[0] = (char)('0' + n % 10);
    name[1] = 0;
}

static struct Volume *mount(struct Device *device, BOOL read_only) {
    struct Volume *volume = device == NULL ? NULL : adfMount(device, 0, read_only);
    if (volume == NULL) fail("the image cannot be mounted");
    return volume;
}

/* Reads the file of this name in the volume's directory, and returns how many bytes it has. */
static long long read_file(struct Volume *volume, char *name) {
    long long bytes = 0;
    struct File *file = adfOpenFile(volume, name, "r");
    if (file == NULL) fail("a file cannot be opened");
    while (!adfEndOfFile(file)) bytes += adfReadFile(file, BUFFER, buffer);
    adfCloseFile(file);
    return bytes;
}

static void write_file(struct Volume *volume, char *name, long bytes, long piece) {
    struct File *file = adfOpenFile(volume, name, "w");
    if (file == NULL) fail("a file cannot be made");
    for (long at = 0; at < bytes; at += piece) {
        if (adfWriteFile(file, (int32_t)piece, buffer + at) != piece) fail("a write falls short");
    }
    adfCloseFile(file);
}

/* Goes through a directory and those below it, and reads the files where that is asked for. */
static void look(struct Volume *volume, SECTNUM directory, int reads, struct found *found) {
    struct List *entries = adfGetDirEnt(volume, directory);
    for (struct List *it = entries; it != NULL; it = it->next) {
        struct Entry *entry = it->content;
        if (entry->type == ST_DIR) {
            look(volume, entry->sector, reads, found);
        } else if (entry->type == ST_FILE) {
            volume->curDirPtr = directory;
            found->files += 1;
            found->bytes += reads ? read_file(volume, entry->name) : (long long)entry->size;
        }
    }
    adfFreeDirList(entries);
}

static void look_through(char *path, int reads) {
    struct found found = {0, 0};
    long long start = micros();
    struct Device *device = adfMountDev(path, TRUE);
    struct Volume *volume = mount(device, TRUE);
    long long loaded = micros() - start;
    look(volume, volume->curDirPtr, reads, &found);
    fprintf(stderr, "volume %lld %lld\n", loaded, micros() - start);
    printf("%ld files, %lld bytes\n", found.files, found.bytes);
    adfUnMount(volume);
    adfUnMountDev(device);
}

static void enter(struct Volume *volume, long n, long dirs) {
    char name[2];
    adfToRootDir(volume);
    if (dirs == 0) return;
    name_dir(name, n % dirs);
    if (adfChangeDir(volume, name) != RC_OK) fail("a directory is not there");
}

static void make_files(struct Volume *volume, long files, long dirs) {
    char name[6];
    for (long n = 0; n < dirs; n++) {
        name_dir(name, n);
        if (adfCreateDir(volume, volume->curDirPtr, name) != RC_OK) fail("a directory cannot be made");
    }
    for (long n = 0; n < files; n++) {
        enter(volume, n, dirs);
        name_file(name, n);
        write_file(volume, name, SMALL, SMALL);
    }
}

static long long read_files(struct Volume *volume, long files, long dirs) {
    char name[6];
    long long bytes = 0;
    for (long n = 0; n < files; n++) {
        enter(volume, n, dirs);
        name_file(name, n);
        bytes += read_file(volume, name);
    }
    return bytes;
}

static void remove_files(struct Volume *volume, long files, long dirs) {
    char name[6];
    for (long n = 0; n < files; n++) {
        enter(volume, n, dirs);
        name_file(name, n);
        if (adfRemoveEntry(volume, volume->curDirPtr, name) != RC_OK) fail("a file cannot be taken away");
    }
    adfToRootDir(volume);
    for (long n = 0; n < dirs; n++) {
        name_dir(name, n);
        if (adfRemoveEntry(volume, volume->curDirPtr, name) != RC_OK) fail("a directory cannot be taken away");
    }
}

static long long time_small(struct Volume *volume, long files, long dirs) {
    long long start = micros();
    make_files(volume, files, dirs);
    long long made = micros() - start;
    long long bytes = read_files(volume, files, dirs);
    long long read = micros() - start;
    remove_files(volume, files, dirs);
    fprintf(stderr, "small %lld %lld %lld\n", made, read, micros() - start);
    return bytes;
}

static long long time_large(struct Volume *volume) {
    char once[] = "once", pieces[] = "pieces";
    adfToRootDir(volume);
    long long start = micros();
    write_file(volume, once, LARGE, LARGE);
    long long written = micros() - start;
    write_file(volume, pieces, LARGE, PIECE);
    long long in_pieces = micros() - start;
    long long bytes = read_file(volume, pieces);
    long long read = micros() - start;
    if (adfRemoveEntry(volume, volume->curDirPtr, once) != RC_OK || adfRemoveEntry(volume, volume->curDirPtr, pieces) != RC_OK)
        fail("a large file cannot be taken away");
    fprintf(stderr, "large %lld %lld %lld %lld\n", written, in_pieces, read, micros() - start);
    return bytes;
}

static void change(char *path, int kind, long files, long dirs) {
    char label[] = "Bench";
    struct Device *device = adfCreateDumpDevice(path, CYLINDERS, 1, SECTORS);
    if (device == NULL || adfCreateHdFile(device, label, kind) != RC_OK) fail("the image cannot be made");
    struct Volume *volume = mount(device, FALSE);
    memset(buffer, 'x', sizeof buffer);
    long long small = time_small(volume, files, dirs);
    long long large = time_large(volume);
    printf("%ld files, %lld bytes; %lld bytes\n", files, small, large);
    adfUnMount(volume);
    adfUnMountDev(device);
}

/* The host's file as a new file in the volume's directory; it has at most `LARGE` bytes. */
static void add_file(struct Volume *volume, const char *path, char *name, struct found *found) {
    FILE *host = fopen(path, "rb");
    if (host == NULL) fail("a file of the host cannot be read");
    size_t bytes = fread(buffer, 1, LARGE, host);
    fclose(host);
    write_file(volume, name, (long)bytes, bytes == 0 ? 1 : (long)bytes);
    found->files += 1;
    found->bytes += (long long)bytes;
}

/* All that is in a directory of the host, into the directory of this number. */
static void add_all(struct Volume *volume, SECTNUM directory, const char *path, struct found *found) {
    struct dirent **entries;
    int count = scandir(path, &entries, NULL, alphasort);
    if (count < 0) fail("a directory of the host cannot be read");
    for (int n = 0; n < count; n++) {
        char *name = entries[n]->d_name;
        char below[4096];
        struct stat told;
        if (strcmp(name, ".") == 0 || strcmp(name, "..") == 0) continue;
        snprintf(below, sizeof below, "%s/%s", path, name);
        if (stat(below, &told) != 0) fail("a file of the host cannot be looked at");
        volume->curDirPtr = directory;
        if (!S_ISDIR(told.st_mode)) {
            add_file(volume, below, name, found);
            continue;
        }
        if (adfCreateDir(volume, directory, name) != RC_OK || adfChangeDir(volume, name) != RC_OK) fail("a directory cannot be made");
        add_all(volume, volume->curDirPtr, below, found);
    }
}

static void add(char *image, const char *path) {
    struct found found = {0, 0};
    long long start = micros();
    struct Device *device = adfMountDev(image, FALSE);
    struct Volume *volume = mount(device, FALSE);
    add_all(volume, volume->curDirPtr, path, &found);
    adfUnMount(volume);
    adfUnMountDev(device);
    fprintf(stderr, "add %lld\n", micros() - start);
    printf("%ld files, %lld bytes\n", found.files, found.bytes);
}

/* A line for each deleted entry. */
static void list_deleted(char *path) {
    long long start = micros();
    struct Device *device = adfMountDev(path, TRUE);
    struct Volume *volume = mount(device, TRUE);
    struct List *entries = adfGetDelEnt(volume);
    for (struct List *it = entries; it != NULL; it = it->next) {
        struct GenBlock *block = it->content;
        printf("%ld %s\n", (long)block->sect, block->name == NULL ? "" : block->name);
    }
    adfFreeDelList(entries);
    fprintf(stderr, "deleted %lld\n", micros() - start);
    adfUnMount(volume);
    adfUnMountDev(device);
}

/* ADFlib tells of each step on standard output; nothing of that is wanted. */
static void quiet(char *text) {
    (void)text;
}

int main(int count, char **words) {
    adfEnvInitDefault();
    adfChgEnvProp(PR_WFCT, (void *)quiet);
    adfChgEnvProp(PR_VFCT, (void *)quiet);
    if (count == 3 && strcmp(words[1], "list") == 0) {
        look_through(words[2], 0);
    } else if (count == 3 && strcmp(words[1], "read") == 0) {
        look_through(words[2], 1);
    } else if (count == 6 && strcmp(words[1], "changes") == 0) {
        int kind = strcmp(words[3], "ofs") == 0 ? 0 : FSMASK_FFS;
        change(words[2], kind, strtol(words[4], NULL, 10), strtol(words[5], NULL, 10));
    } else if (count == 4 && strcmp(words[1], "add") == 0) {
        add(words[2], words[3]);
    } else if (count == 3 && strcmp(words[1], "deleted") == 0) {
        list_deleted(words[2]);
    } else {
        fail("list FILE | read FILE | changes FILE ofs|ffs FILES DIRS | add FILE DIRECTORY | deleted FILE");
    }
    adfEnvCleanUp();
    return 0;
}
