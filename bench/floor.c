/* What the host's kernel alone takes of a command for damaged disks, for docs/BENCHMARKS.md. It does what a command cannot leave out, and nothing else:
 *
 *   floor read IMAGE        reads the image whole into fresh memory, 64 KiB at a time
 *   floor write IMAGE       the same, and writes it to `made.adf`, as `validate`
 *   floor undelete IMAGE    the same, and writes 1,000 files of 45 KiB into `out`, as `undelete` for the image of `bench/damage.py`
 *   floor extract IMAGE     the same, and writes 4,411 files into 96 directories of `out`, as `extract` of a full image of 101,602 blocks
 *
 * Files are made by the path of the open directory's handle, and get a time, as the program does it. `measured` prints what it took:
 *
 *   cc -O2 -o floor bench/floor.c && GLIBC_TUNABLES=glibc.malloc.hugetlb=1 ./measured printed ./floor read image.adf
 */
#define _GNU_SOURCE
#include <fcntl.h>
#include <stdio.h>
#include <stdlib.h>
#include <string.h>
#include <sys/stat.h>
#include <unistd.h>

enum { CHUNK = 65536, HUGE_PAGE = 2097152, PAGES = 26, FILES = 1000, FILE_BYTES = 46080, DIRECTORIES = 96, IN_ONE = 46, ALL = 4411 };

static char chunk[CHUNK];

static void fail(const char *what) {
    perror(what);
    exit(1);
}

/* Opens a new directory in one that is open. */
static int directory(int above, const char *name) {
    if (mkdirat(above, name, 0777) != 0) fail(name);
    int made = openat(above, name, O_RDONLY | O_DIRECTORY);
    if (made < 0) fail(name);
    return made;
}

static void write_whole(int file, const char *bytes, size_t size) {
    while (size > 0) {
        ssize_t count = write(file, bytes, size);
        if (count < 0) fail("write");
        bytes += count;
        size -= (size_t)count;
    }
}

/* Writes a new file in a directory by the path of its handle, and sets its time. */
static void write_file(int above, int number, const char *bytes, size_t size) {
    char path[64];
    snprintf(path, sizeof path, "/proc/self/fd/%d/File %d", above, number);
    int file = open(path, O_WRONLY | O_CREAT | O_EXCL | O_CLOEXEC, 0666);
    if (file < 0) fail(path);
    write_whole(file, bytes, size);
    const struct timespec times[2] = {{0, UTIME_OMIT}, {252460800, 0}};
    if (futimens(file, times) != 0) fail(path);
    close(file);
}

static void write_tree(const char *bytes) {
    int top = directory(AT_FDCWD, "out"), done = 0;
    for (int at = 0; at < DIRECTORIES; at++) {
        char name[32];
        snprintf(name, sizeof name, "Directory %d", at);
        int above = directory(top, name);
        for (int number = 0; number < IN_ONE && done < ALL; number++, done++) {
            write_file(above, number, bytes + (size_t)done * 10000, number % 10 == 0 ? 102400 : 600);
        }
        close(above);
    }
}

int main(int count, char **words) {
    if (count != 3) {
        fprintf(stderr, "usage: floor read|write|undelete|extract IMAGE\n");
        return 2;
    }
    /* (the allocator's own bytes and these make whole huge pages, as in the program) */
    char *bytes = malloc((size_t)HUGE_PAGE * PAGES - 32);
    int image = open(words[2], O_RDONLY);
    if (bytes == NULL || image < 0) fail(words[2]);
    size_t size = 0;
    for (ssize_t part; (part = read(image, chunk, CHUNK)) > 0; size += (size_t)part) {
        if (size + (size_t)part > (size_t)HUGE_PAGE * PAGES - 32) return 1;
        memcpy(bytes + size, chunk, (size_t)part);
    }
    if (strcmp(words[1], "write") == 0) {
        int made = open("made.adf", O_WRONLY | O_CREAT | O_EXCL | O_CLOEXEC, 0666);
        if (made < 0) fail("made.adf");
        write_whole(made, bytes, size);
        close(made);
    } else if (strcmp(words[1], "undelete") == 0) {
        int above = directory(AT_FDCWD, "out");
        for (int number = 0; number < FILES; number++) write_file(above, number, bytes + (size_t)number * FILE_BYTES, FILE_BYTES);
        close(above);
    } else if (strcmp(words[1], "extract") == 0) {
        write_tree(bytes);
    }
    return 0;
}
