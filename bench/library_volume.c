/* Times a volume in memory by the library for C, with packets alone:
 *
 *   library_volume read FILE                    opens the image of a file, and reads all files in it
 *   library_volume memory FILE                  the same twice, so that the memory of the second time is not fresh
 *   library_volume changes ofs|ffs FILES DIRS   makes, reads and removes so many small files in so many directories, 0 for the
 *                                               root, and one of 819,200 bytes
 *   library_volume largest ofs|ffs BYTES DIRS   writes one file of so many bytes to the largest volume, and fills directories
 *
 * What was done goes to standard output, and microseconds from the start on, after each step, to standard error.
 */
#define _DEFAULT_SOURCE
#include <malloc.h>

#include "library.h"

enum {
    BLOCKS = 20000,
    SMALL = 100,
    LARGE = 819200,
    PIECE = 512,
    BUFFER = 65536,
    FILES_IN_DIRECTORY = 100,
    /* After how many directories a line says how long they took. */
    PART = 50,
    PATH = 32
};

/* What a volume has, as far as it was read. */
struct found {
    long files;
    long long bytes;
};

static uint8_t buffer[BUFFER];

static long long elapsed(double start) {
    return (long long)(microseconds() - start);
}

/* The file handle of a path that one of the three packets opens. */
static uint32_t open_file(jip_handle *handle, int32_t action, uint32_t lock, const char *path) {
    jip_packet packet;
    jip_on_lock(&packet, action, moment, lock, path);
    return serve(handle, &packet).handle;
}

static void end_file(jip_handle *handle, uint32_t file) {
    jip_packet packet;
    jip_end(&packet, moment, file);
    serve(handle, &packet);
}

/* Reads a file from its start to its end, and returns how many bytes it has. */
static long long read_file(jip_handle *handle, uint32_t lock, const char *path) {
    jip_packet packet;
    long long bytes = 0;
    int32_t count;
    const uint32_t file = open_file(handle, JIP_ACTION_FINDINPUT, lock, path);
    jip_read(&packet, moment, file, buffer, BUFFER);
    while ((count = serve(handle, &packet).res1) > 0) bytes += count;
    end_file(handle, file);
    return bytes;
}

/* Makes a file, or empties it, and writes bytes to it in calls of so many. */
static void write_file(jip_handle *handle, const char *path, const uint8_t *bytes, size_t length, size_t piece) {
    jip_packet packet;
    const uint32_t file = open_file(handle, JIP_ACTION_FINDOUTPUT, 0, path);
    for (size_t at = 0; at < length; at += piece) {
        jip_write(&packet, moment, file, bytes + at, length - at < piece ? length - at : piece);
        serve(handle, &packet);
    }
    end_file(handle, file);
}

static void remove_object(jip_handle *handle, const char *path) {
    jip_packet packet;
    jip_delete_object(&packet, moment, 0, path);
    serve(handle, &packet);
}

static uint32_t used_blocks(jip_handle *handle) {
    jip_packet packet;
    jip_disk_info(&packet, moment);
    return serve(handle, &packet).disk.used;
}

/* Reads all files in the directory of a lock and below it. */
static void read_directory(jip_handle *handle, uint32_t lock, struct found *found) {
    jip_packet packet;
    jip_answer answer;
    jip_examine_object(&packet, moment, lock);
    answer = serve(handle, &packet);
    for (;;) {
        jip_examine_next(&packet, moment, lock, answer.entry.key);
        if (jip_serve(handle, &packet, &answer) != JIP_DONE) fail("no memory");
        if (answer.res2 == JIP_ERROR_NO_MORE_ENTRIES) return;
        if (answer.res2 != 0) fail("an entry is refused");
        const char *name = (const char *)answer.entry.name;
        if (answer.entry.entry_type == JIP_FILE) {
            found->files += 1;
            found->bytes += read_file(handle, lock, name);
            continue;
        }
        jip_locate_object(&packet, moment, lock, name, JIP_SHARED_LOCK);
        const uint32_t below = (uint32_t)serve(handle, &packet).res1;
        read_directory(handle, below, found);
        jip_free_lock(&packet, moment, below);
        serve(handle, &packet);
    }
}

/* The bytes of a file of the host, which the caller frees. */
static uint8_t *load(const char *path, size_t *length) {
    enum { MOST_BYTES = JIP_MOST_BLOCKS * JIP_BLOCK_BYTES };
    FILE *file = fopen(path, "rb");
    uint8_t *bytes = malloc(MOST_BYTES + 1);
    if (file == NULL || bytes == NULL) fail("the image cannot be read");
    setvbuf(file, NULL, _IONBF, 0);
    *length = fread(bytes, 1, MOST_BYTES + 1, file);
    fclose(file);
    return bytes;
}

/* Opens an image, reads all files in it, and prints the microseconds until each is done. */
static struct found look_through(const uint8_t *bytes, size_t length, double start) {
    jip_handle handle = JIP_CLOSED;
    jip_fault fault;
    struct found found = {0, 0};
    if (jip_open(bytes, length, &handle, &fault) != JIP_DONE) fail("the image is refused");
    const long long opened = elapsed(start);
    read_directory(&handle, 0, &found);
    fprintf(stderr, "%lld %lld\n", opened, elapsed(start));
    jip_close(&handle);
    return found;
}

static void read_image(const char *path, int again) {
    size_t length;
    double start = microseconds();
    uint8_t *bytes = load(path, &length);
    fprintf(stderr, "volume %lld ", elapsed(start));
    struct found found = look_through(bytes, length, start);
    if (again) {
        /* What a copy of the image takes, which an open makes too. */
        uint8_t *copy = malloc(length);
        if (copy == NULL) fail("no memory");
        memcpy(copy, bytes, length);
        start = microseconds();
        memcpy(copy, bytes, length);
        fprintf(stderr, "memory %lld ", elapsed(start));
        if (memcmp(copy, bytes, length) != 0) fail("another copy");
        free(copy);
        look_through(bytes, length, microseconds());
    }
    printf("%ld files, %lld bytes\n", found.files, found.bytes);
    free(bytes);
}

/* The path of a small file. */
static const char *path_of(char path[PATH], long n, long dirs) {
    if (dirs == 0)
        snprintf(path, PATH, "%05ld", n % 100000);
    else
        snprintf(path, PATH, "%ld/%05ld", n % dirs, n % 100000);
    return path;
}

static const char *directory_of(char path[PATH], long n) {
    snprintf(path, PATH, "%ld", n);
    return path;
}

/* Makes, reads and removes small files in directories of the root, and returns how many bytes were read. */
static long long time_small(jip_handle *handle, const uint8_t *bytes, long files, long dirs) {
    char path[PATH];
    long long read = 0;
    const double start = microseconds();
    for (long n = 0; n < dirs; n++) make_directory(handle, directory_of(path, n));
    for (long n = 0; n < files; n++) write_file(handle, path_of(path, n, dirs), bytes, SMALL, SMALL);
    const long long made = elapsed(start);
    for (long n = 0; n < files; n++) read += read_file(handle, 0, path_of(path, n, dirs));
    const long long until_read = elapsed(start);
    for (long n = 0; n < files; n++) remove_object(handle, path_of(path, n, dirs));
    for (long n = 0; n < dirs; n++) remove_object(handle, directory_of(path, n));
    fprintf(stderr, "small %lld %lld %lld\n", made, until_read, elapsed(start));
    return read;
}

/* Writes a large file at once and in pieces, reads it, and returns how many bytes were read. */
static long long time_large(jip_handle *handle, const uint8_t *bytes) {
    const double start = microseconds();
    write_file(handle, "once", bytes, LARGE, LARGE);
    const long long once = elapsed(start);
    write_file(handle, "pieces", bytes, LARGE, PIECE);
    const long long pieces = elapsed(start);
    const long long read = read_file(handle, 0, "pieces");
    const long long until_read = elapsed(start);
    remove_object(handle, "once");
    remove_object(handle, "pieces");
    fprintf(stderr, "large %lld %lld %lld %lld\n", once, pieces, until_read, elapsed(start));
    return read;
}

/* So many bytes to write, which the caller frees. */
static uint8_t *filled(size_t length) {
    uint8_t *bytes = malloc(length);
    if (bytes == NULL) fail("no memory");
    memset(bytes, 'x', length);
    return bytes;
}

static void blank(jip_handle *handle, const char *kind, uint32_t blocks) {
    const int32_t format = strcmp(kind, "ofs") == 0 ? JIP_OFS : JIP_FFS;
    if (jip_blank(format, blocks, "Bench", 5, moment, handle) != JIP_DONE) fail("no memory");
}

static void change(const char *kind, long files, long dirs) {
    jip_handle handle = JIP_CLOSED;
    uint8_t *bytes = filled(LARGE);
    blank(&handle, kind, BLOCKS);
    const long long small = time_small(&handle, bytes, files, dirs);
    const long long large = time_large(&handle, bytes);
    printf("%ld files, %lld bytes; %lld bytes; %lu blocks left in use\n", files, small, large, (unsigned long)used_blocks(&handle));
    jip_close(&handle);
    free(bytes);
}

/* Writes a file in calls of so many bytes and removes it, and returns the microseconds that the writing took. */
static long long time_file(jip_handle *handle, const uint8_t *bytes, size_t length, size_t piece) {
    const double start = microseconds();
    write_file(handle, "file", bytes, length, piece);
    const long long written = elapsed(start);
    remove_object(handle, "file");
    return written;
}

/* Fills directories of the root one after another, and prints now and then how many there are and the microseconds until then. */
static void time_filling(jip_handle *handle, const uint8_t *bytes, long dirs) {
    char path[PATH];
    const double start = microseconds();
    for (long dir = 0; dir < dirs; dir++) {
        make_directory(handle, directory_of(path, dir));
        for (int n = 0; n < FILES_IN_DIRECTORY; n++) {
            snprintf(path, PATH, "%ld/%02d", dir, n);
            write_file(handle, path, bytes, SMALL, SMALL);
        }
        if (dir % PART == PART - 1) fprintf(stderr, "filled %ld %lld\n", dir, elapsed(start));
    }
}

static void fill_largest(const char *kind, size_t length, long dirs) {
    jip_handle handle = JIP_CLOSED;
    uint8_t *bytes = filled(length < SMALL ? SMALL : length);
    blank(&handle, kind, JIP_MOST_BLOCKS);
    /* The memory of the image, and that of a packet, are touched before anything is timed. */
    time_file(&handle, bytes, length, length);
    const long long once = time_file(&handle, bytes, length, length);
    const long long pieces = time_file(&handle, bytes, length, PIECE);
    fprintf(stderr, "file %lld %lld\n", once, pieces);
    time_filling(&handle, bytes, dirs);
    printf("%lu bytes; %ld directories; %lu blocks in use\n", (unsigned long)length, dirs, (unsigned long)used_blocks(&handle));
    jip_close(&handle);
    free(bytes);
}

/* Memory that is given back is kept for the next call of its size, which then has none of fresh pages. */
static void keep_memory(void) {
    mallopt(M_MMAP_MAX, 0);
    mallopt(M_TRIM_THRESHOLD, 1 << 30);
}

int main(int count, char **words) {
    if (count == 3 && strcmp(words[1], "read") == 0) {
        read_image(words[2], 0);
        return 0;
    }
    keep_memory();
    if (count == 3 && strcmp(words[1], "memory") == 0) {
        read_image(words[2], 1);
    } else if (count == 5 && strcmp(words[1], "changes") == 0) {
        change(words[2], strtol(words[3], NULL, 10), strtol(words[4], NULL, 10));
    } else if (count == 5 && strcmp(words[1], "largest") == 0) {
        fill_largest(words[2], strtoul(words[3], NULL, 10), strtol(words[4], NULL, 10));
    } else {
        fail("usage: library_volume read FILE | memory FILE | changes ofs|ffs FILES DIRS | largest ofs|ffs BYTES DIRS");
    }
    return 0;
}
