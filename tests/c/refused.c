/* Refuses each growth of memory in turn, in each call for whole files and paths, walks, files of the host, the map, faults, salvage and
 * dates. A refused call leaves no lock and no file handle, and the file is unchanged or deleted. The program needs glibc, for
 * the second names of its heap functions. It writes to the current directory. */
#include "asking.h"

#include <errno.h>

void *__libc_malloc(size_t size);
void *__libc_calloc(size_t count, size_t size);
void *__libc_realloc(void *at, size_t size);

/* The number of growths before the refused one; -1 refuses none. */
static long left = -1;

static int refuses(void) {
    if (left < 0) return 0;
    if (left-- > 0) return 0;
    left = -1;
    errno = ENOMEM;
    return 1;
}

void *malloc(size_t size) { return refuses() ? NULL : __libc_malloc(size); }
void *calloc(size_t count, size_t size) { return refuses() ? NULL : __libc_calloc(count, size); }
void *realloc(void *at, size_t size) { return refuses() ? NULL : __libc_realloc(at, size); }

static char many[300000], found[300000];

static int32_t visit(void *context, const char *path, size_t path_length, const jip_entry *entry) {
    (void)path, (void)path_length, (void)entry;
    ++*(int *)context;
    return 0;
}

static int32_t reads(jip_handle *h) {
    size_t length;
    return jip_read_file(h, "d/old", JIP_TO_ZERO, found, sizeof found, &length);
}
static int32_t writes_new(jip_handle *h) { return jip_write_file(h, now, "d/new", JIP_TO_ZERO, many, 1000); }
static int32_t writes_old(jip_handle *h) { return jip_write_file(h, now, "d/old", JIP_TO_ZERO, many, 2000); }
static int32_t writes_much(jip_handle *h) { return jip_write_file(h, now, "d/new", JIP_TO_ZERO, many, sizeof many); }
static int32_t walks(jip_handle *h) {
    int count = 0;
    const int32_t result = jip_walk(h, visit, &count);
    return result == JIP_DONE && count != 2 ? -1 : result;
}
static int32_t makes(jip_handle *h) { return jip_make_directory(h, now, "d/new", JIP_TO_ZERO); }
static int32_t moves(jip_handle *h) { return jip_rename(h, now, "d/old", JIP_TO_ZERO, "d/new", JIP_TO_ZERO); }
static int32_t deletes(jip_handle *h) { return jip_delete(h, now, "d/old", JIP_TO_ZERO); }
static int32_t describes(jip_handle *h) {
    jip_entry entry;
    return jip_stat(h, "d/old", JIP_TO_ZERO, &entry);
}
static int32_t lists(jip_handle *h) {
    jip_entry entries[2];
    size_t count = 0;
    const int32_t result = jip_list(h, "d", JIP_TO_ZERO, entries, 2, &count);
    return result == JIP_DONE && count != 1 ? -1 : result;
}
static int32_t stores(jip_handle *h) { return jip_store(h, "refused.adf"); }
static int32_t loads(jip_handle *h) {
    jip_handle other = JIP_CLOSED;
    jip_fault fault;
    const int32_t result = jip_load("refused.adf", &other, &fault);
    (void)h;
    (void)jip_close(&other);
    return result;
}

/* Salvages the image, undamaged or with a damaged first byte. */
static int32_t salvages_byte(jip_handle *h, uint8_t first) {
    static uint8_t image[800 * JIP_BLOCK_BYTES];
    jip_salvage list = JIP_CLOSED;
    static jip_told told[1600];
    size_t length;
    int32_t result = jip_copy_image(h, image, sizeof image);
    image[0] = first;
    if (result == JIP_DONE) result = jip_salvage_open(image, sizeof image, &list);
    if (result == JIP_DONE && jip_salvage_count(&list) != 2) result = -1;
    if (result == JIP_DONE) result = jip_salvage_path(&list, 1, found, sizeof found, &length);
    if (result == JIP_DONE) result = jip_salvage_read(&list, 1, found, sizeof found, &length);
    if (result == JIP_DONE) result = jip_salvage_blocks(&list, told, 1600, &length);
    (void)jip_salvage_close(&list);
    return result;
}
static int32_t salvages(jip_handle *h) { return salvages_byte(h, 'D'); }
static int32_t salvages_damaged(jip_handle *h) { return salvages_byte(h, 'K'); }
/* The label and the boot block of a copy of the image. */
static int32_t looks(jip_handle *h) {
    static uint8_t image[800 * JIP_BLOCK_BYTES];
    jip_boot boot;
    size_t length;
    int32_t result = jip_copy_image(h, image, sizeof image);
    if (result == JIP_DONE) result = jip_label(image, sizeof image, found, sizeof found, &length);
    if (result == JIP_DONE) result = jip_install_boot(image, sizeof image);
    if (result == JIP_DONE) result = jip_boot_block(image, sizeof image, &boot);
    return result == JIP_DONE && boot.code != JIP_BOOT_STANDARD ? -1 : result;
}
static int32_t maps(jip_handle *h) {
    static jip_owner owners[800];
    size_t count = 0;
    const int32_t result = jip_map(h, owners, 800, &count);
    return result == JIP_DONE && count != 800 ? -1 : result;
}
static int32_t checks(jip_handle *h) {
    static uint8_t image[800 * JIP_BLOCK_BYTES];
    size_t count = 0;
    int32_t more = 0;
    int32_t result = jip_copy_image(h, image, sizeof image);
    image[512 * 400 + 7] ^= 1; /* the root has a fault */
    if (result == JIP_DONE) result = jip_check(image, sizeof image, NULL, 0, &count, &more);
    return result == JIP_DONE ? jip_check_values(image, sizeof image, NULL, 0, &count, &more) : result;
}
static int32_t dates(jip_handle *h) {
    jip_date date;
    (void)h;
    return jip_date_of_text("1990-01-01 12:00:00.00", 22, &date);
}

static int is_no_memory(int32_t result) {
    return result == JIP_NO_MEMORY || result == JIP_ERROR_NO_FREE_STORE || (result == JIP_HOST_FAILED && errno == ENOMEM);
}

/* Makes a volume with a file of 1,000 bytes in a directory. It has little room for `many`. */
static jip_handle prepared(void) {
    jip_handle h = blank(JIP_FFS, 800);
    make_directory(&h, "d");
    make_file(&h, "d/old", 1000);
    return h;
}

static void refuse_each(const char *name, int32_t (*call)(jip_handle *)) {
    int32_t result = JIP_NO_MEMORY;
    long growths = 0;
    for (; growths < 10000 && result != JIP_DONE; growths++) {
        jip_handle h = prepared();
        size_t length = 0;
        left = growths;
        result = call(&h);
        left = -1;
        EXPECT(name, result == JIP_DONE || is_no_memory(result));
        if (result != JIP_DONE) {
            EXPECT(name, jip_read_file(&h, "d/new", JIP_TO_ZERO, NULL, 0, &length) == JIP_ERROR_OBJECT_NOT_FOUND);
            EXPECT(name, jip_read_file(&h, "d/old", JIP_TO_ZERO, NULL, 0, &length) == JIP_DONE && length == 1000);
        }
        RESULTS(name, die(&h), JIP_DOSTRUE, 0);
        (void)jip_close(&h);
    }
    EXPECT(name, result == JIP_DONE && growths > 1);
}

int main(void) {
    refuse_each("read_file", reads);
    refuse_each("write_file, new", writes_new);
    refuse_each("write_file, old", writes_old);
    refuse_each("write_file, tried on a copy", writes_much);
    refuse_each("make_directory", makes);
    refuse_each("rename", moves);
    refuse_each("delete", deletes);
    refuse_each("stat", describes);
    refuse_each("list", lists);
    refuse_each("walk", walks);
    refuse_each("store", stores);
    refuse_each("load", loads);
    refuse_each("map", maps);
    refuse_each("check", checks);
    refuse_each("salvage", salvages);
    refuse_each("salvage, damaged", salvages_damaged);
    refuse_each("label and boot block", looks);
    refuse_each("date of a text", dates);
    (void)remove("refused.adf");
    return summed_up();
}
