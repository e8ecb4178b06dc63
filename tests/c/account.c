/* Tests the lists of faults, and the map of blocks. */
#include "asking.h"

static int shows(const uint8_t *image, size_t length, const jip_fault *expected, size_t count) {
    jip_fault found[16];
    size_t told = 99;
    int32_t more = 99;
    if (jip_check(image, length, found, 16, &told, &more) != JIP_DONE || told != count || more != 0) return 0;
    for (size_t i = 0; i < count; i++)
        if (found[i].kind != expected[i].kind || found[i].block != expected[i].block) return 0;
    return 1;
}

static void faults(void) {
    static const jip_fault size[] = {{JIP_FAULT_NOT_WHOLE_BLOCKS, 0}}, few[] = {{JIP_FAULT_TOO_FEW_BLOCKS, 0}};
    static const jip_fault no_dos[] = {{JIP_FAULT_NOT_A_DOS_DISK, 0}}, kind[] = {{JIP_FAULT_UNSUPPORTED_KIND, 0}};
    static const jip_fault three[] = {{JIP_FAULT_BAD_SUM, 880}, {JIP_FAULT_BAD_NAME, 880}, {JIP_FAULT_BAD_SUM, 881}};
    jip_handle h = blank(JIP_FFS, JIP_DOUBLE_DENSITY);
    size_t length, count = 99;
    int32_t more = 99;
    uint8_t *image = image_of(&h, &length);
    jip_fault found[3] = {{77, 77}, {77, 77}, {77, 77}};
    EXPECT("a blank volume", shows(image, length, NULL, 0));
    EXPECT("no bytes", shows(NULL, 0, few, 1));
    EXPECT("half a block", shows(image, length - 256, size, 1));
    image[0] = 'd';
    EXPECT("no DOS", shows(image, length, no_dos, 1));
    image[0] = 'D';
    image[3] = 2;
    EXPECT("another kind", shows(image, length, kind, 1));
    image[3] = 1;
    image[512 * 880 + 433] = '/';
    image[512 * 881 + 100] ^= 1;
    EXPECT("three faults", shows(image, length, three, 3));
    EXPECT("no room", jip_check(image, length, NULL, 0, &count, &more) == JIP_DONE && count == 3 && more == 0);
    EXPECT("room for one", jip_check(image, length, found, 1, &count, &more) == JIP_DONE && count == 3);
    EXPECT("one is written", found[0].kind == JIP_FAULT_BAD_SUM && found[0].block == 880 && found[1].kind == 77);
    count = 99;
    EXPECT("no array", jip_check(image, length, NULL, 1, &count, &more) == JIP_WRONG_ARGUMENT && count == 99);
    EXPECT("no count", jip_check(image, length, found, 3, NULL, &more) == JIP_WRONG_ARGUMENT);
    EXPECT("no bytes at a length", jip_check(NULL, 1, found, 3, &count, &more) == JIP_WRONG_ARGUMENT);
    EXPECT("an array in the image", jip_check(image, length, (jip_fault *)(void *)image, 3, &count, &more) == JIP_WRONG_ARGUMENT);
    free(image);
    EXPECT("close", jip_close(&h) == JIP_DONE);
}

/* Faults with the longs that show them: a checksum, a key that is not the block's own, and a name. */
static void values(void) {
    jip_handle h = blank(JIP_FFS, JIP_DOUBLE_DENSITY);
    size_t length, count = 99;
    int32_t more = 99;
    jip_finding found[8];
    make_directory(&h, "d");
    const uint32_t key = examine(&h, (uint32_t)locate(&h, 0, "d", JIP_SHARED_LOCK).res1).entry.key;
    uint8_t *image = image_of(&h, &length);
    image[512 * key + 7] ^= 1; /* long 1, the header's own key */
    EXPECT("check", jip_check_values(image, length, found, 8, &count, &more) == JIP_DONE && count == 2 && more == 0);
    EXPECT("a checksum", found[0].kind == JIP_FAULT_BAD_SUM && found[0].block == key && found[0].known == 2 && found[0].at == 5);
    EXPECT("the right checksum", found[0].found == long_in(image, key, 5) && found[0].wanted - found[0].found == (key & 1) - ((key ^ 1) & 1));
    EXPECT("a key", found[1].kind == JIP_FAULT_BAD_OWN_KEY && found[1].known == 2 && found[1].at == 1);
    EXPECT("the right key", found[1].found == (key ^ 1) && found[1].wanted == key);
    memset(found, 0x77, sizeof found);
    EXPECT("room for one", jip_check_values(image, length, found, 1, &count, &more) == JIP_DONE && count == 2);
    EXPECT("one is written", found[0].at == 5 && found[1].at == 0x77777777);
    EXPECT("a size", jip_check_values(image, length - 1, found, 8, &count, &more) == JIP_DONE && count == 1);
    EXPECT("no long", found[0].kind == JIP_FAULT_NOT_WHOLE_BLOCKS && found[0].known == 0 && found[0].at == 0);
    count = 99;
    EXPECT("no array", jip_check_values(image, length, NULL, 1, &count, &more) == JIP_WRONG_ARGUMENT && count == 99);
    EXPECT("no count", jip_check_values(image, length, found, 8, NULL, &more) == JIP_WRONG_ARGUMENT);
    EXPECT("in the image", jip_check_values(image, length, (jip_finding *)(void *)image, 1, &count, &more) == JIP_WRONG_ARGUMENT);
    free(image);
    EXPECT("close", jip_close(&h) == JIP_DONE);
}

static jip_owner map_of[JIP_DOUBLE_DENSITY];

/* More than a thousand faults: no data block of a long file has anything that it should. The first thousand are listed. */
static void thousand(void) {
    enum { BLOCKS = 600, LISTED = 1000 };
    jip_handle h = blank(JIP_OFS, JIP_DOUBLE_DENSITY);
    size_t length, count = 99, own = 0;
    int32_t more = 99;
    size_t types = 0, right = 0;
    static jip_finding found[LISTED];
    make_file(&h, "long", BLOCKS * 488);
    uint8_t *image = image_of(&h, &length);
    EXPECT("its map", jip_map(&h, map_of, JIP_DOUBLE_DENSITY, &own) == JIP_DONE);
    for (uint32_t block = 0; block < JIP_DOUBLE_DENSITY; block++)
        if (map_of[block].role == JIP_ROLE_DATA) memset(image + 512 * block, 0, 512);
    EXPECT("a thousand faults, and more", jip_check(image, length, NULL, 0, &count, &more) == JIP_DONE && count == LISTED && more == 1);
    count = 99;
    more = 99;
    EXPECT("and with values", jip_check_values(image, length, found, LISTED, &count, &more) == JIP_DONE && count == LISTED && more == 1);
    for (size_t i = 0; i < LISTED; i++) {
        if (found[i].kind != JIP_FAULT_BAD_TYPE) continue;
        types++;
        right += map_of[found[i].block].role == JIP_ROLE_DATA && found[i].known == 2 && found[i].at == 0 && found[i].found == 0 && found[i].wanted == 8;
    }
    EXPECT("the types of data blocks", types > 100 && right == types);
    free(image);
    EXPECT("close", jip_close(&h) == JIP_DONE);
}

static int owns(uint32_t block, uint32_t role, uint32_t header, uint32_t index) {
    const jip_owner owner = map_of[block];
    return block < JIP_DOUBLE_DENSITY && owner.role == role && owner.header == header && owner.index == index;
}

/* Maps a volume with a directory, a long file and an empty one, and follows the pointers of the long file in the image. */
static void map(int32_t format, uint32_t bytes_of_block) {
    enum { BLOCKS = 75 };
    jip_handle h = blank(format, JIP_DOUBLE_DENSITY);
    size_t count = 0, length, own = 0, used = 0;
    make_directory(&h, "d");
    make_file(&h, "d/long", BLOCKS * bytes_of_block);
    make_file(&h, "empty", 0);
    const uint32_t directory = examine(&h, (uint32_t)locate(&h, 0, "d", JIP_SHARED_LOCK).res1).entry.key;
    const jip_entry file = examine(&h, (uint32_t)locate(&h, 0, "d/long", JIP_SHARED_LOCK).res1).entry;
    const uint32_t empty = examine(&h, (uint32_t)locate(&h, 0, "empty", JIP_SHARED_LOCK).res1).entry.key;
    uint8_t *image = image_of(&h, &length);
    EXPECT("map", jip_map(&h, map_of, JIP_DOUBLE_DENSITY, &count) == JIP_DONE && count == JIP_DOUBLE_DENSITY);
    EXPECT("boot blocks", owns(0, JIP_ROLE_BOOT, 0, 0) && owns(1, JIP_ROLE_BOOT, 0, 0));
    EXPECT("the root", owns(880, JIP_ROLE_ROOT, 880, 0) && owns(long_in(image, 880, 79), JIP_ROLE_BITMAP, 0, 0));
    EXPECT("headers", owns(directory, JIP_ROLE_DIRECTORY, directory, 0) && owns(empty, JIP_ROLE_FILE, empty, 0));
    EXPECT("a header", owns(file.key, JIP_ROLE_FILE, file.key, 0));
    const uint32_t extension = long_in(image, file.key, 126);
    EXPECT("an extension block", owns(extension, JIP_ROLE_EXTENSION, file.key, 0));
    for (uint32_t k = 0; k < BLOCKS; k++) {
        const uint32_t holder = k < 72 ? file.key : extension;
        EXPECT("a data block", owns(long_in(image, holder, 77 - k % 72), JIP_ROLE_DATA, file.key, k));
    }
    for (size_t block = 0; block < JIP_DOUBLE_DENSITY; block++) {
        if (map_of[block].header == file.key) own++;
        if (map_of[block].role != JIP_ROLE_FREE) used++;
    }
    EXPECT("no others", own == file.blocks && own == BLOCKS + 2);
    EXPECT("the others are free", used == disk_info(&h).disk.used + 2);
    free(image);
    EXPECT("close", jip_close(&h) == JIP_DONE);
}

/* Marks a block that nothing uses as in use: it is lost. */
static void lost(void) {
    jip_handle h = blank(JIP_FFS, JIP_DOUBLE_DENSITY), again = JIP_CLOSED;
    jip_fault fault;
    size_t length, count;
    uint8_t *image = image_of(&h, &length);
    /* The bit of block 2 is bit 0 of the first long of the bitmap block, after its checksum. */
    image[512 * 881 + 7] &= 0xFE;
    image[512 * 881 + 3] = (uint8_t)(image[512 * 881 + 3] + 1);
    EXPECT("open", jip_open(image, length, &again, &fault) == JIP_DONE);
    EXPECT("a lost block", jip_map(&again, map_of, JIP_DOUBLE_DENSITY, &count) == JIP_DONE && owns(2, JIP_ROLE_LOST, 0, 0));
    free(image);
    EXPECT("close", jip_close(&h) == JIP_DONE && jip_close(&again) == JIP_DONE);
}

static void map_arguments(void) {
    jip_handle h = blank(JIP_OFS, JIP_FEWEST_BLOCKS), closed = JIP_CLOSED;
    jip_owner owners[JIP_FEWEST_BLOCKS];
    size_t count = 99;
    memset(owners, 0x77, sizeof owners);
    EXPECT("no room", jip_map(&h, NULL, 0, &count) == JIP_DONE && count == JIP_FEWEST_BLOCKS);
    EXPECT("room for two", jip_map(&h, owners, 2, &count) == JIP_DONE && count == JIP_FEWEST_BLOCKS);
    EXPECT("two are written", owners[1].role == JIP_ROLE_BOOT && owners[2].role == 0x77777777);
    count = 99;
    EXPECT("closed", jip_map(&closed, owners, 2, &count) == JIP_WRONG_ARGUMENT && count == 99);
    EXPECT("no array", jip_map(&h, NULL, 1, &count) == JIP_WRONG_ARGUMENT && count == 99);
    EXPECT("no handle", jip_map(NULL, owners, 2, &count) == JIP_WRONG_ARGUMENT && jip_map(&h, owners, 2, NULL) == JIP_WRONG_ARGUMENT);
    EXPECT("beyond memory", jip_map(&h, owners, SIZE_MAX / 12 + 1, &count) == JIP_WRONG_ARGUMENT);
    EXPECT("a crooked array", jip_map(&h, (jip_owner *)(void *)((char *)owners + 1), 1, &count) == JIP_WRONG_ARGUMENT);
    EXPECT("a handle in it", jip_map(&h, (jip_owner *)(void *)&h, 1, &count) == JIP_WRONG_ARGUMENT);
    EXPECT("nothing is written", count == 99 && owners[2].role == 0x77777777);
    EXPECT("close", jip_close(&h) == JIP_DONE);
}

int main(void) {
    faults();
    values();
    thousand();
    map(JIP_OFS, 488);
    map(JIP_FFS, 512);
    lost();
    map_arguments();
    return summed_up();
}
