/* Tests salvage: an image without faults, a lost root, a file with a lost block, names that occur twice, the blocks of an image, labels and
 * boot blocks, and wrong arguments.
 * First it makes a floppy, changes it, checks it, damages it, and salvages it. It writes salvage.adf to the current directory. */
#include "asking.h"

enum { ROOT = 880, OFS_BYTES = 488, LENGTH = 2 * OFS_BYTES + 100 };

static uint8_t text[LENGTH], got[4096];

/* A volume with a directory and a file of three blocks in it. */
static jip_handle prepared(int32_t format) {
    jip_handle h = blank(format, JIP_DOUBLE_DENSITY);
    for (size_t i = 0; i < sizeof text; i++) text[i] = (uint8_t)(i % 251 + 1);
    make_directory(&h, "Docs");
    EXPECT("a file", jip_write_file(&h, now, "Docs/text", JIP_TO_ZERO, text, sizeof text) == JIP_DONE);
    RESULTS("its comment", comment(&h, "Docs/text", "read me"), JIP_DOSTRUE, 0);
    RESULTS("its bits", protect(&h, "Docs/text", 3), JIP_DOSTRUE, 0);
    return h;
}

static uint32_t key_of(jip_handle *h, const char *path) {
    const uint32_t lock = (uint32_t)locate(h, 0, path, JIP_SHARED_LOCK).res1, key = examine(h, lock).entry.key;
    RESULTS(path, free_lock(h, lock), JIP_DOSTRUE, 0);
    return key;
}

static jip_salvaged entry_of(jip_salvage *s, size_t place) {
    jip_salvaged entry;
    memset(&entry, 0x77, sizeof entry);
    EXPECT("an entry", jip_salvage_entry(s, place, &entry) == JIP_DONE);
    return entry;
}

/* The position of the entry with this path, or SIZE_MAX. */
static size_t place_of(jip_salvage *s, const char *path) {
    char found[256];
    size_t length = 0;
    for (size_t place = 0; place < jip_salvage_count(s); place++)
        if (jip_salvage_path(s, place, found, sizeof found, &length) == JIP_DONE && length == strlen(path) &&
            memcmp(found, path, length) == 0)
            return place;
    return SIZE_MAX;
}

/* Whether an entry has these bytes. */
static int has(jip_salvage *s, size_t place, const void *bytes, size_t size) {
    size_t length = 0;
    return jip_salvage_read(s, place, got, sizeof got, &length) == JIP_DONE && length == size && memcmp(got, bytes, size) == 0;
}

/* From a blank floppy to what is left of it. */
static void life(void) {
    static uint8_t image[JIP_DOUBLE_DENSITY * JIP_BLOCK_BYTES];
    jip_handle h = prepared(JIP_FFS);
    jip_salvage s = JIP_CLOSED;
    jip_fault fault;
    size_t count = 99;
    int32_t more = 99;
    EXPECT("it is stored", jip_store(&h, "salvage.adf") == JIP_DONE && jip_close(&h) == JIP_DONE);
    EXPECT("it is loaded", jip_load("salvage.adf", &h, &fault) == JIP_DONE);
    EXPECT("it is changed", jip_write_file(&h, now, "Docs/text", JIP_TO_ZERO, "new", 3) == JIP_DONE);
    EXPECT("it is stored", jip_store(&h, "salvage.adf") == JIP_DONE && jip_copy_image(&h, image, sizeof image) == JIP_DONE);
    EXPECT("it is checked", jip_check(image, sizeof image, NULL, 0, &count, &more) == JIP_DONE && count == 0 && more == 0);
    memset(image + 512 * ROOT, 0, 512);
    EXPECT("it is damaged", jip_check(image, sizeof image, NULL, 0, &count, &more) == JIP_DONE && count > 0);
    EXPECT("it is salvaged", jip_salvage_open(image, sizeof image, &s) == JIP_DONE);
    EXPECT("what was changed", has(&s, place_of(&s, "lost+found/Docs/text"), "new", 3));
    EXPECT("close", jip_salvage_close(&s) == JIP_DONE && jip_close(&h) == JIP_DONE);
    (void)remove("salvage.adf");
}

static void whole(int32_t format) {
    jip_handle h = prepared(format);
    jip_salvage s = JIP_CLOSED;
    size_t length;
    const uint32_t header = key_of(&h, "Docs/text");
    uint8_t *image = image_of(&h, &length);
    EXPECT("open", jip_salvage_open(image, length, &s) == JIP_DONE && jip_salvage_count(&s) == 2);
    const size_t docs = place_of(&s, "Docs"), place = place_of(&s, "Docs/text");
    const jip_salvaged directory = entry_of(&s, docs), file = entry_of(&s, place);
    EXPECT("a directory", directory.state == JIP_STATE_DIRECTORY && directory.directory == JIP_NO_DIRECTORY && directory.size == 0);
    EXPECT("no bytes", has(&s, docs, "", 0));
    EXPECT("a file", file.state == JIP_STATE_WHOLE && file.directory == docs && file.header == header && !file.is_found);
    EXPECT("its fields", file.protection == 3 && file.date.days == now.days && file.comment_length == 7);
    EXPECT("its comment", strcmp((char *)file.comment, "read me") == 0 && !file.missing && !file.is_cut);
    EXPECT("its bytes", file.size == sizeof text && has(&s, place, text, sizeof text));
    EXPECT("close", jip_salvage_close(&s) == JIP_DONE && jip_salvage_count(&s) == 0 && jip_salvage_close(&s) == JIP_DONE);
    free(image);
    EXPECT("close", jip_close(&h) == JIP_DONE);
}

/* Without its root, what the volume had is below lost+found. */
static void without_root(void) {
    jip_handle h = prepared(JIP_FFS);
    jip_salvage s = JIP_CLOSED;
    size_t length;
    uint8_t *image = image_of(&h, &length);
    memset(image + 512 * ROOT, 0, 512);
    EXPECT("open", jip_salvage_open(image, length, &s) == JIP_DONE && jip_salvage_count(&s) == 2);
    const size_t place = place_of(&s, "lost+found/Docs/text"), docs = place_of(&s, "lost+found/Docs");
    const jip_salvaged file = entry_of(&s, place);
    EXPECT("a file", file.state == JIP_STATE_WHOLE && file.is_found == 1 && file.directory == docs);
    EXPECT("its bytes", has(&s, place, text, sizeof text));
    free(image);
    EXPECT("close", jip_salvage_close(&s) == JIP_DONE && jip_close(&h) == JIP_DONE);
}

/* A file whose second block is lost keeps the others. */
static void broken(void) {
    jip_handle h = prepared(JIP_OFS);
    jip_salvage s = JIP_CLOSED;
    size_t length;
    const uint32_t header = key_of(&h, "Docs/text");
    uint8_t *image = image_of(&h, &length), left[LENGTH];
    memset(image + 512 * long_in(image, header, 76), 0, 512);
    memcpy(left, text, sizeof left);
    memset(left + OFS_BYTES, 0, OFS_BYTES);
    EXPECT("open", jip_salvage_open(image, length, &s) == JIP_DONE && jip_salvage_count(&s) == 2);
    const size_t place = place_of(&s, "Docs/text");
    const jip_salvaged file = entry_of(&s, place);
    EXPECT("broken", file.state == JIP_STATE_BROKEN && file.missing == 1 && !file.is_cut && !file.is_found);
    EXPECT("what is left", file.size == sizeof left && has(&s, place, left, sizeof left));
    free(image);
    EXPECT("close", jip_salvage_close(&s) == JIP_DONE && jip_close(&h) == JIP_DONE);
}

/* A directory and a file whose headers have a wrong checksum are doubtful; the file has its bytes. */
static void doubtful(void) {
    jip_handle h = prepared(JIP_FFS);
    jip_salvage s = JIP_CLOSED;
    size_t length;
    const uint32_t header = key_of(&h, "Docs/text"), above = key_of(&h, "Docs");
    uint8_t *image = image_of(&h, &length);
    image[512 * header + 400] ^= 1;
    image[512 * above + 400] ^= 1;
    EXPECT("open", jip_salvage_open(image, length, &s) == JIP_DONE && jip_salvage_count(&s) == 2);
    const size_t docs = place_of(&s, "Docs"), place = place_of(&s, "Docs/text");
    const jip_salvaged directory = entry_of(&s, docs), file = entry_of(&s, place);
    EXPECT("a directory", directory.state == JIP_STATE_DOUBTFUL_DIRECTORY && directory.size == 0 && !directory.is_found && has(&s, docs, "", 0));
    EXPECT("a file", file.state == JIP_STATE_DOUBTFUL && file.header == header && file.directory == docs && !file.missing && !file.is_found);
    EXPECT("its bytes", file.size == sizeof text && has(&s, place, text, sizeof text));
    free(image);
    EXPECT("close", jip_salvage_close(&s) == JIP_DONE && jip_close(&h) == JIP_DONE);
}

/* A file whose header has the number of another block and another type is lost; its directory still names it. */
static void lost(void) {
    jip_handle h = prepared(JIP_FFS);
    jip_salvage s = JIP_CLOSED;
    size_t length;
    const uint32_t header = key_of(&h, "Docs/text");
    uint8_t *image = image_of(&h, &length);
    image[512 * header + 3] ^= 1;
    image[512 * header + 7] ^= 1;
    EXPECT("open", jip_salvage_open(image, length, &s) == JIP_DONE && jip_salvage_count(&s) == 2);
    const size_t place = place_of(&s, "Docs/text");
    const jip_salvaged file = entry_of(&s, place);
    EXPECT("lost", file.state == JIP_STATE_LOST && file.header == header && file.size == 0 && has(&s, place, text, 0));
    free(image);
    EXPECT("close", jip_salvage_close(&s) == JIP_DONE && jip_close(&h) == JIP_DONE);
}

/* Two files with one name, whose directories are lost. */
static void same_names(void) {
    jip_handle h = blank(JIP_FFS, JIP_DOUBLE_DENSITY);
    jip_salvage s = JIP_CLOSED;
    char names[2][64], wanted[64];
    size_t length, lengths[2] = {0, 0};
    make_directory(&h, "a");
    make_directory(&h, "b");
    make_file(&h, "a/x", 10);
    make_file(&h, "b/x", 10);
    const uint32_t a = key_of(&h, "a"), b = key_of(&h, "b");
    uint8_t *image = image_of(&h, &length);
    memset(image + 512 * ROOT, 0, 512);
    memset(image + 512 * a, 0, 512);
    memset(image + 512 * b, 0, 512);
    EXPECT("open", jip_salvage_open(image, length, &s) == JIP_DONE && jip_salvage_count(&s) == 2);
    for (size_t place = 0; place < 2; place++)
        EXPECT("a name", jip_salvage_name(&s, place, names[place], sizeof names[place], &lengths[place]) == JIP_DONE);
    (void)snprintf(wanted, sizeof wanted, "x~%u", (unsigned)entry_of(&s, 1).header);
    EXPECT("the first", lengths[0] == 1 && names[0][0] == 'x' && place_of(&s, "lost+found/x") == 0);
    EXPECT("the second", lengths[1] == strlen(wanted) && memcmp(names[1], wanted, lengths[1]) == 0);
    free(image);
    EXPECT("close", jip_salvage_close(&s) == JIP_DONE && jip_close(&h) == JIP_DONE);
}

enum { MOST_TOLD = 2 * JIP_DOUBLE_DENSITY };

static jip_told told[MOST_TOLD];

static size_t blocks_of(jip_salvage *s) {
    size_t count = 0;
    memset(told, 0x77, sizeof told);
    EXPECT("the blocks", jip_salvage_blocks(s, told, MOST_TOLD, &count) == JIP_DONE && count <= MOST_TOLD);
    return count;
}

/* Whether the list says that a block has this role and this header. */
static int says(size_t count, uint32_t block, uint32_t role, uint32_t header) {
    for (size_t i = 0; i < count; i++)
        if (told[i].block == block && told[i].role == role && told[i].header == header) return 1;
    return 0;
}

/* Of a sound image the blocks are those of its map. Headers are in the entries, and free blocks in neither. */
static void blocks(int32_t format) {
    static jip_owner owners[JIP_DOUBLE_DENSITY];
    jip_handle h = prepared(format);
    jip_salvage s = JIP_CLOSED;
    size_t length, count, mapped, found = 0, known = 0;
    make_file(&h, "long", 50000);
    make_file(&h, "gone", 10);
    const uint32_t gone = key_of(&h, "gone");
    EXPECT("deleted", jip_delete(&h, now, "gone", JIP_TO_ZERO) == JIP_DONE);
    uint8_t *image = image_of(&h, &length);
    EXPECT("the map", jip_map(&h, owners, JIP_DOUBLE_DENSITY, &mapped) == JIP_DONE && mapped == JIP_DOUBLE_DENSITY);
    EXPECT("open", jip_salvage_open(image, length, &s) == JIP_DONE && jip_salvage_trusts_bitmap(&s) == 1);
    count = blocks_of(&s);
    for (size_t i = 0; i < count; i++) {
        if (told[i].role == JIP_ROLE_DELETED) continue;
        const jip_owner *const owner = owners + told[i].block;
        found += told[i].role == owner->role && told[i].header == owner->header && told[i].index == owner->index;
        known += told[i].role != JIP_ROLE_DATA || owners[told[i].holder].role == JIP_ROLE_FILE ||
                 (owners[told[i].holder].role == JIP_ROLE_EXTENSION && owners[told[i].holder].header == told[i].header);
    }
    EXPECT("all are as in the map", found == count - 1 && known == count - 1 && says(count, gone, JIP_ROLE_DELETED, gone));
    for (uint32_t i = 0; i < JIP_DOUBLE_DENSITY; i++)
        if (owners[i].role == JIP_ROLE_DATA || owners[i].role == JIP_ROLE_BITMAP || owners[i].role == JIP_ROLE_BOOT) found -= 1;
    EXPECT("none is missing", found == 1 && says(count, ROOT, JIP_ROLE_ROOT, ROOT));
    memset(told, 0x77, sizeof told);
    EXPECT("as many as fit", jip_salvage_blocks(&s, told, 1, &mapped) == JIP_DONE && mapped == count && told[0].role == JIP_ROLE_BOOT);
    EXPECT("and no more", told[1].role == 0x77777777);
    EXPECT("none", jip_salvage_blocks(&s, NULL, 0, &mapped) == JIP_DONE && mapped == count);
    EXPECT("close", jip_salvage_close(&s) == JIP_DONE && jip_salvage_trusts_bitmap(&s) == 0 && jip_salvage_trusts_bitmap(NULL) == 0);
    EXPECT("closed", jip_salvage_blocks(&s, told, 1, &mapped) == JIP_WRONG_ARGUMENT && mapped == count);
    /* Without its root the bitmap block is used and part of nothing. */
    memset(image + 512 * ROOT, 0, 512);
    EXPECT("open", jip_salvage_open(image, length, &s) == JIP_DONE && jip_salvage_trusts_bitmap(&s) == 0);
    count = blocks_of(&s);
    for (uint32_t i = 2; i < JIP_DOUBLE_DENSITY; i++) {
        if (owners[i].role == JIP_ROLE_DATA) EXPECT("data", says(count, i, JIP_ROLE_DATA, owners[i].header));
        if (owners[i].role == JIP_ROLE_BITMAP) EXPECT("lost", says(count, i, JIP_ROLE_LOST, 0));
    }
    EXPECT("null", jip_salvage_blocks(&s, NULL, 1, &mapped) == JIP_WRONG_ARGUMENT && jip_salvage_blocks(&s, told, 1, NULL) == JIP_WRONG_ARGUMENT);
    EXPECT("too many", jip_salvage_blocks(&s, told, SIZE_MAX / 2, &mapped) == JIP_WRONG_ARGUMENT);
    EXPECT("itself", jip_salvage_blocks(&s, (jip_told *)(void *)&s, 1, &mapped) == JIP_WRONG_ARGUMENT);
    EXPECT("its count", jip_salvage_blocks(&s, told, 1, (size_t *)(void *)told) == JIP_WRONG_ARGUMENT);
    EXPECT("crooked", jip_salvage_blocks(&s, (jip_told *)(void *)((uint8_t *)told + 1), 1, &mapped) == JIP_WRONG_ARGUMENT);
    free(image);
    EXPECT("close", jip_salvage_close(&s) == JIP_DONE && jip_close(&h) == JIP_DONE);
}

/* The label and the boot block of an image that is refused. */
static void disk(void) {
    jip_handle h = prepared(JIP_FFS);
    jip_boot boot;
    char label[JIP_NAME_BYTES];
    size_t length, label_length = 99;
    uint8_t *image = image_of(&h, &length);
    image[512 * ROOT + 20] ^= 1;
    EXPECT("a label", jip_label(image, length, label, sizeof label, &label_length) == JIP_DONE && label_length > 0);
    EXPECT("its letters", label_length == image[512 * ROOT + 432] && memcmp(label, image + 512 * ROOT + 433, label_length) == 0);
    memset(label, 0x77, sizeof label);
    EXPECT("its length", jip_label(image, length, NULL, 0, &label_length) == JIP_DONE && label[0] == 0x77);
    EXPECT("null", jip_label(NULL, 1, label, 1, &label_length) == JIP_WRONG_ARGUMENT && jip_label(image, length, label, 1, NULL) == JIP_WRONG_ARGUMENT);
    EXPECT("itself", jip_label(image, length, image, 30, &label_length) == JIP_WRONG_ARGUMENT);
    image[512 * ROOT + 432] = 31;
    label_length = 99;
    EXPECT("no label", jip_label(image, length, label, sizeof label, &label_length) == JIP_WRONG_ARGUMENT && label_length == 99);
    EXPECT("no image", jip_label(image, length - 1, label, sizeof label, &label_length) == JIP_NOT_AN_IMAGE && label_length == 99);
    memset(&boot, 0x77, sizeof boot);
    EXPECT("no image", jip_boot_block(image, 512, &boot) == JIP_NOT_AN_IMAGE && boot.kind == 0x77777777);
    EXPECT("no boot block", jip_boot_block(image, length, &boot) == JIP_DONE && boot.kind == JIP_FFS && boot.code == JIP_BOOT_NONE);
    EXPECT("installed", jip_install_boot(image, length) == JIP_DONE && jip_boot_block(image, length, &boot) == JIP_DONE);
    EXPECT("the standard one", boot.code == JIP_BOOT_STANDARD && boot.sum == boot.right_sum && boot.sum == long_in(image, 0, 1));
    image[1000] ^= 1;
    EXPECT("a wrong sum", jip_boot_block(image, length, &boot) == JIP_DONE && boot.code == JIP_BOOT_WRONG && boot.sum != boot.right_sum);
    for (int i = 0; i < 4; i++) image[4 + i] = (uint8_t)(boot.right_sum >> (24 - 8 * i));
    EXPECT("another one", jip_boot_block(image, length, &boot) == JIP_DONE && boot.code == JIP_BOOT_CUSTOM && boot.sum == boot.right_sum);
    image[0] = 0;
    EXPECT("no DOS disk", jip_boot_block(image, length, &boot) == JIP_DONE && boot.kind == JIP_NO_DOS);
    EXPECT("null", jip_boot_block(image, length, NULL) == JIP_WRONG_ARGUMENT && jip_boot_block(NULL, 1, &boot) == JIP_WRONG_ARGUMENT);
    EXPECT("itself", jip_boot_block(image, length, (jip_boot *)(void *)image) == JIP_WRONG_ARGUMENT);
    EXPECT("no image", jip_install_boot(image, 512) == JIP_NOT_AN_IMAGE && jip_install_boot(NULL, 0) == JIP_NOT_AN_IMAGE);
    EXPECT("null", jip_install_boot(NULL, 1) == JIP_WRONG_ARGUMENT);
    free(image);
    EXPECT("close", jip_close(&h) == JIP_DONE);
}

static void arguments(void) {
    jip_handle h = prepared(JIP_FFS);
    jip_salvage s = JIP_CLOSED;
    jip_salvaged entry;
    size_t image_length, length = 99;
    uint8_t *image = image_of(&h, &image_length);
    memset(&entry, 0x77, sizeof entry);
    memset(got, 0x77, 8);
    EXPECT("half a block", jip_salvage_open(image, image_length - 1, &s) == JIP_NOT_AN_IMAGE && s.behind == NULL);
    EXPECT("nothing", jip_salvage_open(NULL, 0, &s) == JIP_NOT_AN_IMAGE && jip_salvage_open(NULL, 1, &s) == JIP_WRONG_ARGUMENT);
    EXPECT("closed", jip_salvage_entry(&s, 0, &entry) == JIP_WRONG_ARGUMENT && entry.state == 0x77777777);
    EXPECT("closed", jip_salvage_read(&s, 0, got, sizeof got, &length) == JIP_WRONG_ARGUMENT && length == 99 && got[0] == 0x77);
    EXPECT("closed", jip_salvage_path(&s, 0, got, sizeof got, &length) == JIP_WRONG_ARGUMENT && length == 99);
    EXPECT("open", jip_salvage_open(image, image_length, &s) == JIP_DONE);
    EXPECT("again", jip_salvage_open(image, image_length, &s) == JIP_WRONG_ARGUMENT && jip_salvage_count(&s) == 2);
    EXPECT("past the last", jip_salvage_entry(&s, 2, &entry) == JIP_WRONG_ARGUMENT && entry.state == 0x77777777);
    EXPECT("past the last", jip_salvage_name(&s, SIZE_MAX, got, sizeof got, &length) == JIP_WRONG_ARGUMENT && length == 99);
    EXPECT("past the last", jip_salvage_read(&s, 2, got, sizeof got, &length) == JIP_WRONG_ARGUMENT && length == 99);
    EXPECT("too little room", jip_salvage_name(&s, 0, got, 3, &length) == JIP_DONE && length == 4 && got[0] == 0x77);
    EXPECT("too little room", jip_salvage_path(&s, 1, got, 8, &length) == JIP_DONE && length == 9 && got[0] == 0x77);
    EXPECT("exact room", jip_salvage_path(&s, 1, got, 9, &length) == JIP_DONE && memcmp(got, "Docs/text", 9) == 0);
    EXPECT("no room", jip_salvage_read(&s, 1, NULL, 0, &length) == JIP_DONE && length == sizeof text);
    EXPECT("null", jip_salvage_read(&s, 1, NULL, 1, &length) == JIP_WRONG_ARGUMENT && jip_salvage_count(NULL) == 0);
    EXPECT("null", jip_salvage_entry(&s, 0, NULL) == JIP_WRONG_ARGUMENT && jip_salvage_close(NULL) == JIP_WRONG_ARGUMENT);
    EXPECT("null", jip_salvage_path(&s, 0, got, 8, NULL) == JIP_WRONG_ARGUMENT);
    EXPECT("itself", jip_salvage_read(&s, 1, &s, sizeof s, &length) == JIP_WRONG_ARGUMENT);
    EXPECT("itself", jip_salvage_path(&s, 1, got, 8, (size_t *)(void *)&s) == JIP_WRONG_ARGUMENT);
    EXPECT("its length", jip_salvage_name(&s, 1, &length, sizeof length, &length) == JIP_WRONG_ARGUMENT);
    EXPECT("crooked", jip_salvage_entry(&s, 0, (jip_salvaged *)(void *)(got + 1)) == JIP_WRONG_ARGUMENT);
    free(image);
    EXPECT("the bytes are not used afterwards", has(&s, 1, text, sizeof text));
    EXPECT("close", jip_salvage_close(&s) == JIP_DONE && jip_close(&h) == JIP_DONE);
}

int main(void) {
    life();
    whole(JIP_OFS);
    whole(JIP_FFS);
    without_root();
    broken();
    doubtful();
    lost();
    same_names();
    blocks(JIP_OFS);
    blocks(JIP_FFS);
    disk();
    arguments();
    return summed_up();
}
