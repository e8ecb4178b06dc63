/* Worked cases of packets, sent by a C program. */
#include "asking.h"

/* Checks that the root has exactly these names, in this order. */
static int lists(jip_handle *h, const char *const *names) {
    jip_answer entry = examine(h, 0);
    for (; *names != NULL; names++) {
        entry = next(h, 0, entry.entry.key);
        if (!is_named(entry, *names)) return 0;
    }
    entry = next(h, 0, entry.entry.key);
    return entry.res1 == 0 && entry.res2 == JIP_ERROR_NO_MORE_ENTRIES;
}

static void first_run(void) {
    jip_handle h = blank(JIP_FFS, JIP_DOUBLE_DENSITY);
    jip_answer found = disk_info(&h);
    RESULTS("first-run", found, JIP_DOSTRUE, 0);
    EXPECT("first-run", found.disk.state == JIP_VALIDATED && found.disk.blocks == 1758 && found.disk.used == 2);
    EXPECT("first-run", found.disk.bytes_per_block == 512 && found.disk.disk_type == 0x444f5301);
    RESULTS("first-run", info(&h, 0), JIP_DOSTRUE, 0);
    RESULTS("first-run", other(&h, 999), 0, JIP_ERROR_ACTION_NOT_KNOWN);
    RESULTS("first-run", die(&h), JIP_DOSTRUE, 0);
    RESULTS("first-run", disk_info(&h), 0, JIP_ERROR_DEVICE_NOT_MOUNTED);
    jip_close(&h);
}

static void hello(int32_t format) {
    const char *name = format == JIP_FFS ? "hello-ffs" : "hello-ofs";
    jip_handle h = blank(format, JIP_DOUBLE_DENSITY);
    char bytes[100] = "Hi Amiga";
    uint32_t file = find_output(&h, "hello").handle;
    EXPECT(name, file > 0);
    RESULTS(name, write_bytes(&h, file, bytes, 8), 8, 0);
    RESULTS(name, end(&h, file), JIP_DOSTRUE, 0);
    file = find_input(&h, "HELLO").handle;
    memset(bytes, '.', sizeof bytes);
    RESULTS(name, read_bytes(&h, file, bytes, sizeof bytes), 8, 0);
    EXPECT(name, memcmp(bytes, "Hi Amiga..", 10) == 0 && bytes[99] == '.');
    RESULTS(name, end(&h, file), JIP_DOSTRUE, 0);
    jip_answer root = examine(&h, 0), entry = next(&h, 0, root.entry.key);
    EXPECT(name, is_named(root, "Work") && root.entry.key == 880 && root.entry.entry_type == JIP_ROOT);
    EXPECT(name, is_named(entry, "hello") && entry.entry.key == 2 && entry.entry.entry_type == JIP_FILE);
    EXPECT(name, entry.entry.size == 8 && entry.entry.blocks == 2 && entry.entry.comment_length == 0);
    EXPECT(name, disk_info(&h).disk.used == 4);
    jip_close(&h);
}

static void paths(void) {
    jip_handle h = blank(JIP_FFS, JIP_DOUBLE_DENSITY);
    char long_name[32];
    memset(long_name, 'n', 31);
    long_name[31] = 0;
    make_directory(&h, "a");
    make_directory(&h, "b");
    make_file(&h, "f", 0);
    uint32_t a = (uint32_t)locate(&h, 0, "a", JIP_SHARED_LOCK).res1;
    EXPECT("paths", is_named(examine(&h, (uint32_t)locate(&h, 0, "a//b", JIP_SHARED_LOCK).res1), "b"));
    EXPECT("paths", is_named(examine(&h, (uint32_t)locate(&h, 0, "a/", JIP_SHARED_LOCK).res1), "a"));
    EXPECT("paths", is_named(examine(&h, (uint32_t)locate(&h, a, "x:b", JIP_SHARED_LOCK).res1), "b"));
    EXPECT("paths", examine(&h, (uint32_t)locate(&h, 0, NULL, JIP_SHARED_LOCK).res1).entry.key == 880);
    RESULTS("paths", locate(&h, 0, "/", JIP_SHARED_LOCK), 0, JIP_ERROR_OBJECT_NOT_FOUND);
    RESULTS("paths", locate(&h, 0, "x/y", JIP_SHARED_LOCK), 0, JIP_ERROR_DIR_NOT_FOUND);
    RESULTS("paths", locate(&h, 0, "x", JIP_SHARED_LOCK), 0, JIP_ERROR_OBJECT_NOT_FOUND);
    RESULTS("paths", locate(&h, 0, "f/y", JIP_SHARED_LOCK), 0, JIP_ERROR_OBJECT_WRONG_TYPE);
    RESULTS("paths", create_dir(&h, "a/"), 0, JIP_ERROR_INVALID_COMPONENT_NAME);
    RESULTS("paths", create_dir(&h, long_name), 0, JIP_ERROR_INVALID_COMPONENT_NAME);
    RESULTS("paths", locate(&h, 0, long_name, JIP_SHARED_LOCK), 0, JIP_ERROR_OBJECT_NOT_FOUND);
    RESULTS("paths", create_dir(&h, "x/y"), 0, JIP_ERROR_DIR_NOT_FOUND);
    jip_close(&h);
}

static void locks(void) {
    jip_handle h = blank(JIP_FFS, JIP_DOUBLE_DENSITY);
    make_directory(&h, "a");
    int32_t first = locate(&h, 0, "a", JIP_SHARED_LOCK).res1, second = locate(&h, 0, "a", JIP_SHARED_LOCK).res1;
    int32_t third = locate(&h, 0, "a", 5).res1;
    EXPECT("locks", first > 0 && second > 0 && third > 0 && first != second && third != first && third != second);
    RESULTS("locks", locate(&h, 0, "a", JIP_EXCLUSIVE_LOCK), 0, JIP_ERROR_OBJECT_IN_USE);
    int32_t fourth = copy_dir(&h, (uint32_t)first).res1;
    EXPECT("locks", fourth > 0 && fourth != first && fourth != second && fourth != third);
    EXPECT("locks", examine(&h, (uint32_t)parent(&h, (uint32_t)fourth).res1).entry.key == 880);
    RESULTS("locks", parent(&h, 0), 0, 0);
    RESULTS("locks", copy_dir(&h, 0), 0, 0);
    RESULTS("locks", free_lock(&h, 0), JIP_DOSTRUE, 0);
    RESULTS("locks", free_lock(&h, (uint32_t)first), JIP_DOSTRUE, 0);
    RESULTS("locks", free_lock(&h, (uint32_t)first), 0, JIP_ERROR_INVALID_LOCK);
    jip_close(&h);
}

static void create_dirs(void) {
    jip_handle h = blank(JIP_FFS, JIP_DOUBLE_DENSITY);
    int32_t lock = create_dir(&h, "x").res1;
    EXPECT("create-dir", lock > 0);
    RESULTS("create-dir", create_dir(&h, "X"), 0, JIP_ERROR_OBJECT_EXISTS);
    RESULTS("create-dir", copy_dir(&h, (uint32_t)lock), 0, JIP_ERROR_OBJECT_IN_USE);
    RESULTS("create-dir", die(&h), 0, JIP_ERROR_OBJECT_IN_USE);
    RESULTS("create-dir", free_lock(&h, (uint32_t)lock), JIP_DOSTRUE, 0);
    RESULTS("create-dir", die(&h), JIP_DOSTRUE, 0);
    jip_close(&h);
}

static void file_cost(int32_t format, size_t bytes, uint32_t used) {
    jip_handle h = blank(format, JIP_DOUBLE_DENSITY);
    make_file(&h, "f", bytes);
    EXPECT("file-cost", disk_info(&h).disk.used == used);
    jip_close(&h);
}

static void full_disk(void) {
    char *bytes = calloc(886273, 1);
    for (int32_t over = 0; over < 2; over++) {
        jip_handle h = blank(JIP_FFS, JIP_DOUBLE_DENSITY);
        uint32_t file = find_output(&h, "f").handle;
        if (over == 0) {
            RESULTS("full-disk", write_bytes(&h, file, bytes, 886272), 886272, 0);
            EXPECT("full-disk", disk_info(&h).disk.used == 1758);
            RESULTS("full-disk", write_bytes(&h, file, bytes, 1), -1, JIP_ERROR_DISK_FULL);
        } else {
            RESULTS("full-disk", write_bytes(&h, file, bytes, 886273), -1, JIP_ERROR_DISK_FULL);
            RESULTS("full-disk", write_bytes(&h, file, bytes, 1), 1, 0);
        }
        jip_close(&h);
    }
    free(bytes);
}

static void list_and_rename(void) {
    jip_handle h = blank(JIP_FFS, JIP_DOUBLE_DENSITY);
    make_file(&h, "B", 0);
    make_file(&h, "A", 0);
    make_file(&h, "DP", 0);
    EXPECT("list-and-rename", lists(&h, (const char *const[]){"A", "DP", "B", NULL}));
    RESULTS("list-and-rename", next(&h, 0, 881), 0, JIP_ERROR_OBJECT_NOT_FOUND);
    RESULTS("list-and-rename", rename_object(&h, "A", "a"), JIP_DOSTRUE, 0);
    EXPECT("list-and-rename", lists(&h, (const char *const[]){"DP", "a", "B", NULL}));
    make_directory(&h, "d");
    RESULTS("list-and-rename", rename_object(&h, "a", "d/a"), JIP_DOSTRUE, 0);
    EXPECT("list-and-rename", lists(&h, (const char *const[]){"DP", "B", "d", NULL}));
    RESULTS("list-and-rename", rename_object(&h, "B", "dp"), 0, JIP_ERROR_OBJECT_EXISTS);
    RESULTS("refused-moves", rename_object(&h, "d", "d/e"), 0, JIP_ERROR_OBJECT_IN_USE);
    RESULTS("refused-moves", delete_object(&h, "d"), 0, JIP_ERROR_DIRECTORY_NOT_EMPTY);
    RESULTS("refused-moves", delete_object(&h, ":"), 0, JIP_ERROR_OBJECT_WRONG_TYPE);
    EXPECT("refused-moves", locate(&h, 0, "d", JIP_SHARED_LOCK).res1 > 0);
    RESULTS("refused-moves", delete_object(&h, "d"), 0, JIP_ERROR_OBJECT_IN_USE);
    jip_close(&h);
}

static void seek_and_read(void) {
    jip_handle h = blank(JIP_FFS, JIP_DOUBLE_DENSITY);
    char bytes[10] = "0123456789", into[5] = {'.', '.', '.', '.', '.'};
    make_file(&h, "f", 0);
    uint32_t file = find_update(&h, "f").handle;
    RESULTS("seek-and-read", write_bytes(&h, file, bytes, 10), 10, 0);
    RESULTS("seek-and-read", seek(&h, file, 0, JIP_OFFSET_BEGINNING), 10, 0);
    RESULTS("seek-and-read", seek(&h, file, 4, JIP_OFFSET_BEGINNING), 0, 0);
    RESULTS("seek-and-read", seek(&h, file, 3, JIP_OFFSET_CURRENT), 4, 0);
    RESULTS("seek-and-read", seek(&h, file, -2, JIP_OFFSET_END), 7, 0);
    RESULTS("seek-and-read", seek(&h, file, 1, JIP_OFFSET_END), -1, JIP_ERROR_SEEK_ERROR);
    RESULTS("seek-and-read", seek(&h, file, 0, 2), -1, JIP_ERROR_SEEK_ERROR);
    RESULTS("seek-and-read", read_bytes(&h, file, into, 5), 2, 0);
    EXPECT("seek-and-read", memcmp(into, "89...", 5) == 0);
    RESULTS("seek-and-read", read_bytes(&h, file, into, 5), 0, 0);
    RESULTS("seek-and-read", read_bytes(&h, file, NULL, 0), 0, 0);
    RESULTS("seek-and-read", read_bytes(&h, file + 99, into, 5), -1, JIP_ERROR_INVALID_LOCK);
    jip_close(&h);
}

static void protection(void) {
    jip_handle h = blank(JIP_FFS, JIP_DOUBLE_DENSITY);
    char bytes[1] = {'x'};
    make_file(&h, "f", 0);
    RESULTS("protection", protect(&h, "f", 1), JIP_DOSTRUE, 0);
    RESULTS("protection", delete_object(&h, "f"), 0, JIP_ERROR_DELETE_PROTECTED);
    RESULTS("protection", protect(&h, "f", 5), JIP_DOSTRUE, 0);
    RESULTS("protection", find_output(&h, "f"), 0, JIP_ERROR_DELETE_PROTECTED);
    uint32_t file = find_input(&h, "f").handle;
    RESULTS("protection", protect(&h, "f", 4), JIP_DOSTRUE, 0);
    RESULTS("protection", write_bytes(&h, file, bytes, 1), -1, JIP_ERROR_WRITE_PROTECTED);
    RESULTS("protection", set_size(&h, file, 0, JIP_OFFSET_BEGINNING), 0, JIP_ERROR_WRITE_PROTECTED);
    RESULTS("protection", protect(&h, "f", 8), JIP_DOSTRUE, 0);
    RESULTS("protection", read_bytes(&h, file, bytes, 1), -1, JIP_ERROR_READ_PROTECTED);
    EXPECT("protection", bytes[0] == 'x');
    RESULTS("protection", protect(&h, "f", 16), JIP_DOSTRUE, 0);
    RESULTS("protection", write_bytes(&h, file, NULL, 0), 0, 0);
    EXPECT("protection", next(&h, 0, 880).entry.protection == 16);
    RESULTS("protection", write_bytes(&h, file, bytes, 1), 1, 0);
    EXPECT("protection", next(&h, 0, 880).entry.protection == 0);
    RESULTS("protection", protect(&h, ":", 1), 0, JIP_ERROR_OBJECT_WRONG_TYPE);
    jip_close(&h);
}

static void comments_and_names(void) {
    jip_handle h = blank(JIP_FFS, JIP_DOUBLE_DENSITY);
    char long_comment[81];
    memset(long_comment, 'c', 80);
    long_comment[80] = 0;
    make_file(&h, "f", 0);
    RESULTS("protection", comment(&h, "f", long_comment), 0, JIP_ERROR_COMMENT_TOO_BIG);
    RESULTS("refused-names", comment(&h, ":", "abc"), 0, JIP_ERROR_OBJECT_WRONG_TYPE);
    long_comment[79] = 0;
    RESULTS("comment", comment(&h, "f", long_comment), JIP_DOSTRUE, 0);
    jip_answer entry = next(&h, 0, 880);
    EXPECT("comment", entry.entry.comment_length == 79 && strcmp((const char *)entry.entry.comment, long_comment) == 0);
    RESULTS("refused-names", rename_disk(&h, ""), 0, JIP_ERROR_INVALID_COMPONENT_NAME);
    RESULTS("refused-names", rename_disk(&h, "a/b"), 0, JIP_ERROR_INVALID_COMPONENT_NAME);
    RESULTS("refused-names", rename_disk(&h, "New"), JIP_DOSTRUE, 0);
    EXPECT("refused-names", is_named(examine(&h, 0), "New"));
    RESULTS("refused-names", set_date(&h, "f", (jip_date){1, 2, 3}), JIP_DOSTRUE, 0);
    entry = next(&h, 0, 880);
    EXPECT("refused-names", entry.entry.date.days == 1 && entry.entry.date.minutes == 2 && entry.entry.date.ticks == 3);
    jip_close(&h);
}

static void two_writers(void) {
    jip_handle h = blank(JIP_FFS, JIP_DOUBLE_DENSITY);
    char bytes[2] = {'a', 'b'}, into[2] = {0, 0};
    jip_answer first = find_update(&h, "n"), second = find_update(&h, "N");
    RESULTS("two-writers", first, JIP_DOSTRUE, 0);
    EXPECT("two-writers", second.res1 == JIP_DOSTRUE && second.handle != first.handle);
    RESULTS("two-writers", find_output(&h, "n"), 0, JIP_ERROR_OBJECT_IN_USE);
    RESULTS("two-writers", write_bytes(&h, first.handle, bytes, 2), 2, 0);
    RESULTS("two-writers", read_bytes(&h, second.handle, into, 2), 2, 0);
    EXPECT("two-writers", memcmp(into, bytes, 2) == 0);
    jip_close(&h);
}

static void resize(int32_t format) {
    jip_handle h = blank(format, JIP_DOUBLE_DENSITY);
    char bytes[600];
    memset(bytes, 'x', sizeof bytes);
    uint32_t file = find_output(&h, "f").handle;
    RESULTS("resize", write_bytes(&h, file, bytes, 10), 10, 0);
    RESULTS("resize", seek(&h, file, 7, JIP_OFFSET_BEGINNING), 10, 0);
    RESULTS("resize", set_size(&h, file, 4, JIP_OFFSET_BEGINNING), JIP_DOSTRUE, 0);
    RESULTS("resize", seek(&h, file, 0, JIP_OFFSET_CURRENT), 4, 0);
    RESULTS("resize", set_size(&h, file, 3, JIP_OFFSET_END), JIP_DOSTRUE, 0);
    RESULTS("resize", read_bytes(&h, file, bytes, 8), 3, 0);
    EXPECT("resize", memcmp(bytes, "\0\0\0x", 4) == 0);
    RESULTS("resize", set_size(&h, file, -8, JIP_OFFSET_END), 0, JIP_ERROR_SEEK_ERROR);
    RESULTS("resize", set_size(&h, file, 0, 2), 0, JIP_ERROR_SEEK_ERROR);
    RESULTS("resize", set_size(&h, file, INT32_MAX, JIP_OFFSET_END), 0, JIP_ERROR_SEEK_ERROR);
    RESULTS("resize", set_size(&h, file, INT32_MAX, JIP_OFFSET_BEGINNING), 0, JIP_ERROR_DISK_FULL);
    jip_close(&h);
}

static void same_locks(void) {
    jip_handle h = blank(JIP_FFS, JIP_DOUBLE_DENSITY);
    make_directory(&h, "A");
    uint32_t first = (uint32_t)locate(&h, 0, "A", JIP_SHARED_LOCK).res1, second = (uint32_t)locate(&h, 0, "a", JIP_SHARED_LOCK).res1;
    RESULTS("same-lock", same_lock(&h, first, second), JIP_DOSTRUE, 0);
    RESULTS("same-lock", same_lock(&h, first, 0), JIP_DOSFALSE, 0);
    RESULTS("same-lock", same_lock(&h, 0, 0), JIP_DOSTRUE, 0);
    RESULTS("same-lock", same_lock(&h, 99, 0), 0, JIP_ERROR_INVALID_LOCK);
    jip_close(&h);
}

int main(void) {
    first_run();
    hello(JIP_FFS);
    hello(JIP_OFS);
    paths();
    locks();
    create_dirs();
    file_cost(JIP_FFS, 36864, 75);
    file_cost(JIP_FFS, 36865, 77);
    file_cost(JIP_OFS, 35136, 75);
    file_cost(JIP_OFS, 35137, 77);
    full_disk();
    list_and_rename();
    seek_and_read();
    protection();
    comments_and_names();
    two_writers();
    resize(JIP_FFS);
    resize(JIP_OFS);
    same_locks();
    return summed_up();
}
