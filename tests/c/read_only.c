/* Tests read-only handles: which packets are refused with 214, what comes before it, and that the image never changes. It
 * writes to the current directory. */
#define _XOPEN_SOURCE 700
#include "asking.h"

#include <unistd.h>

#define PROTECTED JIP_ERROR_DISK_WRITE_PROTECTED

/* A volume with the file f of 4 bytes, the file kept that nothing may change, and the directory d with the empty file e. */
static jip_handle filled(int32_t format) {
    jip_handle h = blank(format, JIP_DOUBLE_DENSITY);
    EXPECT("f", jip_write_file(&h, now, "f", 1, "four", 4) == JIP_DONE);
    EXPECT("kept", jip_write_file(&h, now, "kept", 4, "kept", 4) == JIP_DONE);
    RESULTS("kept", protect(&h, "kept", 5), JIP_DOSTRUE, 0);
    make_directory(&h, "d");
    EXPECT("e", jip_write_file(&h, now, "d/e", 3, NULL, 0) == JIP_DONE);
    return h;
}

static jip_handle read_only(const uint8_t *image, size_t length) {
    jip_handle h = JIP_CLOSED;
    jip_fault fault;
    EXPECT("open", jip_open_read_only(image, length, &h, &fault) == JIP_DONE);
    return h;
}

/* Whether the image has these bytes, and its count has not grown. */
static int is_unchanged(jip_handle *h, const uint8_t *image, size_t length) {
    size_t again;
    uint8_t *after = image_of(h, &again);
    const int same = again == length && memcmp(after, image, length) == 0 && jip_changes(h) == 0;
    free(after);
    return same;
}

/* Packets that would succeed on a disk that can be written. */
static void would_write(jip_handle *h) {
    const jip_date date = {1, 2, 3};
    RESULTS("rename disk", rename_disk(h, "Other"), JIP_DOSFALSE, PROTECTED);
    RESULTS("delete", delete_object(h, "f"), JIP_DOSFALSE, PROTECTED);
    RESULTS("rename", rename_object(h, "f", "d/g"), JIP_DOSFALSE, PROTECTED);
    RESULTS("rename in other letters", rename_object(h, "f", "F"), JIP_DOSFALSE, PROTECTED);
    RESULTS("rename kept", rename_object(h, "kept", "g"), JIP_DOSFALSE, PROTECTED);
    RESULTS("protect", protect(h, "kept", 0), JIP_DOSFALSE, PROTECTED);
    RESULTS("comment", comment(h, "d", "new"), JIP_DOSFALSE, PROTECTED);
    RESULTS("date", set_date(h, "d", date), JIP_DOSFALSE, PROTECTED);
    RESULTS("create", create_dir(h, "d/new"), JIP_DOSFALSE, PROTECTED);
    RESULTS("output new", find_output(h, "new"), JIP_DOSFALSE, PROTECTED);
    RESULTS("output old", find_output(h, "f"), JIP_DOSFALSE, PROTECTED);
    RESULTS("output empty", find_output(h, "d/e"), JIP_DOSFALSE, PROTECTED);
    RESULTS("update new", find_update(h, "new"), JIP_DOSFALSE, PROTECTED);
    EXPECT("a whole file", jip_write_file(h, now, "new", 3, "x", 1) == PROTECTED);
    EXPECT("a whole old file", jip_write_file(h, now, "f", 1, "x", 1) == PROTECTED);
}

/* Refusals that come before 214. */
static void earlier(jip_handle *h) {
    static char eighty[81];
    memset(eighty, 'c', 80);
    const jip_date date = {1, 2, 3};
    RESULTS("a name", rename_disk(h, "a/b"), JIP_DOSFALSE, JIP_ERROR_INVALID_COMPONENT_NAME);
    RESULTS("delete nothing", delete_object(h, "no"), JIP_DOSFALSE, JIP_ERROR_OBJECT_NOT_FOUND);
    RESULTS("delete the root", delete_object(h, ""), JIP_DOSFALSE, JIP_ERROR_OBJECT_WRONG_TYPE);
    RESULTS("delete a full one", delete_object(h, "d"), JIP_DOSFALSE, JIP_ERROR_DIRECTORY_NOT_EMPTY);
    RESULTS("delete kept", delete_object(h, "kept"), JIP_DOSFALSE, JIP_ERROR_DELETE_PROTECTED);
    RESULTS("rename nothing", rename_object(h, "no", "g"), JIP_DOSFALSE, JIP_ERROR_OBJECT_NOT_FOUND);
    RESULTS("rename over", rename_object(h, "f", "d"), JIP_DOSFALSE, JIP_ERROR_OBJECT_EXISTS);
    RESULTS("rename into itself", rename_object(h, "d", "d/d"), JIP_DOSFALSE, JIP_ERROR_OBJECT_IN_USE);
    RESULTS("rename the root", rename_object(h, "", "g"), JIP_DOSFALSE, JIP_ERROR_OBJECT_WRONG_TYPE);
    RESULTS("protect nothing", protect(h, "no/f", 0), JIP_DOSFALSE, JIP_ERROR_DIR_NOT_FOUND);
    RESULTS("a long comment", comment(h, "f", eighty), JIP_DOSFALSE, JIP_ERROR_COMMENT_TOO_BIG);
    RESULTS("comment on the root", comment(h, "", "c"), JIP_DOSFALSE, JIP_ERROR_OBJECT_WRONG_TYPE);
    RESULTS("date of the root", set_date(h, "", date), JIP_DOSFALSE, JIP_ERROR_OBJECT_WRONG_TYPE);
    RESULTS("create again", create_dir(h, "D"), JIP_DOSFALSE, JIP_ERROR_OBJECT_EXISTS);
    RESULTS("create nowhere", create_dir(h, "f/g"), JIP_DOSFALSE, JIP_ERROR_OBJECT_WRONG_TYPE);
    RESULTS("output kept", find_output(h, "kept"), JIP_DOSFALSE, JIP_ERROR_DELETE_PROTECTED);
    RESULTS("output a directory", find_output(h, "d"), JIP_DOSFALSE, JIP_ERROR_OBJECT_WRONG_TYPE);
    RESULTS("update a directory", find_update(h, "d"), JIP_DOSFALSE, JIP_ERROR_OBJECT_WRONG_TYPE);
    RESULTS("update without a name", find_update(h, "d/"), JIP_DOSFALSE, JIP_ERROR_INVALID_COMPONENT_NAME);
    RESULTS("another action", other(h, 999), JIP_DOSFALSE, JIP_ERROR_ACTION_NOT_KNOWN);
}

/* Open files, and what is locked. */
static void held(jip_handle *h) {
    char bytes[8] = "-------";
    const uint32_t file = find_update(h, "f").handle, kept = find_input(h, "kept").handle;
    RESULTS("write", write_bytes(h, file, "x", 1), -1, PROTECTED);
    RESULTS("write nothing", write_bytes(h, file, "", 0), 0, 0);
    RESULTS("write kept", write_bytes(h, kept, "x", 1), -1, JIP_ERROR_WRITE_PROTECTED);
    RESULTS("write nothing to kept", write_bytes(h, kept, "", 0), -1, JIP_ERROR_WRITE_PROTECTED);
    RESULTS("write nowhere", write_bytes(h, 99, "x", 1), -1, JIP_ERROR_INVALID_LOCK);
    RESULTS("read", read_bytes(h, file, bytes, 4), 4, 0);
    EXPECT("its bytes", strcmp(bytes, "four---") == 0);
    RESULTS("write after the end", write_bytes(h, file, bytes, 8), -1, PROTECTED);
    RESULTS("seek", seek(h, file, 1, JIP_OFFSET_BEGINNING), 4, 0);
    RESULTS("seek too far", seek(h, file, 9, JIP_OFFSET_BEGINNING), -1, JIP_ERROR_SEEK_ERROR);
    RESULTS("the same size", set_size(h, file, 4, JIP_OFFSET_BEGINNING), JIP_DOSTRUE, 0);
    RESULTS("another size", set_size(h, file, 3, JIP_OFFSET_BEGINNING), JIP_DOSFALSE, PROTECTED);
    RESULTS("a size before the start", set_size(h, file, -9, JIP_OFFSET_END), JIP_DOSFALSE, JIP_ERROR_SEEK_ERROR);
    RESULTS("the size of kept", set_size(h, kept, 0, JIP_OFFSET_BEGINNING), JIP_DOSFALSE, JIP_ERROR_WRITE_PROTECTED);
    RESULTS("a size beyond the disk", set_size(h, file, 2000000, JIP_OFFSET_BEGINNING), JIP_DOSFALSE, PROTECTED);
    RESULTS("delete an open file", delete_object(h, "f"), JIP_DOSFALSE, JIP_ERROR_OBJECT_IN_USE);
    RESULTS("empty an open file", find_output(h, "f"), JIP_DOSFALSE, JIP_ERROR_OBJECT_IN_USE);
    RESULTS("end", end(h, file), JIP_DOSTRUE, 0);
    RESULTS("end", end(h, kept), JIP_DOSTRUE, 0);
    const uint32_t lock = (uint32_t)locate(h, 0, "d", JIP_EXCLUSIVE_LOCK).res1;
    RESULTS("rename what is locked", rename_object(h, "d", "g"), JIP_DOSFALSE, JIP_ERROR_OBJECT_IN_USE);
    RESULTS("free", free_lock(h, lock), JIP_DOSTRUE, 0);
}

static void tells_state(jip_handle *h, jip_handle *writable) {
    jip_answer answer = disk_info(h);
    const jip_answer other = disk_info(writable);
    EXPECT("disk info", answer.res1 == JIP_DOSTRUE && answer.res2 == 0 && answer.disk.state == JIP_WRITE_PROTECTED);
    EXPECT("all else", answer.disk.blocks == other.disk.blocks && answer.disk.used == other.disk.used &&
                           answer.disk.bytes_per_block == other.disk.bytes_per_block && answer.disk.disk_type == other.disk.disk_type);
    EXPECT("a disk that can be written", other.disk.state == JIP_VALIDATED);
    answer = info(h, 0);
    EXPECT("info", answer.res1 == JIP_DOSTRUE && answer.disk.state == JIP_WRITE_PROTECTED);
    answer = info(h, 9);
    EXPECT("info of no lock", answer.res2 == JIP_ERROR_INVALID_LOCK && answer.disk.state == 0);
}

static void handles(int32_t format) {
    jip_handle writable = filled(format);
    size_t length;
    uint8_t *image = image_of(&writable, &length);
    jip_handle h = read_only(image, length);
    would_write(&h);
    earlier(&h);
    held(&h);
    tells_state(&h, &writable);
    EXPECT("unchanged", is_unchanged(&h, image, length));
    RESULTS("nothing is held", die(&h), JIP_DOSTRUE, 0);
    RESULTS("dead", delete_object(&h, "f"), JIP_DOSFALSE, JIP_ERROR_DEVICE_NOT_MOUNTED);
    RESULTS("dead", delete_object(&h, "no"), JIP_DOSFALSE, JIP_ERROR_DEVICE_NOT_MOUNTED);
    EXPECT("unchanged", is_unchanged(&h, image, length));
    EXPECT("close", jip_close(&h) == JIP_DONE && jip_close(&writable) == JIP_DONE);
    free(image);
}

/* 214 comes before 221. */
static void full(void) {
    jip_handle h = blank(JIP_FFS, JIP_FEWEST_BLOCKS);
    size_t length;
    uint8_t *image;
    make_file(&h, "all", (16 - 2 - 2 - 1) * 512);
    RESULTS("no room", create_dir(&h, "new"), JIP_DOSFALSE, JIP_ERROR_DISK_FULL);
    image = image_of(&h, &length);
    EXPECT("close", jip_close(&h) == JIP_DONE);
    h = read_only(image, length);
    RESULTS("create", create_dir(&h, "new"), JIP_DOSFALSE, PROTECTED);
    RESULTS("output", find_output(&h, "new"), JIP_DOSFALSE, PROTECTED);
    RESULTS("update", find_update(&h, "new"), JIP_DOSFALSE, PROTECTED);
    EXPECT("a whole file", jip_write_file(&h, now, "new", 3, image, length) == PROTECTED);
    EXPECT("unchanged", is_unchanged(&h, image, length));
    EXPECT("close", jip_close(&h) == JIP_DONE);
    free(image);
}

static void openings(void) {
    jip_handle h = filled(JIP_OFS), other = JIP_CLOSED;
    jip_fault fault = {0, 0};
    size_t length;
    uint8_t *image = image_of(&h, &length);
    EXPECT("store", jip_store(&h, "read_only.adf") == JIP_DONE);
    EXPECT("load", jip_load_read_only("read_only.adf", &other, &fault) == JIP_DONE);
    RESULTS("a file of the host", delete_object(&other, "f"), JIP_DOSFALSE, PROTECTED);
    EXPECT("an open handle", jip_open_read_only(image, length, &other, &fault) == JIP_WRONG_ARGUMENT);
    EXPECT("close", jip_close(&other) == JIP_DONE);
    image[512 * 880 + 20] ^= 1;
    EXPECT("a fault", jip_open_read_only(image, length, &other, &fault) == JIP_NOT_AN_IMAGE && fault.kind == JIP_FAULT_BAD_SUM);
    EXPECT("its block", fault.block == 880);
    EXPECT("null", jip_open_read_only(NULL, 1, &other, &fault) == JIP_WRONG_ARGUMENT);
    EXPECT("null", jip_open_read_only(image, length, NULL, &fault) == JIP_WRONG_ARGUMENT);
    EXPECT("null", jip_load_read_only(NULL, &other, &fault) == JIP_WRONG_ARGUMENT);
    EXPECT("no file", jip_load_read_only("none.adf", &other, &fault) == JIP_HOST_FAILED);
    EXPECT("close", jip_close(&h) == JIP_DONE);
    (void)unlink("read_only.adf");
    free(image);
}

int main(void) {
    for (int32_t format = JIP_OFS; format <= JIP_FFS; format++) handles(format);
    full();
    openings();
    return summed_up();
}
