/* Tests the calls that take a whole path: they make, delete, move, describe and list. Also tests what they check of their
 * arguments. */
#include "asking.h"

#define PATH(text) text, JIP_TO_ZERO

enum { LEVELS = 20, ROOM = 8 };

/* A path of twenty directories with names of thirty letters, and a name below them. */
static const char *far_down(const char *name) {
    static char paths[4][1000];
    static size_t used;
    char *path = paths[used++ % 4];
    path[0] = 0;
    for (int i = 0; i < LEVELS; i++) strcat(path, "abcdefghijklmnopqrstuvwxyz1234/");
    return strcat(path, name);
}

static int32_t put(jip_handle *h, const char *path, const char *text) {
    return jip_write_file(h, now, PATH(path), text, strlen(text));
}

/* Checks that nothing is held: DIE is refused while a lock or a file handle exists. */
static void ends(const char *name, jip_handle *h) {
    RESULTS(name, die(h), JIP_DOSTRUE, 0);
    EXPECT(name, jip_close(h) == JIP_DONE);
}

/* Whether an image has these bytes still. Frees them. */
static int is_unchanged(jip_handle *h, uint8_t *before, size_t length) {
    size_t again;
    uint8_t *after = image_of(h, &again);
    const int same = length == again && memcmp(before, after, length) == 0;
    free(before);
    free(after);
    return same;
}

static int is_entry(jip_handle *h, const char *path, int32_t type, uint32_t size, const char *name) {
    jip_entry entry;
    memset(&entry, 1, sizeof entry);
    return jip_stat(h, PATH(path), &entry) == JIP_DONE && entry.entry_type == type && entry.size == size &&
           entry.name_length == strlen(name) && memcmp(entry.name, name, entry.name_length + 1) == 0;
}

static void directories(int32_t format) {
    jip_handle h = blank(format, JIP_DOUBLE_DENSITY);
    EXPECT("a directory", jip_make_directory(&h, now, PATH("Docs")) == JIP_DONE);
    EXPECT("it may be used at once", jip_make_directory(&h, now, PATH("docs/a")) == JIP_DONE);
    EXPECT("with its length", jip_make_directory(&h, now, "Work:bcd", 6) == JIP_DONE && is_entry(&h, "B", JIP_DIRECTORY, 0, "b"));
    EXPECT("again", jip_make_directory(&h, now, PATH("DOCS")) == JIP_ERROR_OBJECT_EXISTS);
    EXPECT("no parent", jip_make_directory(&h, now, PATH("none/a")) == JIP_ERROR_DIR_NOT_FOUND);
    EXPECT("no name", jip_make_directory(&h, now, PATH("a name with more than thirty bytes")) == JIP_ERROR_INVALID_COMPONENT_NAME);
    EXPECT("not empty", jip_delete(&h, now, PATH("Docs")) == JIP_ERROR_DIRECTORY_NOT_EMPTY);
    EXPECT("deleted", jip_delete(&h, now, PATH("Docs/a")) == JIP_DONE && jip_delete(&h, now, PATH("Docs")) == JIP_DONE);
    EXPECT("missing", jip_delete(&h, now, PATH("Docs")) == JIP_ERROR_OBJECT_NOT_FOUND);
    EXPECT("the root", jip_delete(&h, now, PATH("")) != JIP_DONE);
    ends("directories", &h);
}

static void entries(void) {
    jip_handle h = blank(JIP_FFS, JIP_DOUBLE_DENSITY);
    jip_entry entry, kept;
    EXPECT("f", put(&h, "f", "12345") == JIP_DONE);
    EXPECT("a file", is_entry(&h, "F", JIP_FILE, 5, "f") && is_entry(&h, "Work:f", JIP_FILE, 5, "f"));
    EXPECT("the root", is_entry(&h, "", JIP_ROOT, 0, "Work") && is_entry(&h, ":", JIP_ROOT, 0, "Work"));
    memset(&entry, 7, sizeof entry);
    kept = entry;
    EXPECT("missing", jip_stat(&h, PATH("g"), &entry) == JIP_ERROR_OBJECT_NOT_FOUND);
    EXPECT("missing above", jip_stat(&h, PATH("g/h"), &entry) == JIP_ERROR_DIR_NOT_FOUND);
    EXPECT("below a file", jip_stat(&h, PATH("f/h"), &entry) == JIP_ERROR_OBJECT_WRONG_TYPE);
    RESULTS("an exclusive lock", locate(&h, 0, "f", JIP_EXCLUSIVE_LOCK), 1, 0);
    EXPECT("in use", jip_stat(&h, PATH("f"), &entry) == JIP_ERROR_OBJECT_IN_USE && jip_delete(&h, now, PATH("f")) == JIP_ERROR_OBJECT_IN_USE);
    EXPECT("the entry is as it was", memcmp(&entry, &kept, sizeof entry) == 0);
    RESULTS("free", free_lock(&h, 1), JIP_DOSTRUE, 0);
    RESULTS("protect", protect(&h, "f", JIP_DENIES_DELETE), JIP_DOSTRUE, 0);
    EXPECT("protected", jip_delete(&h, now, PATH("f")) == JIP_ERROR_DELETE_PROTECTED);
    ends("entries", &h);
}

static void lists(int32_t format) {
    jip_handle h = blank(format, JIP_DOUBLE_DENSITY);
    jip_entry found[ROOM];
    size_t count = 99, seen = 0;
    char name[2] = "a";
    EXPECT("empty", jip_list(&h, PATH(""), NULL, 0, &count) == JIP_DONE && count == 0);
    for (; name[0] <= 'e'; name[0]++) EXPECT(name, put(&h, name, name) == JIP_DONE);
    EXPECT("d", jip_make_directory(&h, now, PATH("dir")) == JIP_DONE && put(&h, "dir/below", "below") == JIP_DONE);
    EXPECT("the count alone", jip_list(&h, PATH(":"), NULL, 0, &count) == JIP_DONE && count == 6);
    memset(found, 0, sizeof found);
    EXPECT("too little room", jip_list(&h, PATH(""), found, 2, &count) == JIP_DONE && count == 6 && found[2].name_length == 0);
    EXPECT("enough room", jip_list(&h, PATH(""), found, ROOM, &count) == JIP_DONE && count == 6);
    for (size_t i = 0; i < 6; i++)
        seen |= found[i].entry_type == JIP_DIRECTORY && found[i].name_length == 3 ? 1u : 2u << (found[i].name[0] - 'a');
    EXPECT("each entry once", seen == 63);
    EXPECT("a directory", jip_list(&h, PATH("DIR"), found, ROOM, &count) == JIP_DONE && count == 1 && found[0].size == 5);
    EXPECT("a file", jip_list(&h, PATH("a"), found, ROOM, &count) == JIP_ERROR_OBJECT_WRONG_TYPE);
    EXPECT("missing", jip_list(&h, PATH("none"), found, ROOM, &count) == JIP_ERROR_OBJECT_NOT_FOUND && count == 1);
    ends("lists", &h);
}

static void moves(int32_t format) {
    jip_handle h = blank(format, JIP_DOUBLE_DENSITY);
    EXPECT("d", jip_make_directory(&h, now, PATH("d")) == JIP_DONE && put(&h, "f", "moved") == JIP_DONE);
    EXPECT("into it", jip_rename(&h, now, PATH("f"), PATH("d/g")) == JIP_DONE && is_entry(&h, "d/G", JIP_FILE, 5, "g"));
    EXPECT("no longer there", jip_rename(&h, now, PATH("f"), PATH("h")) == JIP_ERROR_OBJECT_NOT_FOUND);
    EXPECT("with lengths", jip_rename(&h, now, "d/gx", 3, "fx", 1) == JIP_DONE && is_entry(&h, "f", JIP_FILE, 5, "f"));
    EXPECT("another case", jip_rename(&h, now, PATH("f"), PATH("F")) == JIP_DONE && is_entry(&h, "f", JIP_FILE, 5, "F"));
    EXPECT("not replaced", put(&h, "d/g", "kept") == JIP_DONE && jip_rename(&h, now, PATH("f"), PATH("d/g")) == JIP_ERROR_OBJECT_EXISTS);
    EXPECT("kept", is_entry(&h, "d/g", JIP_FILE, 4, "g") && is_entry(&h, "f", JIP_FILE, 5, "F"));
    EXPECT("into itself", jip_rename(&h, now, PATH("d"), PATH("d/d")) != JIP_DONE && is_entry(&h, "d", JIP_DIRECTORY, 0, "d"));
    ends("moves", &h);
}

static void long_paths(int32_t format) {
    jip_handle h = blank(format, JIP_DOUBLE_DENSITY);
    jip_entry found[ROOM];
    size_t count = 0;
    char above[1000] = "";
    for (int i = 0; i < LEVELS; i++) {
        strcat(strcat(above, i == 0 ? "" : "/"), "abcdefghijklmnopqrstuvwxyz1234");
        EXPECT("a level", jip_make_directory(&h, now, PATH(above)) == JIP_DONE);
    }
    EXPECT("a file far down", put(&h, far_down("f"), "far") == JIP_DONE && is_entry(&h, far_down("F"), JIP_FILE, 3, "f"));
    EXPECT("moved there", jip_rename(&h, now, PATH(far_down("f")), PATH(far_down("g"))) == JIP_DONE);
    EXPECT("moved up", jip_rename(&h, now, PATH(far_down("g")), PATH("top")) == JIP_DONE && is_entry(&h, "top", JIP_FILE, 3, "top"));
    EXPECT("moved down", jip_rename(&h, now, PATH("top"), PATH(far_down("f"))) == JIP_DONE);
    EXPECT("listed", jip_list(&h, PATH(above), found, ROOM, &count) == JIP_DONE && count == 1 && found[0].name[0] == 'f');
    EXPECT("missing", jip_rename(&h, now, PATH(far_down("none")), PATH("top")) == JIP_ERROR_OBJECT_NOT_FOUND);
    EXPECT("no way to it", jip_rename(&h, now, PATH(far_down("f")), PATH(far_down("none/f"))) == JIP_ERROR_DIR_NOT_FOUND);
    EXPECT("deleted", jip_delete(&h, now, PATH(far_down("f"))) == JIP_DONE && jip_delete(&h, now, PATH(above)) == JIP_DONE);
    EXPECT("and gone", jip_stat(&h, PATH(above), found) == JIP_ERROR_OBJECT_NOT_FOUND);
    ends("long paths", &h);
}

/* A refused change leaves every byte of the image unchanged. */
static void refusals(void) {
    jip_handle h = blank(JIP_OFS, JIP_FEWEST_BLOCKS), fixed = JIP_CLOSED;
    jip_fault fault;
    jip_entry entry;
    char name[8] = "d-a";
    size_t length;
    int32_t result = JIP_DONE;
    for (; result == JIP_DONE && name[2] <= 'z'; name[2]++) result = jip_make_directory(&h, now, PATH(name));
    uint8_t *before = image_of(&h, &length);
    EXPECT("full", result == JIP_ERROR_DISK_FULL && jip_make_directory(&h, now, PATH("d")) == JIP_ERROR_DISK_FULL);
    EXPECT("read-only", jip_open_read_only(before, length, &fixed, &fault) == JIP_DONE);
    EXPECT("read-only", jip_delete(&fixed, now, PATH("d-a")) == JIP_ERROR_DISK_WRITE_PROTECTED);
    EXPECT("read-only", jip_rename(&fixed, now, PATH("d-a"), PATH("e")) == JIP_ERROR_DISK_WRITE_PROTECTED);
    EXPECT("read-only", jip_stat(&fixed, PATH("d-a"), &entry) == JIP_DONE);
    EXPECT("as it was", is_unchanged(&h, before, length));
    ends("refusals", &h);
    ends("refusals, read-only", &fixed);
}

/* The calls want null pointers, alignment and overlaps to be right. */
static void wrong_arguments(void) {
    jip_handle h = blank(JIP_OFS, JIP_DOUBLE_DENSITY), closed = JIP_CLOSED;
    jip_entry found[2];
    size_t count = 7;
    unsigned char *odd = (unsigned char *)found + 1;
    EXPECT("closed", jip_make_directory(&closed, now, PATH("d")) == JIP_WRONG_ARGUMENT);
    EXPECT("closed", jip_delete(&closed, now, PATH("d")) == JIP_WRONG_ARGUMENT && jip_stat(&closed, PATH("d"), found) == JIP_WRONG_ARGUMENT);
    EXPECT("closed", jip_rename(&closed, now, PATH("d"), PATH("e")) == JIP_WRONG_ARGUMENT);
    EXPECT("closed", jip_list(&closed, PATH(""), found, 2, &count) == JIP_WRONG_ARGUMENT);
    EXPECT("null", jip_make_directory(NULL, now, PATH("d")) == JIP_WRONG_ARGUMENT && jip_delete(&h, now, NULL, 1) == JIP_WRONG_ARGUMENT);
    EXPECT("null", jip_rename(&h, now, PATH("d"), NULL, 1) == JIP_WRONG_ARGUMENT && jip_stat(&h, PATH("d"), NULL) == JIP_WRONG_ARGUMENT);
    EXPECT("null", jip_list(&h, PATH(""), NULL, 1, &count) == JIP_WRONG_ARGUMENT && jip_list(&h, PATH(""), found, 2, NULL) == JIP_WRONG_ARGUMENT);
    EXPECT("not aligned", jip_stat(&h, PATH(""), (jip_entry *)(void *)odd) == JIP_WRONG_ARGUMENT);
    EXPECT("not aligned", jip_list(&h, PATH(""), (jip_entry *)(void *)odd, 1, &count) == JIP_WRONG_ARGUMENT);
    EXPECT("not aligned", jip_list(&h, PATH(""), found, 1, (size_t *)(void *)(odd + sizeof found[0])) == JIP_WRONG_ARGUMENT);
    EXPECT("beyond memory", jip_list(&h, PATH(""), found, SIZE_MAX / 8, &count) == JIP_WRONG_ARGUMENT);
    memset(found, 0, sizeof found);
    EXPECT("overlaps", jip_stat(&h, (const char *)found, 1, found) == JIP_WRONG_ARGUMENT);
    EXPECT("overlaps", jip_stat(&h, PATH(""), (jip_entry *)(void *)&h) == JIP_WRONG_ARGUMENT);
    EXPECT("overlaps", jip_list(&h, PATH(""), found, 2, (size_t *)(void *)found) == JIP_WRONG_ARGUMENT);
    EXPECT("overlaps", jip_list(&h, PATH(""), (jip_entry *)(void *)&h, 1, &count) == JIP_WRONG_ARGUMENT);
    EXPECT("overlaps", jip_list(&h, (const char *)found, 1, found, 2, &count) == JIP_WRONG_ARGUMENT);
    EXPECT("overlaps", jip_delete(&h, now, (const char *)&h, 1) == JIP_WRONG_ARGUMENT && count == 7);
    ends("wrong arguments", &h);
}

/* The same for the calls for whole files, and for jip_reach. */
static void wrong_results(void) {
    jip_handle h = blank(JIP_OFS, JIP_DOUBLE_DENSITY);
    struct {
        size_t length, other;
        uint32_t lock, filler;
        const char *rest;
        char text[32];
    } to = {0, 0, 0, 0, NULL, "f"};
    void *odd = to.text + 1;
    EXPECT("f", put(&h, "f", "12345") == JIP_DONE);
    EXPECT("read: not aligned", jip_read_file(&h, PATH("f"), to.text, 8, (size_t *)odd) == JIP_WRONG_ARGUMENT);
    EXPECT("read: the length in the bytes", jip_read_file(&h, PATH("f"), &to, sizeof to, &to.length) == JIP_WRONG_ARGUMENT);
    EXPECT("read: the bytes over the path", jip_read_file(&h, to.text, 1, to.text, 8, &to.length) == JIP_WRONG_ARGUMENT);
    EXPECT("read: the length over the path", jip_read_file(&h, (const char *)&to.length, 1, NULL, 0, &to.length) == JIP_WRONG_ARGUMENT);
    EXPECT("read: over the handle", jip_read_file(&h, PATH("f"), &h, sizeof h, &to.length) == JIP_WRONG_ARGUMENT);
    EXPECT("read: over the handle", jip_read_file(&h, PATH("f"), NULL, 0, (size_t *)(void *)&h) == JIP_WRONG_ARGUMENT);
    EXPECT("read: beyond memory", jip_read_file(&h, PATH("f"), to.text, SIZE_MAX, &to.length) == JIP_WRONG_ARGUMENT);
    EXPECT("read: beyond memory", jip_read_file(&h, to.text, SIZE_MAX - 1, NULL, 0, &to.length) == JIP_WRONG_ARGUMENT);
    EXPECT("write: over the handle", jip_write_file(&h, now, PATH("f"), &h, sizeof h) == JIP_WRONG_ARGUMENT);
    EXPECT("reach: not aligned", jip_reach(&h, PATH("f"), (uint32_t *)odd, &to.rest, &to.length) == JIP_WRONG_ARGUMENT);
    EXPECT("reach: not aligned", jip_reach(&h, PATH("f"), &to.lock, (const char **)odd, &to.length) == JIP_WRONG_ARGUMENT);
    EXPECT("reach: not aligned", jip_reach(&h, PATH("f"), &to.lock, &to.rest, (size_t *)odd) == JIP_WRONG_ARGUMENT);
    EXPECT("reach: two in one", jip_reach(&h, PATH("f"), (uint32_t *)(void *)&to.rest, &to.rest, &to.length) == JIP_WRONG_ARGUMENT);
    EXPECT("reach: two in one", jip_reach(&h, PATH("f"), &to.lock, &to.rest, (size_t *)(void *)&to.rest) == JIP_WRONG_ARGUMENT);
    EXPECT("reach: two in one", jip_reach(&h, PATH("f"), (uint32_t *)(void *)&to.length, &to.rest, &to.length) == JIP_WRONG_ARGUMENT);
    EXPECT("reach: over the path", jip_reach(&h, (const char *)&to.lock, 1, &to.lock, &to.rest, &to.length) == JIP_WRONG_ARGUMENT);
    EXPECT("reach: over the handle", jip_reach(&h, PATH("f"), &to.lock, (const char **)(void *)&h, &to.length) == JIP_WRONG_ARGUMENT);
    EXPECT("reach: null", jip_reach(&h, NULL, 1, &to.lock, &to.rest, &to.length) == JIP_WRONG_ARGUMENT);
    EXPECT("reach: null", jip_reach(&h, PATH("f"), &to.lock, NULL, &to.length) == JIP_WRONG_ARGUMENT);
    EXPECT("nothing was written", to.length == 0 && to.lock == 0 && to.rest == NULL && strcmp(to.text, "f") == 0);
    EXPECT("all right", jip_reach(&h, to.text, 1, &to.lock, &to.rest, &to.length) == JIP_DONE && to.rest == to.text && to.length == 1);
    EXPECT("all right", jip_read_file(&h, PATH("f"), to.text, 5, &to.length) == JIP_DONE && to.length == 5 && memcmp(to.text, "12345", 5) == 0);
    ends("wrong results", &h);
}

/* A path on the host may not be part of what a call fills. */
static void wrong_host_paths(void) {
    jip_handle closed = JIP_CLOSED, h = blank(JIP_OFS, JIP_DOUBLE_DENSITY);
    jip_fault fault;
    memset(&fault, 0, sizeof fault);
    EXPECT("the path in the fault", jip_load((const char *)&fault, &closed, &fault) == JIP_WRONG_ARGUMENT);
    EXPECT("the path in the handle", jip_load((const char *)&closed, &closed, &fault) == JIP_WRONG_ARGUMENT);
    EXPECT("no fault", jip_load("none.adf", &closed, NULL) == JIP_WRONG_ARGUMENT);
    EXPECT("no handle", jip_load_read_only("none.adf", NULL, &fault) == JIP_WRONG_ARGUMENT);
    EXPECT("the path in the handle", jip_store(&h, (const char *)&h) == JIP_WRONG_ARGUMENT);
    ends("wrong host paths", &h);
}

int main(void) {
    for (int32_t format = JIP_OFS; format <= JIP_FFS; format++) {
        directories(format);
        lists(format);
        moves(format);
        long_paths(format);
    }
    entries();
    refusals();
    wrong_arguments();
    wrong_results();
    wrong_host_paths();
    EXPECT("the text of 115", strcmp(jip_error_text(115), "bad number") == 0);
    return summed_up();
}
