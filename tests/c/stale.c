/* Tests changed, inhibited and write-protected disks: what a program of the machine still holds of a removed disk is never a
 * lock or a file of another one, and works again when the disk is back as it was. */
#include "machine.h"

enum { OTHER_VOLUME = 0x4200, OFF = 0, ON = 1 };

static uint8_t *kept;
static size_t kept_length;
static int inhibitions, allowed, changes_inhibited, leaves_empty;
static int32_t inhibit_error;

/* ---- The host ---- */

static void keep(void) {
    free(kept);
    kept = image_of(&floppy, &kept_length);
}

static void remove_disk(void) {
    EXPECT("remove", jip_remove_disk(&floppy, &guest) == JIP_DONE && floppy.behind == NULL && guest.volume == 0);
}

/* Inserts the disk with the bytes that were kept. Returns whether it is a disk that is back. */
static int insert_kept(int is_read_only) {
    jip_fault fault;
    EXPECT("open", (is_read_only ? jip_open_read_only : jip_open)(kept, kept_length, &floppy, &fault) == JIP_DONE);
    EXPECT("insert", jip_insert_disk(&floppy, &guest) == JIP_DONE && floppy.behind != NULL);
    return guest.volume != 0;
}

static void insert_other(const char *name) {
    const jip_date first = {9, 9, 9};
    EXPECT("blank", jip_blank(JIP_OFS, JIP_DOUBLE_DENSITY, name, strlen(name), first, &floppy) == JIP_DONE);
    EXPECT("insert", jip_insert_disk(&floppy, &guest) == JIP_DONE && guest.volume == 0);
    guest.volume = OTHER_VOLUME;
}

static uint32_t locked(const char *path, int32_t mode) {
    set_long(PACKET + 8, 8);
    set_long(PACKET + 20, 0);
    set_long(PACKET + 24, bstr(path));
    set_long(PACKET + 28, (uint32_t)mode);
    EXPECT("locked", jip_serve_guest(&floppy, &guest, PACKET) == JIP_DONE && long_at(PACKET + 16) == 0);
    return long_at(PACKET + 12);
}

/* Writes text to a new file of this name, and leaves it open. */
static uint32_t written(const char *name, const char *text) {
    const uint32_t file = opened(1006, 0, name);
    memcpy(ram + BYTES, text, strlen(text));
    GIVES((int32_t)strlen(text), 0, 87, file, BYTES, (uint32_t)strlen(text), 0);
    return file;
}

static void holds_text(uint32_t file, const char *text) {
    GIVES((int32_t)strlen(text), 0, 82, file, BYTES + 0x100, 100, 0);
    EXPECT("its bytes", memcmp(ram + BYTES + 0x100, text, strlen(text)) == 0);
}

/* ---- Changed disks ---- */

/* Each packet that names a lock of a removed disk. */
static void dead_lock(uint32_t lock, uint32_t live) {
    static const uint32_t first[] = {8, 16, 17, 19, 22, 23, 24, 26, 29, 40};
    static const uint32_t second[] = {21, 28, 34, 1004, 1005, 1006, 1026};
    for (size_t k = 0; k < sizeof first / sizeof first[0]; k++) GIVES(DOSFALSE, 218, first[k], lock, FIB >> 2, 0, FIB >> 2);
    for (size_t k = 0; k < sizeof second / sizeof second[0]; k++) GIVES(DOSFALSE, 218, second[k], FILE_2 >> 2, lock, bstr("f"), STAMP);
    GIVES(DOSFALSE, 218, 23, lock, 0xffffffff, 0, 0); /* before 115 */
    GIVES(DOSFALSE, 218, 17, live, bstr("f"), lock, bstr("g"));
    GIVES(DOSFALSE, 218, 40, live, lock, 0, 0);
}

/* Each packet that names a file of a removed disk. */
static void dead_file(uint32_t file) {
    static const uint32_t count[] = {82, 87, 1008}, other[] = {1022, 1030, 1031, 1034};
    for (size_t k = 0; k < sizeof count / sizeof count[0]; k++) GIVES(-1, 218, count[k], file, BYTES, 5, 0);
    for (size_t k = 0; k < sizeof other / sizeof other[0]; k++) GIVES(DOSFALSE, 218, other[k], file, FIB >> 2, 0, 0);
    GIVES(-1, 218, 87, file, RAM, 5, 0);
}

static void other_disk(int32_t format) {
    set_up(format);
    const uint32_t old_lock = locked("", -2), old_file = written("on-a", "A");
    remove_disk();
    insert_other("Other");
    const uint32_t lock = locked("", -2), file = written("on-b", "precious");
    EXPECT("another lock, another file", lock != old_lock && file != old_file);
    EXPECT("its volume", long_at((lock << 2) + 16) == OTHER_VOLUME >> 2);
    const uint64_t before = jip_changes(&floppy);
    memcpy(ram + BYTES, "STALE", 5);
    dead_lock(old_lock, lock);
    dead_file(old_file);
    GIVES(DOSFALSE, 202, 5, 0, 0, 0, 0); /* DIE */
    SENT(15, old_lock, 0, 0, 0);
    SENT(1007, old_file, 0, 0, 0);
    GIVES(DOSFALSE, 211, 15, old_lock, 0, 0, 0);
    GIVES(DOSFALSE, 211, 1007, old_file, 0, 0, 0);
    EXPECT("the other disk has not changed", jip_changes(&floppy) == before);
    GIVES(8, 0, 1008, file, 0, (uint32_t)-1, 0);
    holds_text(file, "precious");
    SENT(15, lock, 0, 0, 0);
    SENT(1007, file, 0, 0, 0);
    GIVES(-1, 211, 87, old_file, BYTES, 5, 0);
    tear_down();
}

/* The places of the old disk stay its own, so the pool may be full of them. */
static void full_of_dead(int32_t format) {
    uint32_t locks[PLACES], files[PLACES];
    set_up(format);
    for (uint32_t k = 0; k < PLACES; k++) {
        locks[k] = locked("", -2);
        files[k] = opened(1004, 0, "f");
    }
    remove_disk();
    insert_other("Other");
    GIVES(DOSFALSE, 103, 8, 0, bstr(""), (uint32_t)-2, 0);
    GIVES(DOSFALSE, 103, 1006, FILE_1 >> 2, 0, bstr("g"), 0);
    SENT(15, locks[3], 0, 0, 0);
    SENT(1007, files[5], 0, 0, 0);
    EXPECT("the free place", locked("", -2) == locks[3]);
    EXPECT("the free place has another fh_Arg1", opened(1006, 0, "g") != files[5]);
    GIVES(-1, 211, 82, files[5], BYTES, 1, 0);
    holds_text(long_at(FILE_1 + 36), "");
    tear_down();
}

/* The disk is back with its bytes: locks and files, with their modes and positions, work again. */
static void same_disk(int32_t format) {
    set_up(format);
    SENT(15, (GIVES((int32_t)place(0), 0, 22, 0, bstr("d"), 0, 0), place(0)), 0, 0, 0);
    const uint32_t file = written("d/f", "0123456789"), lock = locked("d", -2);
    make("x");
    const uint32_t alone = locked("x", -1);
    GIVES(10, 0, 1008, file, 4, (uint32_t)-1, 0);
    keep();
    const uint64_t count = jip_changes(&floppy);
    for (int turn = 0; turn < 3; turn++) {
        remove_disk();
        GIVES(DOSFALSE, 218, 23, lock, FIB >> 2, 0, 0);
        if (turn == 1) {
            insert_other("Other");
            make("on the other");
            GIVES(DOSFALSE, 218, 23, lock, FIB >> 2, 0, 0);
            remove_disk();
        }
        EXPECT("it is back", insert_kept(0) && guest.volume == VOLUME && jip_changes(&floppy) == count);
        SENT(23, lock, FIB >> 2, 0, 0);
        EXPECT("its lock", is_bstr(FIB + 8, "d"));
        GIVES(4, 0, 1008, file, 0, 0, 0);
        GIVES(DOSFALSE, 202, 8, 0, bstr("x"), (uint32_t)-2, 0);
        GIVES(DOSFALSE, 202, 1005, FILE_2 >> 2, 0, bstr("d/f"), 0);
    }
    holds_text(file, "456789");
    SENT(1007, file, 0, 0, 0);
    SENT(15, alone, 0, 0, 0);
    SENT(15, lock, 0, 0, 0);
    SENT(5, 0, 0, 0, 0);
    tear_down();
}

/* The disk was changed elsewhere, or is write-protected now: what was held stays dead. */
static void changed_disk(int32_t format) {
    set_up(format);
    make("f");
    const uint32_t lock = locked("f", -2), file = opened(1004, 0, "f");
    keep();
    remove_disk();
    EXPECT("it is protected now", !insert_kept(1));
    GIVES(DOSFALSE, 218, 23, lock, FIB >> 2, 0, 0);
    remove_disk();
    EXPECT("it is back", insert_kept(0));
    GIVES(5, 0, 87, file, BYTES, 5, 0);
    remove_disk();
    EXPECT("its bytes differ", !insert_kept(0));
    GIVES(DOSFALSE, 218, 23, lock, FIB >> 2, 0, 0);
    GIVES(-1, 218, 87, file, BYTES, 5, 0);
    GIVES((int32_t)place(1), 0, 8, 0, bstr("f"), (uint32_t)-1, 0);
    GIVES(DOSFALSE, 218, 40, place(1), lock, 0, 0);
    tear_down();
}

/* Several removed disks are held at a time. */
static void three_disks(int32_t format) {
    static const char *const names[] = {"Second", "Third", "Fourth"};
    uint32_t locks[3];
    set_up(format);
    for (int k = 0; k < 3; k++) {
        locks[k] = locked("", -2);
        if (k == 1) keep();
        remove_disk();
        insert_other(names[k]);
    }
    GIVES(DOSFALSE, 218, 23, locks[0], FIB >> 2, 0, 0);
    remove_disk();
    EXPECT("the second is back", insert_kept(0) && guest.volume == OTHER_VOLUME);
    SENT(23, locks[1], FIB >> 2, 0, 0);
    EXPECT("its name", is_bstr(FIB + 8, "Second"));
    GIVES(DOSFALSE, 218, 23, locks[0], FIB >> 2, 0, 0);
    GIVES(DOSFALSE, 218, 23, locks[2], FIB >> 2, 0, 0);
    SENT(15, locks[2], 0, 0, 0);
    SENT(15, locks[1], 0, 0, 0);
    GIVES(DOSFALSE, 202, 5, 0, 0, 0, 0);
    SENT(15, locks[0], 0, 0, 0);
    SENT(5, 0, 0, 0, 0);
    tear_down();
}

/* A drive without a disk. */
static void no_disk(int32_t format) {
    set_up(format);
    const uint32_t lock = locked("", -2);
    remove_disk();
    remove_disk();
    static const uint32_t types[] = {7, 8, 9, 16, 18, 22, 25, 27, 999, 1006, 1023, 1027};
    for (size_t k = 0; k < sizeof types / sizeof types[0]; k++) GIVES(DOSFALSE, 218, types[k], 0, 0, 0, 0);
    GIVES(DOSFALSE, 218, 15, 0, 0, 0, 0);
    GIVES(DOSFALSE, 209, 31, ON, 0, 0, 0); /* without a callback */
    GIVES(-1, 218, 82, 1, 0, 0, 0);
    GIVES(DOSFALSE, 202, 5, 0, 0, 0, 0);
    jip_handle closed = JIP_CLOSED;
    EXPECT("no handle", jip_insert_disk(&closed, &guest) == JIP_WRONG_ARGUMENT && jip_insert_disk(NULL, &guest) == JIP_WRONG_ARGUMENT);
    EXPECT("no guest", jip_insert_disk(&floppy, NULL) == JIP_WRONG_ARGUMENT && jip_remove_disk(&floppy, NULL) == JIP_WRONG_ARGUMENT);
    EXPECT("no handle", jip_remove_disk(NULL, &guest) == JIP_WRONG_ARGUMENT);
    SENT(15, lock, 0, 0, 0);
    SENT(5, 0, 0, 0, 0);
    insert_other("Late");
    GIVES(DOSFALSE, 218, 8, 0, bstr(""), (uint32_t)-2, 0); /* after DIE */
    GIVES(DOSFALSE, 218, 31, ON, 0, 0, 0);
    EXPECT("a disk is in the drive", jip_insert_disk(&floppy, &guest) == JIP_WRONG_ARGUMENT);
    tear_down();
    set_up(format);
    EXPECT("close", jip_close(&floppy) == JIP_DONE);
    EXPECT("no disk was removed", jip_insert_disk(&floppy, &guest) == JIP_WRONG_ARGUMENT);
    EXPECT("no packet", jip_serve_guest(&floppy, &guest, PACKET) == JIP_WRONG_ARGUMENT);
    remove_disk(); /* the drive is empty from the start */
    GIVES(DOSFALSE, 218, 25, DISK >> 2, 0, 0, 0);
    insert_other("First");
    SENT(25, DISK >> 2, 0, 0, 0);
    tear_down();
}

/* A removal as the first call of a guest, with a disk and without one. What follows is as after any other removal. */
static void removed_first(int32_t format) {
    for (int turn = 0; turn < 5; turn++) {
        set_up(format);
        keep();
        if (turn == 1) EXPECT("close", jip_close(&floppy) == JIP_DONE);
        remove_disk();
        remove_disk();
        if (turn == 2) {
            SENT(5, 0, 0, 0, 0); /* DIE */
        } else if (turn == 3) {
            EXPECT("a callback", jip_guest_on_inhibit(&guest, NULL) == JIP_DONE);
            GIVES(DOSFALSE, 209, 31, ON, 0, 0, 0);
        } else if (turn == 4) {
            EXPECT("release", jip_release_guest(&floppy, &guest) == JIP_DONE && guest.state == NULL);
            EXPECT("no disk was removed", jip_serve_guest(&floppy, &guest, PACKET) == JIP_WRONG_ARGUMENT);
            remove_disk();
        }
        GIVES(DOSFALSE, 218, 8, 0, bstr(""), (uint32_t)-2, 0);
        GIVES(-1, 218, 82, 1, BYTES, 1, 0);
        EXPECT("it is another disk", !insert_kept(0));
        EXPECT("a disk is in the drive", jip_insert_disk(&floppy, &guest) == JIP_WRONG_ARGUMENT);
        if (turn == 2) GIVES(DOSFALSE, 218, 8, 0, bstr(""), (uint32_t)-2, 0);
        else GIVES((int32_t)place(0), 0, 8, 0, bstr(""), (uint32_t)-2, 0);
        tear_down();
    }
}

/* ---- INHIBIT ---- */

static int32_t inhibit(void *context, int32_t is_on) {
    const jip_date first = {1, 2, 3};
    jip_fault fault;
    if (context != &guest) strayed++;
    if (inhibit_error != 0) return inhibit_error;
    if (is_on) {
        inhibitions++;
        keep();
        return 0;
    }
    allowed++;
    if (leaves_empty) return 0;
    if (!changes_inhibited) return jip_open(kept, kept_length, &floppy, &fault) == JIP_DONE ? 0 : 225;
    return jip_blank(JIP_FFS, JIP_HIGH_DENSITY, "New", 3, first, &floppy) == JIP_DONE ? 0 : 225;
}

static void inhibited(int32_t format) {
    set_up(format);
    inhibitions = allowed = changes_inhibited = leaves_empty = 0;
    GIVES(DOSFALSE, 209, 31, ON, 0, 0, 0);
    EXPECT("no guest", jip_guest_on_inhibit(NULL, inhibit) == JIP_WRONG_ARGUMENT);
    EXPECT("a callback", jip_guest_on_inhibit(&guest, inhibit) == JIP_DONE);
    const uint32_t file = written("f", "text");
    inhibit_error = 202;
    GIVES(DOSFALSE, 202, 31, ON, 0, 0, 0);
    inhibit_error = 0;
    SENT(31, OFF, 0, 0, 0);
    EXPECT("it was not on", allowed == 0);
    SENT(31, ON, 0, 0, 0);
    SENT(31, ON, 0, 0, 0);
    EXPECT("it is on once", inhibitions == 1);
    GIVES(DOSFALSE, 218, 25, DISK >> 2, 0, 0, 0);
    GIVES(DOSFALSE, 218, 8, 0, bstr(""), (uint32_t)-2, 0);
    dead_file(file);
    inhibit_error = 225;
    GIVES(DOSFALSE, 225, 31, OFF, 0, 0, 0);
    inhibit_error = 0;
    GIVES(DOSFALSE, 218, 25, DISK >> 2, 0, 0, 0);
    SENT(31, OFF, 0, 0, 0);
    EXPECT("the same disk", guest.volume == VOLUME && allowed == 1);
    GIVES(0, 0, 82, file, BYTES, 9, 0);
    changes_inhibited = 1;
    SENT(31, ON, 0, 0, 0);
    jip_handle other = JIP_CLOSED;
    jip_fault fault;
    EXPECT("open", jip_open(kept, kept_length, &other, &fault) == JIP_DONE);
    EXPECT("the callback opens it", jip_insert_disk(&other, &guest) == JIP_WRONG_ARGUMENT);
    EXPECT("close", jip_close(&other) == JIP_DONE);
    SENT(31, OFF, 0, 0, 0);
    EXPECT("another disk", guest.volume == 0);
    dead_file(file);
    SENT(1007, file, 0, 0, 0);
    SENT(25, DISK >> 2, 0, 0, 0);
    EXPECT("its blocks", long_at(DISK + 12) == 3518);
    leaves_empty = 1;
    SENT(31, ON, 0, 0, 0);
    SENT(31, OFF, 0, 0, 0);
    GIVES(DOSFALSE, 218, 25, DISK >> 2, 0, 0, 0);
    insert_other("Late");
    SENT(25, DISK >> 2, 0, 0, 0);
    tear_down();
}

/* ---- WRITE_PROTECT ---- */

static void protected_disk(int32_t format) {
    set_up(format);
    make("f");
    const uint32_t lock = locked("f", -2);
    GIVES(DOSFALSE, 202, 1023, ON, 77, 0, 0);
    SENT(15, lock, 0, 0, 0);
    SENT(1023, OFF, 5, 0, 0);
    SENT(1023, ON, 77, 0, 0);
    SENT(25, DISK >> 2, 0, 0, 0);
    EXPECT("it is protected", long_at(DISK + 8) == 80);
    GIVES(DOSFALSE, 214, 22, 0, bstr("d"), 0, 0);
    GIVES(DOSFALSE, 205, 16, 0, bstr("none"), 0, 0);
    GIVES(DOSFALSE, 214, 1023, ON, 78, 0, 0);
    GIVES(DOSFALSE, 214, 1023, OFF, 78, 0, 0);
    SENT(1023, ON, 77, 0, 0);
    const uint32_t file = opened(1005, 0, "f");
    GIVES(DOSFALSE, 202, 1023, OFF, 77, 0, 0);
    keep();
    remove_disk();
    EXPECT("it is back", insert_kept(0));
    GIVES(DOSFALSE, 214, 22, 0, bstr("d"), 0, 0);
    SENT(1007, file, 0, 0, 0);
    SENT(1023, OFF, 77, 0, 0);
    SENT(25, DISK >> 2, 0, 0, 0);
    EXPECT("it is not protected", long_at(DISK + 8) == 82);
    SENT(16, 0, bstr("f"), 0, 0);
    keep();
    remove_disk();
    (void)insert_kept(1);
    SENT(1023, ON, 1, 0, 0);
    GIVES(DOSFALSE, 214, 1023, OFF, 1, 0, 0); /* by the host */
    GIVES(DOSFALSE, 214, 22, 0, bstr("d"), 0, 0);
    tear_down();
}

/* ---- The volume node, and names of actions ---- */

static void nodes(int32_t format) {
    jip_volume volume;
    jip_handle closed = JIP_CLOSED;
    set_up(format);
    EXPECT("closed", jip_volume_of(&closed, &volume) == JIP_WRONG_ARGUMENT && jip_volume_of(&floppy, NULL) == JIP_WRONG_ARGUMENT);
    (void)locked("", -1);
    EXPECT("the volume, under an exclusive lock", jip_volume_of(&floppy, &volume) == JIP_DONE);
    EXPECT("its type", volume.disk_type == 0x444f5300 + (uint32_t)format);
    EXPECT("its name", volume.name_length == 4 && strcmp((const char *)volume.name, "Work") == 0);
    EXPECT("its date", volume.date.days == 1 && volume.date.minutes == 2 && volume.date.ticks == 3);
    SENT(15, place(0), 0, 0, 0);
    SENT(5, 0, 0, 0, 0);
    EXPECT("after DIE", jip_volume_of(&floppy, &volume) == 218 && volume.name_length == 4);
    EXPECT("names", strcmp(jip_action_name(8), "LOCATE_OBJECT") == 0 && strcmp(jip_action_name(1033), "EXAMINE_ALL") == 0);
    EXPECT("no name", strcmp(jip_action_name(999), "unknown action") == 0 && strcmp(jip_action_name(-1), "unknown action") == 0);
    tear_down();
    EXPECT("closed", jip_volume_of(&floppy, &volume) == JIP_WRONG_ARGUMENT);
}

int main(void) {
    static void (*const parts[])(int32_t) = {other_disk, full_of_dead, same_disk, changed_disk, three_disks, no_disk, removed_first,
                                             inhibited, protected_disk, nodes};
    ram = malloc(RAM);
    if (ram == NULL) return 1;
    for (int32_t format = JIP_OFS; format <= JIP_FFS; format++)
        for (size_t k = 0; k < sizeof parts / sizeof parts[0]; k++) parts[k](format);
    free(kept);
    free(ram);
    return summed_up();
}
