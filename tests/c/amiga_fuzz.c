/* Random packets in random memory of an emulated machine, for sanitizers.
 *
 *   amiga_fuzz SEED SECONDS          runs rounds from 0 on for SECONDS
 *   amiga_fuzz SEED 0 ROUND [COUNT]  runs this round alone, or COUNT rounds from it on; the same seed and round give the same packets
 *
 * Checks after each packet: the machine's memory has changed only where the packet may write. The two results are
 * consistent. A refused packet has not changed the image. A packet that names a lock or file of a removed disk is refused with
 * 218, unless it frees it. No other packet is, while a disk is in the drive and before DIE. Checks after each round: nothing is held,
 * and the image is valid.
 *
 * Disks are removed, changed elsewhere, replaced and inserted again, also by INHIBIT. A removal asks for no memory. An insertion that
 * has too little of it changes nothing.
 *
 * Link with --wrap for malloc, calloc and realloc, since some rounds refuse growths of memory. In other rounds the
 * machine's memory comes and goes. Those rounds check only the safety of the host. */
#include <jiponuwha_amiga.h>

#include <inttypes.h>
#include <stdio.h>
#include <stdlib.h>
#include <time.h>

enum { RAM = 0x8000, PACKETS = 250, NAMES = 0x700, NAME_COUNT = 16, LOCKS = 16, MOST_PLACES = 32, SHELF = 3 };

static uint8_t *ram, *shadow;
static uint32_t base, rom, refusals, growths;
static uint64_t seed, round_number, draws, checks, packets, answered;
static jip_handle floppy = JIP_CLOSED;
static jip_guest guest;
static uint32_t known_locks[LOCKS];
static int refuses_growths, comes_and_goes;

/* A lock or a file that the machine holds: its BPTR or fh_Arg1, and the number of its disk; the number is 0 for a free place. */
struct held {
    uint32_t name, disk;
};

static struct held held_locks[MOST_PLACES], held_files[MOST_PLACES];
static uint32_t disk_number, disks, disk_changes;
/* Whether INHIBIT is on; whether its callback has just opened a disk. */
static int is_inhibited, was_allowed;
/* Whether a DIE of this guest succeeded; whether one succeeded on the handle that is in the drive. */
static int guest_died, handle_died;

/* Whether the disk in the drive is protected by WRITE_PROTECT; whether it was, before a reset: it stays so as by the host. */
static int is_protected, stays_protected;

/* A disk that was removed: its bytes and its number, and whether WRITE_PROTECT protected it. The number is 0 if it is not the same disk
 * when it is back: it is opened for writing then, and was protected as by the host. */
static struct {
    uint8_t *bytes;
    size_t length;
    uint32_t number;
    int is_protected;
} shelf[SHELF];

static void fail(const char *what, int line) {
    printf("FAIL  %s, line %d: amiga_fuzz %" PRIu64 " 0 %" PRIu64 "\n", what, line, seed, round_number);
    printf("%" PRIu64 " passed, 1 failed\n", checks);
    exit(1);
}

#define HOLDS(what, holds) ((holds) ? (void)checks++ : fail(what, __LINE__))

/* ---- Random numbers ---- */

static uint32_t draw(uint32_t below) {
    draws += 0x9e3779b97f4a7c15;
    uint64_t z = draws;
    z = (z ^ z >> 30) * 0xbf58476d1ce4e5b9;
    z = (z ^ z >> 27) * 0x94d049bb133111eb;
    z ^= z >> 31;
    return below == 0 ? (uint32_t)z : (uint32_t)(z % below);
}

static int chance(uint32_t percent) { return draw(100) < percent; }

/* ---- Refused growths of memory ---- */

void *__real_malloc(size_t size);
void *__real_calloc(size_t count, size_t size);
void *__real_realloc(void *at, size_t size);
void *__wrap_malloc(size_t size);
void *__wrap_calloc(size_t count, size_t size);
void *__wrap_realloc(void *at, size_t size);

static int is_refused(void) {
    growths++;
    if (!refuses_growths || draw(4) != 0) return 0;
    refusals++;
    return 1;
}

void *__wrap_malloc(size_t size) { return is_refused() ? NULL : __real_malloc(size); }
void *__wrap_calloc(size_t count, size_t size) { return is_refused() ? NULL : __real_calloc(count, size); }
void *__wrap_realloc(void *at, size_t size) { return is_refused() ? NULL : __real_realloc(at, size); }

/* ---- The machine ---- */

static int lies_in(uint32_t at, uint32_t length, uint32_t end) {
    return at - base <= end && at >= base && length <= end - (at - base);
}

static int peek(void *context, uint32_t at, void *to, uint32_t length) {
    HOLDS("a range to read", length != 0 && length - 1 <= UINT32_MAX - at && context == &guest);
    if (!lies_in(at, length, RAM) || (comes_and_goes && draw(12) == 0)) return 0;
    memcpy(to, ram + (at - base), length);
    return 1;
}

static int poke(void *context, uint32_t at, const void *from, uint32_t length) {
    HOLDS("a range to write", length != 0 && length - 1 <= UINT32_MAX - at && context == &guest);
    if (!lies_in(at, length, rom) || (comes_and_goes && draw(6) == 0)) return 0;
    memcpy(ram + (at - base), from, length);
    return 1;
}

static int32_t save(void *context) {
    HOLDS("what is given to save", context == &guest);
    return chance(10) ? 214 : 0;
}

static uint32_t long_at(uint32_t at) {
    const uint8_t *it = ram + (at - base);
    return (uint32_t)it[0] << 24 | (uint32_t)it[1] << 16 | (uint32_t)it[2] << 8 | it[3];
}

static void set_long(uint32_t at, uint32_t value) {
    for (uint32_t k = 0; k < 4; k++) ram[at - base + k] = (uint8_t)(value >> (24 - 8 * k));
}

/* ---- Disks ---- */

static void blank_disk(void) {
    const jip_date first = {1, 2, 3};
    const uint32_t blocks = chance(10) ? 1760 : 16 + draw(200);
    char name[16];
    disk_number = ++disks;
    (void)snprintf(name, sizeof name, "Work%" PRIu32, disks);
    HOLDS("a blank volume", jip_blank((int32_t)draw(2), blocks, name, strlen(name), first, &floppy) == JIP_DONE);
}

static uint32_t held_of(uint32_t disk) {
    uint32_t count = 0;
    for (uint32_t k = 0; k < MOST_PLACES; k++) {
        if (held_locks[k].disk == disk) count++;
        if (held_files[k].disk == disk) count++;
    }
    return count;
}

/* Keeps the bytes of the disk that is in the drive. */
static void keep_disk(void) {
    const uint32_t at = draw(SHELF);
    const size_t length = jip_image_length(&floppy);
    uint8_t *bytes = __real_malloc(length);
    HOLDS("room for the image", bytes != NULL);
    HOLDS("the copy", jip_copy_image(&floppy, bytes, length) == JIP_DONE);
    free(shelf[at].bytes);
    shelf[at].bytes = bytes;
    shelf[at].length = length;
    shelf[at].number = stays_protected ? 0 : disk_number;
    shelf[at].is_protected = is_protected;
}

static void clear_shelf(void) {
    for (uint32_t k = 0; k < SHELF; k++) free(shelf[k].bytes);
    memset(shelf, 0, sizeof shelf);
}

/* Opens a disk that was removed, with the bytes that it had then, or a new one. */
static void open_disk(void) {
    const uint32_t at = draw(SHELF);
    jip_fault fault;
    int is_back;
    is_protected = stays_protected = 0;
    if (shelf[at].bytes == NULL || chance(30)) {
        blank_disk();
        return;
    }
    HOLDS("a kept image is accepted", jip_open(shelf[at].bytes, shelf[at].length, &floppy, &fault) == JIP_DONE);
    /* (if nothing of it is held, the library has forgotten it) */
    is_back = shelf[at].number != 0 && held_of(shelf[at].number) != 0;
    disk_number = is_back ? shelf[at].number : ++disks;
    is_protected = is_back && shelf[at].is_protected;
    free(shelf[at].bytes);
    memset(&shelf[at], 0, sizeof shelf[at]);
}

static void remove_disk(void) {
    uint32_t before;
    keep_disk();
    before = growths;
    HOLDS("a removal", jip_remove_disk(&floppy, &guest) == JIP_DONE && jip_image_length(&floppy) == 0 && guest.volume == 0);
    HOLDS("a removal asks for no memory", growths == before);
    disk_number = 0;
    handle_died = 0;
    disk_changes++;
}

static void insert_disk(void) {
    const int refuses = refuses_growths;
    const uint32_t volume = guest.volume;
    int32_t status;
    refuses_growths = 0;
    open_disk();
    refuses_growths = refuses;
    status = jip_insert_disk(&floppy, &guest);
    if (status == JIP_NO_MEMORY) {
        HOLDS("an insertion without memory", refuses && jip_image_length(&floppy) != 0 && guest.volume == volume);
        refuses_growths = 0;
        status = jip_insert_disk(&floppy, &guest);
        refuses_growths = refuses;
    }
    HOLDS("an insertion", status == JIP_DONE);
}

/* Removes the disk, or inserts one. */
static void change_disk(void) {
    if (is_inhibited) return;
    if (disk_number != 0) {
        remove_disk();
    } else {
        insert_disk();
    }
}

static int32_t inhibit(void *context, int32_t is_on) {
    const int refuses = refuses_growths;
    HOLDS("what is given to inhibit", context == &guest && is_on == !is_inhibited);
    if (chance(20)) return 202;
    refuses_growths = 0;
    if (is_on && disk_number != 0) keep_disk();
    if (is_on) handle_died = 0;
    if (!is_on && chance(80)) open_disk();
    refuses_growths = refuses;
    is_inhibited = is_on;
    was_allowed = !is_on && jip_image_length(&floppy) != 0;
    disk_changes++;
    return 0;
}

/* After a packet that may have been INHIBIT: without memory the disk that the callback opened is not put in. */
static void note_inhibition(void) {
    if (was_allowed && jip_image_length(&floppy) == 0) is_inhibited = 1;
    was_allowed = 0;
    if (jip_image_length(&floppy) == 0) disk_number = 0;
}

/* ---- Packets, most of them as a program would send them ---- */

/* Arguments in the order of the manual. l: a lock. p: a name. t: a text. m: a mode. b: a number. e: a FileInfoBlock. i: an
 * InfoData. f: a FileHandle. h: fh_Arg1. a: an address. n: a count. d: a DateStamp. s: a switch. */
static const struct { uint32_t type; const char *arguments; } kinds[] = {
    {8, "lpm"}, {8, "lpm"}, {9, "t"}, {15, "l"}, {15, "l"}, {16, "lp"}, {17, "lplp"}, {19, "l"}, {21, "-lpb"}, {22, "lp"}, {23, "le"},
    {24, "le"}, {24, "le"}, {25, "i"}, {26, "li"}, {28, "-lpt"}, {29, "l"}, {34, "-lpd"}, {40, "ll"}, {82, "han"}, {82, "han"}, {87, "han"},
    {87, "han"}, {1004, "flp"}, {1005, "flp"}, {1006, "flp"}, {1007, "h"}, {1008, "hom"}, {1022, "hom"}, {7, ""}, {27, ""}, {1026, "fl"},
    {1027, ""}, {1030, "h"}, {1031, "h"}, {1034, "he"}, {18, "b"}, {31, "s"}, {1023, "ss"}, {5, ""}};
static const char *const names[NAME_COUNT] = {"a", "b", "dir", "dir/a", "dir/deep", "dir/deep/x", "/a", "Work:a", "X:dir/b",
                                             "A:B:c", "", "dir/", "a name of more bytes than a name may have", "dir//b", ":", "\xe4/\xff"};

static uint32_t strange(void) {
    static const uint32_t edges[] = {0, 1, 2, 4, 0x3fffffff, 0x40000000, 0x7fffffff, 0x80000000, 0xfffffffc, 0xffffffff};
    switch (draw(5)) {
    case 0: return edges[draw(10)];
    case 1: return base + RAM - draw(300);
    case 2: return (base + RAM - draw(300)) >> 2;
    case 3: return (base + draw(RAM)) >> 2;
    default: return draw(0);
    }
}

static uint32_t argument(char kind) {
    static const uint32_t modes[] = {0xffffffff, 0xfffffffe, 0, 1, 7};
    if (chance(8)) return strange();
    switch (kind) {
    case 'l': return chance(30) ? 0 : known_locks[draw(LOCKS)];
    case 'p':
    case 't': return (base + NAMES + 64 * draw(NAME_COUNT)) >> 2;
    case 'm': return modes[draw(5)];
    case 'b': return draw(16);
    case 's': return draw(2);
    case 'o': return draw(5000) - 1000;
    case 'e': return (base + 0x200) >> 2;
    case 'i': return (base + 0x400) >> 2;
    case 'f': return (base + 0x500 + 44 * draw(4)) >> 2;
    case 'h': return chance(20) ? draw(14) : long_at(base + 0x500 + 44 * draw(4) + 36);
    case 'a': return base + 0x2000 + draw(chance(10) ? 0x6000 : 0x1000);
    case 'n': return chance(10) ? draw(100000) : draw(1500);
    case 'd': return base + 0x600 + 2 * draw(8);
    default: return draw(0);
    }
}

/* Writes a packet, sometimes with random harm, and returns its address. */
static uint32_t make_packet(void) {
    const uint32_t at = chance(3) ? strange() : base + 0x100 + 4 * draw(20), kind = draw(sizeof kinds / sizeof kinds[0]);
    if (!lies_in(at, 48, RAM)) return at;
    set_long(at + 8, chance(2) ? draw(1100) : kinds[kind].type);
    /* (DIE is rare, because packets after it are all refused) */
    if (long_at(at + 8) == 5 && !chance(5)) set_long(at + 8, 8);
    for (uint32_t k = 0; k < 7; k++) {
        const char *arguments = kinds[kind].arguments;
        set_long(at + 20 + 4 * k, k < strlen(arguments) ? argument(arguments[k]) : draw(0));
    }
    if (chance(5)) ram[at - base + draw(48)] ^= (uint8_t)draw(256);
    if (chance(3)) ram[draw(RAM)] = (uint8_t)draw(256);
    if (chance(2)) ram[NAMES + 64 * draw(NAME_COUNT)] = (uint8_t)draw(256);
    return at;
}

/* ---- Allowed changes of memory ---- */

static void may_change(uint32_t at, uint64_t length) {
    if (at < base || at - base >= rom || length == 0) return;
    if (length > rom - (at - base)) length = rom - (at - base);
    memcpy(shadow + (at - base), ram + (at - base), (size_t)length);
}

/* Checks the memory after a packet with these arguments. */
static void look_at_memory(uint32_t at, uint32_t type, const uint32_t *args, int32_t res1) {
    may_change(at + 12, 8);
    may_change(guest.pool, guest.pool_bytes);
    if (type == 23 || type == 24 || type == 1034) may_change(args[1] << 2, 228);
    if (type == 25) may_change(args[0] << 2, 36);
    if (type == 26) may_change(args[1] << 2, 36);
    if ((type >= 1004 && type <= 1006) || type == 1026) may_change((args[0] << 2) + 36, 4);
    if (type == 82 && args[2] <= INT32_MAX) may_change(args[1], res1 < 0 ? args[2] : (uint32_t)res1);
    HOLDS("the memory", memcmp(ram, shadow, RAM) == 0);
}

static int is_error(int32_t res2) {
    static const int32_t errors[] = {103, 115, 202, 203, 204, 205, 209, 210, 211, 212, 214, 216, 218, 219, 220, 221, 222, 223, 224, 232};
    for (size_t k = 0; k < sizeof errors / sizeof errors[0]; k++)
        if (errors[k] == res2) return 1;
    return 0;
}

static int makes_lock(uint32_t type) { return type == 8 || type == 19 || type == 22 || type == 29 || type == 1030 || type == 1031; }

/* Checks a new lock: it is a FileLock of the pool. */
static void look_at_lock(uint32_t bptr) {
    const uint32_t offset = (bptr << 2) - guest.pool;
    HOLDS("a lock's place", bptr <= 0x3fffffff && offset % 20 == 0 && offset / 20 < guest.pool_bytes / 20);
    HOLDS("a lock's port", long_at((bptr << 2) + 12) == guest.port && long_at((bptr << 2) + 16) == guest.volume >> 2);
    known_locks[draw(LOCKS)] = bptr;
}

/* ---- What the machine holds ---- */

static struct held *find(struct held *all, uint32_t name) {
    for (uint32_t k = 0; k < MOST_PLACES; k++)
        if (all[k].disk != 0 && all[k].name == name) return &all[k];
    return NULL;
}

static void note(struct held *all, uint32_t name) {
    for (uint32_t k = 0; k < MOST_PLACES; k++) {
        if (all[k].disk != 0) continue;
        all[k] = (struct held){name, disk_number};
        return;
    }
    fail("more is held than the pool has places", __LINE__);
}

static void drop(struct held *all, uint32_t name) {
    struct held *it = find(all, name);
    if (it != NULL) it->disk = 0;
}

static int is_of_removed(struct held *all, uint32_t name) {
    const struct held *it = find(all, name);
    return it != NULL && it->disk != disk_number;
}

/* Whether a packet names a lock or a file of a removed disk. */
static int is_dead(uint32_t type, const uint32_t *args) {
    switch (type) {
    case 17: return is_of_removed(held_locks, args[0]) || is_of_removed(held_locks, args[2]);
    case 40: return is_of_removed(held_locks, args[0]) || is_of_removed(held_locks, args[1]);
    case 8: case 15: case 16: case 19: case 22: case 23: case 24: case 26: case 29: return is_of_removed(held_locks, args[0]);
    case 21: case 28: case 34: case 1004: case 1005: case 1006: case 1026: return is_of_removed(held_locks, args[1]);
    case 82: case 87: case 1007: case 1008: case 1022: case 1030: case 1031: case 1034: return is_of_removed(held_files, args[0]);
    default: return 0;
    }
}

/* Notes what a served packet makes and frees. */
static void note_served(uint32_t type, const uint32_t *args, uint32_t given) {
    if (makes_lock(type) && given != 0) note(held_locks, given);
    if (type == 15) drop(held_locks, args[0]);
    if (type == 1007) drop(held_files, args[0]);
    if (type == 1026) drop(held_locks, args[1]);
    if (type == 1023 && !stays_protected) is_protected = args[0] != 0;
    if ((type >= 1004 && type <= 1006) || type == 1026) {
        const uint32_t argument = long_at((args[0] << 2) + 36);
        HOLDS("a new fh_Arg1", find(held_files, argument) == NULL);
        note(held_files, argument);
    }
}

/* Checks the answer to a packet that names something of a removed disk, to one without a disk, and to one with a disk. */
static void look_at_disk(int was_dead, uint32_t type, int32_t res2, uint32_t number) {
    if (was_dead) HOLDS("what is of a removed disk", type == 15 || type == 1007 ? res2 == 0 : res2 == 218);
    else if (number == 0 && type != 5 && type != 31) HOLDS("no disk", res2 == 218);
    else HOLDS("a disk, or a drive", (res2 == 218) == (guest_died || handle_died));
    if (type == 5 && res2 == 0) guest_died = 1;
    if (type == 5 && res2 == 0 && number != 0) handle_died = 1;
}

static void one_packet(void) {
    const uint32_t at = make_packet(), number = disk_number;
    const uint64_t before = jip_changes(&floppy);
    int was_dead;
    uint32_t args[7] = {0}, type = 0;
    int32_t res1, res2, status;
    memcpy(shadow, ram, RAM);
    if (lies_in(at, 48, RAM)) {
        type = long_at(at + 8);
        for (uint32_t k = 0; k < 7; k++) args[k] = long_at(at + 20 + 4 * k);
    }
    was_dead = is_dead(type, args);
    status = jip_serve_guest(&floppy, &guest, at);
    packets++;
    note_inhibition();
    if (comes_and_goes) {
        if (makes_lock(type) && status == JIP_DONE) known_locks[draw(LOCKS)] = long_at(at + 12);
        return;
    }
    if (status != JIP_DONE) {
        HOLDS("what is no packet", status == JIP_WRONG_ARGUMENT);
        HOLDS("it changes nothing", memcmp(ram, shadow, RAM) == 0 && jip_changes(&floppy) == before);
        return;
    }
    res1 = (int32_t)long_at(at + 12);
    res2 = (int32_t)long_at(at + 16);
    look_at_memory(at, type, args, res1);
    look_at_disk(was_dead, type, res2, number);
    if (res2 == 0) {
        answered++;
        note_served(type, args, (uint32_t)res1);
        if (makes_lock(type) && res1 != 0) look_at_lock((uint32_t)res1);
    } else {
        HOLDS("an error", is_error(res2) && res1 == (type == 82 || type == 87 || type == 1008 ? -1 : 0));
        HOLDS("what is refused changes no image", jip_changes(&floppy) == before);
    }
}

/* ---- Rounds ---- */

/* Nothing is held yet. The callback for INHIBIT may be set. */
static void start(void) {
    memset(held_locks, 0, sizeof held_locks);
    memset(held_files, 0, sizeof held_files);
    is_inhibited = guest_died = 0;
    if (chance(50)) HOLDS("a callback", jip_guest_on_inhibit(&guest, inhibit) == JIP_DONE);
}

static void set_up(void) {
    static const uint32_t bases[] = {0, 0x1000, 0x200000, 0x7fffc000, 0xffff8000};
    base = bases[draw(5)];
    rom = chance(50) ? RAM : 0x7000;
    for (uint32_t k = 0; k < RAM; k++) ram[k] = (uint8_t)draw(256);
    for (uint32_t k = 0; k < NAME_COUNT; k++) {
        ram[NAMES + 64 * k] = (uint8_t)strlen(names[k]);
        memcpy(ram + NAMES + 64 * k + 1, names[k], strlen(names[k]));
    }
    memset(&guest, 0, sizeof guest);
    memset(known_locks, 0, sizeof known_locks);
    guest.read = peek;
    guest.write = poke;
    guest.save = chance(50) ? save : NULL;
    guest.context = &guest;
    guest.pool = base + 0x6000 + 4 * draw(100);
    guest.pool_bytes = chance(5) ? 0 : draw(600);
    guest.port = draw(0);
    guest.volume = draw(0) & ~(uint32_t)3;
    guest.now = (jip_date){draw(10000), draw(1440), draw(3000)};
    disks = 0;
    handle_died = is_protected = stays_protected = 0;
    start();
    blank_disk();
}

/* Releases the guest. Nothing is held afterwards, and the image is valid. */
static void tear_down(void) {
    jip_handle again = JIP_CLOSED;
    jip_fault fault = {0, 0};
    jip_packet packet;
    jip_answer answer;
    const size_t length = jip_image_length(&floppy);
    uint8_t *image;
    clear_shelf();
    if (length == 0) {
        HOLDS("the guest is given up", jip_release_guest(&floppy, &guest) == JIP_DONE && guest.state == NULL);
        return;
    }
    image = malloc(length);
    HOLDS("room for the image", image != NULL);
    HOLDS("the copy", jip_copy_image(&floppy, image, length) == JIP_DONE);
    HOLDS("the image is accepted", jip_open(image, length, &again, &fault) == JIP_DONE);
    HOLDS("it is closed", jip_close(&again) == JIP_DONE);
    free(image);
    HOLDS("the guest is given up", jip_release_guest(&floppy, &guest) == JIP_DONE && guest.state == NULL);
    jip_die(&packet, guest.now);
    HOLDS("DIE is served", jip_serve(&floppy, &packet, &answer) == JIP_DONE);
    HOLDS("nothing is held", answer.res1 == JIP_DOSTRUE || answer.res2 == JIP_ERROR_DEVICE_NOT_MOUNTED);
    HOLDS("the floppy is closed", jip_close(&floppy) == JIP_DONE);
}

/* Resets the machine: its locks and files end, and their BPTRs and numbers stay in its memory. */
static void reset(void) {
    const int refuses = refuses_growths;
    refuses_growths = 0;
    HOLDS("a reset", jip_release_guest(&floppy, &guest) == JIP_DONE && guest.state == NULL);
    stays_protected |= is_protected;
    is_protected = 0;
    if (jip_image_length(&floppy) == 0) {
        blank_disk();
        handle_died = stays_protected = 0;
    }
    start();
    refuses_growths = refuses;
}

static void one_round(void) {
    draws = seed * 0xd1342543de82ef95 + round_number * 0x2545f4914f6cdd1d + 1;
    set_up();
    refuses_growths = chance(10);
    comes_and_goes = chance(10);
    if (chance(20)) change_disk(); /* before the first packet */
    for (uint32_t k = 0; k < PACKETS; k++) {
        if (draw(400) == 0) reset();
        if (draw(80) == 0) change_disk();
        else if (disk_number == 0 && chance(20)) change_disk();
        one_packet();
    }
    refuses_growths = comes_and_goes = 0;
    tear_down();
}

static double seconds(void) {
    struct timespec now;
    (void)timespec_get(&now, TIME_UTC);
    return (double)now.tv_sec + 1e-9 * (double)now.tv_nsec;
}

int main(int count, char **words) {
    const double begun = seconds(), most = count > 2 ? strtod(words[2], NULL) : 0;
    uint64_t rounds = count > 4 ? strtoull(words[4], NULL, 10) : 1;
    if (count < 3) return 2;
    seed = strtoull(words[1], NULL, 10);
    round_number = count > 3 ? strtoull(words[3], NULL, 10) : 0;
    ram = malloc(RAM);
    shadow = malloc(RAM);
    if (ram == NULL || shadow == NULL) return 2;
    do {
        one_round();
        round_number++;
        if (rounds > 0) rounds--;
    } while (rounds > 0 || seconds() - begun < most);
    free(ram);
    free(shadow);
    printf("seed %" PRIu64 ": %" PRIu64 " rounds, %" PRIu64 " packets, %" PRIu64 " of them served, %" PRIu32 " disk changes, %" PRIu32
           " growths refused\n", seed, round_number, packets, answered, disk_changes, refusals);
    printf("%" PRIu64 " passed, 0 failed\n", checks);
    return 0;
}
