/* Tests packets in the memory of an emulated machine: each action with the arguments of the AmigaDOS manual, on OFS and
 * FFS, and harmful memory. Offsets and numbers are written out again here, from the manual. */
#include "machine.h"

/* ---- Each action ---- */

static void volume(int32_t format) {
    set_up(format);
    GIVES(DOSTRUE, 0, 1027, 0, 0, 0, 0);              /* IS_FILESYSTEM */
    GIVES(VOLUME >> 2, 0, 7, 0, 0, 0, 0);             /* CURRENT_VOLUME */
    GIVES(DOSTRUE, 0, 18, 30, 0, 0, 0);               /* MORE_CACHE */
    GIVES(DOSTRUE, 0, 27, 0, 0, 0, 0);                /* FLUSH */
    save_error = 214;
    GIVES(DOSFALSE, 214, 27, 0, 0, 0, 0);
    save_error = 0;
    EXPECT("flush", saves == 2);
    GIVES(DOSTRUE, 0, 25, DISK >> 2, 0, 0, 0);        /* DISK_INFO */
    const uint32_t wanted[] = {0, 3, 82, 1758, 2, format == JIP_FFS ? 512 : 488, 0x444f5300 + (uint32_t)format, VOLUME >> 2, 0, 0xa5a5a5a5};
    for (uint32_t k = 0; k < 10; k++) EXPECT("disk info", long_at(DISK + 4 * k) == wanted[k]);
    GIVES((int32_t)place(0), 0, 8, 0, bstr(""), (uint32_t)-2, 0); /* LOCATE_OBJECT of the root */
    EXPECT("the root's lock", is_file_lock(place(0), 880, -2));
    memset(ram + DISK, 0xa5, 36);
    GIVES(DOSTRUE, 0, 26, place(0), DISK >> 2, 0, 0); /* INFO */
    EXPECT("info", long_at(DISK + 8) == 82 && long_at(DISK + 16) == 2 && long_at(DISK + 32) == 0xffffffff);
    GIVES(DOSTRUE, 0, 9, bstr("Neu"), 0, 0, 0);       /* RENAME_DISK */
    GIVES(DOSFALSE, 210, 9, bstr("A:B"), 0, 0, 0);
    GIVES(DOSTRUE, 0, 23, place(0), FIB >> 2, 0, 0);  /* EXAMINE_OBJECT */
    EXPECT("examine the root", is_fib(880, 1, "Neu", 0, 1));
    GIVES(DOSFALSE, 202, 5, 0, 0, 0, 0);              /* DIE */
    SENT(15, place(0), 0, 0, 0);
    SENT(5, 0, 0, 0, 0);
    GIVES(DOSFALSE, 218, 1027, 0, 0, 0, 0);
    GIVES(DOSFALSE, 218, 7, 0, 0, 0, 0);
    GIVES(DOSFALSE, 218, 27, 0, 0, 0, 0);
    GIVES(DOSFALSE, 218, 18, 30, 0, 0, 0);
    GIVES(DOSFALSE, 218, 1023, 1, 0, 0, 0);
    EXPECT("a dead handler saves nothing", saves == 2);
    saves = 0;
    GIVES(DOSFALSE, 218, 31, 0, 0, 0, 0);
    GIVES(DOSFALSE, 218, 8, 1, 0x10, 0, 0);
    GIVES(-1, 218, 82, 1, 0, 0, 0);
    GIVES(DOSFALSE, 218, 1034, 1, FIB >> 2, 0, 0);
    tear_down();
}

static void directories(int32_t format) {
    set_up(format);
    GIVES((int32_t)place(0), 0, 22, 0, bstr("docs"), 0, 0); /* CREATE_DIR */
    EXPECT("the lock of CREATE_DIR", is_file_lock(place(0), 2, -1));
    GIVES(DOSTRUE, 0, 23, place(0), FIB >> 2, 0, 0);
    EXPECT("examine", is_fib(2, 2, "docs", 0, 1) && long_at(FIB + 116) == 0 && is_bstr(FIB + 144, ""));
    EXPECT("date", long_at(FIB + 132) == 5000 && long_at(FIB + 136) == 600 && long_at(FIB + 140) == 150);
    GIVES(DOSFALSE, 203, 22, 0, bstr("DOCS"), 0, 0);
    GIVES(DOSFALSE, 202, 19, place(0), 0, 0, 0); /* COPY_DIR of an exclusive lock */
    SENT(15, place(0), 0, 0, 0);                 /* FREE_LOCK */
    for (uint32_t k = 0; k < 20; k++) EXPECT("a free place", ram[POOL + k] == 0);
    GIVES(DOSFALSE, 211, 15, place(0), 0, 0, 0);
    SENT(15, 0, 0, 0, 0);
    GIVES((int32_t)place(1), 0, 8, 0, bstr("Docs"), (uint32_t)-1, 0);
    EXPECT("an exclusive lock", is_file_lock(place(1), 2, -1));
    GIVES(DOSFALSE, 202, 8, 0, bstr("docs"), (uint32_t)-2, 0);
    SENT(15, place(1), 0, 0, 0);
    GIVES((int32_t)place(2), 0, 8, 0, bstr("docs"), 77, 0);
    EXPECT("a shared lock", is_file_lock(place(2), 2, -2));
    GIVES((int32_t)place(3), 0, 19, place(2), 0, 0, 0); /* COPY_DIR */
    GIVES((int32_t)place(4), 0, 29, place(2), 0, 0, 0); /* PARENT */
    EXPECT("the parent", is_file_lock(place(3), 2, -2) && is_file_lock(place(4), 880, -2));
    GIVES(0, 0, 29, place(4), 0, 0, 0);
    GIVES(0, 0, 19, 0, 0, 0, 0);
    GIVES(DOSTRUE, 0, 40, place(2), place(3), 0, 0);    /* SAME_LOCK */
    GIVES(DOSFALSE, 0, 40, place(2), place(4), 0, 0);
    GIVES(DOSTRUE, 0, 40, place(4), 0, 0, 0);
    GIVES(DOSFALSE, 205, 8, place(2), bstr("none"), (uint32_t)-2, 0);
    GIVES(DOSFALSE, 204, 8, place(2), bstr("no/ne"), (uint32_t)-2, 0);
    tear_down();
}

static void lists(int32_t format) {
    set_up(format);
    make("A");
    make("B");
    GIVES(DOSTRUE, 0, 23, 0, FIB >> 2, 0, 0);
    SENT(24, 0, FIB >> 2, 0, 0); /* EXAMINE_NEXT */
    EXPECT("the first entry", is_fib(2, -3, "A", 0, 1));
    SENT(24, 0, FIB >> 2, 0, 0);
    EXPECT("the second entry", is_fib(3, -3, "B", 0, 1));
    GIVES(DOSFALSE, 232, 24, 0, FIB >> 2, 0, 0);
    set_long(FIB, 700);
    GIVES(DOSFALSE, 205, 24, 0, FIB >> 2, 0, 0);
    tear_down();
}

static void files(int32_t format) {
    set_up(format);
    memcpy(ram + BYTES, "0123456789", 10);
    SENT(1006, FILE_1 >> 2, 0, bstr("hello"), 0); /* FINDOUTPUT */
    EXPECT("fh_Arg1, and nothing else", long_at(FILE_1 + 36) == 1 && long_at(FILE_1 + 32) == 0xa5a5a5a5 && long_at(FILE_1 + 40) == 0xa5a5a5a5);
    GIVES(DOSFALSE, 202, 1005, FILE_2 >> 2, 0, bstr("hello"), 0);
    GIVES(10, 0, 87, 1, BYTES, 10, 0);              /* WRITE */
    GIVES(10, 0, 1008, 1, 2, (uint32_t)-1, 0);      /* SEEK */
    GIVES(3, 0, 82, 1, BYTES + 101, 3, 0);          /* READ, to an odd address */
    EXPECT("read", memcmp(ram + BYTES + 100, "\xa5""234\xa5", 5) == 0);
    GIVES(5, 0, 1008, 1, 7, (uint32_t)-1, 0);
    GIVES(3, 0, 82, 1, RAM - 3 - (RAM - ROM), 1000000, 0);
    EXPECT("read up to the end", memcmp(ram + ROM - 3, "789", 3) == 0);
    GIVES(0, 0, 82, 1, BYTES, 5, 0);
    GIVES(-1, 219, 1008, 1, 1, 1, 0);
    GIVES(DOSTRUE, 0, 1022, 1, 4, (uint32_t)-1, 0); /* SET_FILE_SIZE */
    GIVES(DOSTRUE, 0, 1034, 1, FIB >> 2, 0, 0);     /* EXAMINE_FH */
    EXPECT("the open file", is_fib(2, -3, "hello", 4, 2));
    GIVES((int32_t)place(0), 0, 1031, 1, 0, 0, 0);  /* PARENT_FH */
    EXPECT("its directory", is_file_lock(place(0), 880, -2));
    GIVES(DOSFALSE, 202, 1030, 1, 0, 0, 0);         /* COPY_DIR_FH */
    SENT(1007, 1, 0, 0, 0);                         /* END */
    GIVES(DOSFALSE, 211, 1007, 1, 0, 0, 0);
    GIVES(-1, 211, 82, 1, BYTES, 1, 0);
    GIVES(-1, 211, 87, 1, BYTES, 1, 0);
    GIVES(-1, 211, 1008, 1, 0, 0, 0);
    GIVES(DOSFALSE, 211, 1022, 1, 0, 0, 0);
    GIVES(DOSFALSE, 211, 1034, 1, FIB >> 2, 0, 0);
    GIVES(DOSFALSE, 205, 1005, FILE_1 >> 2, 0, bstr("none"), 0);
    tear_down();
}

static void shared_files(int32_t format) {
    set_up(format);
    GIVES((int32_t)place(0), 0, 22, 0, bstr("d"), 0, 0);
    SENT(15, place(0), 0, 0, 0);
    const uint32_t update = opened(1004, 0, "d/f"); /* FINDUPDATE */
    SENT(1005, FILE_2 >> 2, 0, bstr("d/f"), 0);     /* FINDINPUT */
    const uint32_t input = long_at(FILE_2 + 36);
    memcpy(ram + BYTES, "abc", 3);
    GIVES(3, 0, 87, update, BYTES, 3, 0);
    GIVES(3, 0, 82, input, BYTES + 8, 9, 0);
    EXPECT("two handles", input != update && memcmp(ram + BYTES + 8, "abc", 3) == 0);
    GIVES((int32_t)place(1), 0, 1030, input, 0, 0, 0);
    GIVES((int32_t)place(2), 0, 1031, input, 0, 0, 0);
    EXPECT("locks of a file handle", is_file_lock(place(1), 3, -2) && is_file_lock(place(2), 2, -2));
    SENT(17, 0, bstr("d/f"), 0, bstr("g")); /* RENAME_OBJECT of an open file */
    SENT(1034, input, FIB >> 2, 0, 0);
    EXPECT("it is known by its new name", is_fib(3, -3, "g", 3, 2));
    GIVES((int32_t)place(3), 0, 1031, input, 0, 0, 0);
    EXPECT("and its directory", is_file_lock(place(3), 880, -2));
    SENT(1007, update, 0, 0, 0);
    SENT(1007, input, 0, 0, 0);
    SENT(1026, FILE_1 >> 2, place(1), 0, 0); /* FH_FROM_LOCK */
    EXPECT("the lock is gone", long_at(POOL + 24) == 0);
    GIVES(DOSFALSE, 211, 15, place(1), 0, 0, 0);
    const uint32_t from_lock = long_at(FILE_1 + 36);
    GIVES(2, 0, 82, from_lock, BYTES + 16, 2, 0);
    GIVES((int32_t)place(4), 0, 1030, from_lock, 0, 0, 0);
    SENT(1007, from_lock, 0, 0, 0);
    SENT(15, place(4), 0, 0, 0);
    GIVES(DOSFALSE, 212, 1026, FILE_1 >> 2, place(2), 0, 0);
    GIVES(DOSFALSE, 212, 1026, FILE_1 >> 2, 0, 0, 0);
    GIVES((int32_t)place(5), 0, 8, 0, bstr("g"), (uint32_t)-1, 0);
    GIVES(DOSFALSE, 202, 1026, FILE_1 >> 2, place(5), 0, 0);
    tear_down();
}

/* A file that FINDOUTPUT opened, in a directory with an exclusive lock or a new name. */
static void alone(int32_t format) {
    set_up(format);
    GIVES((int32_t)place(0), 0, 22, 0, bstr("d"), 0, 0);
    uint32_t file = opened(1006, place(0), "f");
    GIVES(DOSFALSE, 202, 1034, file, FIB >> 2, 0, 0);
    GIVES(DOSFALSE, 202, 1031, file, 0, 0, 0);
    SENT(1007, file, 0, 0, 0);
    SENT(15, place(0), 0, 0, 0);
    file = opened(1006, 0, "d/F");
    GIVES(DOSFALSE, 202, 8, 0, bstr("d"), (uint32_t)-1, 0);
    SENT(17, 0, bstr("d"), 0, bstr("e"));
    SENT(1034, file, FIB >> 2, 0, 0);
    EXPECT("it keeps its name", is_fib(3, -3, "f", 0, 1));
    GIVES((int32_t)place(1), 0, 1031, file, 0, 0, 0);
    EXPECT("its directory", is_file_lock(place(1), 2, -2));
    SENT(15, place(1), 0, 0, 0);
    SENT(1007, file, 0, 0, 0);
    SENT(16, 0, bstr("e/f"), 0, 0); /* DELETE_OBJECT */
    SENT(16, 0, bstr("e"), 0, 0);
    GIVES(DOSFALSE, 205, 16, 0, bstr("e"), 0, 0);
    tear_down();
}

static void notes(int32_t format) {
    set_up(format);
    make("f");
    SENT(21, 0, 0, bstr("f"), 0xf5);            /* SET_PROTECT */
    SENT(28, 0, 0, bstr("f"), bstr("a: note")); /* SET_COMMENT */
    set_long(STAMP, 4383);
    set_long(STAMP + 4, 61);
    set_long(STAMP + 8, 7);
    SENT(34, 0, 0, bstr("f"), STAMP);           /* SET_DATE */
    SENT(24, 0, (set_long(FIB, 880), FIB >> 2), 0, 0);
    EXPECT("bits and comment", long_at(FIB + 116) == 0xf5 && is_bstr(FIB + 144, "a: note"));
    EXPECT("date", long_at(FIB + 132) == 4383 && long_at(FIB + 136) == 61 && long_at(FIB + 140) == 7);
    GIVES(DOSFALSE, 222, 16, 0, bstr("f"), 0, 0);
    for (uint32_t k = 0; k < 80; k++) ram[0x3001 + k] = 'c';
    ram[0x3000] = 80;
    GIVES(DOSFALSE, 220, 28, 0, 0, bstr("f"), 0x3000 >> 2);
    ram[0x3000] = 79;
    SENT(28, 0, 0, bstr("f"), 0x3000 >> 2);
    SENT(24, 0, (set_long(FIB, 880), FIB >> 2), 0, 0);
    EXPECT("a long comment", ram[FIB + 144] == 79 && ram[FIB + 223] == 'c' && long_at(FIB + 224) == 0);
    tear_down();
}

/* In every packet, a name with a colon starts at the packet's lock. */
static void colons(int32_t format) {
    set_up(format);
    GIVES((int32_t)place(0), 0, 22, 0, bstr("docs"), 0, 0);
    SENT(15, place(0), 0, 0, 0);
    GIVES((int32_t)place(1), 0, 8, 0, bstr("Work:docs"), (uint32_t)-2, 0);
    make("victim");
    make("docs/victim");
    SENT(21, 0, place(1), bstr("TOOLS:victim"), 2);
    SENT(28, 0, place(1), bstr("TOOLS:victim"), bstr("mine"));
    SENT(34, 0, place(1), bstr("TOOLS:victim"), (set_long(STAMP, 1), set_long(STAMP + 4, 2), set_long(STAMP + 8, 3), STAMP));
    SENT(24, place(1), (set_long(FIB, 2), FIB >> 2), 0, 0);
    EXPECT("the assign's file", long_at(FIB + 116) == 2 && is_bstr(FIB + 144, "mine") && long_at(FIB + 132) == 1);
    GIVES((int32_t)place(2), 0, 22, place(1), bstr("TOOLS:new"), 0, 0);
    SENT(15, place(2), 0, 0, 0);
    SENT(17, place(1), bstr("TOOLS:victim"), place(1), bstr("TOOLS:new/moved"));
    EXPECT("moved there", is_there("docs/new/moved") && !is_there("docs/victim") && is_there("victim"));
    SENT(16, place(1), bstr("TOOLS:new/moved"), 0, 0);
    SENT(1007, opened(1006, place(1), "TOOLS:made"), 0, 0, 0);
    SENT(1007, opened(1005, place(1), ":made"), 0, 0, 0);
    SENT(1007, opened(1004, place(1), "TOOLS:made too"), 0, 0, 0);
    EXPECT("made there", is_there("docs/made") && is_there("docs/made too") && is_there("victim"));
    GIVES(DOSFALSE, 210, 16, place(1), bstr("TOOLS:A:victim"), 0, 0);
    GIVES(DOSFALSE, 210, 17, place(1), bstr("TOOLS:made"), 0, bstr("A:B:c"));
    GIVES(DOSFALSE, 210, 17, 0, bstr("A:B:c"), 0, RAM >> 2); /* the error of the first wrong argument counts */
    GIVES(DOSFALSE, 115, 17, 0, RAM >> 2, 0, bstr("A:B:c"));
    GIVES(DOSFALSE, 205, 16, place(1), bstr("Work:victim"), 0, 0);
    EXPECT("no other file is gone", is_there("victim"));
    tear_down();
}

static void unknown(int32_t format) {
    static const uint32_t types[] = {0,    2,    4,    6,    20,   30,   31,   32,   33,   994,       1001,
                                     1020, 1021, 1024, 1028, 1033, 1035, 1036, 2008, 4097, 0x80000000};
    set_up(format);
    for (size_t k = 0; k < sizeof types / sizeof types[0]; k++) GIVES(DOSFALSE, 209, types[k], 0xffffffff, 1, 0x12345678, 0);
    guest.volume = 0;
    GIVES(DOSFALSE, 209, 7, 0, 0, 0, 0);
    tear_down();
}

/* ---- Harmful memory ---- */

static void hostile_texts(int32_t format) {
    set_up(format);
    ram[RAM - 4] = 4; /* three of the four bytes exist */
    GIVES(DOSFALSE, 115, 8, 0, (RAM - 4) >> 2, (uint32_t)-2, 0);
    ram[RAM - 4] = 3;
    GIVES(DOSFALSE, 205, 8, 0, (RAM - 4) >> 2, (uint32_t)-2, 0);
    GIVES(DOSFALSE, 115, 8, 0, RAM >> 2, (uint32_t)-2, 0);
    GIVES(DOSFALSE, 115, 22, 0, 0x3fffffff, 0, 0);
    GIVES(DOSFALSE, 115, 16, 0, bstr("f") | 0x40000000, 0, 0);      /* a BPTR that wraps to the string */
    GIVES(DOSFALSE, 115, 17, 0, bstr("f"), 0, 0x80000000 | bstr("g"));
    GIVES(DOSFALSE, 115, 1006, FILE_1 >> 2, 0, 0x70000000, 0);
    GIVES(DOSFALSE, 115, 28, 0, 0, bstr("f"), RAM >> 2);
    GIVES(DOSFALSE, 115, 9, RAM >> 2, 0, 0, 0);
    GIVES(DOSFALSE, 210, 9, 0, 0, 0, 0);                            /* a BPTR of 0 is the empty string */
    GIVES(DOSFALSE, 115, 34, 0, 0, bstr("f"), STAMP + 1);
    GIVES(DOSFALSE, 115, 34, 0, 0, bstr("f"), RAM - 8);
    GIVES(DOSFALSE, 115, 34, 0, 0, bstr("f"), 0xfffffff8);
    GIVES(DOSFALSE, 115, 34, 0, 0, bstr("f"), 0);
    EXPECT("nothing has changed", jip_changes(&floppy) == 0);
    tear_down();
}

static void hostile_structs(int32_t format) {
    static const uint32_t places[] = {0, RAM >> 2, (RAM - 40) >> 2, (ROM - 16) >> 2, ROM >> 2, 0x3fffffff, 0x40000000 | FIB >> 2,
                                      PACKET >> 2, (PACKET + 44) >> 2, (PACKET - 16) >> 2, POOL >> 2, (POOL - 4) >> 2, (POOL + 176) >> 2};
    set_up(format);
    make("f");
    const uint64_t before = jip_changes(&floppy);
    for (size_t k = 0; k < sizeof places / sizeof places[0]; k++) {
        GIVES(DOSFALSE, 115, 23, 0, places[k], 0, 0);
        GIVES(DOSFALSE, 115, 24, 0, places[k], 0, 0);
        GIVES(DOSFALSE, 115, 25, places[k], 0, 0, 0);
        GIVES(DOSFALSE, 115, 26, 0, places[k], 0, 0);
        GIVES(DOSFALSE, 115, 1004, places[k], 0, bstr("new"), 0);
        GIVES(DOSFALSE, 115, 1005, places[k], 0, bstr("f"), 0);
        GIVES(DOSFALSE, 115, 1006, places[k], 0, bstr("f"), 0);
        GIVES(DOSFALSE, 115, 1026, places[k], 0, 0, 0);
        GIVES(DOSFALSE, 115, 1034, 0, places[k], 0, 0);
    }
    EXPECT("nothing has changed", jip_changes(&floppy) == before);
    tear_down();
}

static void hostile_buffers(int32_t format) {
    set_up(format);
    const uint32_t file = opened(1006, 0, "f");
    memcpy(ram + BYTES, "0123456789", 10);
    GIVES(10, 0, 87, file, BYTES, 10, 0);
    GIVES(-1, 115, 87, file, BYTES, 0x80000000, 0);
    GIVES(-1, 115, 87, file, BYTES, 0x7fffffff, 0);
    GIVES(-1, 115, 87, file, RAM - 9, 10, 0);
    GIVES(-1, 115, 87, file, 0xfffffff0, 0x20, 0);
    GIVES(0, 0, 87, file, 0xfffffff0, 0, 0);
    GIVES(2, 0, 87, file, RAM - 2, 2, 0);
    GIVES(12, 0, 1008, file, 0, (uint32_t)-1, 0);
    static const uint32_t to[] = {0, ROM - 11, ROM, RAM, 0xfffffffc, PACKET + 47, PACKET - 11, POOL + 178, POOL - 11};
    for (size_t k = 0; k < sizeof to / sizeof to[0]; k++) {
        GIVES(-1, 115, 82, file, to[k], 100, 0);
        GIVES(0, 0, 1008, file, 0, 0, 0); /* the position is unchanged */
    }
    GIVES(-1, 115, 82, file, BYTES, 0xffffffff, 0);
    GIVES(0, 0, 82, file, 0xffffffff, 0, 0);
    GIVES(12, 0, 82, file, ROM - 12, 100, 0);
    SENT(1022, file, 40000, (uint32_t)-1, 0);
    GIVES(12, 0, 1008, file, 0, (uint32_t)-1, 0);
    GIVES(-1, 115, 82, file, ROM - 39999, 40000, 0); /* refused in the third part of the READ */
    GIVES(0, 0, 1008, file, 0, 0, 0);
    GIVES(40000, 0, 82, file, ROM - 40000, 40000, 0);
    tear_down();
}

/* Memory at both ends of the address space: no range continues at address 0. */
static void wrapped_buffers(int32_t format) {
    set_up(format);
    const uint32_t file = opened(1006, 0, "f");
    is_mirrored = 1;
    memset(ram + RAM - 0x8000, 'x', 0x8000);
    GIVES(0x8000, 0, 87, file, 0xffff8000, 0x8000, 0);
    GIVES(-1, 115, 87, file, 0xffff8000, 0x8001, 0);
    GIVES(-1, 115, 87, file, 0xfffff000, 0x8000, 0);
    GIVES(0x8000, 0, 1008, file, 0, (uint32_t)-1, 0);
    GIVES(-1, 115, 82, file, 0xffffc000, 0x8000, 0);
    GIVES(-1, 115, 82, file, 0xffffff00, 0x8000, 0);
    GIVES(0, 0, 1008, file, 0, 0, 0);
    GIVES(0x4000, 0, 82, file, 0xffffc000, 0x4000, 0);
    GIVES(DOSFALSE, 115, 34, 0, 0, bstr("f"), 0xfffffffc);
    GIVES(DOSFALSE, 115, 23, 0, 0x3fffffff, 0, 0);
    ram[RAM - 4] = 200; /* a string that would continue at address 0 */
    GIVES(DOSFALSE, 115, 16, 0, 0x3fffffff, 0, 0);
    is_mirrored = 0;
    tear_down();
}

static void hostile_locks(int32_t format) {
    set_up(format);
    GIVES((int32_t)place(0), 0, 8, 0, bstr(""), (uint32_t)-2, 0);
    static const uint32_t wrong[] = {1, (POOL + 20) >> 2, (POOL + 4) >> 2, (POOL - 20) >> 2, (POOL + 160) >> 2,
                                     0x40000000 | POOL >> 2, 0xffffffff, PACKET >> 2};
    for (size_t k = 0; k < sizeof wrong / sizeof wrong[0]; k++) {
        GIVES(DOSFALSE, 211, 8, wrong[k], bstr(""), (uint32_t)-2, 0);
        GIVES(DOSFALSE, 211, 15, wrong[k], 0, 0, 0);
        GIVES(DOSFALSE, 211, 40, place(0), wrong[k], 0, 0);
        GIVES(DOSFALSE, 211, 17, 0, bstr("f"), wrong[k], bstr("g"));
        GIVES(DOSFALSE, 211, 1026, FILE_1 >> 2, wrong[k], 0, 0);
        GIVES(DOSFALSE, 211, 23, wrong[k], FIB >> 2, 0, 0);
    }
    memset(ram + POOL, 0xff, 20); /* the content of a FileLock is ignored */
    SENT(23, place(0), FIB >> 2, 0, 0);
    static const uint32_t handles[] = {0, 1, 2, 8, 9, 0xffffffff, 0x80000000};
    for (size_t k = 0; k < sizeof handles / sizeof handles[0]; k++) {
        GIVES(DOSFALSE, 211, 1007, handles[k], 0, 0, 0);
        GIVES(DOSFALSE, 211, 1030, handles[k], 0, 0, 0);
        GIVES(DOSFALSE, 211, 1031, handles[k], 0, 0, 0);
    }
    jip_packet packet; /* the guest cannot use a lock or a file of the host */
    jip_answer answer;
    jip_findinput(&packet, now, 0, "none");
    EXPECT("the host's", jip_serve(&floppy, &packet, &answer) == JIP_DONE && answer.res2 == 205);
    jip_findoutput(&packet, now, 0, "host");
    EXPECT("the host's", jip_serve(&floppy, &packet, &answer) == JIP_DONE && answer.handle != 0);
    GIVES(-1, 211, 82, answer.handle, BYTES, 1, 0);
    jip_end(&packet, now, answer.handle);
    EXPECT("the host's", jip_serve(&floppy, &packet, &answer) == JIP_DONE && answer.res2 == 0);
    tear_down();
}

static void full_pool(int32_t format) {
    set_up(format);
    for (uint32_t k = 0; k < PLACES; k++) GIVES((int32_t)place(k), 0, 8, 0, bstr(""), (uint32_t)-2, 0);
    GIVES(DOSFALSE, 103, 8, 0, bstr(""), (uint32_t)-2, 0);
    GIVES(DOSFALSE, 103, 22, 0, bstr("d"), 0, 0);
    EXPECT("it is not made", !is_there("d"));
    for (uint32_t k = 0; k < PLACES; k++) SENT(1004, FILE_1 >> 2, 0, bstr("f"), 0);
    GIVES(DOSFALSE, 103, 1006, FILE_1 >> 2, 0, bstr("g"), 0);
    GIVES(DOSFALSE, 103, 1026, FILE_1 >> 2, place(0), 0, 0);
    GIVES(DOSFALSE, 103, 1030, 1, 0, 0, 0);
    SENT(15, place(3), 0, 0, 0);
    GIVES((int32_t)place(3), 0, 1030, 1, 0, 0, 0);
    SENT(1007, 5, 0, 0, 0);
    SENT(1005, FILE_1 >> 2, 0, bstr("f"), 0);
    EXPECT("the free place", long_at(FILE_1 + 36) == 5);
    tear_down();
}

/* Packets that cannot be answered. */
static void no_packets(int32_t format) {
    static const uint32_t at[] = {0, 1, PACKET + 1, RAM, RAM - 44, ROM, ROM - 16, 0xfffffffe, 0xffffffe0, POOL, POOL - 40, POOL + 178};
    set_up(format);
    for (size_t k = 0; k < sizeof at / sizeof at[0]; k++) EXPECT("no packet", jip_serve_guest(&floppy, &guest, at[k]) == JIP_WRONG_ARGUMENT);
    jip_handle closed = JIP_CLOSED;
    jip_guest wrong = guest;
    EXPECT("no handle", jip_serve_guest(NULL, &guest, PACKET) == JIP_WRONG_ARGUMENT);
    EXPECT("no handle", jip_serve_guest(&closed, &guest, PACKET) == JIP_WRONG_ARGUMENT);
    EXPECT("no guest", jip_serve_guest(&floppy, NULL, PACKET) == JIP_WRONG_ARGUMENT);
    EXPECT("no guest", jip_release_guest(&floppy, NULL) == JIP_WRONG_ARGUMENT);
    wrong.pool = POOL + 2;
    EXPECT("no pool", jip_serve_guest(&floppy, &wrong, PACKET) == JIP_WRONG_ARGUMENT);
    wrong.pool = 0xfffffff0;
    EXPECT("no pool", jip_serve_guest(&floppy, &wrong, PACKET) == JIP_WRONG_ARGUMENT);
    wrong.pool = POOL;
    wrong.volume = VOLUME + 1;
    EXPECT("no volume", jip_serve_guest(&floppy, &wrong, PACKET) == JIP_WRONG_ARGUMENT);
    EXPECT("nothing is kept", guest.state == NULL && wrong.state == NULL);
    EXPECT("release", jip_release_guest(&closed, &guest) == JIP_DONE && jip_release_guest(NULL, &guest) == JIP_DONE);
    guest.pool_bytes = 19; /* without a pool, no lock or file is possible */
    GIVES(DOSFALSE, 103, 8, 0, bstr(""), (uint32_t)-2, 0);
    GIVES(DOSFALSE, 103, 1006, FILE_1 >> 2, 0, bstr("f"), 0);
    SENT(25, DISK >> 2, 0, 0, 0);
    tear_down();
}

/* Releases a guest with locks and files, also after the handle was closed. */
static void releases(int32_t format) {
    set_up(format);
    GIVES((int32_t)place(0), 0, 22, 0, bstr("d"), 0, 0);
    (void)opened(1006, 0, "f");
    (void)opened(1004, 0, "g");
    EXPECT("release", jip_release_guest(&floppy, &guest) == JIP_DONE);
    GIVES(DOSFALSE, 211, 15, place(0), 0, 0, 0);
    GIVES((int32_t)place(0), 0, 8, 0, bstr("d"), (uint32_t)-1, 0);
    EXPECT("close", jip_close(&floppy) == JIP_DONE);
    EXPECT("release", jip_release_guest(&floppy, &guest) == JIP_DONE && guest.state == NULL);
}

int main(void) {
    static void (*const parts[])(int32_t) = {volume, directories, lists, files, shared_files, alone, notes, colons, unknown,
                                             hostile_texts, hostile_structs, hostile_buffers, wrapped_buffers, hostile_locks,
                                             full_pool, no_packets, releases};
    ram = malloc(RAM);
    if (ram == NULL) return 1;
    for (int32_t format = JIP_OFS; format <= JIP_FFS; format++)
        for (size_t k = 0; k < sizeof parts / sizeof parts[0]; k++) parts[k](format);
    free(ram);
    return summed_up();
}
