/* An emulated machine for tests: its memory, and packets that a program on it sends. */
#ifndef MACHINE_H
#define MACHINE_H

#include "asking.h"

#include <jiponuwha_amiga.h>

enum { RAM = 0x40000, ROM = 0x30000, POOL = 0x8000, PLACES = 8, PORT = 0x4000, VOLUME = 0x4100 };
/* The addresses that the program on the machine uses. */
enum { PACKET = 0x100, FIB = 0x200, DISK = 0x400, FILE_1 = 0x500, FILE_2 = 0x540, STAMP = 0x600, BYTES = 0x2000, STRINGS = 0x700 };
enum { DOSTRUE = -1, DOSFALSE = 0 };

static uint8_t *ram;
static jip_handle floppy = JIP_CLOSED;
static jip_guest guest;
static int saves, strayed, is_mirrored;
static int32_t save_error, res1, res2;

/* ---- The machine ---- */

static inline int peek(void *context, uint32_t at, void *to, uint32_t length) {
    if (length == 0 || length - 1 > UINT32_MAX - at || context != &guest) strayed++;
    if (is_mirrored) at %= RAM;
    if (at > RAM || length > RAM - at) return 0;
    memcpy(to, ram + at, length);
    return 1;
}

/* Memory from ROM on is read-only, unless memory is mirrored over the whole address space. */
static inline int poke(void *context, uint32_t at, const void *from, uint32_t length) {
    if (length == 0 || length - 1 > UINT32_MAX - at || context != &guest) strayed++;
    if (is_mirrored) at %= RAM;
    if (at > (is_mirrored ? RAM : ROM) || length > (is_mirrored ? RAM : ROM) - at) return 0;
    memcpy(ram + at, from, length);
    return 1;
}

static inline int32_t save(void *context) {
    if (context != &guest) strayed++;
    saves++;
    return save_error;
}

static inline uint32_t long_at(uint32_t at) { return long_of(ram + at); }

static inline void set_long(uint32_t at, uint32_t value) { put_long(ram + at, value); }

static inline void set_up(int32_t format) {
    const jip_date first = {1, 2, 3};
    memset(ram, 0xa5, RAM);
    memset(&guest, 0, sizeof guest);
    guest.read = peek;
    guest.write = poke;
    guest.save = save;
    guest.context = &guest;
    guest.pool = POOL;
    guest.pool_bytes = 20 * PLACES + 19;
    guest.port = PORT;
    guest.volume = VOLUME;
    guest.unit = 3;
    guest.now = (jip_date){5000, 600, 150};
    EXPECT("set up", jip_blank(format, JIP_DOUBLE_DENSITY, "Work", 4, first, &floppy) == JIP_DONE);
}

/* Releases the guest. Nothing is held afterwards, so DIE succeeds. */
static inline void tear_down(void) {
    jip_packet packet;
    jip_answer answer;
    EXPECT("release", jip_release_guest(&floppy, &guest) == JIP_DONE && guest.state == NULL);
    jip_die(&packet, guest.now);
    EXPECT("nothing is held", jip_serve(&floppy, &packet, &answer) == JIP_DONE && (answer.res1 == DOSTRUE || answer.res2 == 218));
    EXPECT("close", jip_close(&floppy) == JIP_DONE);
    EXPECT("no callback got a range that is none", strayed == 0);
}

/* Writes a BCPL string to one of eight places, and returns its BPTR. */
static inline uint32_t bstr(const char *text) {
    static uint32_t turn;
    const uint32_t at = STRINGS + 0x100 * (turn++ % 8);
    ram[at] = (uint8_t)strlen(text);
    memcpy(ram + at + 1, text, strlen(text));
    return at >> 2;
}

static inline int is_bstr(uint32_t at, const char *text) { return ram[at] == strlen(text) && memcmp(ram + at + 1, text, strlen(text)) == 0; }

/* ---- Packets ---- */

/* Sends a packet with a type and four arguments, and checks its two results. */
static inline void gives(int line, int32_t first, int32_t second, uint32_t type, uint32_t a, uint32_t b, uint32_t c, uint32_t d) {
    const uint32_t arguments[] = {a, b, c, d};
    set_long(PACKET + 8, type);
    for (uint32_t k = 0; k < 4; k++) set_long(PACKET + 20 + 4 * k, arguments[k]);
    expect("the packet is answered", jip_serve_guest(&floppy, &guest, PACKET) == JIP_DONE, line);
    res1 = (int32_t)long_at(PACKET + 12);
    res2 = (int32_t)long_at(PACKET + 16);
    if (res1 != first || res2 != second) printf("line %d: %d %d\n", line, (int)res1, (int)res2);
    expect("results", res1 == first && res2 == second, line);
}

#define GIVES(first, second, ...) gives(__LINE__, first, second, __VA_ARGS__)
#define SENT(type, a, b, c, d) gives(__LINE__, DOSTRUE, 0, type, a, b, c, d)

/* Returns the BPTR of a place in the pool. */
static inline uint32_t place(uint32_t number) { return (POOL + 20 * number) >> 2; }

static inline int is_file_lock(uint32_t bptr, uint32_t key, int32_t access) {
    const uint32_t at = bptr << 2;
    return long_at(at) == 0 && long_at(at + 4) == key && long_at(at + 8) == (uint32_t)access && long_at(at + 12) == PORT &&
           long_at(at + 16) == VOLUME >> 2;
}

static inline int is_fib(uint32_t key, int32_t type, const char *name, uint32_t size, uint32_t blocks) {
    return long_at(FIB) == key && long_at(FIB + 4) == (uint32_t)type && is_bstr(FIB + 8, name) && long_at(FIB + 120) == (uint32_t)type &&
           long_at(FIB + 124) == size && long_at(FIB + 128) == blocks && long_at(FIB + 224) == 0 && long_at(FIB + 228) == 0xa5a5a5a5 &&
           long_at(FIB + 256) == 0xa5a5a5a5 && long_at(FIB + 260) == 0xa5a5a5a5;
}

/* Opens an existing file, and returns its fh_Arg1. */
static inline uint32_t opened(uint32_t type, uint32_t lock, const char *path) {
    SENT(type, FILE_1 >> 2, lock, bstr(path), 0);
    return long_at(FILE_1 + 36);
}

static inline void make(const char *path) { SENT(1007, opened(1006, 0, path), 0, 0, 0); }

/* Whether an object exists at a path from the root. */
static inline int is_there(const char *path) {
    set_long(PACKET + 8, 8);
    set_long(PACKET + 20, 0);
    set_long(PACKET + 24, bstr(path));
    set_long(PACKET + 28, (uint32_t)-2);
    EXPECT("is there", jip_serve_guest(&floppy, &guest, PACKET) == JIP_DONE);
    if (long_at(PACKET + 16) != 0) return 0;
    SENT(15, long_at(PACKET + 12), 0, 0, 0);
    return 1;
}

#endif
