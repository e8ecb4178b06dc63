/* Serves packets as the trap of an emulator would: by `jip_serve_guest`, in the emulated machine's memory.
 *
 *   cc handler.c $(pkg-config --cflags --libs jiponuwha) -o handler && ./handler
 *
 * Here the memory is an array. A program on the machine makes a file, writes to it, and lists the root.
 */
#include <jiponuwha_amiga.h>
#include <stdio.h>
#include <time.h>

enum { MEMORY_BYTES = 65536, PACKET = 0x100, NAME = 0x200, TEXT = 0x300, FILE_HANDLE = 0x400, INFO = 0x500, POOL = 0x1000 };
static uint8_t memory[MEMORY_BYTES];

/* The two callbacks. They copy all bytes, or return 0 if one is outside the emulated memory. */
static int read_memory(void *context, uint32_t at, void *to, uint32_t length) {
    const uint8_t *bytes = context;
    if (at > MEMORY_BYTES || length > MEMORY_BYTES - at) return 0;
    memcpy(to, bytes + at, length);
    return 1;
}

static int write_memory(void *context, uint32_t at, const void *from, uint32_t length) {
    uint8_t *bytes = context;
    if (at > MEMORY_BYTES || length > MEMORY_BYTES - at) return 0;
    memcpy(bytes + at, from, length);
    return 1;
}

/* Returns the time of the host's clock, as the time stamp of a packet. */
static jip_date moment(void) {
    const uint64_t seconds = (uint64_t)time(NULL) - 252460800; /* from 1970 to 1978 */
    return (jip_date){(uint32_t)(seconds / 86400), (uint32_t)(seconds % 86400 / 60), (uint32_t)(seconds % 60 * 50)};
}

static uint32_t get_long(uint32_t at) {
    return (uint32_t)memory[at] << 24 | (uint32_t)memory[at + 1] << 16 | (uint32_t)memory[at + 2] << 8 | memory[at + 3];
}

static void put_long(uint32_t at, uint32_t value) {
    for (uint32_t k = 0; k < 4; k++) memory[at + k] = (uint8_t)(value >> (24 - 8 * k));
}

/* Serves the packet at an address. A real handler then sends it back to its dp_Port. */
static void trap(jip_handle *handle, jip_guest *guest, uint32_t at) {
    guest->now = moment();
    if (jip_serve_guest(handle, guest, at) != JIP_DONE) printf("there is no packet at %x\n", (unsigned)at);
}

/* Sends a packet as a program on the emulated machine would, and prints its two results. */
static void ask(jip_handle *handle, jip_guest *guest, uint32_t action, uint32_t arg1, uint32_t arg2, uint32_t arg3) {
    put_long(PACKET + JIP_DP_TYPE, action);
    put_long(PACKET + JIP_DP_ARG1, arg1);
    put_long(PACKET + JIP_DP_ARG1 + 4, arg2);
    put_long(PACKET + JIP_DP_ARG1 + 8, arg3);
    trap(handle, guest, PACKET);
    printf("%u: %d %d\n", (unsigned)action, (int)get_long(PACKET + JIP_DP_RES1), (int)get_long(PACKET + JIP_DP_RES2));
}

int main(void) {
    jip_handle handle = JIP_CLOSED;
    jip_guest guest = {.read = read_memory, .write = write_memory, .context = memory, .pool = POOL, .pool_bytes = 4096};
    if (jip_blank(JIP_FFS, JIP_DOUBLE_DENSITY, "Work", 4, moment(), &handle) != JIP_DONE) return 1;
    memcpy(memory + NAME, "\5hello", 6);
    memcpy(memory + TEXT, "Hi Amiga", 8);
    ask(&handle, &guest, JIP_ACTION_FINDOUTPUT, FILE_HANDLE >> 2, 0, NAME >> 2);
    const uint32_t file = get_long(FILE_HANDLE + JIP_FH_ARG1);
    ask(&handle, &guest, JIP_ACTION_WRITE, file, TEXT, 8);
    ask(&handle, &guest, JIP_ACTION_SEEK, file, 2, (uint32_t)JIP_OFFSET_BEGINNING);
    ask(&handle, &guest, JIP_ACTION_END, file, 0, 0);
    ask(&handle, &guest, JIP_ACTION_EXAMINE_OBJECT, 0, INFO >> 2, 0);
    ask(&handle, &guest, JIP_ACTION_EXAMINE_NEXT, 0, INFO >> 2, 0);
    const uint8_t *name = memory + INFO + JIP_FIB_FILE_NAME;
    printf("%.*s has %u bytes\n", name[0], (const char *)name + 1, (unsigned)get_long(INFO + JIP_FIB_SIZE));
    ask(&handle, &guest, 999, 0, 0, 0);
    jip_release_guest(&handle, &guest);
    jip_close(&handle);
    return 0;
}
