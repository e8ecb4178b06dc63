/* The host's side of the handler: a shared object that uaenative.library of FS-UAE opens. It serves the DosPackets of the emulated
 * machine by jip_serve_guest, and keeps each image in a file.
 *
 * Variables of the environment:
 *
 *     JIP_DISKS   the directory of the images
 *     JIP_FIRST   the image that is in the drive at the start; none if it is not set
 *     JIP_LOG     a file for a line for each packet
 *     JIP_CLOCK   seconds since 1970 for the time stamp of every packet, in place of the host's clock
 *
 * A file that nobody may write is a write-protected disk. */
#define _XOPEN_SOURCE 700
#include <jiponuwha_amiga.h>

#include <stdio.h>
#include <stdlib.h>
#include <sys/stat.h>
#include <time.h>

/* The registers of the calling program, as uaenative.library passes them. */
struct uni {
    uint32_t d1, d2, d3, d4, d5, d6, d7, a1, a2, a3, a4, a5, a7;
    int32_t result, error;
    uint32_t function, library;
    void *native, *uaevar;
    uint32_t flags, task;
};

/* The emulator sets this function. It converts an address to a pointer, and checks no bounds. */
extern void *(*uni_resolve)(uint32_t);
void *(*uni_resolve)(uint32_t);

int32_t jip_amiga_begin(struct uni *u);
int32_t jip_amiga_serve(struct uni *u);
int32_t jip_amiga_disk(struct uni *u);
int32_t jip_amiga_node(struct uni *u);
int32_t jip_amiga_end(struct uni *u);

/* The private packet by which a program of the machine changes the disk, in place of a button of the emulator: its argument is a
 * BCPL string with the name of an image, or an empty one to leave the drive empty. */
enum { CHANGE_DISK = 30001 };
/* The private packet with a line for the log. */
enum { WRITE_LOG = 30002 };
/* What task.c does after a packet: bits. */
enum { DISK_CHANGED = 1, HAS_ENDED = 2, NOT_SERVED = 4 };

/* ---- The machine's memory ---- */

/* The memory of the machine of run.sh, an A1200 with 2 MB of chip memory and 8 MB of fast memory, and its ROM. */
static const struct {
    uint32_t from, to;
    int is_writable;
} banks[] = {{0x000000, 0x200000, 1}, {0x200000, 0xa00000, 1}, {0xe00000, 0xe80000, 0}, {0xf80000, 0x1000000, 0}};

static void *bytes_at(uint32_t at, uint32_t length, int writes) {
    for (size_t k = 0; k < sizeof banks / sizeof banks[0]; k++)
        if (at >= banks[k].from && at < banks[k].to && length <= banks[k].to - at && (!writes || banks[k].is_writable))
            return uni_resolve(at);
    return NULL;
}

static int peek(void *context, uint32_t at, void *to, uint32_t length) {
    const void *from = bytes_at(at, length, 0);
    (void)context;
    if (from != NULL) memcpy(to, from, length);
    return from != NULL;
}

static int poke(void *context, uint32_t at, const void *from, uint32_t length) {
    void *to = bytes_at(at, length, 1);
    (void)context;
    if (to != NULL) memcpy(to, from, length);
    return to != NULL;
}

/* A long of the machine; 0 where there is no memory. */
static uint32_t get_long(uint32_t at) {
    uint8_t b[4] = {0};
    (void)peek(NULL, at, b, sizeof b);
    return (uint32_t)b[0] << 24 | (uint32_t)b[1] << 16 | (uint32_t)b[2] << 8 | (uint32_t)b[3];
}

static void set_long(uint32_t at, uint32_t value) {
    const uint8_t b[4] = {(uint8_t)(value >> 24), (uint8_t)(value >> 16), (uint8_t)(value >> 8), (uint8_t)value};
    (void)poke(NULL, at, b, sizeof b);
}

/* Copies a BCPL string. What is not in memory is an empty text. */
static void get_string(uint32_t bptr, char text[256]) {
    uint8_t length = 0;
    const uint32_t at = bptr << 2;
    if (!peek(NULL, at, &length, 1) || !peek(NULL, at + 1, text, length)) length = 0;
    text[length] = 0;
}

/* ---- The disk ---- */

static jip_handle floppy = JIP_CLOSED;
static jip_guest guest;
static char path[4096]; /* of the image in the drive; empty without one */
static uint64_t saved;  /* the count of changes of the image that is in the file */
static int is_inhibited;
static FILE *said;

/* Writes the image to its file if it has changed. The file is replaced whole, so it has the old image or the new one at any time.
 * After a failure the next packet tries again. */
static int32_t save(void *context) {
    int32_t result;
    (void)context;
    if (jip_image_length(&floppy) == 0 || jip_changes(&floppy) == saved) return 0;
    result = jip_store(&floppy, path);
    if (result == JIP_DONE) saved = jip_changes(&floppy);
    else fprintf(said, "# %s is not saved: %s\n", path, jip_error_text(result));
    return result == JIP_DONE ? 0 : JIP_ERROR_DISK_FULL;
}

/* Opens the handle on the image in the file, if there is one. Returns a DOS error. */
static int32_t open_disk(void) {
    struct stat file;
    jip_fault fault;
    int is_protected;
    int32_t result;
    if (path[0] == 0) return 0;
    is_protected = stat(path, &file) == 0 && (file.st_mode & 0222) == 0;
    result = (is_protected ? jip_load_read_only : jip_load)(path, &floppy, &fault);
    if (result != JIP_DONE) fprintf(said, "# %s: %s\n", path, jip_error_text(result));
    /* (the first save writes an image whose bitmap was rebuilt) */
    saved = jip_changes(&floppy);
    return result == JIP_DONE ? 0 : JIP_ERROR_NOT_A_DOS_DISK;
}

/* Sets the path of the image of this name. A name is one of the directory, so the machine reaches no other file. Returns a DOS error. */
static int32_t set_path(const char *name) {
    const char *disks = getenv("JIP_DISKS");
    path[0] = 0;
    if (name[0] == 0) return 0;
    if (strchr(name, '/') != NULL || name[0] == '.' || disks == NULL) return JIP_ERROR_OBJECT_NOT_FOUND;
    if ((size_t)snprintf(path, sizeof path, "%s/%s", disks, name) < sizeof path) return 0;
    path[0] = 0;
    return JIP_ERROR_OBJECT_NOT_FOUND;
}

/* Puts the image of this name into the drive in place of the one that is there. No name leaves the drive empty. While INHIBIT is on,
 * the image is opened when that ends. */
static int32_t change_disk(const char *name) {
    int32_t error = save(NULL);
    if (error != 0) return error;
    (void)jip_remove_disk(&floppy, &guest);
    error = set_path(name);
    if (error != 0 || path[0] == 0 || is_inhibited) return error;
    error = open_disk();
    if (error != 0) return error;
    if (jip_insert_disk(&floppy, &guest) != JIP_DONE) {
        (void)jip_close(&floppy);
        return JIP_ERROR_NO_FREE_STORE;
    }
    saved = jip_changes(&floppy);
    return 0;
}

/* INHIBIT: each change is in the file already, and the file is read again afterwards. If that is no image then, the drive is empty. */
static int32_t inhibit(void *context, int32_t is_on) {
    if (is_on) return save(context);
    (void)open_disk();
    return 0;
}

/* ---- What task.c calls ---- */

static jip_date moment(void) {
    const char *clock = getenv("JIP_CLOCK");
    jip_date date = {0, 0, 0};
    (void)jip_date_of_time(clock != NULL ? strtoll(clock, NULL, 10) : (int64_t)time(NULL), 0, &date);
    return date;
}

/* Begins. Registers d1 and d2: the address of the pool and its length; d3: the port. Returns 0 if there is a drive to serve. */
int32_t jip_amiga_begin(struct uni *u) {
    const char *log = getenv("JIP_LOG"), *first = getenv("JIP_FIRST");
    const jip_guest fresh = {.read = peek, .write = poke, .save = save, .pool = u->d1, .pool_bytes = u->d2, .port = u->d3};
    if (said == NULL) said = log != NULL ? fopen(log, "w") : stderr;
    if (said == NULL || guest.state != NULL) return 1;
    (void)setvbuf(said, NULL, _IOLBF, 0);
    guest = fresh;
    guest.now = moment();
    (void)jip_remove_disk(&floppy, &guest);
    if (jip_guest_on_inhibit(&guest, inhibit) != JIP_DONE) return 1;
    return first == NULL ? 0 : change_disk(first);
}

/* Answers a packet of this file alone. */
static int32_t answer(uint32_t packet, int32_t error, int32_t bits) {
    set_long(packet + JIP_DP_RES1, error == 0 ? (uint32_t)JIP_DOSTRUE : (uint32_t)JIP_DOSFALSE);
    set_long(packet + JIP_DP_RES2, (uint32_t)error);
    return bits;
}

/* Serves the packet by the library, and saves what it has changed. */
static int32_t serve(uint32_t packet, int32_t action) {
    const uint32_t volume = guest.volume;
    const int had_disk = jip_image_length(&floppy) != 0;
    int32_t bits = 0, error;
    if (jip_serve_guest(&floppy, &guest, packet) != JIP_DONE) return NOT_SERVED;
    error = (int32_t)get_long(packet + JIP_DP_RES2);
    if (action == JIP_GUEST_INHIBIT && error == 0) is_inhibited = get_long(packet + JIP_DP_ARG1) != 0;
    if (action == JIP_GUEST_INHIBIT && had_disk != (jip_image_length(&floppy) != 0)) saved = jip_changes(&floppy);
    (void)save(NULL);
    if (volume != guest.volume || (action == JIP_ACTION_RENAME_DISK && error == 0) || action == JIP_GUEST_INHIBIT) bits |= DISK_CHANGED;
    if (action == JIP_ACTION_DIE && error == 0) bits |= HAS_ENDED;
    return bits;
}

/* Serves the packet whose address is in register d1. Returns what task.c does then. */
int32_t jip_amiga_serve(struct uni *u) {
    const uint32_t packet = u->d1;
    const int32_t action = (int32_t)get_long(packet + JIP_DP_TYPE);
    char text[256];
    int32_t bits;
    guest.now = moment();
    if (action == CHANGE_DISK || action == WRITE_LOG) get_string(get_long(packet + JIP_DP_ARG1), text);
    if (action == WRITE_LOG) {
        fprintf(said, "## %s\n", text);
        return answer(packet, 0, 0);
    }
    bits = action == CHANGE_DISK ? answer(packet, change_disk(text), DISK_CHANGED) : serve(packet, action);
    fprintf(said, "%s %d %d%s\n", action == CHANGE_DISK ? "(another disk)" : jip_action_name(action),
            (int)(int32_t)get_long(packet + JIP_DP_RES1), (int)(int32_t)get_long(packet + JIP_DP_RES2),
            bits & NOT_SERVED ? " not served" : "");
    return bits;
}

/* Describes the disk in the drive, at the address in register d1: whether there is one, its volume node or 0, its type, date and name. */
int32_t jip_amiga_disk(struct uni *u) {
    jip_volume volume;
    const int32_t result = jip_volume_of(&floppy, &volume);
    set_long(u->d1, result == JIP_DONE);
    if (result != JIP_DONE) return 0;
    set_long(u->d1 + 4, guest.volume);
    set_long(u->d1 + 8, volume.disk_type);
    set_long(u->d1 + 12, volume.date.days);
    set_long(u->d1 + 16, volume.date.minutes);
    set_long(u->d1 + 20, volume.date.ticks);
    (void)poke(NULL, u->d1 + 24, volume.name, sizeof volume.name);
    return 0;
}

/* The address of the volume node of the disk in the drive is in register d1. */
int32_t jip_amiga_node(struct uni *u) {
    guest.volume = u->d1;
    return 0;
}

/* The handler has ended. It may begin again. */
int32_t jip_amiga_end(struct uni *u) {
    (void)u;
    (void)save(NULL);
    (void)jip_release_guest(&floppy, &guest);
    (void)jip_close(&floppy);
    path[0] = 0;
    is_inhibited = 0;
    return 0;
}
