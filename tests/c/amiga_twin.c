/* Runs random sessions twice: by DosPackets in a machine's memory, and by jip_serve on a twin of the floppy, with the
 * library's numbers of locks and files. Results, bytes, entries and images have to be equal.
 *
 *   amiga_twin SEED ROUNDS */
#include "asking.h"

#include <jiponuwha_amiga.h>

enum { RAM = 0x10000, PACKET = 0x100, FIB = 0x200, DISK = 0x400, FILES_AT = 0x500, STAMP = 0x700, NAME_1 = 0x800, NAME_2 = 0xa00 };
enum { BYTES = 0x2000, MOST = 0x4000, POOL = 0x8000, LOCKS = 12, FILES = 6, TURNS = 400 };

/* A lock or an open file: its numbers on the machine and on the twin. */
struct pair {
    uint32_t guest, host, beside;
};

static uint8_t ram[RAM], bytes[MOST];
static jip_handle floppy = JIP_CLOSED, twin = JIP_CLOSED;
static jip_guest guest;
static struct pair locks[LOCKS], files[FILES];

static int peek(void *context, uint32_t at, void *to, uint32_t length) {
    (void)context;
    if (at > RAM || length > RAM - at) return 0;
    memcpy(to, ram + at, length);
    return 1;
}

static int poke(void *context, uint32_t at, const void *from, uint32_t length) {
    (void)context;
    if (at > RAM || length > RAM - at) return 0;
    memcpy(ram + at, from, length);
    return 1;
}

static uint32_t long_at(uint32_t at) { return long_of(ram + at); }

static void set_long(uint32_t at, uint32_t value) { put_long(ram + at, value); }

/* ---- Names and numbers ---- */

/* Draws a name. For the machine it may get the prefix of an assign; for the twin it has none. */
static const char *draw_name(uint32_t at) {
    static const char *const names[] = {"a", "b", "B", "c", "dir", "dir/a", "dir/b", "dir/in", "dir/in/a", "/a", "", "dir/", "none/a", "dir//b"};
    const char *name = names[draw(sizeof names / sizeof names[0])];
    const size_t length = strlen(name), front = draw(4) == 0 ? 6 : 0;
    ram[at] = (uint8_t)(front + length);
    memcpy(ram + at + 1, "TOOLS:", front);
    memcpy(ram + at + 1 + front, name, length);
    return name;
}

/* Draws a lock, which may be 0; and draws a place for a new lock, whose old lock is freed first. */
static struct pair *draw_lock(void) {
    static struct pair root;
    memset(&root, 0, sizeof root);
    return draw(3) == 0 ? &root : &locks[draw(LOCKS)];
}

/* ---- One packet, twice ---- */

static void send(uint32_t type, const uint32_t *args) {
    set_long(PACKET + JIP_DP_TYPE, type);
    for (uint32_t k = 0; k < 4; k++) set_long(PACKET + JIP_DP_ARG1 + 4 * k, args[k]);
    EXPECT("sent", jip_serve_guest(&floppy, &guest, PACKET) == JIP_DONE);
}

/* Sends a packet to both. Returns the twin's answer; its second result equals the machine's. */
static jip_answer both(const jip_packet *packet, uint32_t a, uint32_t b, uint32_t c, uint32_t d) {
    const uint32_t args[] = {a, b, c, d};
    jip_answer answer = asked(&twin, packet);
    send((uint32_t)packet->action, args);
    EXPECT("the second result", long_at(PACKET + JIP_DP_RES2) == (uint32_t)answer.res2);
    return answer;
}

static jip_answer same(const jip_packet *packet, uint32_t a, uint32_t b, uint32_t c, uint32_t d) {
    jip_answer answer = both(packet, a, b, c, d);
    EXPECT("the first result", long_at(PACKET + JIP_DP_RES1) == (uint32_t)answer.res1);
    return answer;
}

static void free_both(struct pair *lock) {
    jip_packet packet;
    jip_free_lock(&packet, guest.now, lock->host);
    (void)same(&packet, lock->guest, 0, 0, 0);
    memset(lock, 0, sizeof *lock);
}

/* Sends a packet that makes a lock, for a free place. */
static void lock_both(jip_packet *packet, uint32_t a, uint32_t b, uint32_t c) {
    struct pair *to = &locks[draw(LOCKS)];
    jip_answer answer = both(packet, a, b, c, 0);
    const uint32_t lock = long_at(PACKET + JIP_DP_RES1);
    if (answer.res2 != 0 || answer.res1 == 0) {
        EXPECT("no lock", lock == 0);
        return;
    }
    if (to->guest != 0) free_both(to);
    *to = (struct pair){lock, (uint32_t)answer.res1, 0};
}

static void on_locks(uint32_t turn) {
    const struct pair *lock = draw_lock();
    jip_packet packet;
    const char *name = draw_name(NAME_1);
    const int32_t mode = draw(4) == 0 ? JIP_EXCLUSIVE_LOCK : JIP_SHARED_LOCK;
    switch (turn) {
    case 0: jip_locate_object(&packet, guest.now, lock->host, name, mode); break;
    case 1: jip_copy_dir(&packet, guest.now, lock->host); break;
    case 2: jip_parent(&packet, guest.now, lock->host); break;
    default: jip_create_dir(&packet, guest.now, lock->host, name); break;
    }
    lock_both(&packet, lock->guest, NAME_1 >> 2, (uint32_t)mode);
}

static void on_objects(uint32_t turn) {
    const struct pair *lock = draw_lock(), *to = draw_lock();
    jip_packet packet;
    const char *name = draw_name(NAME_1), *other = draw_name(NAME_2);
    const uint32_t bits = draw(16), arg2 = lock->guest;
    const jip_date date = {draw(9000), 5, 6};
    set_long(STAMP, date.days), set_long(STAMP + 4, 5), set_long(STAMP + 8, 6);
    switch (turn) {
    case 0:
        jip_delete_object(&packet, guest.now, lock->host, name);
        (void)same(&packet, arg2, NAME_1 >> 2, 0, 0);
        break;
    case 1:
        jip_rename_object(&packet, guest.now, lock->host, name, to->host, other);
        (void)same(&packet, arg2, NAME_1 >> 2, to->guest, NAME_2 >> 2);
        break;
    case 2:
        jip_set_protect(&packet, guest.now, lock->host, name, bits);
        (void)same(&packet, 0, arg2, NAME_1 >> 2, bits);
        break;
    case 3:
        jip_set_date(&packet, guest.now, lock->host, name, date);
        (void)same(&packet, 0, arg2, NAME_1 >> 2, STAMP);
        break;
    case 4:
        jip_same_lock(&packet, guest.now, lock->host, to->host);
        (void)same(&packet, arg2, to->guest, 0, 0);
        break;
    default:
        memcpy(ram + NAME_2, "\7a: note", 8);
        jip_set_comment(&packet, guest.now, lock->host, name, "a: note");
        (void)same(&packet, 0, arg2, NAME_1 >> 2, NAME_2 >> 2);
    }
}

static void look_at(uint32_t turn) {
    const struct pair *lock = draw_lock();
    jip_packet packet;
    jip_answer answer;
    if (turn == 0) {
        jip_info(&packet, guest.now, lock->host);
        answer = same(&packet, lock->guest, DISK >> 2, 0, 0);
        EXPECT("used", answer.res2 != 0 || (long_at(DISK + 16) == answer.disk.used && long_at(DISK + 12) == answer.disk.blocks));
        return;
    }
    jip_examine_object(&packet, guest.now, lock->host);
    if (turn == 2) jip_examine_next(&packet, guest.now, lock->host, long_at(FIB));
    answer = same(&packet, lock->guest, FIB >> 2, 0, 0);
    if (answer.res2 != 0) return;
    EXPECT("its numbers", long_at(FIB) == answer.entry.key && long_at(FIB + 4) == (uint32_t)answer.entry.entry_type &&
                              long_at(FIB + 116) == answer.entry.protection && long_at(FIB + 124) == answer.entry.size);
    EXPECT("its texts", ram[FIB + 8] == answer.entry.name_length && memcmp(ram + FIB + 9, answer.entry.name, 30) == 0 &&
                            ram[FIB + 144] == answer.entry.comment_length && memcmp(ram + FIB + 145, answer.entry.comment, 79) == 0);
}

/* ---- Files ---- */

static void close_both(struct pair *file) {
    jip_packet packet;
    jip_end(&packet, guest.now, file->host);
    (void)same(&packet, file->guest, 0, 0, 0);
    if (file->beside != 0) (void)free_lock(&twin, file->beside);
    memset(file, 0, sizeof *file);
}

/* The twin also holds a lock for each open file, as the machine's side does. */
static void open_both(uint32_t turn) {
    static const int32_t types[] = {JIP_ACTION_FINDINPUT, JIP_ACTION_FINDUPDATE, JIP_ACTION_FINDOUTPUT};
    const uint32_t k = draw(FILES), at = FILES_AT + 48 * k;
    const struct pair *lock = draw_lock();
    jip_packet packet;
    jip_answer answer;
    const char *name = draw_name(NAME_1), *slash = strrchr(name, '/');
    if (files[k].guest != 0) close_both(&files[k]);
    jip_findinput(&packet, guest.now, lock->host, name);
    packet.action = types[turn];
    answer = same(&packet, at >> 2, lock->guest, NAME_1 >> 2, 0);
    if (answer.res2 != 0) return;
    jip_locate_object(&packet, guest.now, lock->host, name, JIP_SHARED_LOCK);
    if (types[turn] == JIP_ACTION_FINDOUTPUT) packet.path_length = slash == NULL ? 0 : (size_t)(slash - name) + 1;
    files[k] = (struct pair){long_at(at + JIP_FH_ARG1), answer.handle, (uint32_t)asked(&twin, &packet).res1};
}

static void on_files(uint32_t turn) {
    struct pair *file = &files[draw(FILES)];
    const uint32_t length = draw(8) == 0 ? draw(MOST) : draw(1200), mode = draw(3) - 1;
    const int32_t offset = (int32_t)draw(3000) - 1000;
    jip_packet packet;
    jip_answer answer;
    switch (turn) {
    case 0:
        jip_read(&packet, guest.now, file->host, bytes, length);
        answer = same(&packet, file->guest, BYTES, length, 0);
        EXPECT("the bytes", answer.res1 <= 0 || memcmp(bytes, ram + BYTES, (size_t)answer.res1) == 0);
        break;
    case 1:
        for (uint32_t k = 0; k < length; k++) ram[BYTES + k] = (uint8_t)draw(256);
        jip_write(&packet, guest.now, file->host, ram + BYTES, length);
        (void)same(&packet, file->guest, BYTES, length, 0);
        break;
    case 2:
    case 3:
        jip_seek(&packet, guest.now, file->host, offset, (int32_t)mode);
        if (turn == 3) packet.action = JIP_ACTION_SET_FILE_SIZE;
        (void)same(&packet, file->guest, (uint32_t)offset, mode, 0);
        break;
    default:
        if (file->guest != 0) close_both(file);
    }
}

/* ---- Sessions ---- */

static void one_turn(void) {
    struct pair *lock = &locks[draw(LOCKS)];
    const uint32_t kind = draw(16);
    guest.now.ticks++;
    if (kind < 3) on_locks(draw(4));
    else if (kind < 5) on_objects(draw(6));
    else if (kind < 7) look_at(draw(3));
    else if (kind < 9) open_both(draw(3));
    else if (kind < 14) on_files(draw(5));
    else if (lock->guest != 0) free_both(lock);
}

static void session(void) {
    const jip_date first = {1, 2, 3};
    const int32_t format = (int32_t)draw(2);
    const uint32_t blocks = draw(4) == 0 ? (uint32_t)JIP_DOUBLE_DENSITY : 30 + draw(200);
    size_t length, same_length;
    memset(ram, 0, sizeof ram);
    memset(locks, 0, sizeof locks);
    memset(files, 0, sizeof files);
    memset(&guest, 0, sizeof guest);
    guest.read = peek;
    guest.write = poke;
    guest.pool = POOL;
    guest.pool_bytes = 20 * (LOCKS + FILES + 2);
    guest.now = first;
    EXPECT("blank", jip_blank(format, blocks, "Work", 4, first, &floppy) == JIP_DONE);
    EXPECT("blank", jip_blank(format, blocks, "Work", 4, first, &twin) == JIP_DONE);
    for (uint32_t k = 0; k < TURNS; k++) one_turn();
    uint8_t *mine = image_of(&floppy, &length), *theirs = image_of(&twin, &same_length);
    EXPECT("the image", length == same_length && memcmp(mine, theirs, length) == 0);
    free(mine);
    free(theirs);
    EXPECT("the end", jip_release_guest(&floppy, &guest) == JIP_DONE && jip_close(&floppy) == JIP_DONE && jip_close(&twin) == JIP_DONE);
}

int main(int count, char **words) {
    const uint64_t seed = count > 1 ? strtoull(words[1], NULL, 10) : 1, rounds = count > 2 ? strtoull(words[2], NULL, 10) : 100;
    for (uint64_t k = 0; k < rounds; k++) {
        draws = seed * 1000003 + k;
        session();
        if (failed != 0) {
            printf("seed %llu, round %llu\n", (unsigned long long)seed, (unsigned long long)k);
            break;
        }
    }
    return summed_up();
}
