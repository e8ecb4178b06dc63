/* DOS packets in the memory of an emulated Amiga. This file compiles as C11 and as C++17, and a program may include it in
 * its own build.
 *
 * Only `peek` and `poke` access the machine's memory. Input is copied before it is checked, so it stays the same for the
 * whole packet. */
#include <jiponuwha_amiga.h>

#include <stdlib.h>

enum { READ_BYTES = 16384, GATHERED_BYTES = 4096, ARGUMENTS = 7 };

/* A number that is never that of a lock or file handle. */
static const uint32_t not_held = UINT32_MAX;

/* A disk that is in the drive, or was removed while locks or files of it were held. Removed disks are a list. Each keeps its handle, so
 * that it can be served again, and be compared with a disk that is inserted. */
struct disk {
    struct disk *next;
    jip_handle handle;   /* closed while the disk is in the drive: the caller has its handle then */
    uint32_t generation; /* its part of fh_Arg1 */
    uint32_t held;       /* the number of its FileLocks and open files */
    uint32_t volume;     /* of a removed disk: the address of its volume node */
    uint32_t key;        /* of WRITE_PROTECT */
    int is_protected;    /* by WRITE_PROTECT */
};

/* A FileLock of the guest. Its place in the pool is its identity. */
struct held_lock {
    uint32_t number; /* its number in the library; 0 if the place is free */
    struct disk *disk;
};

/* An open file of the guest. */
struct open_file {
    uint32_t handle;      /* its number in the library; 0 if the place is free */
    struct disk *disk;
    uint32_t argument;    /* fh_Arg1: from the place, counted from 1, and the generation of the disk */
    uint32_t lock;        /* a shared lock on the file, or on its directory if FINDOUTPUT opened it; 0 if there is none */
    int32_t error;        /* the DOS error if there is no lock */
    uint32_t name_length; /* for a file that FINDOUTPUT opened; otherwise 0 */
    uint8_t name[JIP_NAME_BYTES];
};

struct jip_guest_state {
    uint32_t places;   /* the number of FileLocks, and of open files */
    uint32_t lock, file; /* the places where the search for a free one starts */
    struct held_lock *locks;
    struct open_file *files;
    struct disk *disk;    /* in the drive, or NULL */
    struct disk *removed; /* the removed disks of which something is held */
    uint32_t generation;  /* of the next disk */
    jip_guest_inhibit inhibit;
    int is_inhibited, has_died;
};

/* The state of a guest whose disk was removed before the guest needed memory: the drive is empty, and nothing is held. It belongs to
 * all such guests, and is never written. So a removal takes no memory. */
static struct jip_guest_state empty_drive;

/* The packet that is served. */
struct serving {
    jip_handle *handle;
    jip_guest *guest;
    uint32_t at; /* the packet's address */
    uint32_t arguments[ARGUMENTS];
    jip_packet packet;
    jip_answer answer;
    int32_t fault;          /* the error that refuses it before it gets to the handler, or 0 */
    struct disk *removed;   /* a removed disk whose lock or file the packet names, or NULL */
    uint32_t place;         /* the place of the first lock */
    struct open_file *file; /* the open file that fh_Arg1 names, or NULL */
    uint32_t struct_at;     /* the address of the struct to be filled */
    uint8_t path[JIP_PATH_BYTES];
    uint8_t text[JIP_PATH_BYTES];
};

/* ---- The machine's memory ---- */

static uint32_t get_long(const uint8_t *at) {
    return (uint32_t)at[0] << 24 | (uint32_t)at[1] << 16 | (uint32_t)at[2] << 8 | (uint32_t)at[3];
}

static void put_long(uint8_t *at, uint32_t value) {
    at[0] = (uint8_t)(value >> 24);
    at[1] = (uint8_t)(value >> 16);
    at[2] = (uint8_t)(value >> 8);
    at[3] = (uint8_t)value;
}

/* Whether a range of at least one byte does not wrap. */
static int lies(uint32_t at, uint32_t length) { return length - 1 <= UINT32_MAX - at; }

static int peek(const jip_guest *guest, uint32_t at, void *to, uint32_t length) {
    return length == 0 || (lies(at, length) && guest->read(guest->context, at, to, length) != 0);
}

static int poke(const jip_guest *guest, uint32_t at, const void *from, uint32_t length) {
    return length == 0 || (lies(at, length) && guest->write(guest->context, at, from, length) != 0);
}

static int poke_long(const jip_guest *guest, uint32_t at, uint32_t value) {
    uint8_t bytes[4];
    put_long(bytes, value);
    return poke(guest, at, bytes, sizeof bytes);
}

static int are_apart(uint32_t first, uint32_t length, uint32_t second, uint32_t other_length) {
    return length == 0 || other_length == 0 || (first < second ? length <= second - first : other_length <= first - second);
}

/* Whether a range does not wrap, and is apart from address 0, the packet and the pool. */
static int is_clear(const struct serving *s, uint32_t at, uint32_t length) {
    return at != 0 && lies(at, length) && are_apart(at, length, s->at, JIP_DP_BYTES) &&
           are_apart(at, length, s->guest->pool, s->guest->pool_bytes);
}

/* Whether a struct of at most JIP_FIB_BYTES can be written. The test writes its own bytes back. */
static int may_fill(const struct serving *s, uint32_t at, uint32_t length) {
    uint8_t bytes[JIP_FIB_BYTES];
    return is_clear(s, at, length) && peek(s->guest, at, bytes, length) && poke(s->guest, at, bytes, length);
}

/* Converts a BPTR to an address. Returns 0 if it wraps. */
static int address_of(uint32_t bptr, uint32_t *at) {
    *at = bptr << 2;
    return bptr <= UINT32_MAX >> 2;
}

/* ---- Packets to the handler ---- */

static void set_results(struct serving *s, int32_t res1, int32_t res2) {
    memset(&s->answer, 0, sizeof s->answer);
    s->answer.res1 = res1;
    s->answer.res2 = res2;
}

/* Serves a packet that this file made. Running out of memory is error 103. */
static jip_answer asked(const struct serving *s, const jip_packet *packet) {
    jip_answer answer;
    memset(&answer, 0, sizeof answer);
    if (jip_serve(s->handle, packet, &answer) != JIP_DONE) answer.res2 = JIP_ERROR_NO_FREE_STORE;
    return answer;
}

static jip_answer asked_of_lock(const struct serving *s, int32_t action, uint32_t lock) {
    jip_packet packet;
    jip_begin(&packet, action, s->guest->now);
    packet.lock = lock;
    return asked(s, &packet);
}

static jip_answer asked_of_handle(const struct serving *s, int32_t action, uint32_t handle) {
    jip_packet packet;
    jip_begin(&packet, action, s->guest->now);
    packet.handle = handle;
    return asked(s, &packet);
}

static void set_refusal(struct serving *s, int32_t error) {
    const int32_t action = s->packet.action;
    const int counts = action == JIP_ACTION_READ || action == JIP_ACTION_WRITE || action == JIP_ACTION_SEEK;
    set_results(s, counts ? -1 : (int32_t)JIP_DOSFALSE, error);
}

/* Returns 218 after DIE, and otherwise 0, also for an empty drive. FREE_LOCK of lock 0 shows that: it fails only after DIE. */
static int32_t death_of(const struct serving *s) {
    return jip_image_length(s->handle) == 0 ? 0 : asked_of_lock(s, JIP_ACTION_FREE_LOCK, 0).res2;
}

/* Refuses the packet with this error, or with 218 after DIE. */
static void refuse(struct serving *s, int32_t error) {
    const int32_t dead = death_of(s);
    set_refusal(s, dead != 0 ? dead : error);
}

/* Answers the packet without the handler, or refuses it with 218 after DIE. */
static void accept(struct serving *s, int32_t res1) {
    const int32_t dead = death_of(s);
    set_results(s, dead != 0 ? (int32_t)JIP_DOSFALSE : res1, dead);
}

/* Serves the packet by the handler. */
static void ask(struct serving *s) {
    memset(&s->answer, 0, sizeof s->answer);
    if (jip_serve(s->handle, &s->packet, &s->answer) != JIP_DONE) refuse(s, JIP_ERROR_NO_FREE_STORE);
}

/* ---- FileLocks ---- */

static uint32_t place_address(const jip_guest *guest, uint32_t place) { return guest->pool + place * JIP_FL_BYTES; }

/* Returns the place of a held FileLock, or the number of places if the BPTR is not one. */
static uint32_t place_of(const jip_guest *guest, uint32_t bptr) {
    const struct jip_guest_state *state = guest->state;
    uint32_t at, place;
    if (!address_of(bptr, &at) || (at - guest->pool) % JIP_FL_BYTES != 0) return state->places;
    place = (at - guest->pool) / JIP_FL_BYTES;
    return place < state->places && state->locks[place].number != 0 ? place : state->places;
}

/* Returns the number of a lock in the library, or not_held. Notes the disk of a lock whose disk is removed. */
static uint32_t lock_of(struct serving *s, uint32_t bptr) {
    const struct jip_guest_state *state = s->guest->state;
    const uint32_t place = place_of(s->guest, bptr);
    if (bptr == 0) return 0;
    if (place == state->places) return not_held;
    if (state->locks[place].disk == state->disk) return state->locks[place].number;
    s->removed = state->locks[place].disk;
    return not_held;
}

static int erase_place(const jip_guest *guest, uint32_t place) {
    const uint8_t zeros[JIP_FL_BYTES] = {0};
    return poke(guest, place_address(guest, place), zeros, sizeof zeros);
}

/* Finds a free place for a FileLock. If there is none, it refuses the packet. */
static int find_place(struct serving *s) {
    struct jip_guest_state *state = s->guest->state;
    uint32_t k;
    for (k = 0; k < state->places; k++) {
        const uint32_t place = (state->lock + k) % state->places;
        if (state->locks[place].number != 0) continue;
        s->place = place;
        if (erase_place(s->guest, place)) return 1;
        refuse(s, JIP_GUEST_BAD_NUMBER);
        return 0;
    }
    refuse(s, JIP_ERROR_NO_FREE_STORE);
    return 0;
}

/* Writes the FileLock at the packet's place. */
static int fill_lock(const struct serving *s, uint32_t key, int32_t mode) {
    uint8_t bytes[JIP_FL_BYTES] = {0};
    put_long(bytes + JIP_FL_KEY, key);
    put_long(bytes + JIP_FL_ACCESS, (uint32_t)mode);
    put_long(bytes + JIP_FL_TASK, s->guest->port);
    put_long(bytes + JIP_FL_VOLUME, s->guest->volume >> 2);
    return poke(s->guest, place_address(s->guest, s->place), bytes, sizeof bytes);
}

/* Answers with a FileLock for a lock of the library, at the place that find_place found. */
static void give_lock(struct serving *s, uint32_t lock, int32_t mode) {
    struct jip_guest_state *state = s->guest->state;
    const uint32_t key = asked_of_lock(s, JIP_ACTION_EXAMINE_OBJECT, lock).entry.key;
    if (!fill_lock(s, key, mode)) {
        (void)asked_of_lock(s, JIP_ACTION_FREE_LOCK, lock);
        refuse(s, JIP_GUEST_BAD_NUMBER);
        return;
    }
    state->locks[s->place].number = lock;
    state->locks[s->place].disk = state->disk;
    state->lock = (s->place + 1) % state->places;
    state->disk->held++;
    set_results(s, (int32_t)(place_address(s->guest, s->place) >> 2), 0);
}

/* Forgets a disk that is not in the drive. */
static void forget(struct disk *disk) {
    (void)jip_close(&disk->handle);
    free(disk);
}

/* One lock or file of the disk is gone. A removed disk is forgotten with its last one. */
static void let_go(struct jip_guest_state *state, struct disk *disk) {
    struct disk **at = &state->removed;
    if (--disk->held != 0 || disk == state->disk) return;
    while (*at != disk) at = &(*at)->next;
    *at = disk->next;
    forget(disk);
}

/* Frees the FileLock of the packet. */
static void drop_place(struct serving *s) {
    struct held_lock *lock = &s->guest->state->locks[s->place];
    struct disk *disk = lock->disk;
    memset(lock, 0, sizeof *lock);
    (void)erase_place(s->guest, s->place);
    let_go(s->guest->state, disk);
}

static void serve_lock(struct serving *s) {
    const int32_t action = s->packet.action;
    const int exclusive = action == JIP_ACTION_CREATE_DIR || (action == JIP_ACTION_LOCATE_OBJECT && s->packet.mode == JIP_EXCLUSIVE_LOCK);
    if (!find_place(s)) return;
    ask(s);
    if (s->answer.res2 != 0 || s->answer.res1 <= 0) return;
    give_lock(s, (uint32_t)s->answer.res1, exclusive ? JIP_EXCLUSIVE_LOCK : JIP_SHARED_LOCK);
}

static void serve_free_lock(struct serving *s) {
    ask(s);
    if (s->answer.res2 == 0 && s->packet.lock != 0) drop_place(s);
}

/* ---- Open files ---- */

/* Finds a free place for an open file. If there is none, it refuses the packet and returns NULL. */
static struct open_file *find_file(struct serving *s) {
    struct jip_guest_state *state = s->guest->state;
    uint32_t k;
    for (k = 0; k < state->places; k++) {
        const uint32_t place = (state->file + k) % state->places;
        if (state->files[place].handle != 0) continue;
        state->file = place;
        return &state->files[place];
    }
    refuse(s, JIP_ERROR_NO_FREE_STORE);
    return NULL;
}

/* Answers with an open file at this place. Returns 0 if the FileHandle cannot be written. */
static int give_file(struct serving *s, struct open_file *file, uint32_t handle) {
    struct jip_guest_state *state = s->guest->state;
    const uint32_t number = (uint32_t)(file - state->files) + 1, argument = state->disk->generation * (state->places + 1) + number;
    memset(file, 0, sizeof *file);
    if (!poke_long(s->guest, s->struct_at + JIP_FH_ARG1, argument)) {
        (void)asked_of_handle(s, JIP_ACTION_END, handle);
        refuse(s, JIP_GUEST_BAD_NUMBER);
        return 0;
    }
    file->handle = handle;
    file->disk = state->disk;
    file->argument = argument;
    state->file = number % state->places;
    state->disk->held++;
    set_results(s, JIP_DOSTRUE, 0);
    return 1;
}

/* Returns the length of a path without its last name. */
static size_t front_length(const uint8_t *path, size_t length) {
    while (length > 0 && path[length - 1] != '/') length--;
    return length;
}

/* Locks a file that has just been opened, or its directory if FINDOUTPUT opened the file. */
static void lock_beside(struct serving *s, struct open_file *file) {
    const size_t front = front_length(s->packet.path, s->packet.path_length), name = s->packet.path_length - front;
    const int alone = s->packet.action == JIP_ACTION_FINDOUTPUT;
    jip_packet packet;
    jip_answer answer;
    jip_begin(&packet, JIP_ACTION_LOCATE_OBJECT, s->guest->now);
    packet.lock = s->packet.lock;
    packet.path = s->packet.path;
    packet.path_length = alone ? front : s->packet.path_length;
    packet.mode = JIP_SHARED_LOCK;
    answer = asked(s, &packet);
    file->lock = answer.res2 == 0 ? (uint32_t)answer.res1 : 0;
    file->error = answer.res2;
    if (!alone || name > sizeof file->name) return;
    memcpy(file->name, s->packet.path + front, name);
    file->name_length = (uint32_t)name;
}

static void serve_open(struct serving *s) {
    struct open_file *file = find_file(s);
    if (file == NULL) return;
    ask(s);
    if (s->answer.res2 == 0 && give_file(s, file, s->answer.handle)) lock_beside(s, file);
}

/* Frees what an open file that is closed still holds, and its place. */
static void drop_file(struct serving *s, struct open_file *file) {
    struct disk *disk = file->disk;
    if (file->lock != 0) (void)asked_of_lock(s, JIP_ACTION_FREE_LOCK, file->lock);
    memset(file, 0, sizeof *file);
    let_go(s->guest->state, disk);
}

static void serve_end(struct serving *s) {
    ask(s);
    if (s->answer.res2 == 0 && s->file != NULL) drop_file(s, s->file);
}

/* ---- READ and WRITE ---- */

/* Refuses a READ after this many bytes, and restores the position. */
static void take_back(struct serving *s, uint32_t bytes, int32_t error) {
    jip_packet packet;
    jip_seek(&packet, s->guest->now, s->packet.handle, -(int32_t)bytes, JIP_OFFSET_CURRENT);
    (void)asked(s, &packet);
    refuse(s, error);
}

static void serve_read(struct serving *s) {
    const uint32_t to = s->arguments[1], wanted = s->arguments[2];
    uint8_t bytes[READ_BYTES];
    uint32_t done = 0, part, found;
    memset(bytes, 0, sizeof bytes);
    s->packet.buffer = bytes;
    do {
        part = wanted - done < READ_BYTES ? wanted - done : (uint32_t)READ_BYTES;
        s->packet.buffer_length = part;
        ask(s);
        if (s->answer.res2 != 0 && done == 0) return;
        if (s->answer.res2 != 0) {
            take_back(s, done, s->answer.res2);
            return;
        }
        found = (uint32_t)s->answer.res1;
        /* (the bytes so far are in memory, so `to + done` wraps at most to 0, which is not clear) */
        if (found != 0 && (!is_clear(s, to + done, found) || !poke(s->guest, to + done, bytes, found))) {
            take_back(s, done + found, JIP_GUEST_BAD_NUMBER);
            return;
        }
        done += found;
    } while (found == part && done < wanted);
    set_results(s, (int32_t)done, 0);
}

/* Copies bytes of the machine to memory that the caller frees. The memory grows with the bytes that exist, since the
   length may be a false claim. On failure it sets the fault and returns NULL. */
static uint8_t *gather(struct serving *s, uint32_t at, uint32_t length) {
    uint8_t *bytes = NULL;
    uint32_t have = 0;
    while (have < length) {
        const uint32_t step = have < GATHERED_BYTES ? (uint32_t)GATHERED_BYTES : have;
        const uint32_t part = length - have < step ? length - have : step;
        uint8_t *grown = (uint8_t *)realloc(bytes, (size_t)have + part);
        if (grown != NULL && lies(at, length) && peek(s->guest, at + have, grown + have, part)) {
            bytes = grown;
            have += part;
            continue;
        }
        s->fault = grown == NULL ? (int32_t)JIP_ERROR_NO_FREE_STORE : (int32_t)JIP_GUEST_BAD_NUMBER;
        free(grown == NULL ? bytes : grown);
        return NULL;
    }
    return bytes;
}

static void serve_write(struct serving *s) {
    uint8_t *bytes = gather(s, s->arguments[1], s->arguments[2]);
    if (s->fault != 0) {
        refuse(s, s->fault);
        return;
    }
    s->packet.buffer = bytes;
    s->packet.buffer_length = s->arguments[2];
    ask(s);
    free(bytes);
}

/* ---- FileInfoBlock and InfoData ---- */

static void put_date(uint8_t *at, const jip_date *date) {
    put_long(at + JIP_DS_DAYS, date->days);
    put_long(at + JIP_DS_MINUTE, date->minutes);
    put_long(at + JIP_DS_TICK, date->ticks);
}

/* Writes a BCPL string to a field of `room` bytes, followed by zeros. */
static void put_string(uint8_t *field, size_t room, const uint8_t *text, uint32_t length) {
    memset(field, 0, room);
    field[0] = (uint8_t)length;
    memcpy(field + 1, text, length);
}

/* Fills the FileInfoBlock with the entry of the answer. Its reserved bytes stay unchanged. */
static void put_entry(struct serving *s) {
    const jip_entry *entry = &s->answer.entry;
    uint8_t bytes[JIP_FIB_RESERVED];
    memset(bytes, 0, sizeof bytes);
    put_long(bytes + JIP_FIB_DISK_KEY, entry->key);
    put_long(bytes + JIP_FIB_DIR_ENTRY_TYPE, (uint32_t)entry->entry_type);
    put_string(bytes + JIP_FIB_FILE_NAME, JIP_FIB_PROTECTION - JIP_FIB_FILE_NAME, entry->name, entry->name_length);
    put_long(bytes + JIP_FIB_PROTECTION, entry->protection);
    put_long(bytes + JIP_FIB_ENTRY_TYPE, (uint32_t)entry->entry_type);
    put_long(bytes + JIP_FIB_SIZE, entry->size);
    put_long(bytes + JIP_FIB_NUM_BLOCKS, entry->blocks);
    put_date(bytes + JIP_FIB_DATE, &entry->date);
    put_string(bytes + JIP_FIB_COMMENT, JIP_FIB_OWNER - JIP_FIB_COMMENT, entry->comment, entry->comment_length);
    if (!poke(s->guest, s->struct_at, bytes, sizeof bytes)) refuse(s, JIP_GUEST_BAD_NUMBER);
}

static void put_disk(struct serving *s) {
    const jip_disk *disk = &s->answer.disk;
    uint8_t bytes[JIP_ID_BYTES] = {0};
    put_long(bytes + JIP_ID_UNIT_NUMBER, s->guest->unit);
    put_long(bytes + JIP_ID_DISK_STATE, disk->state);
    put_long(bytes + JIP_ID_NUM_BLOCKS, disk->blocks);
    put_long(bytes + JIP_ID_NUM_BLOCKS_USED, disk->used);
    put_long(bytes + JIP_ID_BYTES_PER_BLOCK, disk->bytes_per_block);
    put_long(bytes + JIP_ID_DISK_TYPE, disk->disk_type);
    put_long(bytes + JIP_ID_VOLUME_NODE, s->guest->volume >> 2);
    put_long(bytes + JIP_ID_IN_USE, s->guest->state->disk->held != 0 ? UINT32_MAX : 0);
    if (!poke(s->guest, s->struct_at, bytes, sizeof bytes)) refuse(s, JIP_GUEST_BAD_NUMBER);
}

static void serve_entry(struct serving *s) {
    ask(s);
    if (s->answer.res2 == 0) put_entry(s);
}

static void serve_disk(struct serving *s) {
    ask(s);
    if (s->answer.res2 == 0) put_disk(s);
}

/* ---- Actions that this file serves by means of others ---- */

/* Whether the packet names an open file that has a lock. Otherwise it refuses the packet. */
static int has_lock_beside(struct serving *s) {
    const int32_t error = s->file == NULL ? (int32_t)JIP_ERROR_INVALID_LOCK : s->file->error;
    if (error != 0) refuse(s, error);
    return error == 0;
}

/* Answers with the handler's answer, whose first result is a lock. */
static void pass_on_lock(struct serving *s, jip_answer answer) {
    if (answer.res2 != 0) {
        refuse(s, answer.res2);
    } else {
        give_lock(s, (uint32_t)answer.res1, JIP_SHARED_LOCK);
    }
}

static void serve_copy_dir_fh(struct serving *s) {
    if (!has_lock_beside(s) || !find_place(s)) return;
    if (s->file->name_length != 0) {
        refuse(s, JIP_ERROR_OBJECT_IN_USE);
    } else {
        pass_on_lock(s, asked_of_lock(s, JIP_ACTION_COPY_DIR, s->file->lock));
    }
}

static void serve_parent_fh(struct serving *s) {
    if (!has_lock_beside(s) || !find_place(s)) return;
    pass_on_lock(s, asked_of_lock(s, s->file->name_length != 0 ? JIP_ACTION_COPY_DIR : JIP_ACTION_PARENT, s->file->lock));
}

static uint8_t upper(uint8_t c) { return (uint8_t)(c >= 'a' && c <= 'z' ? c - 32 : c); }

static int is_entry_of(const struct open_file *file, const jip_entry *entry) {
    uint32_t k;
    if (entry->name_length != file->name_length) return 0;
    for (k = 0; k < file->name_length; k++)
        if (upper(entry->name[k]) != upper(file->name[k])) return 0;
    return 1;
}

/* Finds the entry of an open file: by its own lock, or in its directory. */
static jip_answer examined_file(const struct serving *s) {
    jip_answer answer = asked_of_lock(s, JIP_ACTION_EXAMINE_OBJECT, s->file->lock);
    jip_packet packet;
    if (s->file->name_length == 0) return answer;
    do {
        jip_examine_next(&packet, s->guest->now, s->file->lock, answer.entry.key);
        answer = asked(s, &packet);
    } while (answer.res2 == 0 && !is_entry_of(s->file, &answer.entry));
    return answer;
}

static void serve_examine_fh(struct serving *s) {
    if (!has_lock_beside(s)) return;
    s->answer = examined_file(s);
    if (s->answer.res2 != 0) {
        refuse(s, s->answer.res2);
    } else {
        put_entry(s);
    }
}

/* Opens the object of the lock, by the empty path. The open file then keeps that lock. */
static void serve_fh_from_lock(struct serving *s) {
    struct open_file *file = find_file(s);
    jip_answer answer;
    if (file == NULL) return;
    answer = asked_of_lock(s, JIP_ACTION_FINDINPUT, s->packet.lock);
    if (answer.res2 != 0) {
        refuse(s, answer.res2);
    } else if (give_file(s, file, answer.handle)) {
        file->lock = s->packet.lock;
        drop_place(s);
    }
}

static void serve_is_filesystem(struct serving *s) { accept(s, JIP_DOSTRUE); }

static void serve_flush(struct serving *s) {
    int32_t error;
    accept(s, JIP_DOSTRUE);
    if (s->answer.res2 != 0 || s->guest->save == NULL) return;
    error = s->guest->save(s->guest->context);
    if (error != 0) set_results(s, JIP_DOSFALSE, error);
}

/* There are no buffers: 0 more, and 0 in all. */
static void serve_more_cache(struct serving *s) { accept(s, JIP_DOSTRUE); }

static void serve_current_volume(struct serving *s) {
    if (s->guest->volume == 0) {
        refuse(s, JIP_ERROR_ACTION_NOT_KNOWN);
    } else {
        accept(s, (int32_t)(s->guest->volume >> 2));
    }
}

/* ---- Disks ---- */

static struct disk *new_disk(struct jip_guest_state *state) {
    struct disk *disk = (struct disk *)calloc(1, sizeof *disk);
    if (disk == NULL) return NULL;
    disk->generation = state->generation;
    state->generation = (state->generation + 1) % (UINT32_MAX / (state->places + 1));
    return disk;
}

/* Takes the disk out of the drive, with the caller's handle. It takes no memory. */
static void take_out(jip_handle *handle, jip_guest *guest) {
    struct jip_guest_state *state = guest->state;
    struct disk *disk = state->disk;
    const jip_handle closed = JIP_CLOSED;
    if (disk == NULL) return;
    state->disk = NULL;
    disk->handle = *handle;
    *handle = closed;
    disk->volume = guest->volume;
    guest->volume = 0;
    if (disk->held == 0) {
        forget(disk);
        return;
    }
    disk->next = state->removed;
    state->removed = disk;
}

/* The state of a disk: 80 if it is write-protected. It is 0 for a closed handle, and if memory runs out. */
static uint32_t state_of(jip_handle *handle, jip_date now) {
    jip_packet packet;
    jip_answer answer;
    memset(&answer, 0, sizeof answer);
    jip_disk_info(&packet, now);
    return jip_serve(handle, &packet, &answer) == JIP_DONE ? answer.disk.state : 0;
}

/* Returns a copy of an image, which the caller frees, or NULL if memory runs out. */
static uint8_t *copy_of(jip_handle *handle) {
    const size_t length = jip_image_length(handle);
    uint8_t *bytes = (uint8_t *)malloc(length);
    if (bytes != NULL && jip_copy_image(handle, bytes, length) == JIP_DONE) return bytes;
    free(bytes);
    return NULL;
}

/* Whether a removed disk has these bytes, and the host opened it for writing or not, as this one. -1: out of memory. */
static int is_same_disk(struct disk *disk, const uint8_t *bytes, size_t length, uint32_t state, jip_date now) {
    uint8_t *kept;
    int is_same;
    if (jip_image_length(&disk->handle) != length) return 0;
    if ((disk->is_protected ? (uint32_t)JIP_VALIDATED : state_of(&disk->handle, now)) != state) return 0;
    kept = copy_of(&disk->handle);
    if (kept == NULL) return -1;
    is_same = memcmp(kept, bytes, length) == 0;
    free(kept);
    return is_same;
}

/* Finds the removed disk that the handle is now on: sets the place of its pointer in the list, or NULL. Returns 0 if memory
 * runs out. */
static int find_removed(jip_handle *handle, jip_guest *guest, struct disk ***found) {
    const uint32_t state = state_of(handle, guest->now);
    const size_t length = jip_image_length(handle);
    struct disk **at = &guest->state->removed;
    uint8_t *bytes;
    int is_same = 0;
    *found = NULL;
    if (*at == NULL) return 1;
    bytes = copy_of(handle);
    if (bytes == NULL) return 0;
    for (; *at != NULL && is_same == 0; at = &(*at)->next) {
        is_same = is_same_disk(*at, bytes, length, state, guest->now);
        if (is_same == 1) *found = at;
    }
    free(bytes);
    return is_same != -1;
}

/* Puts the disk of an open handle into the drive. Returns 0 if memory runs out. */
static int put_in(jip_handle *handle, jip_guest *guest) {
    struct jip_guest_state *state = guest->state;
    const jip_handle closed = JIP_CLOSED;
    struct disk **found;
    if (!find_removed(handle, guest, &found)) return 0;
    if (found == NULL) {
        state->disk = new_disk(state);
        return state->disk != NULL;
    }
    state->disk = *found;
    *found = state->disk->next;
    state->disk->next = NULL;
    (void)jip_close(handle);
    *handle = state->disk->handle;
    state->disk->handle = closed;
    guest->volume = state->disk->volume;
    return 1;
}

/* FREE_LOCK and END free what a program holds of a removed disk. Any other packet that names it is refused. */
static void serve_removed(struct serving *s) {
    s->handle = &s->removed->handle;
    if (s->packet.action == JIP_ACTION_FREE_LOCK) {
        (void)asked_of_lock(s, JIP_ACTION_FREE_LOCK, s->guest->state->locks[s->place].number);
        drop_place(s);
        set_results(s, JIP_DOSTRUE, 0);
    } else if (s->packet.action == JIP_ACTION_END) {
        (void)asked_of_handle(s, JIP_ACTION_END, s->file->handle);
        drop_file(s, s->file);
        set_results(s, JIP_DOSTRUE, 0);
    } else {
        set_refusal(s, JIP_ERROR_DEVICE_NOT_MOUNTED);
    }
}

/* Ends the handler, unless something of a removed disk is held: its FileLocks name the handler's port. */
static void serve_die(struct serving *s) {
    struct jip_guest_state *state = s->guest->state;
    if (state->removed != NULL) {
        set_refusal(s, JIP_ERROR_OBJECT_IN_USE);
        return;
    }
    if (state->disk != NULL) {
        ask(s);
    } else {
        set_results(s, JIP_DOSTRUE, 0);
    }
    if (s->answer.res2 == 0) state->has_died = 1;
}

/* Ends the inhibition: the host opens the disk again, as it is now. */
static void uninhibit(struct serving *s) {
    struct jip_guest_state *state = s->guest->state;
    const int32_t error = state->inhibit(s->guest->context, 0);
    if (error == 0 && jip_image_length(s->handle) != 0 && !put_in(s->handle, s->guest)) {
        (void)jip_close(s->handle);
        set_refusal(s, JIP_ERROR_NO_FREE_STORE);
    } else if (error != 0) {
        set_refusal(s, error);
    } else {
        state->is_inhibited = 0;
        set_results(s, JIP_DOSTRUE, 0);
    }
}

static void serve_inhibit(struct serving *s) {
    struct jip_guest_state *state = s->guest->state;
    const int is_on = s->arguments[0] != 0;
    if (state->inhibit == NULL || death_of(s) != 0) {
        refuse(s, JIP_ERROR_ACTION_NOT_KNOWN);
    } else if (is_on == state->is_inhibited) {
        set_results(s, JIP_DOSTRUE, 0);
    } else if (!is_on) {
        uninhibit(s);
    } else {
        const int32_t error = state->inhibit(s->guest->context, 1);
        if (error != 0) {
            set_refusal(s, error);
            return;
        }
        take_out(s->handle, s->guest);
        state->is_inhibited = 1;
        set_results(s, JIP_DOSTRUE, 0);
    }
}

/* Opens the image of the caller's handle again, for writing or not. Returns a DOS error: 202 if anything on it is held. */
static int32_t reopen(struct serving *s, int is_protected) {
    const size_t length = jip_image_length(s->handle);
    uint8_t *bytes = copy_of(s->handle);
    jip_handle again = JIP_CLOSED;
    jip_fault fault;
    jip_packet packet;
    int32_t error = JIP_ERROR_NO_FREE_STORE;
    if (bytes != NULL && (is_protected ? jip_open_read_only : jip_open)(bytes, length, &again, &fault) == JIP_DONE) {
        jip_die(&packet, s->guest->now);
        error = asked(s, &packet).res2;
    }
    free(bytes);
    if (error != 0) {
        (void)jip_close(&again);
        return error;
    }
    (void)jip_close(s->handle);
    *s->handle = again;
    return 0;
}

/* Protects the disk by a read-only handle, or ends that. The protection by the host, of a handle that it opened read-only, stays. */
static void serve_write_protect(struct serving *s) {
    struct disk *disk = s->guest->state->disk;
    const int is_on = s->arguments[0] != 0;
    const int is_host = !disk->is_protected && state_of(s->handle, s->guest->now) == JIP_WRITE_PROTECTED;
    int32_t error = 0;
    if (disk->is_protected ? disk->key != s->arguments[1] : is_host && !is_on) {
        refuse(s, JIP_ERROR_DISK_WRITE_PROTECTED);
        return;
    }
    if (is_on != disk->is_protected && !is_host) error = reopen(s, is_on);
    if (error != 0) {
        refuse(s, error);
        return;
    }
    if (!is_host) {
        disk->is_protected = is_on;
        disk->key = s->arguments[1];
    }
    accept(s, JIP_DOSTRUE);
}

/* ---- Arguments ---- */

/* The arguments of an action, from dp_Arg1 on. l: a lock. L: a second lock. h: fh_Arg1. p: a path. P: a second path.
 * v: a volume name. c: a comment. b: bits. m: a mode. o: an offset. a and n: the address and number of bytes. d: a
 * DateStamp. f: a FileHandle. e: a FileInfoBlock. k: a FileInfoBlock with a key. i: an InfoData. -: ignored. */
static const struct action {
    int32_t action;
    const char *arguments;
    void (*serve)(struct serving *s);
} actions[] = {
    {JIP_ACTION_DIE, "", serve_die},
    {JIP_ACTION_LOCATE_OBJECT, "lpm", serve_lock},
    {JIP_ACTION_RENAME_DISK, "v", ask},
    {JIP_ACTION_FREE_LOCK, "l", serve_free_lock},
    {JIP_ACTION_DELETE_OBJECT, "lp", ask},
    {JIP_ACTION_RENAME_OBJECT, "lpLP", ask},
    {JIP_ACTION_COPY_DIR, "l", serve_lock},
    {JIP_ACTION_SET_PROTECT, "-lpb", ask},
    {JIP_ACTION_CREATE_DIR, "lp", serve_lock},
    {JIP_ACTION_EXAMINE_OBJECT, "le", serve_entry},
    {JIP_ACTION_EXAMINE_NEXT, "lk", serve_entry},
    {JIP_ACTION_DISK_INFO, "i", serve_disk},
    {JIP_ACTION_INFO, "li", serve_disk},
    {JIP_ACTION_SET_COMMENT, "-lpc", ask},
    {JIP_ACTION_PARENT, "l", serve_lock},
    {JIP_ACTION_SET_DATE, "-lpd", ask},
    {JIP_ACTION_SAME_LOCK, "lL", ask},
    {JIP_ACTION_READ, "han", serve_read},
    {JIP_ACTION_WRITE, "han", serve_write},
    {JIP_ACTION_FINDUPDATE, "flp", serve_open},
    {JIP_ACTION_FINDINPUT, "flp", serve_open},
    {JIP_ACTION_FINDOUTPUT, "flp", serve_open},
    {JIP_ACTION_END, "h", serve_end},
    {JIP_ACTION_SEEK, "hom", ask},
    {JIP_ACTION_SET_FILE_SIZE, "hom", ask},
    {JIP_GUEST_CURRENT_VOLUME, "", serve_current_volume},
    {JIP_GUEST_MORE_CACHE, "", serve_more_cache},
    {JIP_GUEST_FLUSH, "", serve_flush},
    {JIP_GUEST_INHIBIT, "", serve_inhibit},
    {JIP_GUEST_WRITE_PROTECT, "", serve_write_protect},
    {JIP_GUEST_FH_FROM_LOCK, "fl", serve_fh_from_lock},
    {JIP_GUEST_IS_FILESYSTEM, "", serve_is_filesystem},
    {JIP_GUEST_COPY_DIR_FH, "h", serve_copy_dir_fh},
    {JIP_GUEST_PARENT_FH, "h", serve_parent_fh},
    {JIP_GUEST_EXAMINE_FH, "he", serve_examine_fh},
};

/* Returns the row of an action; NULL if the handler alone answers it. */
static const struct action *row_of(int32_t action) {
    size_t k;
    for (k = 0; k < sizeof actions / sizeof actions[0]; k++)
        if (actions[k].action == action) return &actions[k];
    return NULL;
}

/* Notes the error of an argument. The first one counts. */
static void expect(struct serving *s, int holds, int32_t error) {
    if (!holds && s->fault == 0) s->fault = error;
}

/* Copies a BCPL string. */
static size_t take_string(struct serving *s, uint32_t bptr, uint8_t *to) {
    uint8_t length = 0;
    uint32_t at;
    const int there = bptr == 0 || (address_of(bptr, &at) && peek(s->guest, at, &length, 1) && peek(s->guest, at + 1, to, length));
    expect(s, there, JIP_GUEST_BAD_NUMBER);
    return there ? length : 0;
}

/* Copies a path without the text up to its first colon. */
static size_t take_path(struct serving *s, uint32_t bptr, uint8_t *to) {
    size_t length = take_string(s, bptr, to), dropped = 0;
    while (dropped < length && to[dropped] != ':') dropped++;
    if (dropped == length) return length;
    length -= ++dropped;
    memmove(to, to + dropped, length);
    expect(s, memchr(to, ':', length) == NULL, JIP_ERROR_INVALID_COMPONENT_NAME);
    return length;
}

static void take_date(struct serving *s, uint32_t at) {
    uint8_t bytes[JIP_DS_BYTES] = {0};
    expect(s, at != 0 && at % 2 == 0 && peek(s->guest, at, bytes, sizeof bytes), JIP_GUEST_BAD_NUMBER);
    s->packet.date.days = get_long(bytes + JIP_DS_DAYS);
    s->packet.date.minutes = get_long(bytes + JIP_DS_MINUTE);
    s->packet.date.ticks = get_long(bytes + JIP_DS_TICK);
}

/* Checks a struct that the answer fills. */
static void take_struct(struct serving *s, uint32_t bptr, uint32_t length) {
    expect(s, address_of(bptr, &s->struct_at) && may_fill(s, s->struct_at, length), JIP_GUEST_BAD_NUMBER);
}

static void take_key(struct serving *s, uint32_t bptr) {
    uint8_t bytes[4] = {0};
    take_struct(s, bptr, JIP_FIB_BYTES);
    expect(s, peek(s->guest, s->struct_at + JIP_FIB_DISK_KEY, bytes, sizeof bytes), JIP_GUEST_BAD_NUMBER);
    s->packet.key = get_long(bytes);
}

static void take_lock(struct serving *s, uint32_t bptr) {
    s->packet.lock = lock_of(s, bptr);
    s->place = place_of(s->guest, bptr);
}

/* Finds the open file with this fh_Arg1, which has its place and the generation of its disk. */
static void take_file(struct serving *s, uint32_t argument) {
    const struct jip_guest_state *state = s->guest->state;
    const uint32_t number = argument % (state->places + 1);
    struct open_file *file = number == 0 ? NULL : &state->files[number - 1];
    s->packet.handle = not_held;
    s->file = file != NULL && file->handle != 0 && file->argument == argument ? file : NULL;
    if (s->file == NULL) return;
    if (file->disk == state->disk) {
        s->packet.handle = file->handle;
    } else {
        s->removed = file->disk;
    }
}

static void take(struct serving *s, char kind, uint32_t value) {
    switch (kind) {
    case 'l': take_lock(s, value); break;
    case 'L': s->packet.to_lock = lock_of(s, value); break;
    case 'h': take_file(s, value); break;
    case 'v': s->packet.path_length = take_string(s, value, s->path); break;
    case 'p': s->packet.path_length = take_path(s, value, s->path); break;
    case 'c': s->packet.text_length = take_string(s, value, s->text); break;
    case 'P': s->packet.text_length = take_path(s, value, s->text); break;
    case 'b': s->packet.bits = value; break;
    case 'm': s->packet.mode = (int32_t)value; break;
    case 'o': s->packet.offset = (int32_t)value; break;
    case 'n': expect(s, value <= INT32_MAX, JIP_GUEST_BAD_NUMBER); break;
    case 'd': take_date(s, value); break;
    case 'f': take_struct(s, value, JIP_FH_BYTES); break;
    case 'e': take_struct(s, value, JIP_FIB_BYTES); break;
    case 'k': take_key(s, value); break;
    case 'i': take_struct(s, value, JIP_ID_BYTES); break;
    default: break;
    }
}

/* ---- The call ---- */

/* Reads the packet. Returns 0 if it cannot be answered. */
static int read_packet(struct serving *s) {
    uint8_t bytes[JIP_DP_BYTES];
    const jip_guest *guest = s->guest;
    uint32_t k;
    if (s->at == 0 || s->at % 2 != 0 || !peek(guest, s->at, bytes, sizeof bytes)) return 0;
    if (!are_apart(s->at, JIP_DP_BYTES, guest->pool, guest->pool_bytes)) return 0;
    if (!poke(guest, s->at + JIP_DP_RES1, bytes + JIP_DP_RES1, JIP_DP_ARG1 - JIP_DP_RES1)) return 0;
    jip_begin(&s->packet, (int32_t)get_long(bytes + JIP_DP_TYPE), guest->now);
    s->packet.path = s->path;
    s->packet.text = s->text;
    for (k = 0; k < ARGUMENTS; k++) s->arguments[k] = get_long(bytes + JIP_DP_ARG1 + 4 * k);
    return 1;
}

static void free_state(struct jip_guest_state *state) {
    if (state == NULL || state == &empty_drive) return;
    while (state->removed != NULL) {
        struct disk *disk = state->removed;
        state->removed = disk->next;
        forget(disk);
    }
    free(state->disk);
    free(state->locks);
    free(state->files);
    free(state);
}

/* Allocates the host's memory for a guest, with a disk in the drive or without one. Returns NULL if memory runs out. */
static struct jip_guest_state *new_state(uint32_t places, int has_disk) {
    struct jip_guest_state *state = (struct jip_guest_state *)calloc(1, sizeof *state);
    if (state == NULL) return NULL;
    state->places = places;
    state->locks = (struct held_lock *)calloc((size_t)places + 1, sizeof *state->locks);
    state->files = (struct open_file *)calloc((size_t)places + 1, sizeof *state->files);
    if (has_disk) state->disk = new_disk(state);
    if (state->locks != NULL && state->files != NULL && (state->disk != NULL || !has_disk)) return state;
    free_state(state);
    return NULL;
}

/* Whether the guest has the host's memory. It gets it when it first needs it; a disk is in the drive then, unless it was removed before.
 * If memory runs out, the guest is unchanged. */
static int has_state(jip_guest *guest) {
    struct jip_guest_state *state;
    if (guest->state != NULL && guest->state != &empty_drive) return 1;
    state = new_state(guest->pool_bytes / JIP_FL_BYTES, guest->state == NULL);
    if (state == NULL) return 0;
    guest->state = state;
    return 1;
}

/* Whether the packet is served without a disk: DIE and INHIBIT. */
static int is_for_drive(const struct action *row) { return row != NULL && (row->serve == serve_die || row->serve == serve_inhibit); }

/* Whether the packet has what it needs: a disk in the drive that is not inhibited, or nothing. */
static int has_disk(const struct serving *s, const struct action *row) {
    const struct jip_guest_state *state = s->guest->state;
    return !state->has_died && (is_for_drive(row) || (state->disk != NULL && !state->is_inhibited));
}

/* Checks the arguments of the packet, and serves or refuses it. */
static void serve(struct serving *s) {
    const struct action *row = row_of(s->packet.action);
    uint32_t k;
    for (k = 0; row != NULL && row->arguments[k] != 0; k++) take(s, row->arguments[k], s->arguments[k]);
    if (s->removed != NULL) {
        serve_removed(s);
    } else if (!has_disk(s, row)) {
        set_refusal(s, JIP_ERROR_DEVICE_NOT_MOUNTED);
    } else if (s->fault != 0) {
        refuse(s, s->fault);
    } else if (row != NULL) {
        row->serve(s);
    } else {
        ask(s);
    }
}

static int is_set_up(const jip_guest *guest) {
    return guest != NULL && guest->read != NULL && guest->write != NULL && guest->pool % 4 == 0 && guest->volume % 4 == 0 &&
           (guest->pool_bytes == 0 || (guest->pool != 0 && lies(guest->pool, guest->pool_bytes)));
}

/* Whether the handle is open, or the drive is empty. */
static int fits(jip_handle *handle, const jip_guest *guest) {
    return handle != NULL && (jip_image_length(handle) != 0 || (guest->state != NULL && guest->state->disk == NULL));
}

int32_t jip_serve_guest(jip_handle *handle, jip_guest *guest, uint32_t packet_address) {
    struct serving s;
    uint8_t results[JIP_DP_ARG1 - JIP_DP_RES1];
    if (!is_set_up(guest) || !fits(handle, guest)) return JIP_WRONG_ARGUMENT;
    memset(&s, 0, sizeof s);
    s.handle = handle;
    s.guest = guest;
    s.at = packet_address;
    if (!read_packet(&s)) return JIP_WRONG_ARGUMENT;
    /* (the empty drive refuses the other packets without memory) */
    if (has_state(guest) || (guest->state == &empty_drive && !is_for_drive(row_of(s.packet.action)))) {
        serve(&s);
    } else {
        refuse(&s, JIP_ERROR_NO_FREE_STORE);
    }
    put_long(results, (uint32_t)s.answer.res1);
    put_long(results + 4, (uint32_t)s.answer.res2);
    return poke(guest, packet_address + JIP_DP_RES1, results, sizeof results) ? JIP_DONE : JIP_WRONG_ARGUMENT;
}

int32_t jip_release_guest(jip_handle *handle, jip_guest *guest) {
    struct jip_guest_state *state;
    struct serving s;
    uint32_t k;
    if (guest == NULL) return JIP_WRONG_ARGUMENT;
    memset(&s, 0, sizeof s);
    s.handle = handle;
    s.guest = guest;
    state = guest->state;
    /* (what is held of removed disks ends with their handles) */
    for (k = 0; state != NULL && state->disk != NULL && k < state->places; k++) {
        const struct open_file *file = &state->files[k];
        const struct held_lock *lock = &state->locks[k];
        if (file->disk == state->disk) {
            (void)asked_of_handle(&s, JIP_ACTION_END, file->handle);
            if (file->lock != 0) (void)asked_of_lock(&s, JIP_ACTION_FREE_LOCK, file->lock);
        }
        if (lock->disk == state->disk) (void)asked_of_lock(&s, JIP_ACTION_FREE_LOCK, lock->number);
    }
    free_state(state);
    guest->state = NULL;
    return JIP_DONE;
}

int32_t jip_guest_on_inhibit(jip_guest *guest, jip_guest_inhibit inhibit) {
    if (!is_set_up(guest)) return JIP_WRONG_ARGUMENT;
    if (!has_state(guest)) return JIP_NO_MEMORY;
    guest->state->inhibit = inhibit;
    return JIP_DONE;
}

int32_t jip_remove_disk(jip_handle *handle, jip_guest *guest) {
    if (handle == NULL || !is_set_up(guest)) return JIP_WRONG_ARGUMENT;
    if (guest->state != NULL) {
        take_out(handle, guest);
    } else {
        (void)jip_close(handle);
        guest->volume = 0;
        guest->state = &empty_drive;
    }
    return JIP_DONE;
}

int32_t jip_insert_disk(jip_handle *handle, jip_guest *guest) {
    if (!is_set_up(guest) || jip_image_length(handle) == 0) return JIP_WRONG_ARGUMENT;
    if (guest->state == NULL || guest->state->disk != NULL || guest->state->is_inhibited) return JIP_WRONG_ARGUMENT;
    return has_state(guest) && put_in(handle, guest) ? JIP_DONE : JIP_NO_MEMORY;
}
