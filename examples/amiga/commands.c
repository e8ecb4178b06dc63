/* Commands for a session of the Shell, through dos.library alone:
 *
 *     commands COMMAND FROM TO ALL NUMBER n
 *
 * dir, list, type, sum, copy, delete, rename, makedir, protect, filenote, setdate, relabel, format, info, assign: as the commands in
 * C: of an Amiga, with less. The others are for tests: calls, packet, odd, hold, inhibit, insert, lock, mark, wait, device. */
#include "amiga.h"

/* Functions of dos.library. */
enum dos_function {
    OPEN = -30,
    CLOSE = -36,
    READ = -42,
    WRITE = -48,
    SEEK = -66,
    DELETE_FILE = -72,
    RENAME = -78,
    LOCK = -84,
    UNLOCK = -90,
    DUP_LOCK = -96,
    EXAMINE = -102,
    EX_NEXT = -108,
    INFO = -114,
    CREATE_DIR = -120,
    IO_ERR = -132,
    SET_COMMENT = -180,
    SET_PROTECTION = -186,
    DELAY = -198,
    PARENT_DIR = -210,
    ALLOC_DOS_OBJECT = -228,
    DO_PKT = -240,
    WAIT_PKT = -252,
    LOCK_RECORD = -270,
    F_GETS = -336,
    DUP_LOCK_FROM_FH = -372,
    OPEN_FROM_LOCK = -378,
    PARENT_OF_FH = -384,
    EXAMINE_FH = -390,
    SET_FILE_DATE = -396,
    NAME_FROM_LOCK = -402,
    SAME_LOCK = -420,
    EX_ALL = -432,
    MAKE_LINK = -444,
    CHANGE_MODE = -450,
    SET_FILE_SIZE = -456,
    SET_IO_ERR = -462,
    FAULT = -468,
    ASSIGN_LOCK = -612,
    GET_DEVICE_PROC = -642,
    FREE_DEVICE_PROC = -648,
    LOCK_DOS_LIST = -654,
    UNLOCK_DOS_LIST = -660,
    FIND_DOS_ENTRY = -684,
    IS_FILE_SYSTEM = -708,
    FORMAT = -714,
    RELABEL = -720,
    INHIBIT = -726,
    ADD_BUFFERS = -732,
    READ_ARGS = -798,
    MATCH_FIRST = -822,
    MATCH_NEXT = -828,
    MATCH_END = -834,
    FREE_ARGS = -858,
    ADD_PART = -882,
    START_NOTIFY = -888,
    PUT_STR = -948,
    V_PRINTF = -954,
    SET_OWNER = -996
};

enum { SHARED = -2, EXCLUSIVE = -1, OLD_FILE = 1005, NEW_FILE = 1006, READ_WRITE = 1004, BEGINNING = -1, CURRENT = 0, END = 1 };
enum { FIB = 2, EX_ALL_CONTROL = 1, NO_MORE_ENTRIES = 232, READ_DEVICES = 1 | 4, PR_WINDOW = 184, FL_TASK = 12 };
/* Fields of a FileInfoBlock and its length. */
enum { FIB_TYPE = 4, FIB_NAME = 8, FIB_BITS = 116, FIB_SIZE = 124, FIB_DATE = 132, FIB_COMMENT = 144 };
/* Fields of an AnchorPath with a buffer for a path. */
enum { AP_BREAK = 8, AP_FLAGS = 16, AP_LENGTH = 18, AP_FIB = 20, AP_PATH = 280, PATH_BYTES = 256, AP_BYTES = AP_PATH + PATH_BYTES };
enum { DO_DIR = 4, DID_DIR = 8, ARCHIVED = 16 };
/* Fields of a NotifyRequest and its length. */
enum { NR_NAME = 0, NR_FLAGS = 12, NR_TASK = 16, NR_BYTES = 48, SEND_SIGNAL = 2 };
/* Fields of a Process, a Message and a DosPacket, and the lengths of the last two. */
enum { PR_MSG_PORT = 92, MN_NAME = 10, MN_BYTES = 20, DP_LINK = 0, DP_PORT = 4, DP_TYPE = 8, DP_RES1 = 12, DP_RES2 = 16, DP_BYTES = 48 };
/* Actions that are sent as packets, two of them to host.c alone. */
enum { ACTION_DIE = 5, ACTION_DISK_INFO = 25, ACTION_CHANGE_DISK = 30001, ACTION_WRITE_LOG = 30002 };
enum { BUFFER_BYTES = 16384, TEXT_BYTES = 300, EX_ALL_BYTES = 2048, LONGEST_WAIT = 1500 };

/* The arguments of the command. */
struct arguments {
    char *command, *from, *to;
    s32 all;
    s32 *number;
};

static u32 dos_library;

#define dos(function, ...) ((s32)dos_call(dos_library, function, (const u32[7]){__VA_ARGS__}))

/* ---- Texts ---- */

static s32 error(void) { return dos(IO_ERR, 0); }

static void print(const char *format, u32 a, u32 b, u32 c) {
    const u32 values[] = {a, b, c};
    dos(V_PRINTF, (u32)format, (u32)values);
}

/* Prints the error of the last call, and returns the return code of a command that failed. */
static s32 fail(const char *what) {
    const s32 number = error();
    char text[100];
    text[0] = 0;
    dos(FAULT, (u32)number, 0, (u32)text, sizeof text);
    print("%s: error %ld,%s\n", (u32)what, (u32)number, (u32)text);
    dos(SET_IO_ERR, (u32)number);
    return 10;
}

/* Returns 0, or prints why the command failed. */
static s32 ended(s32 holds, const char *what) { return holds ? 0 : fail(what); }

static s32 is_same(const char *a, const char *b) {
    while (*a != 0 && (*a | 32) == (*b | 32)) a++, b++;
    return *a == 0 && *b == 0;
}

static u32 length_of(const char *text) {
    u32 length = 0;
    while (text[length] != 0) length++;
    return length;
}

/* A path with one more name, in memory that is not freed: a command ends soon. */
static char *joined(const char *path, const char *name) {
    char *both = (char *)allocate(PATH_BYTES);
    u32 k;
    for (k = 0; path[k] != 0 && k < PATH_BYTES - 1; k++) both[k] = path[k];
    dos(ADD_PART, (u32)both, (u32)name, PATH_BYTES);
    return both;
}

/* A BCPL string, in memory that is not freed. */
static u32 bstr(const char *text) {
    u8 *to = (u8 *)allocate(PATH_BYTES);
    u32 k, length = length_of(text);
    if (length > 255) length = 255;
    to[0] = (u8)length;
    for (k = 0; k < length; k++) to[k + 1] = (u8)text[k];
    return (u32)to >> 2;
}

/* ---- Entries ---- */

static u32 new_fib(void) { return (u32)dos(ALLOC_DOS_OBJECT, FIB, 0); }

static s32 is_directory(u32 fib) { return (s32)get_long(fib + FIB_TYPE) > 0; }

/* Prints the date of an entry: the days since 1978, the minutes and the ticks. */
static void print_date(u32 stamp) { print(" %ld %ld %ld\n", get_long(stamp), get_long(stamp + 4), get_long(stamp + 8)); }

static void print_entry(u32 fib) {
    static const char letters[] = "hsparwed";
    const u32 bits = get_long(fib + FIB_BITS) ^ 15;
    char shown[9];
    u32 k;
    for (k = 0; k < 8; k++) shown[k] = bits >> (7 - k) & 1 ? letters[k] : '-';
    shown[8] = 0;
    if (is_directory(fib)) print("%-20s     Dir %s", fib + FIB_NAME, (u32)shown, 0);
    else print("%-20s %7ld %s", fib + FIB_NAME, get_long(fib + FIB_SIZE), (u32)shown);
    print_date(fib + FIB_DATE);
    if (*(const char *)(fib + FIB_COMMENT) != 0) print(": %s\n", fib + FIB_COMMENT, 0, 0);
}

/* Lists a directory by ExAll, as `dir` does. */
static s32 dir(const char *path, s32 all, u32 depth) {
    const u32 lock = (u32)dos(LOCK, (u32)path, (u32)SHARED), control = (u32)dos(ALLOC_DOS_OBJECT, EX_ALL_CONTROL, 0);
    const u32 buffer = allocate(EX_ALL_BYTES);
    s32 more;
    if (lock == 0) return fail(path);
    set_long(control + 4, 0);
    do {
        u32 entry = buffer, k, count;
        more = dos(EX_ALL, lock, buffer, EX_ALL_BYTES, 2, control);
        if (!more && error() != NO_MORE_ENTRIES) return fail("ExAll");
        count = get_long(control);
        for (; count-- != 0; entry = get_long(entry)) {
            const s32 is_dir = (s32)get_long(entry + 8) > 0;
            for (k = 0; k <= depth; k++) dos(PUT_STR, (u32) "  ");
            print(is_dir ? "%s (dir)\n" : "%s\n", get_long(entry + 4), 0, 0);
            if (all && is_dir) dir(joined(path, (const char *)get_long(entry + 4)), all, depth + 1);
        }
    } while (more);
    dos(UNLOCK, lock);
    return 0;
}

/* Lists a directory by Examine and ExNext. */
static s32 list(const char *path) {
    const u32 lock = (u32)dos(LOCK, (u32)path, (u32)SHARED), fib = new_fib();
    if (lock == 0) return fail(path);
    if (dos(EXAMINE, lock, fib))
        while (dos(EX_NEXT, lock, fib)) print_entry(fib);
    if (error() != NO_MORE_ENTRIES) fail("ExNext");
    dos(UNLOCK, lock);
    return 0;
}

/* A path that a pattern matched, and those after it. */
struct matched {
    struct matched *next;
    char path[PATH_BYTES];
};

/* Finds what a pattern matches, and with ALL what is in its directories, which comes before them. Returns 0 or an error. */
static s32 match(const char *pattern, s32 all, struct matched **last) {
    const u32 anchor = allocate(AP_BYTES);
    u8 *flags = (u8 *)anchor + AP_FLAGS;
    s32 result;
    *(u16 *)(anchor + AP_LENGTH) = PATH_BYTES;
    for (result = dos(MATCH_FIRST, (u32)pattern, anchor); result == 0; result = dos(MATCH_NEXT, anchor)) {
        const u32 is_new_dir = is_directory(anchor + AP_FIB) && !(*flags & DID_DIR);
        u32 k;
        *flags &= (u8)~DID_DIR;
        if (all && is_new_dir) {
            *flags |= DO_DIR;
            continue;
        }
        *last = (struct matched *)allocate(sizeof **last);
        for (k = 0; k < PATH_BYTES; k++) (*last)->path[k] = ((const char *)anchor + AP_PATH)[k];
        last = &(*last)->next;
    }
    dos(MATCH_END, anchor);
    return result == NO_MORE_ENTRIES ? 0 : result;
}

/* Deletes what a pattern matches. All paths are found first, since a deleted entry has no next one. */
static s32 delete(const char *pattern, s32 all) {
    struct matched *found = 0;
    const s32 result = match(pattern, all, &found);
    s32 code = 0;
    for (; found != 0; found = found->next) {
        if (dos(DELETE_FILE, (u32)found->path)) print("%s  deleted\n", (u32)found->path, 0, 0);
        else code = fail(found->path);
    }
    if (result == 0) return code;
    dos(SET_IO_ERR, (u32)result);
    return fail(pattern);
}

/* ---- Files ---- */

static s32 copy_bytes(const char *from, const char *to) {
    const u32 in = (u32)dos(OPEN, (u32)from, OLD_FILE), buffer = allocate(BUFFER_BYTES);
    const u32 out = in == 0 ? 0 : (u32)dos(OPEN, (u32)to, NEW_FILE);
    s32 count = 0, code = 0;
    if (in == 0) return fail(from);
    if (out == 0) code = fail(to);
    while (code == 0 && (count = dos(READ, in, buffer, BUFFER_BYTES)) > 0)
        if (dos(WRITE, out, buffer, (u32)count) != count) code = fail("write");
    if (count < 0) code = fail("read");
    if (out != 0) dos(CLOSE, out);
    dos(CLOSE, in);
    return code;
}

/* Gives a copy the bits, the date and the comment of the original. */
static s32 copy_notes(u32 fib, const char *to) {
    if (!dos(SET_PROTECTION, (u32)to, get_long(fib + FIB_BITS) & (u32)~ARCHIVED)) return fail("protection");
    if (*(const char *)(fib + FIB_COMMENT) != 0 && !dos(SET_COMMENT, (u32)to, fib + FIB_COMMENT)) return fail("comment");
    return ended(dos(SET_FILE_DATE, (u32)to, fib + FIB_DATE), "date");
}

/* Copies a file, or a directory with its files and with ALL all that is in it. */
static s32 copy(const char *from, const char *to, s32 all) {
    const u32 lock = (u32)dos(LOCK, (u32)from, (u32)SHARED), fib = new_fib(), there = new_fib();
    u32 target = (u32)dos(LOCK, (u32)to, (u32)SHARED);
    s32 is_dir = 0, code = 0;
    if (lock == 0) return fail(from);
    if (!dos(EXAMINE, lock, fib)) return fail(from);
    if (target != 0) {
        is_dir = dos(EXAMINE, target, there) && is_directory(there);
        dos(UNLOCK, target);
    }
    if (!is_directory(fib)) {
        dos(UNLOCK, lock);
        if (is_dir) to = joined(to, (const char *)fib + FIB_NAME);
        code = copy_bytes(from, to);
        return code != 0 ? code : copy_notes(fib, to);
    }
    if (!is_dir) {
        target = (u32)dos(CREATE_DIR, (u32)to);
        if (target == 0) return fail(to);
        dos(UNLOCK, target);
    }
    while (dos(EX_NEXT, lock, fib)) {
        const char *name = (const char *)fib + FIB_NAME;
        if (is_directory(fib) && all) code |= copy(joined(from, name), joined(to, name), all);
        if (!is_directory(fib)) code |= copy(joined(from, name), to, all);
    }
    dos(UNLOCK, lock);
    return code;
}

static s32 type(const char *path) {
    const u32 file = (u32)dos(OPEN, (u32)path, OLD_FILE);
    char text[TEXT_BYTES];
    if (file == 0) return fail(path);
    while (dos(F_GETS, file, (u32)text, sizeof text - 1)) dos(PUT_STR, (u32)text);
    dos(CLOSE, file);
    return 0;
}

/* Prints the length of a file and a sum over its bytes. */
static s32 sum(const char *path) {
    const u32 file = (u32)dos(OPEN, (u32)path, OLD_FILE), buffer = allocate(BUFFER_BYTES);
    u32 total = 0, length = 0;
    s32 count, k;
    if (file == 0) return fail(path);
    while ((count = dos(READ, file, buffer, BUFFER_BYTES)) > 0) {
        for (k = 0; k < count; k++) total = total * 31 + ((const u8 *)buffer)[k];
        length += (u32)count;
    }
    dos(CLOSE, file);
    if (count < 0) return fail("read");
    print("%s: %ld bytes, sum %lx\n", (u32)path, length, total);
    return 0;
}

static s32 info(const char *path) {
    const u32 lock = (u32)dos(LOCK, (u32)path, (u32)SHARED), data = allocate(36);
    if (lock == 0) return fail(path);
    if (!dos(INFO, lock, data)) return fail("info");
    dos(UNLOCK, lock);
    print("state %ld, %ld blocks, %ld bytes in each", get_long(data + 8), get_long(data + 12), get_long(data + 20));
    print(", type %lx, %s\n", get_long(data + 24), (u32)(get_long(data + 32) != 0 ? "in use" : "not in use"), 0);
    return 0;
}

static s32 make_directory(const char *path) {
    const u32 lock = (u32)dos(CREATE_DIR, (u32)path);
    if (lock == 0) return fail(path);
    dos(UNLOCK, lock);
    return 0;
}

static s32 assign(const char *name, const char *path) {
    const u32 lock = (u32)dos(LOCK, (u32)path, (u32)SHARED);
    if (lock == 0) return fail(path);
    return ended(dos(ASSIGN_LOCK, (u32)name, lock), name);
}

static s32 set_date(const char *path, u32 days) {
    const u32 date[3] = {days, 100, 50};
    return ended(dos(SET_FILE_DATE, (u32)path, (u32)date), path);
}

/* Makes an empty volume with this label and of this kind of disk. */
static s32 format(const char *device, const char *label, u32 kind) {
    s32 result, number;
    if (!dos(INHIBIT, (u32)device, (u32)YES)) return fail("inhibit");
    result = dos(FORMAT, (u32)device, (u32)label, kind);
    number = error();
    dos(INHIBIT, (u32)device, NO);
    dos(SET_IO_ERR, (u32)number);
    return ended(result, device);
}

/* ---- Packets ---- */

/* Sends a packet to the handler of a device or volume. */
static s32 send(const char *device, u32 action, u32 first, u32 second) {
    const u32 process = (u32)dos(GET_DEVICE_PROC, (u32)device, 0);
    s32 result, number;
    if (process == 0) return 0;
    result = dos(DO_PKT, get_long(process), action, first, second);
    number = error();
    dos(FREE_DEVICE_PROC, process);
    dos(SET_IO_ERR, (u32)number);
    return result;
}

static s32 packet(const char *device, u32 action) {
    const s32 result = send(device, action, 0, 0), number = error();
    print("packet %ld: %ld, error %ld\n", action, (u32)(result > 0 ? 1 : result), (u32)(result == 0 ? number : 0));
    return 0;
}

/* Sends a packet at an odd address, which the host does not serve, and waits until it is back. */
static s32 odd(const char *device) {
    const u32 process = (u32)dos(GET_DEVICE_PROC, (u32)device, 0), message = allocate(MN_BYTES), at = allocate(DP_BYTES + 1) + 1;
    if (process == 0) return fail(device);
    set_long(message + MN_NAME, at);
    set_long(at + DP_LINK, message);
    set_long(at + DP_PORT, exec(FIND_TASK, 0, 0, 0, 0) + PR_MSG_PORT);
    set_long(at + DP_TYPE, ACTION_DISK_INFO);
    exec(PUT_MSG, 0, 0, get_long(process), message);
    dos(WAIT_PKT, 0);
    print("odd packet: %ld, error %ld\n", get_long(at + DP_RES1), get_long(at + DP_RES2), 0);
    dos(FREE_DEVICE_PROC, process);
    return 0;
}

/* Puts an image into the drive; without a name the drive is empty. */
static s32 insert(const char *device, const char *image) {
    return ended(send(device, ACTION_CHANGE_DISK, bstr(image == 0 ? "" : image), 0), device);
}

/* Prints whether a call succeeded. */
static void tell(const char *name, s32 result) {
    const s32 number = error();
    if (result != 0) print("%-26s yes\n", (u32)name, 0, 0);
    else print("%-26s no, error %ld\n", (u32)name, (u32)number, 0);
}

/* What a program may do with a lock on a directory and an open file in it. */
static void try_held(u32 lock, u32 file) {
    const u32 fib = new_fib();
    u32 other;
    char text[8];
    tell("Examine", dos(EXAMINE, lock, fib));
    other = (u32)dos(DUP_LOCK, lock);
    tell("DupLock", (s32)other);
    if (other != 0) dos(UNLOCK, other);
    tell("ParentDir", (s32)(other = (u32)dos(PARENT_DIR, lock)));
    if (other != 0) dos(UNLOCK, other);
    tell("Seek", dos(SEEK, file, 2, (u32)BEGINNING) + 1);
    tell("Read", dos(READ, file, (u32)text, 3) == 3);
    tell("ExamineFH", dos(EXAMINE_FH, file, fib));
    tell("SetFileSize", dos(SET_FILE_SIZE, file, 6, (u32)BEGINNING));
}

/* Holds a lock and a file while another disk, and then the first one, is in the drive. */
static s32 hold(const char *directory, const char *file_name, const char *image) {
    const u32 lock = (u32)dos(LOCK, (u32)directory, (u32)SHARED), file = (u32)dos(OPEN, (u32)file_name, READ_WRITE);
    if (lock == 0 || file == 0) return fail("hold");
    tell("another disk", send("JIP:", ACTION_CHANGE_DISK, bstr(image), 0));
    try_held(lock, file);
    tell("DIE", send("JIP:", ACTION_DIE, 0, 0));
    tell("no disk", send("JIP:", ACTION_CHANGE_DISK, bstr(""), 0));
    try_held(lock, file);
    tell("the first disk", send("JIP:", ACTION_CHANGE_DISK, bstr("work.adf"), 0));
    try_held(lock, file);
    tell("another disk", send("JIP:", ACTION_CHANGE_DISK, bstr(image), 0));
    tell("Close", dos(CLOSE, file));
    dos(UNLOCK, lock);
    tell("the first disk", send("JIP:", ACTION_CHANGE_DISK, bstr("work.adf"), 0));
    return 0;
}

/* Holds a lock and a file while another disk, and then the first one, is put in under INHIBIT. */
static s32 hold_inhibited(const char *directory, const char *file_name, const char *image) {
    const u32 lock = (u32)dos(LOCK, (u32)directory, (u32)SHARED), file = (u32)dos(OPEN, (u32)file_name, READ_WRITE);
    if (lock == 0 || file == 0) return fail("inhibit");
    tell("Inhibit", dos(INHIBIT, (u32) "JIP:", (u32)YES));
    try_held(lock, file);
    tell("another disk", send("JIP:", ACTION_CHANGE_DISK, bstr(image), 0));
    try_held(lock, file);
    dir("JIP:", 0, 0);
    tell("Inhibit off", dos(INHIBIT, (u32) "JIP:", NO));
    dir("JIP:", 0, 0);
    try_held(lock, file);
    tell("Inhibit", dos(INHIBIT, (u32) "JIP:", (u32)YES));
    tell("the first disk", send("JIP:", ACTION_CHANGE_DISK, bstr("work.adf"), 0));
    try_held(lock, file);
    tell("Inhibit off", dos(INHIBIT, (u32) "JIP:", NO));
    dir("JIP:", 0, 0);
    try_held(lock, file);
    tell("Close", dos(CLOSE, file));
    dos(UNLOCK, lock);
    return 0;
}

/* ---- One call of each kind ---- */

static void call_files(const char *path) {
    const u32 file = (u32)dos(OPEN, (u32)path, READ_WRITE), fib = new_fib();
    u32 lock;
    tell("Open for update", (s32)file);
    tell("ExamineFH", dos(EXAMINE_FH, file, fib));
    tell("DupLockFromFH", (s32)(lock = (u32)dos(DUP_LOCK_FROM_FH, file)));
    if (lock != 0) dos(UNLOCK, lock);
    tell("ParentOfFH", (s32)(lock = (u32)dos(PARENT_OF_FH, file)));
    if (lock != 0) dos(UNLOCK, lock);
    tell("LockRecord", dos(LOCK_RECORD, file, 0, 10, 1, 50));
    tell("SetFileSize", dos(SET_FILE_SIZE, file, 3, (u32)BEGINNING));
    tell("Seek", dos(SEEK, file, 0, END) != -1);
    tell("ChangeMode", dos(CHANGE_MODE, 1, file, NEW_FILE));
    tell("Close", dos(CLOSE, file));
}

static void call_locks(const char *path) {
    const u32 lock = (u32)dos(LOCK, (u32)path, (u32)SHARED), other = (u32)dos(DUP_LOCK, lock);
    u32 parent, file;
    char text[TEXT_BYTES];
    tell("DupLock", (s32)other);
    tell("SameLock", dos(SAME_LOCK, lock, other) == 0);
    tell("SAME_LOCK", send(path, 40, lock, other));
    text[0] = 0;
    tell("NameFromLock", dos(NAME_FROM_LOCK, lock, (u32)text, sizeof text));
    print("  %s\n", (u32)text, 0, 0);
    tell("OpenFromLock", (s32)(file = (u32)dos(OPEN_FROM_LOCK, other)));
    if (file != 0) dos(CLOSE, file);
    else dos(UNLOCK, other);
    tell("ParentDir", (s32)(parent = (u32)dos(PARENT_DIR, lock)));
    if (parent != 0) dos(UNLOCK, parent);
    dos(UNLOCK, lock);
}

static void call_volume(const char *path, const char *device) {
    const u32 data = allocate(36), request = allocate(NR_BYTES);
    tell("IsFileSystem", dos(IS_FILE_SYSTEM, (u32)device));
    tell("AddBuffers", dos(ADD_BUFFERS, (u32)device, 10));
    tell("DISK_INFO", send(device, ACTION_DISK_INFO, data >> 2, 0));
    tell("CURRENT_VOLUME", send(device, 7, 0, 0));
    tell("FLUSH", send(device, 27, 0, 0));
    tell("Inhibit", dos(INHIBIT, (u32)device, (u32)YES));
    tell("DISK_INFO", send(device, ACTION_DISK_INFO, data >> 2, 0));
    tell("Inhibit", dos(INHIBIT, (u32)device, NO));
    tell("SetOwner", dos(SET_OWNER, (u32)path, 0x10002));
    tell("MakeLink", dos(MAKE_LINK, (u32)joined(device, "link"), (u32)path, 1));
    set_long(request + NR_NAME, (u32)path);
    set_long(request + NR_FLAGS, SEND_SIGNAL);
    set_long(request + NR_TASK, exec(FIND_TASK, 0, 0, 0, 0));
    tell("StartNotify", dos(START_NOTIFY, request));
    tell("an unknown packet", send(device, 999, 0, 0));
}

/* ---- Waiting, and the log ---- */

static s32 has_device(const char *name) {
    u32 list = (u32)dos(LOCK_DOS_LIST, READ_DEVICES);
    list = (u32)dos(FIND_DOS_ENTRY, list, (u32)name, 4);
    dos(UNLOCK_DOS_LIST, READ_DEVICES);
    return list != 0;
}

/* Waits until an object or a device is there, for half a minute. */
static s32 wait_for(const char *path, s32 is_device) {
    s32 k;
    for (k = 0; k < LONGEST_WAIT; k++) {
        const u32 lock = is_device ? 0 : (u32)dos(LOCK, (u32)path, (u32)SHARED);
        if (lock != 0) dos(UNLOCK, lock);
        if (lock != 0 || (is_device && has_device(path))) return 0;
        dos(DELAY, 1);
    }
    return fail(path);
}

/* Prints a line of the session, and writes it to the handler's log. */
static s32 mark(const char *line) {
    print("> %s\n", (u32)line, 0, 0);
    if (has_device("JIP")) send("JIP:", ACTION_WRITE_LOG, bstr(line), 0);
    return 0;
}

/* ---- The commands ---- */

enum { UNKNOWN = -1 };

static s32 run_on_files(const struct arguments *a) {
    const char *c = a->command;
    if (is_same(c, "dir")) return dir(a->from, a->all, 0);
    if (is_same(c, "list")) return list(a->from);
    if (is_same(c, "type")) return type(a->from);
    if (is_same(c, "sum")) return sum(a->from);
    if (is_same(c, "copy")) return copy(a->from, a->to, a->all);
    if (is_same(c, "delete")) return delete(a->from, a->all);
    if (is_same(c, "rename")) return ended(dos(RENAME, (u32)a->from, (u32)a->to), a->from);
    if (is_same(c, "makedir")) return make_directory(a->from);
    if (is_same(c, "protect")) return ended(dos(SET_PROTECTION, (u32)a->from, (u32)*a->number), a->from);
    if (is_same(c, "filenote")) return ended(dos(SET_COMMENT, (u32)a->from, (u32)a->to), a->from);
    if (is_same(c, "setdate")) return set_date(a->from, (u32)*a->number);
    if (is_same(c, "relabel")) return ended(dos(RELABEL, (u32)a->from, (u32)a->to), a->from);
    if (is_same(c, "format")) return format(a->from, a->to, (u32)*a->number);
    if (is_same(c, "info")) return info(a->from);
    if (is_same(c, "assign")) return assign(a->from, a->to);
    return UNKNOWN;
}

static s32 run_test(const struct arguments *a) {
    const char *c = a->command;
    if (is_same(c, "packet")) return packet(a->from, (u32)*a->number);
    if (is_same(c, "odd")) return odd(a->from);
    if (is_same(c, "insert")) return insert(a->from, a->to);
    if (is_same(c, "hold")) return hold(a->from, a->to, "other.adf");
    if (is_same(c, "inhibit")) return hold_inhibited(a->from, a->to, "other.adf");
    if (is_same(c, "lock")) return ended(send(a->from, 1023, a->all ? (u32)YES : NO, (u32)*a->number), a->from);
    if (is_same(c, "mark")) return mark(a->from);
    if (is_same(c, "wait")) return wait_for(a->from, 0);
    if (is_same(c, "device")) return wait_for(a->from, 1);
    if (!is_same(c, "calls")) return UNKNOWN;
    call_files(a->from);
    call_locks(a->from);
    call_volume(a->from, a->to);
    return 0;
}

s32 program(void) {
    struct arguments a = {0, 0, 0, 0, 0};
    static s32 zero;
    u32 arguments;
    s32 code;
    dos_library = open_library("dos.library");
    if (dos_library == 0) return 20;
    /* (a failure is an error at once, and no window that waits) */
    set_long(exec(FIND_TASK, 0, 0, 0, 0) + PR_WINDOW, (u32)-1);
    arguments = (u32)dos(READ_ARGS, (u32) "COMMAND/A,FROM,TO,ALL/S,NUMBER/K/N", (u32)&a, 0);
    if (arguments == 0) return fail("commands");
    if (a.from == 0) a.from = (char *)"";
    if (a.number == 0) a.number = &zero;
    code = run_on_files(&a);
    if (code == UNKNOWN) code = run_test(&a);
    if (code == UNKNOWN) {
        print("%s: not known\n", (u32)a.command, 0, 0);
        code = 20;
    }
    dos(FREE_ARGS, arguments);
    return code;
}
