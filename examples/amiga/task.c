/* The 68000 side of the handler, for an emulated Amiga. A process with a message port, a device JIP:, and a volume node for each disk.
 * It passes each DosPacket to the host, in host.c, by uaenative.library of FS-UAE, and sends it back.
 *
 *     Run >NIL: SYS:task
 */
#include "amiga.h"

/* Functions of dos.library. */
enum { LOCK_DOS_LIST = -654, UNLOCK_DOS_LIST = -660, REM_DOS_ENTRY = -672, ADD_DOS_ENTRY = -678 };
enum { MAKE_DOS_ENTRY = -696, FREE_DOS_ENTRY = -702 };
enum { DEVICE = 0, VOLUME = 2, LISTS_TO_CHANGE = 2 | 4 | 8 }; /* LDF_WRITE, LDF_DEVICES, LDF_VOLUMES */

/* Fields of a Message, a DosPacket and a DosList. */
enum { MN_NAME = 10, DP_LINK = 0, DP_PORT = 4, DP_RES1 = 12, DP_RES2 = 16 };
enum { DOL_TASK = 8, DOL_VOLUME_DATE = 16, DOL_DISK_TYPE = 32, DOL_NAME = 40 };

/* Functions of uaenative.library, and the codes of a failed open. */
enum { NATIVE_OPEN = -30, NATIVE_FUNCTION = -42, NATIVE_CALL = -48, FAILED = 0x70000000, FAILURE_BITS = 0xf0000000 };

/* What the host answers to a packet: bits. */
enum { DISK_CHANGED = 1, HAS_ENDED = 2, NOT_SERVED = 4 };

/* What the host says of the disk: longs, and the name as a C string. */
enum { TOLD_PRESENT = 0, TOLD_NODE = 4, TOLD_TYPE = 8, TOLD_DATE = 12, TOLD_NAME = 24, TOLD_BYTES = 60 };

enum { ERROR_BAD_NUMBER = 115, LOCK_BYTES = 20, POOL_BYTES = 200 * LOCK_BYTES, NAME_BYTES = 36, MOST_NODES = 16 };

struct handler {
    u32 dos, native, port, pool, device;
    u32 serve, disk, set_node, end; /* functions of the host */
    u32 node;                       /* the volume node of the disk in the drive, or 0 */
    u32 nodes[MOST_NODES], count;
    u32 names[MOST_NODES], made_names[MOST_NODES]; /* memory for their names; the names that MakeDosEntry made, which it frees */
};

/* ---- The host ---- */

static u32 ask_host(const struct handler *h, u32 function, u32 d1, u32 d2, u32 d3) {
    struct registers r = {{0, d1, d2, d3, 0, 0, 0, 0}, {function, 0, 0, 0, 0, 0}};
    return jump(h->native, NATIVE_CALL, &r);
}

static u32 function_of(const struct handler *h, u32 object, const char *name) {
    struct registers r = {{0, 0, 0, 0, 0, 0, 0, 0}, {object, (u32)name, 0, 0, 0, 0}};
    return jump(h->native, NATIVE_FUNCTION, &r);
}

/* Opens the shared object jipamiga, and passes the pool and the port to it. Returns whether it has a disk to serve. */
static s32 has_host(struct handler *h) {
    struct registers r = {{0, 0, 0, 0, 0, 0, 0, 0}, {0, (u32) "jipamiga", 0, 0, 0, 0}};
    const u32 object = jump(h->native, NATIVE_OPEN, &r);
    if ((object & FAILURE_BITS) == FAILED) return 0;
    h->serve = function_of(h, object, "jip_amiga_serve");
    h->disk = function_of(h, object, "jip_amiga_disk");
    h->set_node = function_of(h, object, "jip_amiga_node");
    h->end = function_of(h, object, "jip_amiga_end");
    return ask_host(h, function_of(h, object, "jip_amiga_begin"), h->pool, POOL_BYTES, h->port) == 0;
}

/* ---- Nodes of the DosList ---- */

static u32 make_node(const struct handler *h, u32 name, u32 type) {
    const u32 d[7] = {name, type};
    const u32 node = dos_call(h->dos, MAKE_DOS_ENTRY, d);
    if (node != 0) set_long(node + DOL_TASK, h->port);
    return node;
}

static s32 add_node(const struct handler *h, u32 node) {
    const u32 d[7] = {node};
    return node != 0 && dos_call(h->dos, ADD_DOS_ENTRY, d) != 0;
}

static void remove_node(const struct handler *h, u32 node) {
    const u32 lists[7] = {LISTS_TO_CHANGE}, d[7] = {node};
    dos_call(h->dos, LOCK_DOS_LIST, lists);
    dos_call(h->dos, REM_DOS_ENTRY, d);
    dos_call(h->dos, UNLOCK_DOS_LIST, lists);
    dos_call(h->dos, FREE_DOS_ENTRY, d);
}

/* The number of a volume node among those of this handler, or their count. */
static u32 number_of(const struct handler *h, u32 node) {
    u32 k = 0;
    while (k < h->count && h->nodes[k] != node) k++;
    return k;
}

/* Writes a name as a BCPL string to memory that a node has for it: the string that MakeDosEntry made may be too short. */
static void set_name(struct handler *h, u32 node, const u8 *name) {
    const u32 number = number_of(h, node);
    u8 *to;
    u32 k;
    if (number == h->count) return;
    if (h->names[number] == 0) h->names[number] = allocate(NAME_BYTES);
    if (h->names[number] == 0) return;
    to = (u8 *)h->names[number];
    exec(FORBID, 0, 0, 0, 0);
    for (k = 0; name[k] != 0 && k < NAME_BYTES - 2; k++) to[k + 1] = name[k];
    to[0] = (u8)k;
    to[k + 1] = 0;
    set_long(node + DOL_NAME, (u32)to >> 2);
    exec(PERMIT, 0, 0, 0, 0);
}

/* Makes the volume node of a disk that has none. */
static u32 new_node(struct handler *h, u32 told) {
    const u32 node = h->count < MOST_NODES ? make_node(h, told + TOLD_NAME, VOLUME) : 0;
    u32 k;
    if (node == 0) return 0;
    set_long(node + DOL_DISK_TYPE, get_long(told + TOLD_TYPE));
    for (k = 0; k < 12; k += 4) set_long(node + DOL_VOLUME_DATE + k, get_long(told + TOLD_DATE + k));
    if (!add_node(h, node)) {
        const u32 d[7] = {node};
        dos_call(h->dos, FREE_DOS_ENTRY, d);
        return 0;
    }
    h->made_names[h->count] = get_long(node + DOL_NAME);
    h->nodes[h->count++] = node;
    ask_host(h, h->set_node, node, 0, 0);
    return node;
}

/* Brings the volume nodes up to date. The node of a removed disk stays, without a port, since locks of that disk name it. */
static void show_disk(struct handler *h) {
    const u32 told = allocate(TOLD_BYTES);
    u32 node;
    if (told == 0) return;
    ask_host(h, h->disk, told, 0, 0);
    node = get_long(told + TOLD_NODE);
    if (h->node != 0 && h->node != node) set_long(h->node + DOL_TASK, 0);
    if (get_long(told + TOLD_PRESENT) == 0) {
        h->node = 0;
    } else {
        h->node = node != 0 ? node : new_node(h, told);
        if (h->node != 0) {
            set_name(h, h->node, (const u8 *)told + TOLD_NAME);
            set_long(h->node + DOL_TASK, h->port);
        }
    }
    give_back(told, TOLD_BYTES);
}

/* ---- The process ---- */

static s32 begin(struct handler *h) {
    h->dos = open_library("dos.library");
    h->native = open_library("uaenative.library");
    if (h->dos == 0 || h->native == 0) return 0;
    h->pool = allocate(POOL_BYTES);
    h->port = exec(CREATE_MSG_PORT, 0, 0, 0, 0);
    if (h->pool == 0 || h->port == 0 || !has_host(h)) return 0;
    h->device = make_node(h, (u32) "JIP", DEVICE);
    if (!add_node(h, h->device)) return 0;
    show_disk(h);
    return 1;
}

static void remove_nodes(struct handler *h) {
    u32 k;
    for (k = 0; k < h->count; k++) {
        set_long(h->nodes[k] + DOL_NAME, h->made_names[k]);
        remove_node(h, h->nodes[k]);
        if (h->names[k] != 0) give_back(h->names[k], NAME_BYTES);
    }
    if (h->device != 0) remove_node(h, h->device);
}

/* Serves one packet and sends it back. Returns whether it was a DIE that succeeded. */
static s32 serve(struct handler *h, u32 message) {
    const u32 packet = get_long(message + MN_NAME), sender = get_long(packet + DP_PORT);
    const u32 bits = ask_host(h, h->serve, packet, 0, 0);
    if (bits & NOT_SERVED) {
        set_long(packet + DP_RES1, 0);
        set_long(packet + DP_RES2, ERROR_BAD_NUMBER);
    }
    if (bits & DISK_CHANGED) show_disk(h);
    set_long(packet + DP_PORT, h->port);
    exec(PUT_MSG, 0, 0, sender, get_long(packet + DP_LINK));
    return (bits & HAS_ENDED) != 0;
}

/* Sends back the packets that have come meanwhile: the host refuses each. */
static void end(struct handler *h) {
    u32 message;
    while (h->port != 0 && (message = exec(GET_MSG, 0, 0, h->port, 0)) != 0) serve(h, message);
    if (h->end != 0) ask_host(h, h->end, 0, 0, 0);
    if (h->port != 0) exec(DELETE_MSG_PORT, 0, 0, h->port, 0);
    if (h->pool != 0) give_back(h->pool, POOL_BYTES);
    give_back((u32)h, sizeof *h);
}

/* DIE succeeds only when no lock and no file is left. It is answered before the nodes are removed, because its sender may have the
 * DosList locked until then. */
s32 program(void) {
    struct handler *h = (struct handler *)allocate(sizeof *h);
    s32 has_begun, has_ended = 0;
    if (h == 0) return 20;
    has_begun = begin(h);
    while (has_begun && !has_ended) {
        u32 message;
        exec(WAIT_PORT, 0, 0, h->port, 0);
        while (!has_ended && (message = exec(GET_MSG, 0, 0, h->port, 0)) != 0) has_ended = serve(h, message);
    }
    remove_nodes(h);
    end(h);
    return has_begun ? 0 : 20;
}
