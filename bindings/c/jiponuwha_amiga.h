/* DOS packets in the memory of an emulated Amiga. A handle of jiponuwha.h serves them, and the answers go to that memory.
 *
 *     #include <jiponuwha_amiga.h>
 *
 *     enum { RAM_BYTES = 1 << 21 };
 *     static uint8_t ram[RAM_BYTES];
 *     static int peek(void *from, uint32_t at, void *to, uint32_t length) {
 *         if (at > RAM_BYTES || length > RAM_BYTES - at) return 0;
 *         memcpy(to, (uint8_t *)from + at, length);
 *         return 1;
 *     }
 *     static int poke(void *to, uint32_t at, const void *from, uint32_t length) {
 *         if (at > RAM_BYTES || length > RAM_BYTES - at) return 0;
 *         memcpy((uint8_t *)to + at, from, length);
 *         return 1;
 *     }
 *     static jip_guest guest = {.read = peek, .write = poke, .context = ram, .pool = 0x100000, .pool_bytes = 4096};
 *     int32_t packet_came(jip_handle *floppy, uint32_t packet, jip_date now) {
 *         guest.now = now;
 *         return jip_serve_guest(floppy, &guest, packet); // then the packet goes back to its dp_Port
 *     }
 *     void machine_reset(jip_handle *floppy) { jip_release_guest(floppy, &guest); }
 *
 * WHAT THE CALLER GUARANTEES, besides the list of jiponuwha.h.
 *
 *  1. A callback copies all bytes and returns a number other than 0. If a byte is outside memory that may be read or
 *     written, it copies none and returns 0. It gets at least one byte, and no range beyond the last address. It checks
 *     bounds: a packet can reach all memory that the callbacks allow. It makes no call of this library; jip_guest_inhibit
 *     alone may.
 *  2. The pool is a range of the machine's memory for FileLocks, and only the handler uses it. The 68000 side allocates
 *     it once (AllocMem, longword aligned) and passes its address to the host before the first packet. It remains
 *     allocated, readable and writable until jip_release_guest. A FileLock is JIP_FL_BYTES long. The number of FileLocks
 *     that fit is the limit for locks, and also for open files. One more is refused with 103.
 *  3. A jip_guest is zero except for the fields that the caller sets. It keeps its address and its pool until
 *     jip_release_guest. Each handle has its own guest, with its own pool. One call at a time uses the two.
 *  4. The emulated processor does not run during a call. If it does, the host is still safe, but answers may be wrong.
 *  5. Each packet goes back to its dp_Port, also if jip_serve_guest does not return JIP_DONE. Its results are unchanged
 *     then, so the 68000 side sets them itself, to 0 and 115 for example. Otherwise the program waits for ever.
 *
 * WHAT IS CHECKED. Nothing in the machine's memory is trusted. Locks are identified by their addresses and files by their
 * numbers, and the host keeps all other data on them. Refusals of the handler are passed on. These calls add the
 * following values of dp_Res2:
 *
 *  - 115: bytes of a string, of a struct or of a WRITE are not in memory; a BPTR or a range wraps; a DateStamp has an odd
 *    address; the length of READ or WRITE is negative; or an output is at address 0, in the packet or in the pool. Nothing
 *    has changed, except that READ may have written some of its bytes. READ needs memory only for the bytes it reads.
 *  - 211: a lock that is not a FileLock of the pool, or is free; an fh_Arg1 that is not an open file of this guest.
 *  - 218: a lock or file of a removed disk, and every packet while there is no disk (see below). This comes before 115.
 *  - 103: the pool is full, or the host is out of memory. A full pool is reported before any error of the handler.
 *  - 210: a name with two colons.
 *
 * After DIE, every packet is refused with 218, before all of these checks. A BPTR of 0 for a name is the empty name.
 *
 * NAMES WITH A COLON. dos.library sends a name as the user typed it, together with the lock of its assign. So the text up
 * to the first `:` is dropped here, and the rest starts at the packet's lock. jip_serve starts such a path at the root.
 *
 * WHEN A DISK IS CHANGED. Programs still hold locks and files of a disk that is removed. jip_remove_disk takes it out of the
 * drive, and jip_insert_disk puts another one in:
 *
 *     jip_remove_disk(&floppy, &guest); // after the image is saved
 *     if (jip_load(path, &floppy, &fault) == JIP_DONE) jip_insert_disk(&floppy, &guest);
 *     if (guest.volume == 0) guest.volume = ..; // the disk is not back, so it gets a volume node of its own
 *
 * What was held of the old disk keeps its place in the pool and its fh_Arg1, and is dead: each packet that names it is refused
 * with 218. Only FREE_LOCK and END accept it, and free its place. Each disk has a generation, which is a part of fh_Arg1 and
 * is noted for each place of the pool, so a dead lock or file is never one of another disk. If the removed disk is inserted
 * again with the bytes that it had, and write-protected or not as it was, its locks and files work again; a file is at its
 * old position. If its bytes differ, they stay dead. DIE is refused with 202 while any of them is held.
 *
 * Without a disk every packet is refused with 218, except FREE_LOCK and END as above, DIE, and INHIBIT. A removal needs no
 * memory of the host, so a disk can always be taken out.
 *
 * The library keeps the image of a removed disk in the host's memory while something of it is held, so at most one image for
 * each FileLock and each open file.
 *
 * WHAT IS NOT PROVED. This is C code on top of the proved handler. It is tested with worked packets, and with random
 * memory under sanitizers.
 */
#ifndef JIPONUWHA_AMIGA_H
#define JIPONUWHA_AMIGA_H

#include <jiponuwha.h>

#ifdef __cplusplus
extern "C" {
#endif

/* The structs of dos/dos.h and dos/dosextens.h: the offsets of their fields and their lengths, in bytes. */
enum jip_dos_packet { JIP_DP_TYPE = 8, JIP_DP_RES1 = 12, JIP_DP_RES2 = 16, JIP_DP_ARG1 = 20, JIP_DP_BYTES = 48 };
enum jip_file_lock { JIP_FL_LINK = 0, JIP_FL_KEY = 4, JIP_FL_ACCESS = 8, JIP_FL_TASK = 12, JIP_FL_VOLUME = 16, JIP_FL_BYTES = 20 };
enum jip_file_handle { JIP_FH_ARG1 = 36, JIP_FH_BYTES = 44 };
enum jip_date_stamp { JIP_DS_DAYS = 0, JIP_DS_MINUTE = 4, JIP_DS_TICK = 8, JIP_DS_BYTES = 12 };
enum jip_file_info_block {
    JIP_FIB_DISK_KEY = 0,
    JIP_FIB_DIR_ENTRY_TYPE = 4,
    JIP_FIB_FILE_NAME = 8, /* a length byte and the name, as a handler fills it */
    JIP_FIB_PROTECTION = 116,
    JIP_FIB_ENTRY_TYPE = 120,
    JIP_FIB_SIZE = 124,
    JIP_FIB_NUM_BLOCKS = 128,
    JIP_FIB_DATE = 132,
    JIP_FIB_COMMENT = 144,
    JIP_FIB_OWNER = 224, /* of user and of group, two bytes each */
    JIP_FIB_RESERVED = 228,
    JIP_FIB_BYTES = 260
};
enum jip_info_data {
    JIP_ID_NUM_SOFT_ERRORS = 0,
    JIP_ID_UNIT_NUMBER = 4,
    JIP_ID_DISK_STATE = 8,
    JIP_ID_NUM_BLOCKS = 12,
    JIP_ID_NUM_BLOCKS_USED = 16,
    JIP_ID_BYTES_PER_BLOCK = 20,
    JIP_ID_DISK_TYPE = 24,
    JIP_ID_VOLUME_NODE = 28,
    JIP_ID_IN_USE = 32,
    JIP_ID_BYTES = 36
};

/* Packets that are served here in addition to those of jip_action, by means of them. */
enum jip_guest_action {
    JIP_GUEST_CURRENT_VOLUME = 7, /* res1 is the BPTR of the volume node; 209 if there is none */
    JIP_GUEST_MORE_CACHE = 18,    /* accepted; there are no buffers, so their number in res2 is 0 */
    JIP_GUEST_FLUSH = 27,         /* answered after `save` has returned */
    JIP_GUEST_INHIBIT = 31,       /* by the callback of jip_guest_on_inhibit; 209 without one */
    JIP_GUEST_FH_FROM_LOCK = 1026, /* FINDINPUT of the lock's object, which uses up the lock */
    JIP_GUEST_WRITE_PROTECT = 1023, /* opens the image read-only, or for writing again; 202 while anything is held */
    JIP_GUEST_IS_FILESYSTEM = 1027,
    JIP_GUEST_COPY_DIR_FH = 1030, /* a shared lock on an open file; 202 if FINDOUTPUT opened it */
    JIP_GUEST_PARENT_FH = 1031,   /* a shared lock on its directory */
    JIP_GUEST_EXAMINE_FH = 1034
};

/* The error for memory that does not exist or may not be used, as above. */
enum jip_guest_error { JIP_GUEST_BAD_NUMBER = 115 };

/* The callbacks: they copy `length` bytes of the machine's memory, starting at `address`. */
typedef int (*jip_guest_read)(void *context, uint32_t address, void *to, uint32_t length);
typedef int (*jip_guest_write)(void *context, uint32_t address, const void *from, uint32_t length);

/* Saves the image to its file. Returns 0, or the DOS error with which FLUSH is refused. */
typedef int32_t (*jip_guest_save)(void *context);

/* Stops access to the disk by the handler (is_on is 1), or allows it again (0). Returns 0, or the DOS error with which INHIBIT
 * is refused and stays as it was. To stop access, the host saves the image. The disk is then taken out of the drive as by
 * jip_remove_disk, so programs may write to it by other means. To allow access, the host opens the handle of
 * jip_serve_guest, which is closed, on the image as it is now. The disk is then put in as by jip_insert_disk. If the host
 * leaves the handle closed, the drive is empty. If the host has no memory to put the disk in, INHIBIT is refused with 103 and
 * stays on, and the handle is closed. If the user changes the disk while INHIBIT is on, the callback opens the new one. */
typedef int32_t (*jip_guest_inhibit)(void *context, int32_t is_on);

/* An emulated machine that sends packets to one handle. */
typedef struct jip_guest {
    jip_guest_read read;
    jip_guest_write write;
    jip_guest_save save; /* or NULL if FLUSH has nothing to do, as when the caller saves after each packet */
    void *context;       /* passed to the callbacks */
    uint32_t pool;       /* the address of the memory for FileLocks, a multiple of 4, and its length in bytes */
    uint32_t pool_bytes;
    uint32_t port;   /* the address of the handler's MsgPort: fl_Task */
    uint32_t volume; /* the address of the volume node, a multiple of 4, or 0: fl_Volume, id_VolumeNode */
    uint32_t unit;   /* id_UnitNumber */
    jip_date now;    /* the time at which packets are served */
    struct jip_guest_state *state; /* private to this library; NULL at first */
} jip_guest;

/* Serves the DosPacket at an address. It reads the packet and the structs and strings that its arguments point to. It fills
 * a FileInfoBlock, an InfoData, fh_Arg1 of a FileHandle, the buffer of READ or a FileLock, and both results of the packet.
 *
 * JIP_DONE: the packet is answered. The caller sends it back, and renames the volume node after RENAME_DISK.
 * JIP_WRONG_ARGUMENT: a null pointer or callback; a closed handle, unless the disk was removed; a pool that is not
 * aligned, wraps or is at address 0; a volume that is not aligned; or a packet at an odd address, at address 0, in the pool
 * or not in memory. Nothing has changed.
 *
 * WRITE_PROTECT is served by another handle on the same image, so jip_changes starts at 0 again. Its key is needed to end
 * the protection. A handle that the host opened read-only stays so: to end its protection is refused with 214.
 *
 * A new lock's res1 is the BPTR of a FileLock, whose fl_Key is the block number of the object's header. A file that
 * FINDOUTPUT opened holds a shared lock on its directory, which EXAMINE_FH and PARENT_FH need. */
int32_t jip_serve_guest(jip_handle *handle, jip_guest *guest, uint32_t packet_address);

/* Frees all locks and closes all files of a guest, those of removed disks too, and frees the host's memory for the guest. The
 * handle may be closed already. The guest may be used again, as a new one: numbers of files start anew. Call it before
 * jip_close, and when the machine is reset. When a disk is removed, call jip_remove_disk. What WRITE_PROTECT protects stays so,
 * as if the host had opened it read-only: to end that, open another handle on the image. JIP_WRONG_ARGUMENT: the guest is a
 * null pointer. */
int32_t jip_release_guest(jip_handle *handle, jip_guest *guest);

/* Takes the disk out of the drive, as described above, and sets guest->volume to 0. The handle is closed afterwards: the
 * library has its image now, or has freed it. So save the image first, and free the locks and files of the host itself. If
 * there is no disk, nothing happens; with a closed handle before the first packet, the drive is empty from the start. The
 * call needs no memory, so it never returns JIP_NO_MEMORY. JIP_WRONG_ARGUMENT: a null pointer or callback, a wrong pool or
 * volume, as for jip_serve_guest; nothing has changed. There is no other refusal. */
int32_t jip_remove_disk(jip_handle *handle, jip_guest *guest);

/* Puts the disk of an open handle into the empty drive. If it is a removed disk that is back, its locks and files work again,
 * guest->volume is the address of its volume node again, and the handle is the one that it had, with its jip_changes.
 * Otherwise guest->volume stays as it is. The call compares images, so it costs a copy of each.
 *
 * JIP_NO_MEMORY: nothing has changed; the call may be repeated. JIP_WRONG_ARGUMENT: a null pointer or callback, a wrong pool
 * or volume; a closed handle; a disk is in the drive; or INHIBIT is on, whose callback opens the disk. */
int32_t jip_insert_disk(jip_handle *handle, jip_guest *guest);

/* Sets the callback for INHIBIT, or removes it with NULL. jip_release_guest forgets it. While INHIBIT is on, packets are answered
 * as without a disk: 218. JIP_NO_MEMORY, and JIP_WRONG_ARGUMENT as for jip_remove_disk: nothing has changed. */
int32_t jip_guest_on_inhibit(jip_guest *guest, jip_guest_inhibit inhibit);

/* What a volume node has of the disk. */
typedef struct jip_volume {
    uint32_t disk_type; /* dol_DiskType: `DOS` and the format */
    jip_date date;      /* dol_VolumeDate: the date of the root, as EXAMINE_OBJECT returns it */
    uint32_t name_length;
    uint8_t name[32]; /* dol_Name, with zeros after it */
} jip_volume;

/* Describes the volume of an open handle. Returns JIP_DONE, another jip_status, or a jip_error such as 218 after
 * DIE. The struct is unchanged then. */
int32_t jip_volume_of(jip_handle *handle, jip_volume *volume);

/* Returns the name of an action of AmigaDOS, such as "LOCATE_OBJECT", also of those that are not served. Any other number is
 * "unknown action". For a log. */
const char *jip_action_name(int32_t action);

#ifdef __cplusplus
}
#endif

#endif
