/* A volume that ADFlib writes: adflib_volumes SEED IMAGE CYLINDERS HEADS SECTORS ofs|ffs. The geometry of a floppy makes a floppy,
 * sometimes with boot code; any other makes a hard file. The seed draws the label, directories in directories, files of no bytes to
 * files with three extension blocks, names of up to 30 letters of Latin-1, comments, protection bits and dates. Some entries are
 * removed, renamed, or moved to the root. The status is 1 if ADFlib fails. */
#include <stdint.h>
#include <stdio.h>
#include <stdlib.h>
#include <string.h>
#include <time.h>

#include "adflib.h"

enum { LARGEST = 120000, SPARE = 300, DEEPEST = 8, LONGEST_NAME = 30, LONGEST_COMMENT = 79, BOOT_BYTES = 1024 };

static unsigned char buffer[LARGEST];
static uint32_t state;

static void fail(const char *what) {
    fprintf(stderr, "adflib_volumes: %s\n", what);
    exit(1);
}

/* A number below `most`. */
static uint32_t drawn(uint32_t most) {
    state = state * 1664525u + 1013904223u;
    return (uint32_t)(((uint64_t)(state >> 8) * most) >> 24);
}

/* The clock that ADFlib reads: any second of the years 1978 to 2032. */
time_t time(time_t *to) {
    time_t now = 252460800 + (time_t)drawn(55 * 365) * 86400 + (time_t)drawn(86400);
    if (to != NULL) *to = now;
    return now;
}

static void draw_letters(char *to, int length) {
    static const char letters[] = "abcdefGHIJ0189-_. %\"\\'\xc4\xd6\xe4\xe9\xf1\xf7\xff\xa0\xbf";
    for (int at = 0; at < length; at++) to[at] = letters[drawn(sizeof letters - 1)];
    to[length] = '\0';
}

/* A name that no other entry has, since `number` is at its end. */
static void draw_name(char name[LONGEST_NAME + 1], unsigned number) {
    char digits[12];
    int most = LONGEST_NAME - snprintf(digits, sizeof digits, "%u", number);
    draw_letters(name, drawn(4) == 0 ? most : (int)drawn(most));
    strcat(name, digits);
}

static void write_file(struct Volume *volume, char *name) {
    static const int32_t edges[] = {0, 0, 1, 487, 488, 489, 511, 512, 513, 72 * 488, 72 * 488 + 1, 72 * 512, 72 * 512 + 1};
    uint32_t kind = drawn(8);
    int32_t size = kind == 0 ? (int32_t)drawn(LARGEST) : kind < 4 ? edges[drawn(sizeof edges / sizeof *edges)] : (int32_t)drawn(3000);
    struct File *file = adfOpenFile(volume, name, "w");
    if (file == NULL) fail("a file cannot be made");
    for (int32_t at = 0; at < size; at++) buffer[at] = (unsigned char)drawn(256);
    if (size > 0 && adfWriteFile(file, size, buffer) != size) fail("a write falls short");
    adfCloseFile(file);
}

/* A comment and protection bits for an entry of the volume's directory, sometimes. */
static void describe(struct Volume *volume, char *name) {
    char comment[LONGEST_COMMENT + 1];
    int32_t bits = (int32_t)(drawn(1 << 16) << 16 | drawn(1 << 16));
    draw_letters(comment, drawn(3) == 0 ? LONGEST_COMMENT : (int)drawn(LONGEST_COMMENT));
    if (drawn(3) == 0 && adfSetEntryComment(volume, volume->curDirPtr, name, comment) != RC_OK) fail("no comment is set");
    if (drawn(3) == 0 && adfSetEntryAccess(volume, volume->curDirPtr, name, drawn(2) == 0 ? bits & 255 : bits) != RC_OK) fail("no bits are set");
}

/* Renames or removes a file of a directory, or moves it to the root, sometimes. */
static void change(struct Volume *volume, SECTNUM directory, char *name, unsigned *number) {
    char other[LONGEST_NAME + 1];
    SECTNUM to = drawn(2) == 0 ? directory : volume->rootBlock;
    uint32_t kind = drawn(6);
    draw_name(other, (*number)++);
    if (kind == 0 && adfRenameEntry(volume, directory, name, to, other) != RC_OK) fail("a file is not renamed");
    if (kind == 1 && adfRemoveEntry(volume, directory, name) != RC_OK) fail("a file cannot be removed");
}

/* Fills a directory of the volume. */
static void fill(struct Volume *volume, SECTNUM directory, int depth, unsigned *number) {
    unsigned count = drawn(depth == 0 ? 40 : 12);
    for (unsigned at = 0; at < count; at++) {
        char name[LONGEST_NAME + 1];
        volume->curDirPtr = directory;
        if (adfCountFreeBlocks(volume) < SPARE) return;
        draw_name(name, (*number)++);
        if (depth == DEEPEST || drawn(3) != 0) {
            write_file(volume, name);
            describe(volume, name);
            change(volume, directory, name, number);
            continue;
        }
        if (adfCreateDir(volume, directory, name) != RC_OK) fail("a directory cannot be made");
        describe(volume, name);
        if (adfChangeDir(volume, name) != RC_OK) fail("a directory is not there");
        fill(volume, volume->curDirPtr, depth + 1, number);
    }
}

/* Makes the image, without entries, and mounts it. */
static struct Volume *make(struct Device *device, int kind) {
    char label[LONGEST_NAME + 1];
    int is_floppy = device->devType == DEVTYPE_FLOPDD || device->devType == DEVTYPE_FLOPHD;
    draw_letters(label, 1 + (int)drawn(LONGEST_NAME));
    if ((is_floppy ? adfCreateFlop(device, label, kind) : adfCreateHdFile(device, label, kind)) != RC_OK) fail("no image is made");
    struct Volume *volume = adfMount(device, 0, FALSE);
    if (volume == NULL) fail("the image cannot be mounted");
    for (int at = 0; at < BOOT_BYTES; at++) buffer[at] = (unsigned char)drawn(256);
    if (is_floppy && drawn(3) == 0 && adfInstallBootBlock(volume, buffer) != RC_OK) fail("no boot block is written");
    return volume;
}

/* ADFlib tells of each step on standard output; nothing of that is wanted. */
static void quiet(char *text) {
    (void)text;
}

int main(int count, char **words) {
    unsigned number = 0;
    if (count != 7) fail("SEED IMAGE CYLINDERS HEADS SECTORS ofs|ffs");
    /* (so that near seeds do not draw alike) */
    state = (uint32_t)strtoul(words[1], NULL, 10) * 2654435761u;
    adfEnvInitDefault();
    adfChgEnvProp(PR_WFCT, (void *)quiet);
    adfChgEnvProp(PR_VFCT, (void *)quiet);
    adfChgEnvProp(PR_EFCT, (void *)quiet);
    struct Device *device = adfCreateDumpDevice(words[2], atoi(words[3]), atoi(words[4]), atoi(words[5]));
    if (device == NULL) fail("no file is made");
    struct Volume *volume = make(device, strcmp(words[6], "ofs") == 0 ? 0 : FSMASK_FFS);
    fill(volume, volume->curDirPtr, 0, &number);
    adfUnMount(volume);
    adfUnMountDev(device);
    adfEnvCleanUp();
    return 0;
}
