/* A client that draws packets at random. It writes each as a line of a script, serves it, and prints what the program
 * `adf_serve` has to print for that line. Meanwhile it updates a copy of the image by the changed blocks. At the end it
 * writes the image.
 *
 *   drawn SEED IMAGE SCRIPT WANTED AFTER     reads the image, and writes the other three files
 */
#include "asking.h"

static FILE *script, *wanted;
static int number;

static const char *name(void) {
    static const char *const names[] = {"a", "B", "ab", "DP", "dir", "dir/a", "dir/b", "dir/dir", "a//B", ":", "/", "", "x:a", "dir/"};
    return names[draw(sizeof names / sizeof *names)];
}

/* Prints the answer as the program prints it. */
static void tell(const jip_answer *answer, const jip_packet *packet) {
    fprintf(wanted, "1.%d %d %d", number, (int)answer->res1, (int)answer->res2);
    if (packet->action == JIP_ACTION_READ && answer->res1 > 0) {
        fputc(' ', wanted);
        for (int32_t k = 0; k < answer->res1; k++) fprintf(wanted, "%02x", packet->buffer[k]);
    }
    if (answer->entry.entry_type != 0)
        fprintf(wanted, " %u %d %u %s", (unsigned)answer->entry.key, (int)answer->entry.entry_type, (unsigned)answer->entry.size,
                (const char *)answer->entry.name);
    if (answer->disk.state != 0)
        fprintf(wanted, " %u %u %u %u %08x", (unsigned)answer->disk.state, (unsigned)answer->disk.blocks, (unsigned)answer->disk.used,
                (unsigned)answer->disk.bytes_per_block, (unsigned)answer->disk.disk_type);
    fputc('\n', wanted);
}

/* Draws a packet on a lock or on a path, and writes its line. */
static void draw_object(jip_packet *p) {
    uint32_t lock = draw(6), other_lock = draw(6), bits = draw(4) == 0 ? draw(128) : 0;
    const char *path = name(), *to = name();
    int32_t mode = draw(4) == 0 ? JIP_EXCLUSIVE_LOCK : JIP_SHARED_LOCK;
    unsigned l = lock, o = other_lock, key = draw(3) == 0 ? draw(12) : 880;
    switch (draw(17)) {
    case 0: jip_locate_object(p, now, lock, path, mode); fprintf(script, "locate %u %d \"%s\"\n", l, (int)mode, path); break;
    case 1:
    case 2: jip_free_lock(p, now, lock); fprintf(script, "free %u\n", l); break;
    case 3: jip_copy_dir(p, now, lock); fprintf(script, "copy %u\n", l); break;
    case 4: jip_parent(p, now, lock); fprintf(script, "parent %u\n", l); break;
    case 5: jip_examine_object(p, now, lock); fprintf(script, "examine %u\n", l); break;
    case 6: jip_examine_next(p, now, lock, key); fprintf(script, "next %u %u\n", l, key); break;
    case 7: jip_delete_object(p, now, lock, path); fprintf(script, "delete %u \"%s\"\n", l, path); break;
    case 8: jip_create_dir(p, now, lock, path); fprintf(script, "mkdir %u \"%s\"\n", l, path); break;
    case 9: jip_rename_object(p, now, lock, path, other_lock, to); fprintf(script, "rename %u \"%s\" %u \"%s\"\n", l, path, o, to); break;
    case 10: jip_rename_disk(p, now, to); fprintf(script, "rename-disk \"%s\"\n", to); break;
    case 11: jip_set_protect(p, now, lock, path, bits); fprintf(script, "protect %u \"%s\" %u\n", l, path, (unsigned)bits); break;
    case 12: jip_set_comment(p, now, lock, path, to); fprintf(script, "comment %u \"%s\" \"%s\"\n", l, path, to); break;
    case 13: jip_set_date(p, now, lock, path, (jip_date){bits, key, o}); fprintf(script, "date %u \"%s\" %u %u %u\n", l, path, (unsigned)bits, key, o); break;
    case 14: jip_same_lock(p, now, lock, other_lock); fprintf(script, "same %u %u\n", l, o); break;
    case 15: jip_info(p, now, lock); fprintf(script, "info %u\n", l); break;
    default: jip_disk_info(p, now); fprintf(script, "diskinfo\n");
    }
}

/* The same for a packet on a file. */
static void draw_file(jip_packet *p) {
    static char buffer[6000];
    uint32_t file = 1 + draw(4), lock = draw(3), length = draw(8) == 0 ? draw(6000) : draw(40);
    int32_t offset = (int32_t)draw(900) - 100, mode = (int32_t)draw(4) - 1;
    const char *path = name();
    unsigned f = file, l = lock, n = length;
    memset(buffer, '.', sizeof buffer);
    switch (draw(9)) {
    case 0: jip_findinput(p, now, lock, path); fprintf(script, "input %u \"%s\"\n", l, path); break;
    case 1: jip_findoutput(p, now, lock, path); fprintf(script, "output %u \"%s\"\n", l, path); break;
    case 2: jip_findupdate(p, now, lock, path); fprintf(script, "update %u \"%s\"\n", l, path); break;
    case 3: jip_read(p, now, file, buffer, length); fprintf(script, "read %u %u\n", f, n); break;
    case 4: jip_seek(p, now, file, offset, mode); fprintf(script, "seek %u %d %d\n", f, (int)offset, (int)mode); break;
    case 5: jip_set_file_size(p, now, file, offset, mode); fprintf(script, "size %u %d %d\n", f, (int)offset, (int)mode); break;
    case 6: jip_end(p, now, file); fprintf(script, "end %u\n", f); break;
    default:
        for (uint32_t k = 0; k < length; k++) buffer[k] = (char)('a' + draw(26));
        jip_write(p, now, file, buffer, length);
        fprintf(script, "write %u \"%.*s\"\n", f, (int)length, buffer);
    }
}

/* Updates the copy. While the count of changes is the same, no block differs; and each listed block does. */
static void follow(jip_handle *h, uint8_t *copy, size_t length) {
    static uint32_t numbers[JIP_MOST_BLOCKS];
    static uint64_t before;
    const uint64_t changes = jip_changes(h);
    size_t length_again, changed;
    uint8_t *image = image_of(h, &length_again);
    for (size_t k = changed = 0; k < length; k += JIP_BLOCK_BYTES) {
        if (memcmp(copy + k, image + k, JIP_BLOCK_BYTES) == 0) continue;
        numbers[changed++] = (uint32_t)(k / JIP_BLOCK_BYTES);
    }
    const size_t wanted = changed;
    EXPECT("changes", changes != before || wanted == 0);
    uint32_t *told = calloc(wanted + 1, sizeof *told);
    EXPECT("changed", jip_copy_changed(h, copy, length, told, wanted, &changed) == JIP_DONE && changed == wanted);
    EXPECT("changed", memcmp(told, numbers, wanted * sizeof *told) == 0 && memcmp(copy, image, length) == 0);
    free(told);
    free(image);
    before = changes;
}

int main(int count, char **words) {
    static uint8_t bytes[52020224];
    if (count != 6) return 2;
    draws = strtoull(words[1], NULL, 10);
    FILE *from = fopen(words[2], "rb");
    size_t length = from == NULL ? 0 : fread(bytes, 1, sizeof bytes, from);
    jip_handle h = JIP_CLOSED;
    jip_fault fault;
    script = fopen(words[3], "wb");
    wanted = fopen(words[4], "wb");
    FILE *after = fopen(words[5], "wb");
    fault.kind = 0;
    fault.block = 0;
    if (script == NULL || wanted == NULL || after == NULL || jip_open(bytes, length, &h, &fault) != JIP_DONE) return 2;
    for (number = 1; number <= 2000; number++) {
        jip_packet packet;
        if (draw(2) == 0) draw_object(&packet);
        else draw_file(&packet);
        jip_answer answer = asked(&h, &packet);
        tell(&answer, &packet);
        follow(&h, bytes, length);
    }
    uint8_t *image = image_of(&h, &length);
    EXPECT("after", fwrite(image, 1, length, after) == length);
    free(image);
    jip_close(&h);
    return fclose(script) != 0 || fclose(wanted) != 0 || fclose(after) != 0 || fclose(from) != 0 || failed != 0;
}
