/* Functions that the test programs share: they count checks, and send a packet in one call. */
#ifndef ASKING_H
#define ASKING_H

#include <jiponuwha.h>
#include <stdio.h>
#include <stdlib.h>

static int passed, failed;

/* Counts a check of a case, and reports a failed one. */
static inline void expect(const char *name, int holds, int line) {
    if (holds) {
        passed++;
    } else {
        failed++;
        printf("FAIL  %s, line %d\n", name, line);
    }
}

#define EXPECT(name, holds) expect(name, holds, __LINE__)
#define RESULTS(name, answer, first, second) expect_results(name, answer, first, second, __LINE__)

static inline void expect_results(const char *name, jip_answer answer, int32_t first, int32_t second, int line) {
    expect(name, answer.res1 == first && answer.res2 == second, line);
}

static inline int summed_up(void) {
    printf("%d passed, %d failed\n", passed, failed);
    return failed == 0 ? 0 : 1;
}

static jip_date now = {0, 0, 0};

/* Serves a packet, and returns its answer. The status has to be JIP_DONE; the caller checks the two results. */
static inline jip_answer asked(jip_handle *h, const jip_packet *packet) {
    jip_answer answer;
    memset(&answer, 0, sizeof answer);
    EXPECT("serve", jip_serve(h, packet, &answer) == JIP_DONE);
    return answer;
}

static inline jip_handle blank(int32_t format, uint32_t blocks) {
    jip_handle h = JIP_CLOSED;
    EXPECT("blank", jip_blank(format, blocks, "Work", 4, now, &h) == JIP_DONE);
    return h;
}

#define ASK(h, fill) \
    jip_packet p;    \
    fill;            \
    return asked(h, &p)

static inline jip_answer die(jip_handle *h) { ASK(h, jip_die(&p, now)); }
static inline jip_answer locate(jip_handle *h, uint32_t lock, const char *path, int32_t mode) {
    ASK(h, jip_locate_object(&p, now, lock, path, mode));
}
static inline jip_answer rename_disk(jip_handle *h, const char *name) { ASK(h, jip_rename_disk(&p, now, name)); }
static inline jip_answer free_lock(jip_handle *h, uint32_t lock) { ASK(h, jip_free_lock(&p, now, lock)); }
static inline jip_answer delete_object(jip_handle *h, const char *path) { ASK(h, jip_delete_object(&p, now, 0, path)); }
static inline jip_answer rename_object(jip_handle *h, const char *from, const char *to) {
    ASK(h, jip_rename_object(&p, now, 0, from, 0, to));
}
static inline jip_answer copy_dir(jip_handle *h, uint32_t lock) { ASK(h, jip_copy_dir(&p, now, lock)); }
static inline jip_answer protect(jip_handle *h, const char *path, uint32_t bits) {
    ASK(h, jip_set_protect(&p, now, 0, path, bits));
}
static inline jip_answer create_dir(jip_handle *h, const char *path) { ASK(h, jip_create_dir(&p, now, 0, path)); }
static inline jip_answer examine(jip_handle *h, uint32_t lock) { ASK(h, jip_examine_object(&p, now, lock)); }
static inline jip_answer next(jip_handle *h, uint32_t lock, uint32_t key) { ASK(h, jip_examine_next(&p, now, lock, key)); }
static inline jip_answer disk_info(jip_handle *h) { ASK(h, jip_disk_info(&p, now)); }
static inline jip_answer info(jip_handle *h, uint32_t lock) { ASK(h, jip_info(&p, now, lock)); }
static inline jip_answer comment(jip_handle *h, const char *path, const char *text) {
    ASK(h, jip_set_comment(&p, now, 0, path, text));
}
static inline jip_answer parent(jip_handle *h, uint32_t lock) { ASK(h, jip_parent(&p, now, lock)); }
static inline jip_answer set_date(jip_handle *h, const char *path, jip_date date) {
    ASK(h, jip_set_date(&p, now, 0, path, date));
}
static inline jip_answer same_lock(jip_handle *h, uint32_t first, uint32_t second) {
    ASK(h, jip_same_lock(&p, now, first, second));
}
static inline jip_answer read_bytes(jip_handle *h, uint32_t file, void *to, size_t length) {
    ASK(h, jip_read(&p, now, file, to, length));
}
static inline jip_answer write_bytes(jip_handle *h, uint32_t file, const void *from, size_t length) {
    ASK(h, jip_write(&p, now, file, from, length));
}
static inline jip_answer find_update(jip_handle *h, const char *path) { ASK(h, jip_findupdate(&p, now, 0, path)); }
static inline jip_answer find_input(jip_handle *h, const char *path) { ASK(h, jip_findinput(&p, now, 0, path)); }
static inline jip_answer find_output(jip_handle *h, const char *path) { ASK(h, jip_findoutput(&p, now, 0, path)); }
static inline jip_answer end(jip_handle *h, uint32_t file) { ASK(h, jip_end(&p, now, file)); }
static inline jip_answer seek(jip_handle *h, uint32_t file, int32_t offset, int32_t mode) {
    ASK(h, jip_seek(&p, now, file, offset, mode));
}
static inline jip_answer set_size(jip_handle *h, uint32_t file, int32_t offset, int32_t mode) {
    ASK(h, jip_set_file_size(&p, now, file, offset, mode));
}
static inline jip_answer other(jip_handle *h, int32_t action) { ASK(h, jip_begin(&p, action, now)); }

/* Makes a file with this many bytes, and closes it. */
static inline void make_file(jip_handle *h, const char *name, size_t length) {
    char *bytes = (char *)calloc(length + 1, 1);
    uint32_t file = find_output(h, name).handle;
    RESULTS(name, write_bytes(h, file, bytes, length), (int32_t)length, 0);
    RESULTS(name, end(h, file), JIP_DOSTRUE, 0);
    free(bytes);
}

/* Makes a directory, and frees its lock. */
static inline void make_directory(jip_handle *h, const char *name) {
    RESULTS(name, free_lock(h, (uint32_t)create_dir(h, name).res1), JIP_DOSTRUE, 0);
}

static inline int is_named(jip_answer answer, const char *name) {
    return answer.res2 == 0 && answer.entry.name_length == strlen(name) && strcmp((const char *)answer.entry.name, name) == 0;
}

/* The big-endian long at a place in memory. */
static inline uint32_t long_of(const uint8_t *bytes) {
    return (uint32_t)bytes[0] << 24 | (uint32_t)bytes[1] << 16 | (uint32_t)bytes[2] << 8 | (uint32_t)bytes[3];
}

static inline void put_long(uint8_t *bytes, uint32_t value) {
    for (uint32_t k = 0; k < 4; k++) bytes[k] = (uint8_t)(value >> (24 - 8 * k));
}

/* A long of a block of an image. */
static inline uint32_t long_in(const uint8_t *image, uint32_t block, uint32_t at) { return long_of(image + 512 * block + 4 * at); }

static uint64_t draws;

/* Draws a number below this one. The numbers depend on the first value of `draws`. */
static inline uint32_t draw(uint32_t below) {
    draws = draws * 6364136223846793005u + 1442695040888963407u;
    return (uint32_t)(draws >> 33) % below;
}

/* Returns a copy of the image. The caller frees it. */
static inline uint8_t *image_of(jip_handle *h, size_t *length) {
    *length = jip_image_length(h);
    uint8_t *bytes = (uint8_t *)calloc(*length + 1, 1);
    EXPECT("copy", jip_copy_image(h, bytes, *length) == JIP_DONE);
    return bytes;
}

#endif
