/* A tour of the library. It opens an image or makes a blank one, makes a directory, writes a file and reads it back. Then
 * it lists the root and saves the image.
 *
 *   cc tour.c $(pkg-config --cflags --libs jiponuwha) -o tour && ./tour floppy.adf
 */
#include <jiponuwha.h>
#include <stdio.h>
#include <stdlib.h>

static const jip_date START = {0, 0, 0};

/* Serves a packet and returns its answer. If it is refused, the program prints the DOS error and exits with status 1. */
static jip_answer serve(jip_handle *handle, const jip_packet *packet) {
    jip_answer answer;
    int32_t status = jip_serve(handle, packet, &answer);
    if (status != JIP_DONE || answer.res2 != 0) {
        fprintf(stderr, "tour: action %d: status %d, error %d\n", (int)packet->action, (int)status, (int)answer.res2);
        exit(1);
    }
    return answer;
}

/* Opens the image in a file, or a blank image if the file does not exist. */
static int open_image(jip_handle *handle, const char *path) {
    enum { MOST_BYTES = JIP_MOST_BLOCKS * JIP_BLOCK_BYTES };
    jip_fault fault = {JIP_FAULT_NONE, 0};
    FILE *file = fopen(path, "rb");
    if (file == NULL) return jip_blank(JIP_FFS, JIP_DOUBLE_DENSITY, "Work", 4, START, handle) == JIP_DONE;
    uint8_t *bytes = malloc(MOST_BYTES + 1);
    size_t length = bytes == NULL ? 0 : fread(bytes, 1, MOST_BYTES + 1, file);
    int32_t status = jip_open(bytes, length, handle, &fault);
    if (status != JIP_DONE) fprintf(stderr, "tour: status %d, fault %d at block %u\n", (int)status, (int)fault.kind, (unsigned)fault.block);
    free(bytes);
    fclose(file);
    return status == JIP_DONE;
}

/* Makes a directory, unless it exists. The answer has a lock on it, which has to be freed. */
static void make_directory(jip_handle *handle, const char *name) {
    jip_packet packet;
    jip_answer made;
    jip_create_dir(&packet, START, 0, name);
    if (jip_serve(handle, &packet, &made) != JIP_DONE || made.res2 == JIP_ERROR_OBJECT_EXISTS) return;
    jip_free_lock(&packet, START, (uint32_t)made.res1);
    serve(handle, &packet);
}

static void write_file(jip_handle *handle, const char *name, const char *bytes, size_t length) {
    jip_packet packet;
    jip_findoutput(&packet, START, 0, name);
    uint32_t file = serve(handle, &packet).handle;
    jip_write(&packet, START, file, bytes, length);
    serve(handle, &packet);
    jip_end(&packet, START, file);
    serve(handle, &packet);
}

static void print_file(jip_handle *handle, const char *name) {
    char bytes[64] = {0};
    jip_packet packet;
    jip_findinput(&packet, START, 0, name);
    uint32_t file = serve(handle, &packet).handle;
    jip_read(&packet, START, file, bytes, sizeof bytes);
    int32_t length = serve(handle, &packet).res1;
    printf("%s: %.*s\n", name, (int)length, bytes);
    jip_end(&packet, START, file);
    serve(handle, &packet);
}

/* The key of each entry gets the next one. The root's own key gets the first. */
static void list_root(jip_handle *handle) {
    jip_packet packet;
    jip_answer answer;
    jip_examine_object(&packet, START, 0);
    answer = serve(handle, &packet);
    printf("Volume %s\n", (const char *)answer.entry.name);
    for (;;) {
        jip_examine_next(&packet, START, 0, answer.entry.key);
        if (jip_serve(handle, &packet, &answer) != JIP_DONE || answer.res2 != 0) break;
        if (answer.entry.entry_type == JIP_FILE)
            printf("%8u %s\n", (unsigned)answer.entry.size, (const char *)answer.entry.name);
        else
            printf("     dir %s\n", (const char *)answer.entry.name);
    }
}

static int save(jip_handle *handle, const char *path) {
    size_t length = jip_image_length(handle);
    uint8_t *bytes = calloc(length, 1);
    FILE *file = fopen(path, "wb");
    int done = bytes != NULL && file != NULL && jip_copy_image(handle, bytes, length) == JIP_DONE &&
               fwrite(bytes, 1, length, file) == length;
    if (file != NULL && fclose(file) != 0) done = 0;
    free(bytes);
    return done;
}

int main(int count, char **words) {
    jip_handle handle = JIP_CLOSED;
    if (count != 2 || !open_image(&handle, words[1])) return 1;
    make_directory(&handle, "tools");
    write_file(&handle, "hello", "Hi Amiga", 8);
    print_file(&handle, "HELLO");
    list_root(&handle);
    int done = save(&handle, words[1]);
    jip_close(&handle);
    if (!done) fprintf(stderr, "tour: the image was not saved\n");
    return done ? 0 : 1;
}
