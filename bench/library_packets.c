/* Serves the packets that `bench packets` serves, by the library for C: rounds of LOCATE_OBJECT, EXAMINE_OBJECT, EXAMINE_NEXT,
 * WRITE, SEEK and READ of 512 bytes, and FREE_LOCK. It prints how many packets there were, and their microseconds.
 *
 *   library_packets ROUNDS LOCKS ENTRIES     with so many locks held and so many entries in the root
 */
#include "library.h"

enum { BLOCKS = 20000, PIECE = 512, ROUND = 7 };

/* Makes directories in the root, a file, and locks on the root. Returns the handle of the file. */
static uint32_t prepare(jip_handle *handle, unsigned long locks, unsigned long entries) {
    jip_packet packet;
    for (unsigned long n = 0; n < entries; n++) {
        char name[32];
        snprintf(name, sizeof name, "%05lu", n);
        make_directory(handle, name);
    }
    jip_findupdate(&packet, moment, 0, "file");
    const uint32_t file = serve(handle, &packet).handle;
    jip_locate_object(&packet, moment, 0, "", JIP_SHARED_LOCK);
    for (unsigned long n = 0; n < locks; n++) serve(handle, &packet);
    return file;
}

static void serve_round(jip_handle *handle, uint32_t file, uint32_t root, uint8_t *bytes) {
    jip_packet packet;
    jip_locate_object(&packet, moment, 0, "file", JIP_SHARED_LOCK);
    const uint32_t lock = (uint32_t)serve(handle, &packet).res1;
    jip_examine_object(&packet, moment, lock);
    serve(handle, &packet);
    jip_examine_next(&packet, moment, 0, root);
    serve(handle, &packet);
    memset(bytes, 'x', PIECE);
    jip_write(&packet, moment, file, bytes, PIECE);
    serve(handle, &packet);
    jip_seek(&packet, moment, file, 0, JIP_OFFSET_BEGINNING);
    serve(handle, &packet);
    memset(bytes, 'x', PIECE);
    jip_read(&packet, moment, file, bytes, PIECE);
    serve(handle, &packet);
    jip_free_lock(&packet, moment, lock);
    serve(handle, &packet);
}

int main(int count, char **words) {
    static uint8_t bytes[PIECE];
    jip_handle handle = JIP_CLOSED;
    jip_packet packet;
    if (count != 4 || jip_blank(JIP_FFS, BLOCKS, "Work", 4, moment, &handle) != JIP_DONE) return 1;
    const unsigned long rounds = strtoul(words[1], NULL, 10);
    const uint32_t file = prepare(&handle, strtoul(words[2], NULL, 10), strtoul(words[3], NULL, 10));
    jip_examine_object(&packet, moment, 0);
    const uint32_t root = serve(&handle, &packet).entry.key;
    const double start = microseconds();
    for (unsigned long n = 0; n < rounds; n++) serve_round(&handle, file, root, bytes);
    printf("%lu %.0f\n", ROUND * rounds, microseconds() - start);
    jip_close(&handle);
    return 0;
}
