/* Opens images in which one to eight bytes are changed. Each is refused, or accepted with the bytes that it has, unless its root
 * says that the bitmap is not valid. The caller's bytes stay as they are. */
#include "asking.h"

enum { BLOCKS = 200, LENGTH = BLOCKS * JIP_BLOCK_BYTES, IMAGES = 5000, BITMAP_FLAG = 78 };

static uint8_t changed[LENGTH], given[LENGTH], found[LENGTH];

/* Whether an image that was opened has the bytes that it was given. */
static int keeps(jip_handle *h) {
    const int is_valid = long_in(changed, BLOCKS / 2, BITMAP_FLAG) == UINT32_MAX;
    const int is_copied = jip_copy_image(h, found, LENGTH) == JIP_DONE;
    return jip_close(h) == JIP_DONE && is_copied && (!is_valid || memcmp(found, changed, LENGTH) == 0);
}

/* Changes bytes of an image, and returns whether it is refused or kept. */
static int holds(const uint8_t *image, int *accepted) {
    jip_handle h = JIP_CLOSED;
    jip_fault fault;
    memcpy(changed, image, LENGTH);
    for (uint32_t left = 1 + draw(8); left > 0; left--) changed[draw(LENGTH)] ^= (uint8_t)(1 + draw(255));
    memcpy(given, changed, LENGTH);
    const int32_t status = jip_open(given, LENGTH, &h, &fault);
    if (memcmp(given, changed, LENGTH) != 0) return 0;
    if (status != JIP_DONE) return status == JIP_NOT_AN_IMAGE;
    ++*accepted;
    return keeps(&h);
}

/* Tries images of a format, each a change of one volume with a directory and files. */
static void try_format(const char *name, int32_t format) {
    jip_handle h = blank(format, BLOCKS);
    make_directory(&h, "d");
    make_directory(&h, "d/deep");
    make_file(&h, "long", 40000);
    make_file(&h, "d/short", 700);
    make_file(&h, "d/deep/empty", 0);
    size_t length;
    uint8_t *image = image_of(&h, &length);
    EXPECT("close", jip_close(&h) == JIP_DONE);
    int kept = 0, accepted = 0;
    for (int k = 0; k < IMAGES; k++) kept += holds(image, &accepted);
    EXPECT(name, length == LENGTH && kept == IMAGES);
    EXPECT("some are accepted, and some refused", accepted > 0 && accepted < IMAGES);
    printf("%s: %d of %d accepted\n", name, accepted, IMAGES);
    free(image);
}

int main(void) {
    draws = 1;
    try_format("OFS", JIP_OFS);
    try_format("FFS", JIP_FFS);
    return summed_up();
}
