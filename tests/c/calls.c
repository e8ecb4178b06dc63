/* Tests which arguments each call of the library refuses, opening and copying images, and the count of changes. */
#include "asking.h"

static void wrong_arguments(void) {
    jip_handle h = blank(JIP_FFS, JIP_DOUBLE_DENSITY), closed = JIP_CLOSED;
    jip_packet packet;
    jip_answer answer, before;
    jip_fault fault = {-7, 7};
    uint8_t byte = 0, text[256];
    memset(text, 'a', sizeof text);
    memset(&before, 0x55, sizeof before);
    answer = before;
    jip_disk_info(&packet, now);
    EXPECT("null", jip_serve(NULL, &packet, &answer) == JIP_WRONG_ARGUMENT);
    EXPECT("null", jip_serve(&h, NULL, &answer) == JIP_WRONG_ARGUMENT && jip_serve(&h, &packet, NULL) == JIP_WRONG_ARGUMENT);
    EXPECT("closed", jip_serve(&closed, &packet, &answer) == JIP_WRONG_ARGUMENT);
    packet.path_length = 1;
    EXPECT("null path", jip_serve(&h, &packet, &answer) == JIP_WRONG_ARGUMENT);
    packet.path = text;
    packet.path_length = 256;
    EXPECT("256 bytes", jip_serve(&h, &packet, &answer) == JIP_WRONG_ARGUMENT);
    packet.path_length = SIZE_MAX;
    EXPECT("too long", jip_serve(&h, &packet, &answer) == JIP_WRONG_ARGUMENT);
    jip_read(&packet, now, 1, &byte, (size_t)PTRDIFF_MAX + 1);
    EXPECT("too long", jip_serve(&h, &packet, &answer) == JIP_WRONG_ARGUMENT);
    EXPECT("unchanged", memcmp(&answer, &before, sizeof answer) == 0);
    jip_locate_object(&packet, now, 0, NULL, JIP_SHARED_LOCK);
    packet.path = text;
    packet.path_length = 255;
    RESULTS("255 bytes", asked(&h, &packet), 0, JIP_ERROR_OBJECT_NOT_FOUND);
    EXPECT("open twice", jip_blank(JIP_FFS, 1760, "Work", 4, now, &h) == JIP_WRONG_ARGUMENT);
    EXPECT("open twice", jip_open(&byte, 1, &h, &fault) == JIP_WRONG_ARGUMENT && fault.kind == -7 && fault.block == 7);
    EXPECT("blank", jip_blank(2, 1760, "Work", 4, now, &closed) == JIP_WRONG_ARGUMENT);
    EXPECT("blank", jip_blank(JIP_FFS, 15, "Work", 4, now, &closed) == JIP_WRONG_ARGUMENT);
    EXPECT("blank", jip_blank(JIP_FFS, 101603, "Work", 4, now, &closed) == JIP_WRONG_ARGUMENT);
    EXPECT("blank", jip_blank(JIP_FFS, 1760, "a/b", 3, now, &closed) == JIP_WRONG_ARGUMENT);
    EXPECT("blank", jip_blank(JIP_FFS, 1760, NULL, 0, now, &closed) == JIP_WRONG_ARGUMENT);
    EXPECT("null", jip_blank(JIP_FFS, 1760, "Work", 4, now, NULL) == JIP_WRONG_ARGUMENT && jip_close(NULL) == JIP_WRONG_ARGUMENT);
    EXPECT("null", jip_open(NULL, 1, &closed, &fault) == JIP_WRONG_ARGUMENT && jip_open(&byte, 1, &closed, NULL) == JIP_WRONG_ARGUMENT);
    EXPECT("copy", jip_copy_image(&h, &byte, 1) == JIP_WRONG_ARGUMENT && jip_copy_image(&closed, &byte, 1) == JIP_WRONG_ARGUMENT);
    EXPECT("closed", jip_image_length(&closed) == 0 && jip_changes(&closed) == 0 && closed.behind == NULL);
    EXPECT("close", jip_close(&closed) == JIP_DONE && jip_close(&h) == JIP_DONE && h.behind == NULL && jip_close(&h) == JIP_DONE);
}

/* Unaligned pointers, and outputs that overlap. */
static void places(void) {
    static union { jip_packet packet; jip_answer answer; uint8_t bytes[512]; } room;
    static uint8_t copy[901120];
    jip_handle h = blank(JIP_FFS, JIP_DOUBLE_DENSITY), closed = JIP_CLOSED;
    jip_packet packet;
    jip_answer answer;
    jip_fault fault;
    size_t count;
    uint8_t *const odd = room.bytes + 1;
    void *const at = odd;
    jip_disk_info(&packet, now);
    EXPECT("odd", jip_serve((jip_handle *)at, &packet, &answer) == JIP_WRONG_ARGUMENT);
    EXPECT("odd", jip_serve(&h, (const jip_packet *)at, &answer) == JIP_WRONG_ARGUMENT);
    EXPECT("odd", jip_serve(&h, &packet, (jip_answer *)at) == JIP_WRONG_ARGUMENT);
    EXPECT("odd", jip_open(copy, sizeof copy, &closed, (jip_fault *)at) == JIP_WRONG_ARGUMENT);
    EXPECT("odd", jip_close((jip_handle *)at) == JIP_WRONG_ARGUMENT && jip_changes((jip_handle *)at) == 0);
    EXPECT("odd", jip_copy_changed(&h, copy, sizeof copy, (uint32_t *)at, 1, &count) == JIP_WRONG_ARGUMENT);
    room.packet = packet;
    EXPECT("overlap", jip_serve(&h, &room.packet, &room.answer) == JIP_WRONG_ARGUMENT);
    jip_read(&room.packet, now, 1, room.bytes + 8, 8);
    EXPECT("overlap", jip_serve(&h, &room.packet, &answer) == JIP_WRONG_ARGUMENT);
    jip_write(&room.packet, now, 1, room.bytes + 8, 8);
    RESULTS("both are read", asked(&h, &room.packet), -1, JIP_ERROR_INVALID_LOCK);
    jip_read(&packet, now, 1, &h, sizeof h);
    EXPECT("overlap", jip_serve(&h, &packet, &answer) == JIP_WRONG_ARGUMENT);
    jip_read(&packet, now, 1, &answer, 1);
    EXPECT("overlap", jip_serve(&h, &packet, &answer) == JIP_WRONG_ARGUMENT);
    EXPECT("overlap", jip_open(&closed, sizeof closed, &closed, &fault) == JIP_WRONG_ARGUMENT && closed.behind == NULL);
    EXPECT("overlap", jip_copy_image(&h, &h, sizeof h) == JIP_WRONG_ARGUMENT && h.behind != NULL);
    EXPECT("overlap", jip_copy_changed(&h, copy, sizeof copy, (uint32_t *)(void *)copy, 1, &count) == JIP_WRONG_ARGUMENT);
    jip_read(&packet, now, 1, (void *)UINTPTR_MAX, 2);
    EXPECT("past memory", jip_serve(&h, &packet, &answer) == JIP_WRONG_ARGUMENT);
    jip_close(&h);
}

/* The bytes of a WRITE may be in read-only memory. */
static void constant_bytes(void) {
    static const char constant[] = "constant";
    jip_handle h = blank(JIP_OFS, JIP_DOUBLE_DENSITY);
    char into[8] = {0};
    uint32_t file = find_update(&h, "f").handle;
    RESULTS("constant", write_bytes(&h, file, constant, 8), 8, 0);
    RESULTS("constant", seek(&h, file, 0, JIP_OFFSET_BEGINNING), 8, 0);
    RESULTS("constant", read_bytes(&h, file, into, 8), 8, 0);
    EXPECT("constant", memcmp(into, constant, 8) == 0);
    jip_close(&h);
}

static int is_refused(const uint8_t *bytes, size_t length, int32_t kind, uint32_t block) {
    jip_handle h = JIP_CLOSED;
    jip_fault fault = {JIP_FAULT_NONE, 0};
    return jip_open(bytes, length, &h, &fault) == JIP_NOT_AN_IMAGE && fault.kind == kind && fault.block == block && h.behind == NULL;
}

/* Opens an image, changes it, and opens the result. A damaged image is refused. */
static void images(void) {
    jip_handle h = blank(JIP_FFS, JIP_DOUBLE_DENSITY), again = JIP_CLOSED;
    jip_fault fault = {JIP_FAULT_NONE, 0};
    size_t length, other_length;
    make_file(&h, "f", 5000);
    uint8_t *bytes = image_of(&h, &length);
    EXPECT("image", length == 901120 && memcmp(bytes, "DOS\1", 4) == 0);
    EXPECT("image", jip_open(bytes, length, &again, &fault) == JIP_DONE && fault.kind == JIP_FAULT_NONE);
    EXPECT("image", next(&again, 0, 880).entry.size == 5000);
    RESULTS("image", delete_object(&again, "f"), JIP_DOSTRUE, 0);
    EXPECT("image", next(&h, 0, 880).entry.size == 5000);
    jip_close(&again);
    uint8_t *other = image_of(&h, &other_length);
    EXPECT("image", other_length == length && memcmp(bytes, other, length) == 0);
    EXPECT("sizes", is_refused(bytes, 901119, JIP_FAULT_NOT_WHOLE_BLOCKS, 0));
    EXPECT("sizes", is_refused(bytes, 7680, JIP_FAULT_TOO_FEW_BLOCKS, 0) && is_refused(NULL, 0, JIP_FAULT_TOO_FEW_BLOCKS, 0));
    bytes[3] = 7;
    EXPECT("damage", is_refused(bytes, length, JIP_FAULT_UNSUPPORTED_KIND, 0));
    bytes[0] = 0;
    EXPECT("damage", is_refused(bytes, length, JIP_FAULT_NOT_A_DOS_DISK, 0));
    other[880 * 512 + 60] ^= 1;
    EXPECT("damage", is_refused(other, length, JIP_FAULT_BAD_SUM, 880));
    free(bytes);
    free(other);
    jip_close(&h);
}

static void changes(void) {
    jip_handle h = blank(JIP_FFS, JIP_DOUBLE_DENSITY);
    char bytes[3] = {'a', 'b', 'c'};
    EXPECT("changes", jip_changes(&h) == 0);
    uint32_t file = find_output(&h, "f").handle;
    EXPECT("changes", jip_changes(&h) == 1);
    write_bytes(&h, file, bytes, 3);
    EXPECT("changes", jip_changes(&h) == 2);
    seek(&h, file, 0, JIP_OFFSET_BEGINNING);
    read_bytes(&h, file, bytes, 3);
    disk_info(&h);
    examine(&h, 0);
    RESULTS("changes", create_dir(&h, "f"), 0, JIP_ERROR_OBJECT_EXISTS);
    end(&h, file);
    EXPECT("changes", jip_changes(&h) == 2);
    RESULTS("changes", delete_object(&h, "f"), JIP_DOSTRUE, 0);
    EXPECT("changes", jip_changes(&h) == 3);
    jip_close(&h);
}

/* The caller's copy is updated, and only the blocks that differ are listed. */
static void changed_blocks(void) {
    static uint32_t numbers[1760];
    jip_handle h = blank(JIP_FFS, JIP_DOUBLE_DENSITY), closed = JIP_CLOSED;
    size_t length, count = 77;
    uint8_t *copy = image_of(&h, &length);
    EXPECT("changed", jip_copy_changed(&h, copy, length, numbers, 1760, &count) == JIP_DONE && count == 0);
    EXPECT("changed", jip_copy_changed(&h, copy, length, NULL, 0, &count) == JIP_DONE && count == 0);
    make_directory(&h, "d");
    count = 77;
    numbers[0] = numbers[3] = 5;
    EXPECT("no room", jip_copy_changed(&h, copy, length, numbers, 2, &count) == JIP_WRONG_ARGUMENT && count == 77 && numbers[0] == 5);
    EXPECT("changed", jip_copy_changed(&h, copy, length, numbers, 3, &count) == JIP_DONE && count == 3);
    EXPECT("changed", numbers[0] == 2 && numbers[1] == 880 && numbers[2] == 881 && numbers[3] == 5);
    uint8_t *image = image_of(&h, &length);
    EXPECT("copy", memcmp(copy, image, length) == 0);
    EXPECT("changed", jip_copy_changed(&h, copy, length, numbers, 1760, &count) == JIP_DONE && count == 0);
    EXPECT("length", jip_copy_changed(&h, copy, length - 512, numbers, 1760, &count) == JIP_WRONG_ARGUMENT);
    EXPECT("null", jip_copy_changed(&h, copy, length, NULL, 1, &count) == JIP_WRONG_ARGUMENT);
    EXPECT("null", jip_copy_changed(&h, NULL, length, numbers, 1760, &count) == JIP_WRONG_ARGUMENT);
    EXPECT("null", jip_copy_changed(&h, copy, length, numbers, 1760, NULL) == JIP_WRONG_ARGUMENT);
    EXPECT("null", jip_copy_changed(NULL, copy, length, numbers, 1760, &count) == JIP_WRONG_ARGUMENT);
    EXPECT("too long", jip_copy_changed(&h, copy, length, numbers, SIZE_MAX / 4, &count) == JIP_WRONG_ARGUMENT);
    EXPECT("closed", jip_copy_changed(&closed, copy, length, numbers, 1760, &count) == JIP_WRONG_ARGUMENT && count == 0);
    free(copy);
    free(image);
    jip_close(&h);
}

int main(void) {
    wrong_arguments();
    places();
    constant_bytes();
    images();
    changes();
    changed_blocks();
    return summed_up();
}
