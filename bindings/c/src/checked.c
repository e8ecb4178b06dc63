/* The checked functions of the header. No proof covers the pointers and lengths of a C program, so each function checks
 * them. It then calls the proved function of the same name, `jip_lib_..`. */
#include "checks.h"

/* The proved functions. They rely on item 1 of the header for every pointer and length. */
int32_t jip_lib_open(const uint8_t *bytes, size_t length, jip_handle *handle, jip_fault *fault);
int32_t jip_lib_open_read_only(const uint8_t *bytes, size_t length, jip_handle *handle, jip_fault *fault);
int32_t jip_lib_blank(int32_t format, uint32_t blocks, const uint8_t *name, size_t length, const jip_date *moment, jip_handle *handle);
int32_t jip_lib_close(jip_handle *handle);
int32_t jip_lib_serve(jip_handle *handle, const jip_packet *packet, const uint8_t *path, size_t path_length, const uint8_t *text,
                      size_t text_length, const uint8_t *bytes, size_t bytes_length, uint8_t *buffer, size_t buffer_length,
                      jip_answer *answer);
size_t jip_lib_image_length(jip_handle *handle);
int32_t jip_lib_copy_image(jip_handle *handle, uint8_t *to, size_t length);
uint64_t jip_lib_changes(jip_handle *handle);
int32_t jip_lib_copy_changed(jip_handle *handle, uint8_t *copy, size_t length, uint32_t *numbers, size_t room, size_t *count);

/* Whether a packet, its texts and its buffer can exist. */
static int may_be_packet(const jip_packet *packet) {
    return may_stand(packet, _Alignof(jip_packet)) && may_hold(packet->path, packet->path_length) &&
           may_hold(packet->text, packet->text_length) && may_hold(packet->buffer, packet->buffer_length);
}

/* Whether output bytes do not overlap the packet and its texts. */
static int apart_from_packet(const void *at, size_t length, const jip_packet *packet) {
    return apart(at, length, packet, sizeof *packet) && apart(at, length, packet->path, packet->path_length) &&
           apart(at, length, packet->text, packet->text_length);
}

/* Whether the outputs of jip_serve do not overlap each other or its inputs. */
static int may_serve(const jip_handle *handle, const jip_packet *packet, const jip_answer *answer) {
    const int fills = packet->action == JIP_ACTION_READ;
    return may_be_handle(handle, packet->buffer, packet->buffer_length) && apart_from_packet(handle, sizeof *handle, packet) &&
           may_stand(answer, _Alignof(jip_answer)) && apart(answer, sizeof *answer, handle, sizeof *handle) &&
           apart(answer, sizeof *answer, packet->buffer, packet->buffer_length) &&
           apart_from_packet(answer, sizeof *answer, packet) &&
           (!fills || apart_from_packet(packet->buffer, packet->buffer_length, packet));
}

/* One of the two proved functions that open a handle on bytes. */
typedef int32_t opener(const uint8_t *bytes, size_t length, jip_handle *handle, jip_fault *fault);

static int32_t open_by(opener *open, const void *bytes, size_t length, jip_handle *handle, jip_fault *fault) {
    const uint8_t none = 0;
    jip_fault told = {0, 0};
    int32_t status;
    if (!may_hold(bytes, length) || !may_be_handle(handle, bytes, length)) return JIP_WRONG_ARGUMENT;
    if (!may_stand(fault, _Alignof(jip_fault)) || !may_be_handle(handle, fault, sizeof *fault) ||
        !apart(fault, sizeof *fault, bytes, length))
        return JIP_WRONG_ARGUMENT;
    status = open(length == 0 ? &none : (const uint8_t *)bytes, length, handle, &told);
    if (status == JIP_NOT_AN_IMAGE) *fault = told;
    return status;
}

int32_t jip_open(const void *bytes, size_t length, jip_handle *handle, jip_fault *fault) {
    return open_by(jip_lib_open, bytes, length, handle, fault);
}

int32_t jip_open_read_only(const void *bytes, size_t length, jip_handle *handle, jip_fault *fault) {
    return open_by(jip_lib_open_read_only, bytes, length, handle, fault);
}

int32_t jip_blank(int32_t format, uint32_t blocks, const void *name, size_t length, jip_date moment, jip_handle *handle) {
    const uint8_t none = 0;
    if (!may_hold(name, length) || !may_be_handle(handle, name, length)) return JIP_WRONG_ARGUMENT;
    return jip_lib_blank(format, blocks, length == 0 ? &none : (const uint8_t *)name, length, &moment, handle);
}

int32_t jip_close(jip_handle *handle) {
    return may_be_handle(handle, NULL, 0) ? jip_lib_close(handle) : (int32_t)JIP_WRONG_ARGUMENT;
}

int32_t jip_serve(jip_handle *handle, const jip_packet *packet, jip_answer *answer) {
    const uint8_t no_path = 0, no_text = 0, no_bytes = 0;
    uint8_t no_buffer = 0;
    jip_answer told;
    size_t read, filled;
    int32_t status;
    if (!may_be_packet(packet) || !may_serve(handle, packet, answer)) return JIP_WRONG_ARGUMENT;
    memset(&told, 0, sizeof told);
    filled = packet->action == JIP_ACTION_READ ? packet->buffer_length : 0;
    read = packet->action == JIP_ACTION_READ ? 0 : packet->buffer_length;
    status = jip_lib_serve(handle, packet, packet->path_length == 0 ? &no_path : packet->path, packet->path_length,
                           packet->text_length == 0 ? &no_text : packet->text, packet->text_length,
                           read == 0 ? &no_bytes : packet->buffer, read, filled == 0 ? &no_buffer : packet->buffer, filled, &told);
    if (status == JIP_DONE) *answer = told;
    return status;
}

size_t jip_image_length(jip_handle *handle) {
    return may_be_handle(handle, NULL, 0) ? jip_lib_image_length(handle) : 0;
}

int32_t jip_copy_image(jip_handle *handle, void *to, size_t length) {
    uint8_t none = 0;
    if (!may_hold(to, length) || !may_be_handle(handle, to, length)) return JIP_WRONG_ARGUMENT;
    return jip_lib_copy_image(handle, length == 0 ? &none : (uint8_t *)to, length);
}

uint64_t jip_changes(jip_handle *handle) {
    return may_be_handle(handle, NULL, 0) ? jip_lib_changes(handle) : 0;
}

int32_t jip_copy_changed(jip_handle *handle, void *copy, size_t length, uint32_t *numbers, size_t room, size_t *count) {
    uint8_t none = 0;
    uint32_t no_number = 0;
    size_t told = 0;
    int32_t status;
    if (!may_hold(copy, length) || !may_be_handle(handle, copy, length)) return JIP_WRONG_ARGUMENT;
    if (room > (size_t)PTRDIFF_MAX / sizeof *numbers || !may_hold(numbers, room * sizeof *numbers)) return JIP_WRONG_ARGUMENT;
    if (room != 0 && !may_stand(numbers, _Alignof(uint32_t))) return JIP_WRONG_ARGUMENT;
    if (!may_be_handle(handle, numbers, room * sizeof *numbers)) return JIP_WRONG_ARGUMENT;
    if (!apart(copy, length, numbers, room * sizeof *numbers)) return JIP_WRONG_ARGUMENT;
    if (!may_stand(count, _Alignof(size_t)) || !may_be_handle(handle, count, sizeof *count)) return JIP_WRONG_ARGUMENT;
    if (!apart(count, sizeof *count, copy, length) || !apart(count, sizeof *count, numbers, room * sizeof *numbers))
        return JIP_WRONG_ARGUMENT;
    status = jip_lib_copy_changed(handle, length == 0 ? &none : (uint8_t *)copy, length, room == 0 ? &no_number : numbers, room, &told);
    if (status == JIP_DONE) *count = told;
    return status;
}
