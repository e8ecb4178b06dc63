/* Reads and writes whole files, by packets. */
#include "asking.h"
#include "checks.h"

#include <stdbool.h>
#include <stdlib.h>

/* The new content of a file, and the time stamp of the change. */
struct content {
    jip_date moment;
    const void *bytes;
    size_t length;
};

/* Returns the length of the longest prefix of a long path that fits into a packet. It ends before a `/` that follows a
   name. Returns 0 if there is none. */
static size_t step_of(const char *path) {
    size_t step = JIP_PATH_BYTES;
    while (step > 0 && (path[step] != '/' || path[step - 1] == '/' || path[step - 1] == ':')) step--;
    return step;
}

/* Whether an output does not overlap a handle and a path, and is aligned. */
static int may_fill(const void *at, size_t size, size_t alignment, const jip_handle *handle, const char *path, size_t path_length) {
    return may_stand(at, alignment) && may_be_handle(handle, at, size) && apart(at, size, path, path_length);
}

int32_t jip_reach(jip_handle *handle, const char *path, size_t path_length, uint32_t *lock, const char **rest, size_t *rest_length) {
    uint32_t held = 0, next = 0;
    int32_t result = JIP_DONE;
    path_length = length_of(path, path_length);
    if (!may_hold(path, path_length) || !may_be_handle(handle, path, path_length)) return JIP_WRONG_ARGUMENT;
    if (!may_fill(lock, sizeof *lock, _Alignof(uint32_t), handle, path, path_length) ||
        !may_fill(rest, sizeof *rest, _Alignof(const char *), handle, path, path_length) ||
        !may_fill(rest_length, sizeof *rest_length, _Alignof(size_t), handle, path, path_length))
        return JIP_WRONG_ARGUMENT;
    if (!apart(lock, sizeof *lock, rest, sizeof *rest) || !apart(lock, sizeof *lock, rest_length, sizeof *rest_length) ||
        !apart(rest, sizeof *rest, rest_length, sizeof *rest_length))
        return JIP_WRONG_ARGUMENT;
    while (result == JIP_DONE && path_length > JIP_PATH_BYTES) {
        const size_t step = step_of(path);
        result = step == 0 ? JIP_ERROR_INVALID_COMPONENT_NAME : lock_object(handle, held, path, step, &next);
        result = unlock(handle, held, result);
        held = result == JIP_DONE ? next : 0;
        path += step + 1;
        path_length -= step + 1;
        /* In the rest, a `:` would restart at the root. */
        if (result == JIP_DONE && memchr(path, ':', path_length) != NULL) result = unlock(handle, held, JIP_ERROR_INVALID_COMPONENT_NAME);
    }
    if (result != JIP_DONE) return result;
    *lock = held;
    *rest = path;
    *rest_length = path_length;
    return JIP_DONE;
}

/* Opens the file at a place by FINDINPUT, FINDOUTPUT or FINDUPDATE. */
static int32_t open_file(jip_handle *handle, int32_t action, jip_date moment, const struct place *at, uint32_t *file) {
    jip_answer answer;
    const int32_t result = ask_at(handle, action, moment, at, &answer);
    if (result == JIP_DONE) *file = answer.handle;
    return result;
}

/* Closes a file handle. Returns the earlier result `before`, or that of END if it was JIP_DONE. */
static int32_t end_file(jip_handle *handle, uint32_t file, int32_t before) {
    jip_packet packet;
    jip_answer answer;
    int32_t result;
    jip_end(&packet, no_time, file);
    result = ask(handle, &packet, &answer);
    return before == JIP_DONE ? result : before;
}

/* Measures an open file, and moves its position to the start. */
static int32_t measure(jip_handle *handle, uint32_t file, size_t *size) {
    jip_packet packet;
    jip_answer answer;
    int32_t result;
    jip_seek(&packet, no_time, file, 0, JIP_OFFSET_END);
    result = ask(handle, &packet, &answer);
    if (result != JIP_DONE) return result;
    jip_seek(&packet, no_time, file, 0, JIP_OFFSET_BEGINNING);
    result = ask(handle, &packet, &answer);
    if (result == JIP_DONE) *size = (size_t)answer.res1;
    return result;
}

int32_t jip_read_file(jip_handle *handle, const char *path, size_t path_length, void *to, size_t room, size_t *length) {
    struct place at;
    jip_packet packet;
    jip_answer answer;
    uint32_t file = 0;
    size_t size = 0;
    int32_t result;
    path_length = length_of(path, path_length);
    if (!may_hold(path, path_length) || !may_hold(to, room) || !may_be_handle(handle, to, room) || !apart(to, room, path, path_length))
        return JIP_WRONG_ARGUMENT;
    if (!may_fill(length, sizeof *length, _Alignof(size_t), handle, path, path_length) || !apart(length, sizeof *length, to, room))
        return JIP_WRONG_ARGUMENT;
    result = reach(handle, path, path_length, &at);
    if (result != JIP_DONE) return result;
    result = open_file(handle, JIP_ACTION_FINDINPUT, no_time, &at, &file);
    if (result == JIP_DONE) {
        result = measure(handle, file, &size);
        if (result == JIP_DONE) {
            jip_read(&packet, no_time, file, to, room < size ? room : size);
            result = ask(handle, &packet, &answer);
        }
        result = end_file(handle, file, result);
    }
    result = unlock(handle, at.lock, result);
    if (result == JIP_DONE) *length = size;
    return result;
}

/* Replaces the content of an open file: by one WRITE, which is done whole or not at all, and then by truncating it. */
static int32_t fill(jip_handle *handle, uint32_t file, const struct content *content) {
    jip_packet packet;
    jip_answer answer;
    size_t size = 0;
    int32_t result = measure(handle, file, &size);
    if (result != JIP_DONE) return result;
    jip_write(&packet, content->moment, file, content->bytes, content->length);
    result = ask(handle, &packet, &answer);
    if (result != JIP_DONE || size <= content->length) return result;
    jip_set_file_size(&packet, content->moment, file, (int32_t)content->length, JIP_OFFSET_BEGINNING);
    return ask(handle, &packet, &answer);
}

/* Deletes the file at a place. */
static void delete_at(jip_handle *handle, const struct place *at, jip_date moment) {
    jip_answer answer;
    (void)ask_at(handle, JIP_ACTION_DELETE_OBJECT, moment, at, &answer);
}

/* Writes the file at a place. A new one that cannot be filled is deleted again. */
static int32_t write_at(jip_handle *handle, const struct place *at, const struct content *content) {
    uint32_t file = 0;
    int32_t result = open_file(handle, JIP_ACTION_FINDINPUT, no_time, at, &file);
    const bool is_new = result == JIP_ERROR_OBJECT_NOT_FOUND;
    if (is_new) result = open_file(handle, JIP_ACTION_FINDUPDATE, content->moment, at, &file);
    if (result != JIP_DONE) return result;
    result = end_file(handle, file, fill(handle, file, content));
    if (is_new && result != JIP_DONE) delete_at(handle, at, content->moment);
    return result;
}

/* Writes the file at a path. */
static int32_t write_along(jip_handle *handle, const char *path, size_t path_length, const struct content *content) {
    struct place at;
    const int32_t result = reach(handle, path, path_length, &at);
    return result == JIP_DONE ? unlock(handle, at.lock, write_at(handle, &at, content)) : result;
}

/* Whether a new file of this length certainly fits. A file needs data blocks, a header, and at most as many extension
   blocks as data blocks. On a write-protected disk the first packet that would write is refused, so nothing has to fit. */
static int32_t has_room(jip_handle *handle, size_t length, bool *has) {
    jip_packet packet;
    jip_answer answer;
    int32_t result;
    jip_disk_info(&packet, no_time);
    result = ask(handle, &packet, &answer);
    if (result != JIP_DONE) return result;
    *has = answer.disk.state == JIP_WRITE_PROTECTED ||
           length / answer.disk.bytes_per_block + 1 <= (answer.disk.blocks - answer.disk.used) / 2;
    return JIP_DONE;
}

/* Writes the file to a copy of the volume, to see whether that succeeds. */
static int32_t try_on_copy(jip_handle *handle, const char *path, size_t path_length, const struct content *content) {
    const size_t length = jip_image_length(handle);
    uint8_t *bytes = calloc(length + 1, 1);
    jip_handle copy = JIP_CLOSED;
    jip_fault fault = {JIP_FAULT_NONE, 0};
    int32_t result = bytes == NULL ? (int32_t)JIP_NO_MEMORY : jip_copy_image(handle, bytes, length);
    if (result == JIP_DONE) result = jip_open(bytes, length, &copy, &fault);
    free(bytes);
    if (result == JIP_DONE) result = write_along(&copy, path, path_length, content);
    (void)jip_close(&copy);
    return result;
}

int32_t jip_write_file(jip_handle *handle, jip_date moment, const char *path, size_t path_length, const void *bytes, size_t length) {
    const struct content content = {moment, bytes, length};
    bool has = false;
    int32_t result;
    path_length = length_of(path, path_length);
    if (!may_hold(path, path_length) || !may_be_handle(handle, path, path_length)) return JIP_WRONG_ARGUMENT;
    if (!may_hold(bytes, length) || !may_be_handle(handle, bytes, length)) return JIP_WRONG_ARGUMENT;
    result = has_room(handle, length, &has);
    if (result == JIP_DONE && !has) result = try_on_copy(handle, path, path_length, &content);
    return result == JIP_DONE ? write_along(handle, path, path_length, &content) : result;
}
