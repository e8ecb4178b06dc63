/* Makes, deletes, moves, describes and lists files and directories by their paths, by packets. */
#include "asking.h"
#include "checks.h"

/* Whether a path can exist, and does not overlap the handle. */
static int may_be_path(const jip_handle *handle, const char *path, size_t path_length) {
    return may_hold(path, path_length) && may_be_handle(handle, path, path_length);
}

/* Gets a shared lock on the object at a path. The caller frees it. */
static int32_t lock_along(jip_handle *handle, const char *path, size_t path_length, uint32_t *lock) {
    struct place at;
    int32_t result = reach(handle, path, path_length, &at);
    if (result != JIP_DONE) return result;
    result = lock_object(handle, at.lock, at.path, at.length, lock);
    return unlock(handle, at.lock, result);
}

/* Describes the object of a lock. */
static int32_t examine(jip_handle *handle, uint32_t lock, jip_entry *entry) {
    jip_packet packet;
    jip_answer answer;
    int32_t result;
    jip_examine_object(&packet, no_time, lock);
    result = ask(handle, &packet, &answer);
    if (result == JIP_DONE) *entry = answer.entry;
    return result;
}

int32_t jip_make_directory(jip_handle *handle, jip_date moment, const char *path, size_t path_length) {
    struct place at;
    jip_answer answer;
    int32_t result = reach(handle, path, path_length, &at);
    if (result != JIP_DONE) return result;
    result = ask_at(handle, JIP_ACTION_CREATE_DIR, moment, &at, &answer);
    if (result == JIP_DONE) result = unlock(handle, (uint32_t)answer.res1, JIP_DONE);
    return unlock(handle, at.lock, result);
}

int32_t jip_delete(jip_handle *handle, jip_date moment, const char *path, size_t path_length) {
    struct place at;
    jip_answer answer;
    int32_t result = reach(handle, path, path_length, &at);
    if (result != JIP_DONE) return result;
    result = ask_at(handle, JIP_ACTION_DELETE_OBJECT, moment, &at, &answer);
    return unlock(handle, at.lock, result);
}

int32_t jip_rename(jip_handle *handle, jip_date moment, const char *path, size_t path_length, const char *to, size_t to_length) {
    struct place at, new_place;
    jip_packet packet;
    jip_answer answer;
    int32_t result = reach(handle, path, path_length, &at);
    if (result != JIP_DONE) return result;
    result = reach(handle, to, to_length, &new_place);
    if (result == JIP_DONE) {
        begin_at(&packet, JIP_ACTION_RENAME_OBJECT, moment, &at);
        packet.to_lock = new_place.lock;
        packet.text = (const uint8_t *)new_place.path;
        packet.text_length = new_place.length;
        result = unlock(handle, new_place.lock, ask(handle, &packet, &answer));
    }
    return unlock(handle, at.lock, result);
}

int32_t jip_stat(jip_handle *handle, const char *path, size_t path_length, jip_entry *entry) {
    uint32_t lock = 0;
    int32_t result;
    path_length = length_of(path, path_length);
    if (!may_be_path(handle, path, path_length) || !may_stand(entry, _Alignof(jip_entry))) return JIP_WRONG_ARGUMENT;
    if (!may_be_handle(handle, entry, sizeof *entry) || !apart(entry, sizeof *entry, path, path_length)) return JIP_WRONG_ARGUMENT;
    result = lock_along(handle, path, path_length, &lock);
    if (result != JIP_DONE) return result;
    result = examine(handle, lock, entry);
    return unlock(handle, lock, result);
}

/* Lists the entries of the directory of a lock: as many as there is room for, and how many there are. */
static int32_t list(jip_handle *handle, uint32_t lock, jip_entry *entries, size_t room, size_t *count) {
    jip_packet packet;
    jip_answer answer;
    jip_entry last;
    size_t found = 0;
    int32_t result = examine(handle, lock, &last);
    while (result == JIP_DONE) {
        jip_examine_next(&packet, no_time, lock, last.key);
        result = ask(handle, &packet, &answer);
        if (result != JIP_DONE) break;
        last = answer.entry;
        if (found < room) entries[found] = last;
        found++;
    }
    if (result != JIP_ERROR_NO_MORE_ENTRIES) return result;
    *count = found;
    return JIP_DONE;
}

int32_t jip_list(jip_handle *handle, const char *path, size_t path_length, jip_entry *entries, size_t room, size_t *count) {
    const size_t size = room * sizeof *entries;
    uint32_t lock = 0;
    int32_t result;
    path_length = length_of(path, path_length);
    if (room > (size_t)PTRDIFF_MAX / sizeof *entries || !may_hold(entries, size)) return JIP_WRONG_ARGUMENT;
    if ((room != 0 && !may_stand(entries, _Alignof(jip_entry))) || !may_stand(count, _Alignof(size_t))) return JIP_WRONG_ARGUMENT;
    if (!may_be_path(handle, path, path_length) || !may_be_handle(handle, entries, size)) return JIP_WRONG_ARGUMENT;
    if (!may_be_handle(handle, count, sizeof *count) || !apart(entries, size, path, path_length)) return JIP_WRONG_ARGUMENT;
    if (!apart(count, sizeof *count, path, path_length) || !apart(count, sizeof *count, entries, size)) return JIP_WRONG_ARGUMENT;
    result = lock_along(handle, path, path_length, &lock);
    if (result != JIP_DONE) return result;
    result = list(handle, lock, entries, room, count);
    return unlock(handle, lock, result);
}
