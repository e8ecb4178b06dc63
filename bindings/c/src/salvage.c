/* The checked functions for salvage. Each checks its pointers and lengths, and then calls the proved function of the same name,
 * `jip_lib_..`. The path of an entry is put together here, from names and positions. */
#include "checks.h"

#include <stdlib.h>

/* The proved functions. They rely on item 1 of the header for every pointer and length. */
int32_t jip_lib_salvage_open(const uint8_t *bytes, size_t length, jip_salvage *salvage);
int32_t jip_lib_salvage_close(jip_salvage *salvage);
size_t jip_lib_salvage_count(jip_salvage *salvage);
int32_t jip_lib_salvage_entry(jip_salvage *salvage, size_t place, jip_salvaged *entry);

int32_t jip_lib_salvage_blocks(jip_salvage *salvage, jip_told *told, size_t room, size_t *count);
int32_t jip_lib_salvage_trusts_bitmap(jip_salvage *salvage);

/* A proved function that tells a text of an entry. */
typedef int32_t teller(jip_salvage *salvage, size_t place, uint8_t *to, size_t room, size_t *length);

teller jip_lib_salvage_name, jip_lib_salvage_read;

/* The directory of entries that no directory of the tree has. */
static const char lost_and_found[] = "lost+found";

/* Whether a pointer can be that of a salvage, which does not overlap these bytes. */
static int may_be_salvage(const jip_salvage *salvage, const void *bytes, size_t length) {
    return may_stand(salvage, _Alignof(jip_salvage)) && apart(salvage, sizeof *salvage, bytes, length);
}

/* Whether a text and the number of its bytes can be told. */
static int may_tell(const jip_salvage *salvage, const void *to, size_t room, const size_t *length) {
    return may_hold(to, room) && may_stand(length, _Alignof(size_t)) && apart(length, sizeof *length, to, room) &&
           may_be_salvage(salvage, to, room) && may_be_salvage(salvage, length, sizeof *length);
}

int32_t jip_salvage_open(const void *bytes, size_t length, jip_salvage *salvage) {
    const uint8_t none = 0;
    if (!may_hold(bytes, length) || !may_be_salvage(salvage, bytes, length)) return JIP_WRONG_ARGUMENT;
    return jip_lib_salvage_open(length == 0 ? &none : (const uint8_t *)bytes, length, salvage);
}

int32_t jip_salvage_close(jip_salvage *salvage) {
    return may_be_salvage(salvage, NULL, 0) ? jip_lib_salvage_close(salvage) : (int32_t)JIP_WRONG_ARGUMENT;
}

size_t jip_salvage_count(jip_salvage *salvage) { return may_be_salvage(salvage, NULL, 0) ? jip_lib_salvage_count(salvage) : 0; }

int32_t jip_salvage_entry(jip_salvage *salvage, size_t place, jip_salvaged *entry) {
    jip_salvaged told;
    int32_t status;
    if (!may_stand(entry, _Alignof(jip_salvaged)) || !may_be_salvage(salvage, entry, sizeof *entry)) return JIP_WRONG_ARGUMENT;
    memset(&told, 0, sizeof told);
    status = jip_lib_salvage_entry(salvage, place, &told);
    if (status == JIP_DONE) *entry = told;
    return status;
}

static int32_t tell(teller *proved, jip_salvage *salvage, size_t place, void *to, size_t room, size_t *length) {
    uint8_t no_room = 0;
    size_t told = 0;
    int32_t status;
    if (!may_tell(salvage, to, room, length)) return JIP_WRONG_ARGUMENT;
    status = proved(salvage, place, room == 0 ? &no_room : (uint8_t *)to, room, &told);
    if (status == JIP_DONE) *length = told;
    return status;
}

int32_t jip_salvage_name(jip_salvage *salvage, size_t place, void *name, size_t room, size_t *length) {
    return tell(jip_lib_salvage_name, salvage, place, name, room, length);
}

int32_t jip_salvage_read(jip_salvage *salvage, size_t place, void *to, size_t room, size_t *length) {
    return tell(jip_lib_salvage_read, salvage, place, to, room, length);
}

int32_t jip_salvage_blocks(jip_salvage *salvage, jip_told *told, size_t room, size_t *count) {
    jip_told no_block = {0, 0, 0, 0, 0};
    size_t number = 0;
    int32_t status;
    if (!may_be_list(told, room, sizeof *told, count)) return JIP_WRONG_ARGUMENT;
    if (!may_be_salvage(salvage, told, room * sizeof *told) || !may_be_salvage(salvage, count, sizeof *count)) return JIP_WRONG_ARGUMENT;
    status = jip_lib_salvage_blocks(salvage, room == 0 ? &no_block : told, room, &number);
    if (status == JIP_DONE) *count = number;
    return status;
}

int32_t jip_salvage_trusts_bitmap(jip_salvage *salvage) {
    return may_be_salvage(salvage, NULL, 0) ? jip_lib_salvage_trusts_bitmap(salvage) : 0;
}

/* A path that is put together from its end. */
struct joined {
    uint8_t *bytes;
    size_t room, length;
};

/* Puts a slash before the path, unless it is empty, and makes room for a name before it. Returns the place of the name, or NULL if
   memory runs out. */
static uint8_t *before(struct joined *path, size_t name_length) {
    const size_t slash = path->length > 0, length = name_length + slash + path->length;
    if (length > path->room) {
        uint8_t *const grown = malloc(2 * length);
        if (grown == NULL) return NULL;
        if (path->length > 0) memcpy(grown + 2 * length - path->length, path->bytes + path->room - path->length, path->length);
        free(path->bytes);
        path->bytes = grown;
        path->room = 2 * length;
    }
    if (slash) path->bytes[path->room - path->length - 1] = '/';
    path->length = length;
    return path->bytes + path->room - length;
}

/* Puts the name of an entry before the path. */
static int32_t put_name(jip_salvage *salvage, size_t place, struct joined *path) {
    size_t length = 0;
    uint8_t *at;
    int32_t status = jip_salvage_name(salvage, place, NULL, 0, &length);
    if (status != JIP_DONE) return status;
    at = before(path, length);
    return at == NULL ? (int32_t)JIP_NO_MEMORY : jip_salvage_name(salvage, place, at, length, &length);
}

/* Puts the names of an entry and of the directories above it together. */
static int32_t join(jip_salvage *salvage, size_t place, struct joined *path) {
    jip_salvaged entry;
    int32_t status = jip_salvage_entry(salvage, place, &entry);
    const uint32_t is_found = status == JIP_DONE ? entry.is_found : 0;
    while (status == JIP_DONE) {
        status = put_name(salvage, place, path);
        /* A directory stands before its entries, so this ends. */
        if (status != JIP_DONE || entry.directory >= place) break;
        place = entry.directory;
        status = jip_salvage_entry(salvage, place, &entry);
    }
    if (status == JIP_DONE && is_found) {
        uint8_t *const at = before(path, sizeof lost_and_found - 1);
        if (at == NULL) return JIP_NO_MEMORY;
        memcpy(at, lost_and_found, sizeof lost_and_found - 1);
    }
    return status;
}

int32_t jip_salvage_path(jip_salvage *salvage, size_t place, void *path, size_t room, size_t *length) {
    struct joined joined = {NULL, 0, 0};
    int32_t status;
    if (!may_tell(salvage, path, room, length)) return JIP_WRONG_ARGUMENT;
    status = join(salvage, place, &joined);
    if (status == JIP_DONE) {
        *length = joined.length;
        if (joined.length <= room) memcpy(path, joined.bytes + joined.room - joined.length, joined.length);
    }
    free(joined.bytes);
    return status;
}
