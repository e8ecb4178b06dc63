/* Walks all entries of a volume, by packets. */
#include "asking.h"

#include <stdlib.h>

/* A directory on the current path: its lock, the key of its last visited entry, and the length of its path. */
struct level {
    uint32_t lock;
    uint32_t key;
    size_t path_length;
};

struct walk {
    jip_handle *handle;
    struct level *levels; /* from the root down */
    size_t depth, levels_room;
    char *path;
    size_t path_room;
    jip_visitor visitor;
    void *context;
};

/* Grows an array to at least `wanted` elements of a size. Returns its new address, or NULL if memory runs out. */
static void *with_room(void *at, size_t *room, size_t wanted, size_t size) {
    void *grown;
    if (wanted <= *room) return at;
    grown = realloc(at, 2 * wanted * size);
    if (grown != NULL) *room = 2 * wanted;
    return grown;
}

/* Enters a locked directory. If memory runs out, it frees the lock. */
static int32_t enter(struct walk *walk, uint32_t lock, uint32_t key, size_t path_length) {
    struct level *levels = with_room(walk->levels, &walk->levels_room, walk->depth + 1, sizeof *levels);
    if (levels == NULL) return unlock(walk->handle, lock, JIP_NO_MEMORY);
    walk->levels = levels;
    levels[walk->depth++] = (struct level){lock, key, path_length};
    return JIP_DONE;
}

/* Leaves the last directory and frees its lock. Returns the earlier result `before`, or that of FREE_LOCK. */
static int32_t go_up(struct walk *walk, int32_t before) {
    walk->depth--;
    return unlock(walk->handle, walk->levels[walk->depth].lock, before);
}

/* Sets the path to that of an entry of the last directory, followed by a zero byte. */
static int32_t name_entry(struct walk *walk, const jip_entry *entry, size_t *path_length) {
    const size_t above = walk->levels[walk->depth - 1].path_length, begin = above == 0 ? 0 : above + 1;
    char *path;
    *path_length = begin + entry->name_length;
    path = with_room(walk->path, &walk->path_room, *path_length + 1, 1);
    if (path == NULL) return JIP_NO_MEMORY;
    walk->path = path;
    if (begin != 0) path[above] = '/';
    memcpy(path + begin, entry->name, entry->name_length);
    path[*path_length] = 0;
    return JIP_DONE;
}

/* Calls the visitor for an entry of the last directory, and enters the entry if it is a directory. */
static int32_t show(struct walk *walk, const jip_entry *entry) {
    const uint32_t above = walk->levels[walk->depth - 1].lock;
    uint32_t lock = 0;
    size_t path_length = 0;
    int32_t result = name_entry(walk, entry, &path_length);
    if (result == JIP_DONE) result = walk->visitor(walk->context, walk->path, path_length, entry);
    if (result != JIP_DONE || entry->entry_type != JIP_DIRECTORY) return result;
    result = lock_object(walk->handle, above, (const char *)entry->name, entry->name_length, &lock);
    return result == JIP_DONE ? enter(walk, lock, entry->key, path_length) : result;
}

/* Visits the next entry of the last directory, or leaves the directory after its last entry. */
static int32_t go_on(struct walk *walk) {
    struct level *level = &walk->levels[walk->depth - 1];
    jip_packet packet;
    jip_answer answer;
    int32_t result;
    jip_examine_next(&packet, no_time, level->lock, level->key);
    result = ask(walk->handle, &packet, &answer);
    if (result == JIP_ERROR_NO_MORE_ENTRIES) return go_up(walk, JIP_DONE);
    if (result != JIP_DONE) return result;
    level->key = answer.entry.key;
    return show(walk, &answer.entry);
}

int32_t jip_walk(jip_handle *handle, jip_visitor visitor, void *context) {
    struct walk walk = {handle, NULL, 0, 0, NULL, 0, visitor, context};
    jip_packet packet;
    jip_answer answer;
    int32_t result;
    if (visitor == NULL) return JIP_WRONG_ARGUMENT;
    jip_examine_object(&packet, no_time, 0);
    result = ask(handle, &packet, &answer);
    if (result == JIP_DONE) result = enter(&walk, 0, answer.entry.key, 0);
    while (result == JIP_DONE && walk.depth > 0) result = go_on(&walk);
    while (walk.depth > 0) result = go_up(&walk, result);
    free(walk.levels);
    free(walk.path);
    return result;
}
