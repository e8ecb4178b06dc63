/* Functions that the C files of the library share. They send packets, and return one number for status and error. */
#ifndef JIPONUWHA_ASKING_H
#define JIPONUWHA_ASKING_H

#include <jiponuwha.h>

/* The time stamp of packets that change nothing. */
static const jip_date no_time = {0, 0, 0};

/* Sends a packet. Returns JIP_DONE, another jip_status, or the jip_error that refuses it. */
static inline int32_t ask(jip_handle *handle, const jip_packet *packet, jip_answer *answer) {
    const int32_t status = jip_serve(handle, packet, answer);
    return status == JIP_DONE ? answer->res2 : status;
}

/* Gets a shared lock on an object. The caller frees it. A refusal leaves `*lock` unchanged. */
static inline int32_t lock_object(jip_handle *handle, uint32_t from, const char *path, size_t length, uint32_t *lock) {
    jip_packet packet;
    jip_answer answer;
    int32_t result;
    jip_begin(&packet, JIP_ACTION_LOCATE_OBJECT, no_time);
    packet.lock = from;
    packet.path = (const uint8_t *)path;
    packet.path_length = length;
    packet.mode = JIP_SHARED_LOCK;
    result = ask(handle, &packet, &answer);
    if (result == JIP_DONE) *lock = (uint32_t)answer.res1;
    return result;
}

/* Frees a lock; lock 0 needs no freeing. Returns the earlier result `before`, or that of FREE_LOCK if it was JIP_DONE. */
static inline int32_t unlock(jip_handle *handle, uint32_t lock, int32_t before) {
    jip_packet packet;
    jip_answer answer;
    int32_t result;
    if (lock == 0) return before;
    jip_free_lock(&packet, no_time, lock);
    result = ask(handle, &packet, &answer);
    return before == JIP_DONE ? result : before;
}

/* A short path: a lock, and the rest of the path from its object. */
struct place {
    uint32_t lock;
    const char *path;
    size_t length;
};

/* Splits a path into a short one. The caller frees its lock. */
static inline int32_t reach(jip_handle *handle, const char *path, size_t path_length, struct place *at) {
    return jip_reach(handle, path, path_length, &at->lock, &at->path, &at->length);
}

/* A packet about the object at a place. */
static inline void begin_at(jip_packet *packet, int32_t action, jip_date moment, const struct place *at) {
    jip_begin(packet, action, moment);
    packet->lock = at->lock;
    packet->path = (const uint8_t *)at->path;
    packet->path_length = at->length;
}

/* Serves a packet about the object at a place. */
static inline int32_t ask_at(jip_handle *handle, int32_t action, jip_date moment, const struct place *at, jip_answer *answer) {
    jip_packet packet;
    begin_at(&packet, action, moment, at);
    return ask(handle, &packet, answer);
}

#endif
