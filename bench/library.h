/* What the benchmarks over the library for C share. */
#ifndef LIBRARY_H
#define LIBRARY_H

#include <jiponuwha.h>
#include <stdio.h>
#include <stdlib.h>
#include <time.h>

/* The time of all that is done. */
static const jip_date moment = {0, 0, 0};

static void fail(const char *what) {
    fprintf(stderr, "%s\n", what);
    exit(1);
}

/* Serves a packet, which is to succeed. */
static jip_answer serve(jip_handle *handle, const jip_packet *packet) {
    jip_answer answer;
    if (jip_serve(handle, packet, &answer) != JIP_DONE || answer.res2 != 0) fail("a packet is refused");
    return answer;
}

/* Makes a directory of the root. */
static inline void make_directory(jip_handle *handle, const char *name) {
    jip_packet packet;
    jip_create_dir(&packet, moment, 0, name);
    jip_free_lock(&packet, moment, (uint32_t)serve(handle, &packet).res1);
    serve(handle, &packet);
}

static double microseconds(void) {
    struct timespec time;
    timespec_get(&time, TIME_UTC);
    return (double)time.tv_sec * 1e6 + (double)time.tv_nsec / 1e3;
}

#endif
