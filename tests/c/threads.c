/* Tests two handles on two threads, each opened, used and closed on its thread; and one handle that changes threads. */
#include "asking.h"
#include <pthread.h>

struct work {
    jip_handle handle;
    int32_t format;
    int faults;
    uint32_t used;
};

static int32_t ask(struct work *work, const jip_packet *packet, jip_answer *answer) {
    if (jip_serve(&work->handle, packet, answer) != JIP_DONE) work->faults++;
    return answer->res2;
}

/* Makes 200 files on a handle of this thread, and checks each. */
static void *serve_files(void *at) {
    struct work *work = at;
    jip_packet packet;
    jip_answer answer;
    if (jip_blank(work->format, JIP_DOUBLE_DENSITY, "Work", 4, now, &work->handle) != JIP_DONE) work->faults++;
    for (int k = 0; k < 200; k++) {
        char name[16], bytes[16] = {0}, into[16];
        snprintf(name, sizeof name, "%d", k);
        snprintf(bytes, sizeof bytes, "%d", 3 * k);
        jip_findupdate(&packet, now, 0, name);
        if (ask(work, &packet, &answer) != 0) work->faults++;
        uint32_t file = answer.handle;
        jip_write(&packet, now, file, bytes, sizeof bytes);
        if (ask(work, &packet, &answer) != 0) work->faults++;
        jip_seek(&packet, now, file, 0, JIP_OFFSET_BEGINNING);
        if (ask(work, &packet, &answer) != 0) work->faults++;
        memset(into, 0, sizeof into);
        jip_read(&packet, now, file, into, sizeof into);
        if (ask(work, &packet, &answer) != 0 || memcmp(into, bytes, sizeof into) != 0) work->faults++;
        jip_end(&packet, now, file);
        if (ask(work, &packet, &answer) != 0) work->faults++;
    }
    jip_disk_info(&packet, now);
    if (ask(work, &packet, &answer) != 0) work->faults++;
    work->used = answer.disk.used;
    if (jip_close(&work->handle) != JIP_DONE) work->faults++;
    return NULL;
}

/* Makes a directory with a handle that another thread opened. */
static void *make_one(void *at) {
    struct work *work = at;
    jip_packet packet;
    jip_answer answer;
    char name[16];
    snprintf(name, sizeof name, "d%u", (unsigned)work->used++);
    jip_create_dir(&packet, now, 0, name);
    if (ask(work, &packet, &answer) != 0) work->faults++;
    return NULL;
}

static void handed_on(void) {
    struct work work = {blank(JIP_FFS, JIP_DOUBLE_DENSITY), JIP_FFS, 0, 0};
    for (int k = 0; k < 4; k++) {
        pthread_t thread;
        EXPECT("handed on", pthread_create(&thread, NULL, make_one, &work) == 0 && pthread_join(thread, NULL) == 0);
    }
    EXPECT("handed on", work.faults == 0 && disk_info(&work.handle).disk.used == 2 + 4);
    EXPECT("handed on", jip_close(&work.handle) == JIP_DONE);
}

int main(void) {
    struct work works[2] = {{JIP_CLOSED, JIP_OFS, 0, 0}, {JIP_CLOSED, JIP_FFS, 0, 0}};
    pthread_t threads[2];
    for (int k = 0; k < 2; k++) EXPECT("started", pthread_create(&threads[k], NULL, serve_files, &works[k]) == 0);
    for (int k = 0; k < 2; k++) EXPECT("joined", pthread_join(threads[k], NULL) == 0);
    for (int k = 0; k < 2; k++) {
        EXPECT("served", works[k].faults == 0);
        EXPECT("used", works[k].used == 2 + 2 * 200);
        EXPECT("closed", works[k].handle.behind == NULL);
    }
    handed_on();
    return summed_up();
}
