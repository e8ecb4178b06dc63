/* The checked functions for names, letters, protection bits, notes and dates. Each checks its pointers and lengths, and then
 * calls the proved function of the same name, `jip_lib_..`. */
#include "checks.h"

/* A proved function that converts a text. It relies on item 1 of the header for every pointer and length. */
typedef int32_t converter(const uint8_t *from, size_t from_length, uint8_t *to, size_t room, size_t *length);

converter jip_lib_host_of_name, jip_lib_name_of_host, jip_lib_letters_of_bytes, jip_lib_bytes_of_letters;
int32_t jip_lib_is_name(const uint8_t *name, size_t length);
int32_t jip_lib_letters_of_protection(uint32_t bits, uint8_t *to, size_t room, size_t *length);
int32_t jip_lib_protection_of_letters(const uint8_t *letters, size_t length, uint32_t *bits);
int32_t jip_lib_uaem_line(uint32_t bits, const jip_date *date, const uint8_t *comment, size_t comment_length, uint8_t *to, size_t room,
                          size_t *length);
int32_t jip_lib_read_uaem(const uint8_t *file, size_t file_length, uint32_t *bits, jip_date *date, uint8_t *comment, size_t room,
                          size_t *length);
int32_t jip_lib_text_of_date(const jip_date *date, uint8_t *to, size_t room, size_t *length);
int32_t jip_lib_date_of_text(const uint8_t *text, size_t length, jip_date *date);
int32_t jip_lib_date_of_time(int64_t seconds, uint32_t nanoseconds, jip_date *date);
int32_t jip_lib_time_of_date(const jip_date *date, int64_t *seconds, uint32_t *nanoseconds);

static const uint8_t no_bytes = 0;

/* The bytes of a text, or some pointer for an empty one. */
static const uint8_t *bytes_at(const void *text, size_t length) { return length == 0 ? &no_bytes : (const uint8_t *)text; }

/* Whether a buffer and the number of bytes that it needs can exist. */
static int may_fill(const void *to, size_t room, const size_t *length) {
    return may_hold(to, room) && may_stand(length, _Alignof(size_t)) && apart(length, sizeof *length, to, room);
}

/* Whether bytes can exist, and do not overlap a buffer and the number of bytes that it needs. */
static int may_come_from(const void *from, size_t from_length, const void *to, size_t room, const size_t *length) {
    return may_hold(from, from_length) && apart(from, from_length, to, room) && apart(from, from_length, length, sizeof *length);
}

static int32_t convert(converter *proved, const void *from, size_t from_length, void *to, size_t room, size_t *length) {
    uint8_t no_room = 0;
    size_t told = 0;
    int32_t status;
    if (!may_fill(to, room, length) || !may_come_from(from, from_length, to, room, length)) return JIP_WRONG_ARGUMENT;
    status = proved(bytes_at(from, from_length), from_length, room == 0 ? &no_room : (uint8_t *)to, room, &told);
    if (status == JIP_DONE) *length = told;
    return status;
}

int32_t jip_is_name(const void *name, size_t length) {
    return may_hold(name, length) ? jip_lib_is_name(bytes_at(name, length), length) : 0;
}

int32_t jip_host_of_name(const void *name, size_t name_length, char *to, size_t room, size_t *length) {
    return convert(jip_lib_host_of_name, name, name_length, to, room, length);
}

int32_t jip_name_of_host(const char *host, size_t host_length, void *to, size_t room, size_t *length) {
    return convert(jip_lib_name_of_host, host, host_length, to, room, length);
}

int32_t jip_letters_of_bytes(const void *bytes, size_t bytes_length, char *to, size_t room, size_t *length) {
    return convert(jip_lib_letters_of_bytes, bytes, bytes_length, to, room, length);
}

int32_t jip_bytes_of_letters(const char *letters, size_t letters_length, void *to, size_t room, size_t *length) {
    return convert(jip_lib_bytes_of_letters, letters, letters_length, to, room, length);
}

int32_t jip_letters_of_protection(uint32_t bits, char *to, size_t room, size_t *length) {
    uint8_t no_room = 0;
    size_t told = 0;
    int32_t status;
    if (!may_fill(to, room, length)) return JIP_WRONG_ARGUMENT;
    status = jip_lib_letters_of_protection(bits, room == 0 ? &no_room : (uint8_t *)to, room, &told);
    if (status == JIP_DONE) *length = told;
    return status;
}

int32_t jip_protection_of_letters(const char *letters, size_t length, uint32_t *bits) {
    uint32_t told = 0;
    int32_t status;
    if (!may_hold(letters, length) || !may_stand(bits, _Alignof(uint32_t))) return JIP_WRONG_ARGUMENT;
    if (!apart(bits, sizeof *bits, letters, length)) return JIP_WRONG_ARGUMENT;
    status = jip_lib_protection_of_letters(bytes_at(letters, length), length, &told);
    if (status == JIP_DONE) *bits = told;
    return status;
}

int32_t jip_uaem_line(uint32_t bits, jip_date date, const void *comment, size_t comment_length, char *to, size_t room, size_t *length) {
    uint8_t no_room = 0;
    size_t told = 0;
    int32_t status;
    if (!may_fill(to, room, length) || !may_come_from(comment, comment_length, to, room, length)) return JIP_WRONG_ARGUMENT;
    status = jip_lib_uaem_line(bits, &date, bytes_at(comment, comment_length), comment_length, room == 0 ? &no_room : (uint8_t *)to, room,
                               &told);
    if (status == JIP_DONE) *length = told;
    return status;
}

int32_t jip_read_uaem(const void *file, size_t file_length, jip_note *note) {
    jip_note told;
    size_t comment_length = 0;
    int32_t status;
    if (!may_hold(file, file_length) || !may_stand(note, _Alignof(jip_note))) return JIP_WRONG_ARGUMENT;
    if (!apart(note, sizeof *note, file, file_length)) return JIP_WRONG_ARGUMENT;
    memset(&told, 0, sizeof told);
    status = jip_lib_read_uaem(bytes_at(file, file_length), file_length, &told.bits, &told.date, told.comment, sizeof told.comment,
                               &comment_length);
    if (status != JIP_DONE) return status;
    told.comment_length = (uint32_t)comment_length;
    *note = told;
    return status;
}

int32_t jip_text_of_date(jip_date date, char *to, size_t room, size_t *length) {
    uint8_t no_room = 0;
    size_t told = 0;
    int32_t status;
    if (!may_fill(to, room, length)) return JIP_WRONG_ARGUMENT;
    status = jip_lib_text_of_date(&date, room == 0 ? &no_room : (uint8_t *)to, room, &told);
    if (status == JIP_DONE) *length = told;
    return status;
}

int32_t jip_date_of_text(const char *text, size_t length, jip_date *date) {
    jip_date told = {0, 0, 0};
    int32_t status;
    if (!may_hold(text, length) || !may_stand(date, _Alignof(jip_date))) return JIP_WRONG_ARGUMENT;
    if (!apart(date, sizeof *date, text, length)) return JIP_WRONG_ARGUMENT;
    status = jip_lib_date_of_text(bytes_at(text, length), length, &told);
    if (status == JIP_DONE) *date = told;
    return status;
}

int32_t jip_date_of_time(int64_t seconds, uint32_t nanoseconds, jip_date *date) {
    return may_stand(date, _Alignof(jip_date)) ? jip_lib_date_of_time(seconds, nanoseconds, date) : (int32_t)JIP_WRONG_ARGUMENT;
}

int32_t jip_time_of_date(jip_date date, int64_t *seconds, uint32_t *nanoseconds) {
    int64_t told = 0;
    uint32_t rest = 0;
    int32_t status;
    if (!may_stand(seconds, _Alignof(int64_t)) || !may_stand(nanoseconds, _Alignof(uint32_t))) return JIP_WRONG_ARGUMENT;
    if (!apart(seconds, sizeof *seconds, nanoseconds, sizeof *nanoseconds)) return JIP_WRONG_ARGUMENT;
    status = jip_lib_time_of_date(&date, &told, &rest);
    if (status == JIP_DONE) {
        *seconds = told;
        *nanoseconds = rest;
    }
    return status;
}
