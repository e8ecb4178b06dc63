/* The checked functions for faults and for the map of blocks. Each checks its pointers and lengths, and then calls the proved
 * function of the same name, `jip_lib_..`. */
#include "checks.h"

/* The proved functions. They rely on item 1 of the header for every pointer and length. */
int32_t jip_lib_check(const uint8_t *bytes, size_t length, jip_fault *faults, size_t room, size_t *count, int32_t *more);
int32_t jip_lib_check_values(const uint8_t *bytes, size_t length, jip_finding *findings, size_t room, size_t *count, int32_t *more);
int32_t jip_lib_map(jip_handle *handle, jip_owner *owners, size_t room, size_t *count);

/* Whether a list of faults with elements of this size can be told. */
static int may_check(const void *bytes, size_t length, const void *at, size_t room, size_t size, const size_t *count, const int32_t *more) {
    return may_hold(bytes, length) && may_be_list(at, room, size, count) && may_stand(more, _Alignof(int32_t)) &&
           apart(at, room * size, bytes, length) && apart(count, sizeof *count, bytes, length) &&
           apart(more, sizeof *more, bytes, length) && apart(more, sizeof *more, at, room * size) &&
           apart(count, sizeof *count, more, sizeof *more);
}

int32_t jip_check_values(const void *bytes, size_t length, jip_finding *findings, size_t room, size_t *count, int32_t *more) {
    const uint8_t none = 0;
    jip_finding no_finding = {0, 0, 0, 0, 0, 0};
    size_t told = 0;
    int32_t is_more = 0, status;
    if (!may_check(bytes, length, findings, room, sizeof *findings, count, more)) return JIP_WRONG_ARGUMENT;
    status = jip_lib_check_values(length == 0 ? &none : (const uint8_t *)bytes, length, room == 0 ? &no_finding : findings, room, &told,
                                  &is_more);
    if (status == JIP_DONE) {
        *count = told;
        *more = is_more;
    }
    return status;
}

int32_t jip_check(const void *bytes, size_t length, jip_fault *faults, size_t room, size_t *count, int32_t *more) {
    const uint8_t none = 0;
    jip_fault no_fault = {0, 0};
    size_t told = 0;
    int32_t is_more = 0, status;
    if (!may_check(bytes, length, faults, room, sizeof *faults, count, more)) return JIP_WRONG_ARGUMENT;
    status = jip_lib_check(length == 0 ? &none : (const uint8_t *)bytes, length, room == 0 ? &no_fault : faults, room, &told, &is_more);
    if (status == JIP_DONE) {
        *count = told;
        *more = is_more;
    }
    return status;
}

int32_t jip_map(jip_handle *handle, jip_owner *owners, size_t room, size_t *count) {
    jip_owner no_owner = {0, 0, 0};
    size_t told = 0;
    int32_t status;
    if (!may_be_list(owners, room, sizeof *owners, count) || !may_stand(handle, _Alignof(jip_handle))) return JIP_WRONG_ARGUMENT;
    if (!apart(handle, sizeof *handle, owners, room * sizeof *owners) || !apart(handle, sizeof *handle, count, sizeof *count))
        return JIP_WRONG_ARGUMENT;
    status = jip_lib_map(handle, room == 0 ? &no_owner : owners, room, &told);
    if (status == JIP_DONE) *count = told;
    return status;
}
