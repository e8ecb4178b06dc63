/* The checked functions for the label and the boot block of any image. Each checks its pointers and lengths, and then calls the proved
 * function of the same name, `jip_lib_..`. */
#include "checks.h"

/* The proved functions. They rely on item 1 of the header for every pointer and length. */
int32_t jip_lib_label(const uint8_t *bytes, size_t length, uint8_t *to, size_t room, size_t *label_length);
int32_t jip_lib_boot(const uint8_t *bytes, size_t length, jip_boot *boot);
int32_t jip_lib_boot_standard(uint8_t *bytes, size_t length);

int32_t jip_label(const void *bytes, size_t length, void *label, size_t room, size_t *label_length) {
    const uint8_t none = 0;
    uint8_t no_room = 0;
    size_t told = 0;
    int32_t status;
    if (!may_hold(bytes, length) || !may_hold(label, room) || !may_stand(label_length, _Alignof(size_t))) return JIP_WRONG_ARGUMENT;
    if (!apart(label, room, bytes, length) || !apart(label_length, sizeof *label_length, bytes, length) ||
        !apart(label_length, sizeof *label_length, label, room))
        return JIP_WRONG_ARGUMENT;
    status = jip_lib_label(length == 0 ? &none : (const uint8_t *)bytes, length, room == 0 ? &no_room : (uint8_t *)label, room, &told);
    if (status == JIP_DONE) *label_length = told;
    return status;
}

int32_t jip_boot_block(const void *bytes, size_t length, jip_boot *boot) {
    const uint8_t none = 0;
    jip_boot told = {0, 0, 0, 0};
    int32_t status;
    if (!may_hold(bytes, length) || !may_stand(boot, _Alignof(jip_boot)) || !apart(boot, sizeof *boot, bytes, length))
        return JIP_WRONG_ARGUMENT;
    status = jip_lib_boot(length == 0 ? &none : (const uint8_t *)bytes, length, &told);
    if (status == JIP_DONE) *boot = told;
    return status;
}

int32_t jip_install_boot(void *bytes, size_t length) {
    uint8_t none = 0;
    return may_hold(bytes, length) ? jip_lib_boot_standard(length == 0 ? &none : (uint8_t *)bytes, length) : (int32_t)JIP_WRONG_ARGUMENT;
}
