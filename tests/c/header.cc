// Tests the header from C++: serves a packet, and copies the image.
#include <jiponuwha.h>
#include <cstdio>
#include <vector>

int main() {
    jip_handle handle = JIP_CLOSED;
    const jip_date moment = {0, 0, 0};
    if (jip_blank(JIP_OFS, JIP_DOUBLE_DENSITY, "Work", 4, moment, &handle) != JIP_DONE) return 1;
    jip_packet packet;
    jip_answer answer;
    jip_examine_object(&packet, moment, 0);
    bool served = jip_serve(&handle, &packet, &answer) == JIP_DONE && answer.entry.entry_type == JIP_ROOT;
    jip_findoutput(&packet, moment, 0, "f");
    served = served && jip_serve(&handle, &packet, &answer) == JIP_DONE;
    jip_write(&packet, moment, answer.handle, "constant", 8);
    served = served && jip_serve(&handle, &packet, &answer) == JIP_DONE && answer.res1 == 8;
    std::vector<unsigned char> bytes(jip_image_length(&handle));
    bool copied = jip_copy_image(&handle, bytes.data(), bytes.size()) == JIP_DONE && bytes[0] == 'D';
    jip_close(&handle);
    std::printf("%d passed, %d failed\n", served + copied, 2 - served - copied);
    return served && copied ? 0 : 1;
}
