// Tests jiponuwha_amiga.h from C++17, with the machine as a class: makes a file, and uses memory that ends too early.
#include <jiponuwha_amiga.h>
#include <algorithm>
#include <cstdio>
#include <string_view>
#include <vector>

namespace {

class Machine {
  public:
    explicit Machine(std::uint32_t bytes) : ram(bytes) {
        guest.read = [](void *machine, std::uint32_t at, void *to, std::uint32_t length) {
            const auto &bytes = static_cast<Machine *>(machine)->ram;
            if (at > bytes.size() || length > bytes.size() - at) return 0;
            std::copy_n(bytes.data() + at, length, static_cast<std::uint8_t *>(to));
            return 1;
        };
        guest.write = [](void *machine, std::uint32_t at, const void *from, std::uint32_t length) {
            auto &bytes = static_cast<Machine *>(machine)->ram;
            if (at > bytes.size() || length > bytes.size() - at) return 0;
            std::copy_n(static_cast<const std::uint8_t *>(from), length, bytes.data() + at);
            return 1;
        };
        guest.context = this;
        guest.pool = 0x1000;
        guest.pool_bytes = 0x400;
    }
    Machine(const Machine &) = delete;
    Machine &operator=(const Machine &) = delete;
    ~Machine() {
        jip_release_guest(&floppy, &guest);
        jip_close(&floppy);
    }

    bool insert() { return jip_blank(JIP_FFS, JIP_DOUBLE_DENSITY, "Work", 4, guest.now, &floppy) == JIP_DONE; }

    std::uint32_t string(std::uint32_t at, std::string_view text) {
        ram[at] = static_cast<std::uint8_t>(text.size());
        std::copy(text.begin(), text.end(), ram.begin() + at + 1);
        return at >> 2;
    }

    // Returns both results of a packet.
    bool gives(std::int32_t res1, std::int32_t res2, const std::vector<std::uint32_t> &type_and_arguments) {
        std::uint32_t at = 0x100 + JIP_DP_TYPE;
        for (const auto value : type_and_arguments) {
            put(at, value);
            at = at == 0x100 + JIP_DP_TYPE ? 0x100 + JIP_DP_ARG1 : at + 4;
        }
        return jip_serve_guest(&floppy, &guest, 0x100) == JIP_DONE && get(0x100 + JIP_DP_RES1) == static_cast<std::uint32_t>(res1) &&
               get(0x100 + JIP_DP_RES2) == static_cast<std::uint32_t>(res2);
    }

  private:
    void put(std::uint32_t at, std::uint32_t value) {
        for (std::uint32_t k = 0; k < 4; k++) ram[at + k] = static_cast<std::uint8_t>(value >> (24 - 8 * k));
    }
    std::uint32_t get(std::uint32_t at) const {
        std::uint32_t value = 0;
        for (std::uint32_t k = 0; k < 4; k++) value = value << 8 | ram[at + k];
        return value;
    }

    std::vector<std::uint8_t> ram;
    jip_handle floppy = JIP_CLOSED;
    jip_guest guest{};
};

} // namespace

int main() {
    Machine machine(0x2000);
    const auto name = machine.string(0x200, "hello");
    const bool results[] = {
        machine.insert(),
        machine.gives(JIP_DOSTRUE, 0, {JIP_ACTION_FINDOUTPUT, 0x300 >> 2, 0, name}),
        machine.gives(6, 0, {JIP_ACTION_WRITE, 1, 0x200, 6}),
        machine.gives(-1, JIP_GUEST_BAD_NUMBER, {JIP_ACTION_WRITE, 1, 0x1fff, 2}),
        machine.gives(JIP_DOSTRUE, 0, {JIP_ACTION_END, 1}),
        machine.gives(0x1000 >> 2, 0, {JIP_ACTION_LOCATE_OBJECT, 0, name, static_cast<std::uint32_t>(JIP_SHARED_LOCK)}),
        machine.gives(JIP_DOSTRUE, 0, {JIP_GUEST_IS_FILESYSTEM}),
    };
    const auto passed = std::count(std::begin(results), std::end(results), true);
    const auto failed = std::count(std::begin(results), std::end(results), false);
    std::printf("%d passed, %d failed\n", static_cast<int>(passed), static_cast<int>(failed));
    return failed == 0 ? 0 : 1;
}
