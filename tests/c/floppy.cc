// A client in C++17 makes a floppy, changes it, checks it, and salvages it when it is damaged. It writes first.adf to the current directory.
#include <jiponuwha.h>
#include <algorithm>
#include <cstdio>
#include <fstream>
#include <iterator>
#include <string>
#include <string_view>
#include <utility>
#include <vector>

namespace {

constexpr jip_date now = {4383, 720, 0};
int passed, failed;

void expect(std::string_view name, bool holds) {
    ++(holds ? passed : failed);
    if (!holds) std::printf("FAIL  %.*s\n", static_cast<int>(name.size()), name.data());
}

// A handle with one owner, which closes it.
class Floppy {
public:
    Floppy() = default;
    Floppy(const Floppy &) = delete;
    Floppy &operator=(const Floppy &) = delete;
    ~Floppy() { jip_close(&handle); }
    jip_handle *at() { return &handle; }

    int32_t write(std::string_view path, std::string_view bytes) {
        return jip_write_file(&handle, now, path.data(), path.size(), bytes.data(), bytes.size());
    }

    std::string read(std::string_view path) {
        size_t length = 0;
        if (jip_read_file(&handle, path.data(), path.size(), nullptr, 0, &length) != JIP_DONE) return "(refused)";
        std::string bytes(length, '?');
        jip_read_file(&handle, path.data(), path.size(), bytes.data(), bytes.size(), &length);
        return bytes;
    }

    std::vector<std::string> paths() {
        std::vector<std::string> found;
        const auto see = [](void *context, const char *path, size_t length, const jip_entry *) -> int32_t {
            static_cast<std::vector<std::string> *>(context)->emplace_back(path, length);
            return 0;
        };
        expect("a walk", jip_walk(&handle, see, &found) == JIP_DONE);
        return found;
    }

private:
    jip_handle handle = JIP_CLOSED;
};

void make() {
    Floppy floppy;
    expect("a blank floppy", jip_blank(JIP_FFS, JIP_DOUBLE_DENSITY, "Work", 4, now, floppy.at()) == JIP_DONE);
    expect("a file", floppy.write("hello", "Hi Amiga") == JIP_DONE);
    expect("it is stored", jip_store(floppy.at(), "first.adf") == JIP_DONE);
}

void change() {
    Floppy floppy;
    jip_fault fault;
    expect("it is loaded", jip_load("first.adf", floppy.at(), &fault) == JIP_DONE);
    expect("its file", floppy.read("HELLO") == "Hi Amiga");
    jip_packet packet;
    jip_answer answer;
    jip_create_dir(&packet, now, 0, "Docs");
    expect("a directory", jip_serve(floppy.at(), &packet, &answer) == JIP_DONE && answer.res2 == 0);
    jip_free_lock(&packet, now, static_cast<uint32_t>(answer.res1));
    expect("its lock", jip_serve(floppy.at(), &packet, &answer) == JIP_DONE && answer.res2 == 0);
    expect("a file in it", floppy.write("Docs/new", "C++") == JIP_DONE);
    const auto paths = floppy.paths();
    expect("three entries", paths.size() == 3);
    expect("it is stored again", jip_store(floppy.at(), "first.adf") == JIP_DONE);
}

void check() {
    std::ifstream file("first.adf", std::ios::binary);
    std::vector<char> bytes{std::istreambuf_iterator<char>(file), {}};
    Floppy floppy, damaged;
    jip_fault fault;
    expect("it is checked", jip_open(bytes.data(), bytes.size(), floppy.at(), &fault) == JIP_DONE);
    expect("what was changed", floppy.read("Docs/new") == "C++");
    bytes[0] = 'K';
    expect("one with a fault", jip_open(bytes.data(), bytes.size(), damaged.at(), &fault) == JIP_NOT_AN_IMAGE);
    expect("the fault", fault.kind == JIP_FAULT_NOT_A_DOS_DISK && fault.block == 0);
    bytes[880 * JIP_BLOCK_BYTES + 20] ^= 1;
    bytes[881 * JIP_BLOCK_BYTES] ^= 1;
    std::vector<jip_fault> faults(JIP_MOST_FAULTS);
    std::size_t count = 0;
    int32_t more = 1;
    expect("the kind", jip_check(bytes.data(), bytes.size(), faults.data(), faults.size(), &count, &more) == JIP_DONE);
    expect("that alone", count == 1 && more == 0 && faults[0].block == 0 && faults[0].kind == JIP_FAULT_NOT_A_DOS_DISK);
    bytes[0] = 'D';
    expect("all faults", jip_check(bytes.data(), bytes.size(), faults.data(), faults.size(), &count, &more) == JIP_DONE);
    expect("two faults", count == 2 && more == 0 && faults[0].block == 880 && faults[1].block == 881 && faults[1].kind == JIP_FAULT_BAD_SUM);
    expect("its text", std::string_view(jip_fault_text(fault.kind)).find("DOS") != std::string_view::npos);
}

// What can be saved of an image that is refused.
class Salvage {
public:
    Salvage() = default;
    Salvage(const Salvage &) = delete;
    Salvage &operator=(const Salvage &) = delete;
    ~Salvage() { jip_salvage_close(&list); }
    jip_salvage *at() { return &list; }

    using teller = int32_t(jip_salvage *, std::size_t, void *, std::size_t, std::size_t *);

    std::string told(teller *tell, std::size_t place) {
        std::size_t length = 0;
        if (tell(&list, place, nullptr, 0, &length) != JIP_DONE) return "(refused)";
        std::string bytes(length, '?');
        tell(&list, place, bytes.data(), bytes.size(), &length);
        return bytes;
    }

private:
    jip_salvage list = JIP_CLOSED;
};

void salvage() {
    std::ifstream file("first.adf", std::ios::binary);
    std::vector<char> bytes{std::istreambuf_iterator<char>(file), {}};
    std::fill_n(bytes.begin() + 880 * JIP_BLOCK_BYTES, static_cast<int>(JIP_BLOCK_BYTES), '\0');
    Floppy floppy;
    Salvage list;
    jip_fault fault;
    expect("it is refused", jip_open(bytes.data(), bytes.size(), floppy.at(), &fault) == JIP_NOT_AN_IMAGE);
    expect("it is salvaged", jip_salvage_open(bytes.data(), bytes.size(), list.at()) == JIP_DONE);
    std::vector<std::string> paths;
    for (std::size_t place = 0; place < jip_salvage_count(list.at()); place++) {
        jip_salvaged entry;
        expect("an entry", jip_salvage_entry(list.at(), place, &entry) == JIP_DONE && entry.state != JIP_STATE_BROKEN);
        paths.push_back(list.told(jip_salvage_path, place));
        if (paths.back() == "lost+found/Docs/new") expect("its bytes", list.told(jip_salvage_read, place) == "C++");
    }
    std::sort(paths.begin(), paths.end());
    expect("each entry", paths == std::vector<std::string>{"lost+found/Docs", "lost+found/Docs/new", "lost+found/hello"});
}

} // namespace

int main() {
    make();
    change();
    check();
    salvage();
    std::remove("first.adf");
    std::printf("%d passed, %d failed\n", passed, failed);
    return failed == 0 ? 0 : 1;
}
