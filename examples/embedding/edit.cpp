// Keeps a text, edits it, and prints its errors after each edit.
//   edit STORE TEXT <EDITS
// A line of the input is `AT CUT OCTETS`: OCTETS, to the end of the line, come in place of the CUT octets from the place AT on.
#include "edicheck.h"
#include <fstream>
#include <iostream>
#include <iterator>
#include <stdexcept>
#include <string>

using octets = std::string;

static const uint8_t *at(const octets &of) { return reinterpret_cast<const uint8_t *>(of.data()); }

static octets read_file(const char *name) {
    std::ifstream in(name, std::ios::binary);
    if (!in) throw std::runtime_error(std::string(name) + ": cannot be read");
    return octets(std::istreambuf_iterator<char>(in), std::istreambuf_iterator<char>());
}

static void need_done(uint32_t code) {
    if (code != EDICHECK_DONE) throw std::runtime_error("code " + std::to_string(code));
}

// A text that is kept. It can't be copied, and lets go of the text at its end.
class Kept {
    edicheck_handle handle = {nullptr};

public:
    Kept(const octets &store, const octets &text) {
        size_t number;
        need_done(edicheck_open(&handle, at(store), store.size(), at(text), text.size(), &number));
    }
    Kept(Kept &beside, const octets &text) {
        size_t number;
        need_done(edicheck_open_beside(&handle, &beside.handle, at(text), text.size(), &number));
    }
    Kept(const Kept &) = delete;
    Kept &operator=(const Kept &) = delete;
    ~Kept() { edicheck_close(&handle); }

    void replace(uint64_t place, uint64_t cut, const octets &put) {
        size_t number;
        need_done(edicheck_replace(&handle, place, cut, at(put), put.size(), &number));
    }

    octets errors() {
        octets out(1024, '\0');
        for (;;) {
            size_t needed;
            uint32_t code = edicheck_kept_errors(&handle, reinterpret_cast<uint8_t *>(&out[0]), out.size(), &needed);
            out.resize(needed);
            if (code == EDICHECK_NO_ROOM) continue;
            need_done(code);
            return out;
        }
    }
};

int main(int count, char **words) try {
    if (count != 3) throw std::runtime_error("edit STORE TEXT <EDITS");
    Kept directory(read_file(words[1]), "");
    Kept text(directory, read_file(words[2]));
    std::cout << text.errors();
    uint64_t place, cut;
    octets put;
    while (std::cin >> place >> cut && std::cin.get() && std::getline(std::cin, put)) {
        text.replace(place, cut, put);
        std::cout << text.errors();
    }
    return std::cout.flush() ? 0 : 2;
} catch (const std::exception &fault) {
    std::cerr << "edit: " << fault.what() << '\n';
    return 1;
}
