// Prints what `edicheck contrl STORE TEXT STAMP REFERENCE` prints: the acknowledgement of a text.
//   contrl STORE TEXT STAMP REFERENCE
#include "edicheck.h"
#include <fstream>
#include <iostream>
#include <iterator>
#include <stdexcept>
#include <string>

static const uint8_t *octets(const std::string &s) { return reinterpret_cast<const uint8_t *>(s.data()); }

static std::string read_file(const char *name) {
    std::ifstream in(name, std::ios::binary);
    if (!in) throw std::runtime_error(std::string(name) + " can't be read");
    return std::string(std::istreambuf_iterator<char>(in), {});
}

// The acknowledgement; or, if the text has no UNB that can be answered, the line that says so.
static std::string acknowledge(const std::string &store, const std::string &text, const std::string &stamp,
                               const std::string &reference) {
    std::string out(1024, '\0');
    for (;;) {
        size_t needed = 0;
        uint32_t code = edicheck_contrl(octets(store), store.size(), octets(text), text.size(), octets(stamp), stamp.size(),
                                        octets(reference), reference.size(), reinterpret_cast<uint8_t *>(&out[0]), out.size(),
                                        &needed);
        switch (code) {
        case EDICHECK_DONE: out.resize(needed); return out;
        case EDICHECK_NO_ROOM: out.resize(needed); break;
        case EDICHECK_NO_UNB: return "no unb\n";
        case EDICHECK_BAD_UNB: return "bad unb\n";
        case EDICHECK_NO_MEMORY: throw std::bad_alloc();
        case EDICHECK_BAD_STORE: throw std::runtime_error("the store is at fault at octet " + std::to_string(needed));
        default: throw std::runtime_error("code " + std::to_string(code));
        }
    }
}

int main(int count, char **words) {
    if (count != 5) {
        std::cerr << "contrl STORE TEXT STAMP REFERENCE\n";
        return 2;
    }
    try {
        std::cout << acknowledge(read_file(words[1]), read_file(words[2]), words[3], words[4]) << std::flush;
        return 0;
    } catch (const std::exception &e) {
        std::cerr << "contrl: " << e.what() << "\n";
        return 1;
    }
}
