// Cogunwa's operations from C++: resolves the pack in a file of hexadecimal words, without comments. Build it with the
// package that `tools/install PREFIX` installs:
//
//   c++ -std=c++11 examples/link.cpp $(pkg-config --cflags --libs cogunwa) -o link
//   ./link examples/household.hex
#include <cstdint>
#include <cstdio>
#include <fstream>
#include <vector>

#include "cogunwa.h"

// The bytes of the words, four a word, low byte first; whether there was nothing else to the end of the file.
static bool read_pack(const char *file, std::vector<std::uint8_t> &bytes)
{
    std::ifstream text(file);
    std::uint32_t word;
    while (text >> std::hex >> word)
        for (int shift = 0; shift < 32; shift += 8)
            bytes.push_back(static_cast<std::uint8_t>(word >> shift));
    return text.eof();
}

int main(int argc, char **argv)
{
    if (argc != 2) {
        std::fprintf(stderr, "usage: link FILE\n");
        return 2;
    }
    std::vector<std::uint8_t> pack;
    if (!read_pack(argv[1], pack)) {
        std::fprintf(stderr, "%s: cannot be read, or has something else than words\n", argv[1]);
        return 2;
    }
    // An empty vector is fine too: it is refused by COGUNWA_WRONG_LENGTH.
    std::vector<std::uint8_t> out(COGUNWA_MAX_BYTES);
    std::uint64_t answer = cogunwa_resolve(pack.data(), pack.size(), out.data(), out.size());
    if (cogunwa_number(answer) != COGUNWA_OK) {
        std::printf("refused %u at word %u: %s\n", cogunwa_number(answer), cogunwa_place(answer),
                    cogunwa_refusal_text(cogunwa_number(answer)));
        return 1;
    }
    std::printf("Cogunwa %s: %u words, %u steps\n", cogunwa_version(), cogunwa_value(answer), cogunwa_steps(answer));
    for (std::uint32_t place = 0; place < cogunwa_value(answer); place++)
        std::printf("%08X\n", cogunwa_word_at(out.data(), place));
    return 0;
}
