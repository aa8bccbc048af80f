/* Reads a deck file and prints its systems from C++, as rate.c does: rate FILE */
#include <cstdio>
#include <fstream>
#include <iterator>
#include <vector>

#include "foambeetle.h"

static const unsigned no_such_system = 14;

int main(int argc, char **argv) {
    std::ifstream file(argc == 2 ? argv[1] : "", std::ios::binary);
    if (!file) {
        std::fprintf(stderr, "usage: rate FILE\n");
        return 2;
    }
    const std::vector<uint8_t> deck((std::istreambuf_iterator<char>(file)), std::istreambuf_iterator<char>());

    /* System 0 is in no file: a sound file answers 14, a refused one its own refusal. An empty file is a null pointer here, and is refused too. */
    unsigned refusal = foambeetle_refusal(foambeetle_rate(deck.data(), deck.size(), 0));
    if (refusal != no_such_system) {
        std::printf("file refused %u\n", refusal);
        return 1;
    }
    for (unsigned system = 1;; system++) {
        const uint64_t answer = foambeetle_rate(deck.data(), deck.size(), system);
        refusal = foambeetle_refusal(answer);
        if (refusal == no_such_system)
            return 0;
        if (foambeetle_refused(answer))
            std::printf("system %u refused %u\n", system, refusal);
        else
            std::printf("system %u low %u high %u\n", system, unsigned(foambeetle_low(answer)), unsigned(foambeetle_high(answer)));
    }
}
