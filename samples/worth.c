/* Reads a deck file and prints the worth of its fans under each system by the library's call, as deckworth does: worth FILE */
#include <inttypes.h>
#include <stdio.h>

#include "foambeetle.h"

#define MOST_BYTES 812 /* no sound file has more */
#define NO_SUCH_SYSTEM 14

static void print_fan(unsigned system, unsigned fan, uint64_t refusal, const int64_t *ends) {
    if (refusal)
        printf("system %u fan %u refused %" PRIu64 "\n", system, fan, refusal);
    else
        printf("system %u fan %u lower %" PRId64 " upper %" PRId64 "\n", system, fan, ends[0], ends[1]);
}

/* The fans of a system; 0 where there is no such system. */
static int print_system(const uint8_t *bytes, size_t length, unsigned system) {
    unsigned fans = bytes[4] + 256u * bytes[5]; /* of a file that is not refused */
    for (unsigned fan = 1; fan <= fans; fan++) {
        int64_t ends[2];
        uint64_t refusal = foambeetle_worth(bytes, length, system, fan, ends);
        if (refusal == NO_SUCH_SYSTEM)
            return 0;
        print_fan(system, fan, refusal, ends);
    }
    return 1;
}

/* System 0 is in no file: a sound file answers 14, a refused one its own refusal. */
static int print_file(const uint8_t *bytes, size_t length) {
    int64_t ends[2];
    uint64_t refusal = foambeetle_worth(bytes, length, 0, 1, ends);
    if (refusal != NO_SUCH_SYSTEM) {
        printf("file refused %" PRIu64 "\n", refusal);
        return 1;
    }
    for (unsigned system = 1; print_system(bytes, length, system); system++)
        ;
    return 0;
}

int main(int argc, char **argv) {
    static uint8_t bytes[MOST_BYTES + 1]; /* one more, so that a longer file is seen to be longer */
    FILE *file = argc == 2 ? fopen(argv[1], "rb") : NULL;
    if (!file) {
        fprintf(stderr, "usage: worth FILE\n");
        return 2;
    }
    size_t length = fread(bytes, 1, sizeof bytes, file);
    fclose(file);
    return print_file(bytes, length);
}
