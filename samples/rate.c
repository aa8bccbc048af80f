/* Reads a deck file and prints its systems by the loading computer's call: rate FILE */
#include <stdio.h>

#include "foambeetle.h"

#define MOST_BYTES 812 /* no sound file has more */
#define NO_SUCH_SYSTEM 14

static void print_system(unsigned system, uint64_t answer) {
    if (foambeetle_refused(answer))
        printf("system %u refused %u\n", system, (unsigned)foambeetle_refusal(answer));
    else
        printf("system %u low %u high %u\n", system, (unsigned)foambeetle_low(answer), (unsigned)foambeetle_high(answer));
}

/* System 0 is in no file: a sound file answers 14, a refused one its own refusal. */
static int print_file(const uint8_t *bytes, size_t length) {
    uint32_t refusal = foambeetle_refusal(foambeetle_rate(bytes, length, 0));
    if (refusal != NO_SUCH_SYSTEM) {
        printf("file refused %u\n", (unsigned)refusal);
        return 1;
    }
    for (unsigned system = 1;; system++) {
        uint64_t answer = foambeetle_rate(bytes, length, system);
        if (foambeetle_refusal(answer) == NO_SUCH_SYSTEM)
            return 0;
        print_system(system, answer);
    }
}

int main(int argc, char **argv) {
    static uint8_t bytes[MOST_BYTES + 1]; /* one more, so that a longer file is seen to be longer */
    FILE *file = argc == 2 ? fopen(argv[1], "rb") : NULL;
    if (!file) {
        fprintf(stderr, "usage: rate FILE\n");
        return 2;
    }
    size_t length = fread(bytes, 1, sizeof bytes, file);
    fclose(file);
    return print_file(bytes, length);
}
