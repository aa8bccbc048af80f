/* Reads a version 1 deck file and prints the chances of its systems by the office's call, as doubles: chance FILE */
#include <inttypes.h>
#include <stdio.h>

#include "foambeetle_office.h"

#define NO_SUCH_SYSTEM 14

static void print_system(unsigned system, uint64_t refusal, const double *ends) {
    if (refusal)
        printf("system %u refused %" PRIu64 "\n", system, refusal);
    else
        printf("system %u from %.17g to %.17g\n", system, ends[0], ends[1]);
}

/* System 0 is in no file: a sound file answers 14, a refused one its own refusal. */
static int print_file(const uint8_t *bytes, size_t length) {
    double ends[2];
    uint64_t refusal = foambeetle_chance(bytes, length, 0, ends);

    if (refusal != NO_SUCH_SYSTEM) {
        printf("file refused %" PRIu64 "\n", refusal);
        return 1;
    }
    for (unsigned system = 1; (refusal = foambeetle_chance(bytes, length, system, ends)) != NO_SUCH_SYSTEM; system++)
        print_system(system, refusal, ends);
    return 0;
}

int main(int argc, char **argv) {
    static uint8_t bytes[FOAMBEETLE_LONGEST_FILE + 1]; /* one more, so that a longer file is seen to be longer */
    FILE *file = argc == 2 ? fopen(argv[1], "rb") : NULL;

    if (!file) {
        fprintf(stderr, "usage: chance FILE\n");
        return 2;
    }
    size_t length = fread(bytes, 1, sizeof bytes, file);
    fclose(file);
    return print_file(bytes, length);
}
