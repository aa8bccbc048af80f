/* Writes the deck of example.deck to standard output by the office's call: write > FILE */
#include <stdio.h>

#include "foambeetle_office.h"

/* Version 1, whose survival numbers are parts of FOAMBEETLE_UNIT. */
static const uint64_t version = 1;

/* Three fans, each as likely to last as not, and three systems: kind, first, second, and the first and last fan of the stretch. */
static const uint32_t survival[] = {FOAMBEETLE_UNIT / 2, FOAMBEETLE_UNIT / 2, FOAMBEETLE_UNIT / 2};
static const uint16_t weights[] = {0, 0, 0};
static const uint16_t systems[] = {
    1, 2, 0, 1, 3,
    4, 2, 0, 1, 3,
    4, 4, 0, 1, 3,
};

#define COUNT(list) (sizeof(list) / sizeof(list)[0])

int main(void) {
    static uint8_t file[FOAMBEETLE_LONGEST_FILE];
    uint64_t answer = foambeetle_write(version, survival, COUNT(survival), weights, COUNT(weights), NULL, 0, NULL, 0, systems, COUNT(systems),
                                       file, sizeof file); /* a file of version 1 has no boards */

    if (foambeetle_refused(answer)) {
        fprintf(stderr, "refused %u\n", (unsigned)foambeetle_refusal(answer));
        return 1;
    }
    return fwrite(file, 1, (size_t)answer, stdout) != answer;
}
