/* Rates a row of fans by their chances as doubles, by the office's call: plan */
#include <stdio.h>

#include "foambeetle_office.h"

/* Six fans of which no two next to each other may fail: kind 4 with k 2. */
static const double survival[] = {0.985, 0.985, 0.985, 0.985, 0.998, 0.998};

#define COUNT(list) (sizeof(list) / sizeof(list)[0])

int main(void) {
    uint64_t answer = foambeetle_rate_doubles(4, 2, 0, NULL, 0, 1, COUNT(survival), survival, COUNT(survival), NULL, 0);

    if (foambeetle_refused(answer)) {
        fprintf(stderr, "refused %u\n", (unsigned)foambeetle_refusal(answer));
        return 1;
    }
    printf("low %u high %u\n", (unsigned)foambeetle_low(answer), (unsigned)foambeetle_high(answer));
    return 0;
}
