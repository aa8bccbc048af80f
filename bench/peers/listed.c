// (e) Kind 8 by a list of the patterns that live, made once a rating.
#include "windows.h"

static int list[PATTERNS];

struct ends rate(void) {
    double *here = rows[0], *fewer = rows[1];
    int living = 0;
    look();
    for (int m = 0; m < 1 << kept; m++)
        if (lives[m]) list[living++] = m, here[m] = 1;
    for (int i = 1; i <= n; i++) {
        double *swap = here;
        here = fewer, fewer = swap;
        for (int t = 0, upto = come(i); t < living && list[t] < upto; t++) here[list[t]] = value(list[t], i, fewer);
    }
    return (struct ends){here[0], here[0]};
}
