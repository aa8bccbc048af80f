// (f) Kind 8 by all patterns, each tested where it comes up.
#include "windows.h"

struct ends rate(void) {
    double *here = rows[0], *fewer = rows[1];
    look();
    for (int m = 0; m < 1 << kept; m++) here[m] = 1;
    for (int i = 1; i <= n; i++) {
        double *swap = here;
        here = fewer, fewer = swap;
        for (int m = 0, upto = come(i); m < upto; m++)
            if (lives[m]) here[m] = value(m, i, fewer);
    }
    return (struct ends){here[0], here[0]};
}
