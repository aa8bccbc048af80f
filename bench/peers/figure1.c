// (a') Kind 6 as figure 1 of document 000 has it: the product slides along by a division. It answers only where no survival number is 0.
#include "bench.h"

static int n, r;
static double P[MOST + 1], Q[MOST + 1];

void prepare(const struct asked *a) {
    n = a->n, r = a->second;
    for (int i = 1; i <= n; i++) {
        P[i] = (double)a->survival[i - 1] / UNIT;
        Q[i] = 1 - P[i];
    }
}

static double linear(int t, int r, const double *P, const double *Q) {
    double R[MOST + 1], RR = P[1];
    R[1] = 1;
    for (int i = 2; i <= t; i++) {
        R[i] = P[i] * R[i - 1] + Q[i] * RR * (i - r > 1 ? R[i - r] : 1.0);
        RR = RR * P[i] / (i - r + 1 >= 1 ? P[i - r + 1] : 1.0);
    }
    return R[t];
}

struct ends rate(void) {
    double R = linear(n, r, P, Q);
    return (struct ends){R, R};
}

struct ends told(struct ends e) {
    return (struct ends){e.low * UNIT, e.high * UNIT};
}
