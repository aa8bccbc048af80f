// (a) Plain doubles, one figure, from the papers: equations 1 to 3 of document 002 in the C of its figures 1 to 3, equation 1 of document 000 for
// the line of kind 6. The rings condition on one end: on how many components fail before the first working one (kind 5), on which of the last
// r - 1 components has failed (kind 7, equation 8 with every survival number multiplied in once, so that short rings come out right).
#include "bench.h"

static int kind, first, second, n;
static double P[MOST + 1], Q[MOST + 1], table[HEAVIEST + 1];
static int W[MOST + 1];

void prepare(const struct asked *a) {
    kind = a->kind, first = a->first, second = a->second, n = a->n;
    for (int i = 1; i <= n; i++) {
        P[i] = (double)a->survival[i - 1] / UNIT;
        Q[i] = 1 - P[i];
        W[i] = a->weights[i - 1];
    }
}

// Figure 1 of document 002.
static double k_out_of_n(int k, int n, const double *Q, double *K) {
    for (int j = k; j >= 0; j--) K[j] = j == 0 ? 1.0 : 0.0;
    for (int i = 1; i <= n; i++) {
        double Qi = Q[i], Pi = 1 - Qi;
        for (int j = k; j > 0; j--) K[j] = Qi * K[j - 1] + Pi * K[j];
    }
    return K[k];
}

// The same where a failed component counts by its weight.
static double weighted_k_out_of_n(int k, int n, const double *Q, const int *W, double *K) {
    for (int j = k; j >= 0; j--) K[j] = j == 0 ? 1.0 : 0.0;
    for (int i = 1; i <= n; i++) {
        double Qi = Q[i], Pi = 1 - Qi;
        int j = k, w = W[i];
        for (; j > w; j--) K[j] = Qi * K[j - w] + Pi * K[j];
        for (; j > 0; j--) K[j] = Qi + Pi * K[j];
    }
    return K[k];
}

// Figure 2, with its loops running down and l where it prints 1.
static double l_h_out_of_n(int l, int h, int n, const double *Q, double *T) {
    for (int j = h; j >= 0; j--) T[j] = j <= h - l ? 1.0 : 0.0;
    for (int i = 1; i <= n; i++) {
        double Qi = Q[i], Pi = 1 - Qi;
        for (int j = h; j > 0; j--) T[j] = Qi * T[j - 1] + Pi * T[j];
        T[0] = Pi * T[0];
    }
    return T[h];
}

// Figure 3, from component s on.
static void consecutive_k_out_of_n(int k, int s, int n, const double *Q, double *C) {
    for (int j = k; j >= 0; j--) C[j] = j == 0 ? 1.0 : 0.0;
    for (int i = s; i <= n; i++) {
        double Qi = Q[i], Pi = 1 - Qi, Ck = C[k];
        for (int j = k; j > 0; j--) C[j] = Qi * C[j - 1] + Pi * Ck;
    }
}

// Components 1 to t failed, t + 1 works: the line behind it must not end in k - t failed ones (that is C of k - t) nor hold k in a row.
static double consecutive_ring(int k, int n, const double *P, const double *Q, double *C) {
    double R = 0, lead = 1;
    for (int t = 0; t < k; t++) {
        consecutive_k_out_of_n(k, t + 2, n, Q, C);
        R += lead * P[t + 1] * (1 - C[k - t]);
        lead *= Q[t + 1];
    }
    return R;
}

static double product(const double *P, int s, int t) {
    double all = 1;
    for (int i = s; i <= t; i++) all *= P[i];
    return all;
}

// Equation 1 of document 000 over the components s to t; its product is worked anew for each component, since a survival number may be 0 and
// figure 1 divides by it.
static double two_in_r(int s, int t, int r, const double *P, const double *Q) {
    double R[MOST + 1];
    if (t <= s) return 1;
    R[s] = 1;
    for (int i = s + 1; i <= t; i++) {
        int from = i - r + 1 > s ? i - r + 1 : s;
        R[i] = P[i] * R[i - 1] + Q[i] * product(P, from, i - 1) * (i - r > s ? R[i - r] : 1.0);
    }
    return R[t];
}

static double two_in_r_ring(int n, int r, const double *P, const double *Q) {
    double R = product(P, n - r + 2, n) * two_in_r(1, n - r + 1, r, P, Q);
    for (int f = n - r + 2; f <= n; f++) {
        int from = f + r - n, to = f - r;
        if (to < from) from = 1, to = 0;
        R += product(P, 1, from - 1) * two_in_r(from, to, r, P, Q) * product(P, to + 1, f - 1) * Q[f] * product(P, f + 1, n);
    }
    return R;
}

static double reliability(void) {
    switch (kind) {
    case 1: return 1 - k_out_of_n(first, n, Q, table);
    case 2: return 1 - weighted_k_out_of_n(first, n, Q, W, table);
    case 3: return 1 - l_h_out_of_n(first, second, n, Q, table);
    case 4: consecutive_k_out_of_n(first, 1, n, Q, table); return 1 - table[first];
    case 5: return consecutive_ring(first, n, P, Q, table);
    case 6: return two_in_r(1, n, second, P, Q);
    default: return two_in_r_ring(n, second, P, Q);
    }
}

struct ends rate(void) {
    double R = reliability();
    return (struct ends){R, R};
}

struct ends told(struct ends e) {
    return (struct ends){e.low * UNIT, e.high * UNIT};
}
