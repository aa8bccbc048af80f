// The count table in plain C: 64-bit sums over recurrences in the number of components and the number failed, as an engineer would type them.
#include "room.h"
#include <string.h>

// line[i][j]: the working states of a line of i components with j failed; sums[j][s]: the states of those read with j failed that weigh s.
static uint64_t line[MOST + 1][MOST + 1], sums[MOST + 1][HEAVIEST];

static inline int lesser(int a, int b) {
    return a < b ? a : b;
}

static void pascal(int n) {
    memset(room, 0, sizeof room);
    room[0] = 1;
    for (int i = 1; i <= n; i++)
        for (int j = i; j > 0; j--) room[j] += room[j - 1];
}

static void by_number(int n, int from, int to) {
    pascal(n);
    for (int j = from; j <= to; j++) room[j] = 0;
}

static void weighed(int n, int k) {
    memset(sums, 0, sizeof sums);
    sums[0][0] = 1;
    for (int i = 0, reach = 0; i < n; i++) {
        int w = asked.weights[i];
        reach = lesser(reach + w, k - 1);
        for (int j = i + 1; j > 0; j--)
            for (int s = w; s <= reach; s++) sums[j][s] += sums[j - 1][s - w];
    }
    for (int j = 0; j <= n; j++) {
        room[j] = 0;
        for (int s = 0; s < k; s++) room[j] += sums[j][s];
    }
}

// One more component works or fails; those that now end in their first k failed ones are let go, which a working one stands before if any does.
static void in_a_row(int n, int k) {
    line[0][0] = 1;
    for (int i = 1; i <= n; i++) {
        line[i - 1][i] = 0;
        line[i][0] = 1;
        for (int j = 1; j <= i; j++) {
            uint64_t all = line[i - 1][j] + line[i - 1][j - 1];
            line[i][j] = j < k ? all : i == k ? all - 1 : all - line[i - k - 1][j - k];
        }
    }
}

static void in_a_row_line(int n, int k) {
    in_a_row(n, k);
    memcpy(room, line[n], (n + 1) * sizeof room[0]);
}

// m failed ones around the end, fewer than k, a working one at either side, a line between; or one working one alone.
static void in_a_row_ring(int n, int k) {
    in_a_row(n, k);
    for (int j = 0; j < n - 1; j++) {
        room[j] = 0;
        for (int m = 0; m < k && m <= j; m++) room[j] += (m + 1) * line[n - m - 2][j - m];
    }
    room[n - 1] = n - 1 < k ? n : 0;
    room[n] = 0;
}

// The top component works, or it fails and r - 1 below it work: here line[j][i], as far as j failed ones have room.
static void apart(int n, int r) {
    memset(line, 0, sizeof line[0] * (n / r + 3));
    for (int i = 0; i <= n; i++) line[0][i] = 1;
    for (int j = 1; (j - 1) * r < n; j++)
        for (int i = 1; i <= n; i++) line[j][i] = line[j][i - 1] + line[j - 1][i < r ? 0 : i - r];
}

static void apart_line(int n, int r) {
    apart(n, r);
    for (int j = 0; j <= n; j++) room[j] = (j - 1) * r < n ? line[j][n] : 0;
}

// The last r - 1 all work, or one of them fails alone and r - 1 at either side of it work.
static void apart_ring(int n, int r) {
    apart(n, r);
    int rest = n - 2 * r + 1 > 0 ? n - 2 * r + 1 : 0;
    room[0] = 1;
    for (int j = 1; j <= n; j++) room[j] = (j - 1) * r < n ? line[j][n - r + 1] + (r - 1) * line[j - 1][rest] : 0;
}

struct ends rate(void) {
    int n = asked.n, first = asked.first, second = asked.second;
    switch (asked.kind) {
    case 1: by_number(n, first, n); break;
    case 2: weighed(n, first); break;
    case 3: by_number(n, first, second); break;
    case 4: in_a_row_line(n, first); break;
    case 5: in_a_row_ring(n, first); break;
    case 6: apart_line(n, second); break;
    case 7: apart_ring(n, second); break;
    }
    return (struct ends){0, 0};
}
