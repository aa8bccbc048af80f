// Reads cases on standard input and rates each: between marks for the counter, or with `time`, many times for a median.
// A case is a line: kind first second n, the n survival numbers, the n weights, how many numbers of further pairs there are, these.
#include "bench.h"
#include <stdio.h>
#include <stdlib.h>
#include <string.h>
#include <time.h>

// A system call that does nothing here; the counter writes down how many instructions were run up to it.
static inline void mark(void) {
    long number = 110;
    __asm__ volatile("syscall" : "+a"(number) : : "rcx", "r11", "memory");
}

// 2,001 instructions, to see that the counter counts.
static inline void known(void) {
    unsigned left = 1000;
    __asm__ volatile("movl $1000, %0\n1: decl %0\njnz 1b" : "=r"(left) : : "cc");
}

static int read_case(struct asked *a) {
    if (scanf("%d %d %d %d", &a->kind, &a->first, &a->second, &a->n) != 4) return 0;
    for (int i = 0; i < a->n; i++)
        if (scanf("%u", &a->survival[i]) != 1) exit(1);
    for (int i = 0; i < a->n; i++)
        if (scanf("%hu", &a->weights[i]) != 1) exit(1);
    if (scanf("%d", &a->further) != 1 || a->further > MOST_MORE) exit(1);
    for (int i = 0; i < a->further; i++)
        if (scanf("%lu", &a->more[i]) != 1) exit(1);
    return 1;
}

// Never moved into its callers, so that every rating has the same few instructions around it.
static __attribute__((noinline)) struct ends marked(void) {
    mark();
    struct ends e = rate();
    mark();
    return e;
}

// Two ratings between marks. One before them is not counted: it pays for what is done once in a program's life.
static struct ends counted(void) {
    rate();
    marked();
    return marked();
}

static int by_size(const void *a, const void *b) {
    double x = *(const double *)a, y = *(const double *)b;
    return (x > y) - (x < y);
}

// The median of the nanoseconds of a rating.
static double median(struct ends *e) {
    enum { RUNS = 101 };
    double took[RUNS];
    for (int run = 0; run < RUNS; run++) {
        struct timespec from, upto;
        clock_gettime(CLOCK_MONOTONIC, &from);
        *e = rate();
        clock_gettime(CLOCK_MONOTONIC, &upto);
        took[run] = (upto.tv_sec - from.tv_sec) * 1e9 + (upto.tv_nsec - from.tv_nsec);
    }
    qsort(took, RUNS, sizeof took[0], by_size);
    return took[RUNS / 2];
}

int main(int argc, char **argv) {
    int timed = argc > 1 && strcmp(argv[1], "time") == 0;
    struct asked a;
    struct ends e;
    mark();
    known();
    mark();
    mark();
    while (read_case(&a)) {
        double took = 0;
        prepare(&a);
        if (timed)
            took = median(&e);
        else
            e = counted();
        e = told(e);
        printf("%.9f %.9f %.0f\n", e.low, e.high, took);
    }
    return 0;
}
