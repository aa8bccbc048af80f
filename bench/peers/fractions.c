// (c) Exact fractions of GMP, by the memory table.
#include <gmp.h>

typedef __mpq_struct number;

static number P[65], Q[65], worked, failed;

static inline void set(number *to, int works) {
    mpq_set_ui(to, works, 1);
}

static inline void copy(number *to, const number *from) {
    mpq_set(to, from);
}

static inline void mix(number *to, int i, const number *works, const number *fails) {
    mpq_mul(&worked, &P[i], works);
    mpq_mul(&failed, &Q[i], fails);
    mpq_add(to, &worked, &failed);
}

static inline void keep(number *to, int i, const number *works) {
    mpq_mul(to, &P[i], works);
}

#include "table.h"

static void make_numbers(void) {
    static int made;
    if (made++) return;
    for (int i = 0; i <= MOST; i++) mpq_init(&P[i]), mpq_init(&Q[i]);
    for (int m = 0; m <= HEAVIEST; m++) mpq_init(&row[m]);
    mpq_init(&opened), mpq_init(&saved), mpq_init(&worked), mpq_init(&failed);
}

static void fraction(number *to, uint32_t over_unit) {
    mpq_set_ui(to, over_unit, UNIT);
    mpq_canonicalize(to);
}

void prepare(const struct asked *a) {
    take(a);
    make_numbers();
    for (int i = 1; i <= n; i++) {
        fraction(&P[i], a->survival[i - 1]);
        fraction(&Q[i], UNIT - a->survival[i - 1]);
    }
}

static const number *answer;

struct ends rate(void) {
    answer = value();
    return (struct ends){0, 0};
}

// The whole units below and above the answer.
struct ends told(struct ends e) {
    mpz_t units;
    mpz_init(units);
    mpz_mul_ui(units, mpq_numref(answer), UNIT);
    mpz_fdiv_q(units, units, mpq_denref(answer));
    e.low = mpz_get_d(units);
    mpz_mul_ui(units, mpq_numref(answer), UNIT);
    mpz_cdiv_q(units, units, mpq_denref(answer));
    e.high = mpz_get_d(units);
    mpz_clear(units);
    return e;
}
