// What the driver and every way of rating share.
#include <stddef.h>
#include <stdint.h>

enum { MOST = 64, HEAVIEST = 120, UNIT = 1 << 30, MOST_MORE = 6 };

// One case: a rule over n components, numbered from 1; of kind 8 the numbers of its further pairs, two each.
struct asked {
    int kind, first, second, n, further;
    uint32_t survival[MOST];
    uint16_t weights[MOST];
    uint64_t more[MOST_MORE];
};

// Both ends in units of 2^-30; a way that has one figure gives it twice.
struct ends {
    double low, high;
};

// Brings the case into the way's own numbers, which is not counted.
void prepare(const struct asked *);

// Rates the case that was prepared last: what is counted.
struct ends rate(void);

// The ends of the last rating where `rate` leaves them in another form; not counted.
struct ends told(struct ends);
