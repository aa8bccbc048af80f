/* Every call of both libraries with a null pointer for each list that is empty, and a line for each answer. In C++ the lists are empty vectors, as far
 * as the standard lets their address be asked for. Compiled by every standard from C89 and C++98 on. */
#include <stdio.h>

#include "foambeetle_office.h"

#if defined(__cplusplus) && __cplusplus >= 201103L
#include <vector>
#define NONE(number) (std::vector<number>().data())
#else
#define NONE(number) ((number *)NULL)
#endif

static void print_answer(const char *call, uint64_t answer)
{
    printf("%s %lx %lu\n", call, (unsigned long)answer, (unsigned long)foambeetle_refusal(answer));
}

/* A length that is counted when it is read: a call reads it once. */
static size_t counted(unsigned *count)
{
    ++*count;
    return 0;
}

static void print_files(void)
{
    int64_t parts[2] = {0, 0};
    double ends[2] = {0.0, 0.0};
    unsigned count = 0;

    print_answer("unit", foambeetle_unit(NONE(uint8_t), 0));
    print_answer("rate", foambeetle_rate(NONE(uint8_t), counted(&count), 1));
    print_answer("worth", foambeetle_worth(NONE(uint8_t), 0, 1, 1, parts));
    print_answer("gain", foambeetle_gain(NONE(uint8_t), 0, 1, 1, 1, parts));
    print_answer("chance", foambeetle_chance(NONE(uint8_t), 0, 1, ends));
    print_answer("chance_between", foambeetle_chance_between(NONE(uint8_t), 0, 1, ends));
    print_answer("read", count);
}

/* Nothing at all; then one fan and one system, and nothing where nothing is needed. */
static void print_lists(void)
{
    static const uint32_t survival[1] = {FOAMBEETLE_UNIT / 2};
    static const uint16_t weights[1] = {0}, system[5] = {1, 1, 0, 1, 1};
    static const double chances[1] = {0.5};
    uint8_t room[FOAMBEETLE_LONGEST_FILE];

    print_answer("write", foambeetle_write(1, NONE(uint32_t), 0, NONE(uint16_t), 0, NONE(uint8_t), 0, NONE(uint32_t), 0, NONE(uint16_t), 0,
                                           NONE(uint8_t), 0));
    print_answer("write", foambeetle_write(1, survival, 1, weights, 1, NONE(uint8_t), 0, NONE(uint32_t), 0, system, 5, NONE(uint8_t), 0));
    print_answer("write", foambeetle_write(1, survival, 1, weights, 1, NONE(uint8_t), 0, NONE(uint32_t), 0, system, 5, room, sizeof room));
    print_answer("rate_doubles", foambeetle_rate_doubles(1, 1, 0, NONE(uint64_t), 0, 1, 1, NONE(double), 0, NONE(uint16_t), 0));
    print_answer("rate_doubles", foambeetle_rate_doubles(1, 1, 0, NONE(uint64_t), 0, 1, 1, chances, 1, NONE(uint16_t), 0));
}

int main(void)
{
    print_files();
    print_lists();
    return 0;
}
