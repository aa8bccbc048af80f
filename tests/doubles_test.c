/* Calls the office's calls over doubles for every case of standard input and prints a line for each. A case begins with a number of 8 bytes:
 *   0  a deck's chances: the length of a file in 4 bytes, its bytes, how many systems are asked for in 4 bytes, and their numbers in 8 each
 *   1  a rating: kind, first, second, a and b in 8 bytes each; how many further numbers, doubles and weights there are in 4 bytes each; then the
 *      further numbers in 8 bytes, the doubles in 8 and the weights in 2
 *   2  a deck's chances as 0 has them, by foambeetle_chance_between
 * all lowest byte first. A line of a chance has the refusal or the bits of both ends, one of a rating the answer in hex.
 *
 * Every call is made twice, with what it is lent ending at a page that may not be touched and beginning behind another, so that a step past either end
 * stops the program. The ends are painted before. The two answers must be one, the lists as they were, the bytes beside the ends still painted, and the
 * ends too where the answer is a refusal. */
#define _GNU_SOURCE
#include <inttypes.h>

#include "foambeetle_office.h"
#include "pages.h"

#define PAGES 4u
#define ALL (PAGES * PAGE)
/* The bytes beside the ends that are looked at. */
#define BESIDE 256u
#define BOTH_ENDS (2 * sizeof(double))

/* A list as it is read, how many bytes it has, and the pages that it is lent from. */
struct list {
    uint8_t *read, *pages, *lent;
    size_t bytes;
};

static struct list file, more, survival, weights;
static uint8_t *ends_page;

static void lend(struct list *list, int last) {
    list->lent = last ? list->pages + ALL - list->bytes : list->pages;
    memcpy(list->lent, list->read, list->bytes);
}

static void see_unchanged(const struct list *list) {
    if (memcmp(list->lent, list->read, list->bytes))
        stop("a list was changed");
}

static void read_list(struct list *list) {
    if (fread(list->read, 1, list->bytes, stdin) != list->bytes)
        stop("a list is cut short");
}

/* How many numbers of so many bytes a list has. */
static void read_size(struct list *list, unsigned width) {
    uint64_t count;

    if (!read_number(4, &count) || count > ALL / width)
        stop("a list's length is cut short, or longer than its pages");
    list->bytes = count * width;
}

static void make_list(struct list *list) {
    list->read = malloc(ALL);
    list->pages = make_pages(PAGES);
    if (!list->read)
        stop("no memory for a list");
}

/* A call for a deck's chance. */
typedef uint64_t chance_call(const uint8_t *file, size_t length, uint64_t system, double *ends);

/* One such call; the two ends afterwards. */
static uint64_t chance_at(chance_call *call, int last, uint64_t system, uint64_t *bits) {
    uint8_t *ends = last ? ends_page + PAGE - BOTH_ENDS : ends_page, *beside = last ? ends - BESIDE : ends + BOTH_ENDS;
    uint64_t refusal;

    lend(&file, last);
    memset(ends_page, PAINT, PAGE);
    refusal = call(file.lent, file.bytes, system, (double *)ends);
    see_unchanged(&file);
    if (!painted(beside, BESIDE))
        stop("a byte beside the ends was changed");
    if (refusal && !painted(ends, BOTH_ENDS))
        stop("an end was written on a refusal");
    memcpy(bits, ends, BOTH_ENDS);
    return refusal;
}

static void print_chance(chance_call *call, uint64_t system) {
    uint64_t upper[2], lower[2], refusal = chance_at(call, 1, system, upper);

    if (refusal != chance_at(call, 0, system, lower) || memcmp(upper, lower, sizeof upper))
        stop("the two places are answered differently");
    if (refusal)
        printf("system %" PRIu64 " refused %" PRIu64 "\n", system, refusal);
    else
        printf("system %" PRIu64 " %016" PRIx64 " %016" PRIx64 "\n", system, lower[0], lower[1]);
}

static void print_chances(chance_call *call) {
    uint64_t count, system;

    read_size(&file, 1);
    read_list(&file);
    if (!read_number(4, &count))
        stop("the systems are cut short");
    while (count-- > 0) {
        if (!read_number(8, &system))
            stop("a system is cut short");
        print_chance(call, system);
    }
}

/* One call for a rating of kind, first, second, a and b. */
static uint64_t rating_at(int last, const uint64_t *rule) {
    uint64_t answer;

    lend(&more, last);
    lend(&survival, last);
    lend(&weights, last);
    answer = foambeetle_rate_doubles(rule[0], rule[1], rule[2], (uint64_t *)more.lent, more.bytes / 8, rule[3], rule[4], (double *)survival.lent,
                                     survival.bytes / 8, (uint16_t *)weights.lent, weights.bytes / 2);
    see_unchanged(&more);
    see_unchanged(&survival);
    see_unchanged(&weights);
    return answer;
}

static void print_rating(void) {
    uint64_t rule[5], answer;
    unsigned at;

    for (at = 0; at < 5; at++)
        if (!read_number(8, &rule[at]))
            stop("a rule is cut short");
    read_size(&more, 8);
    read_size(&survival, 8);
    read_size(&weights, 2);
    read_list(&more);
    read_list(&survival);
    read_list(&weights);
    answer = rating_at(1, rule);
    if (answer != rating_at(0, rule))
        stop("the two places are answered differently");
    printf("%" PRIx64 "\n", answer);
}

int main(void) {
    uint64_t what;

    make_list(&file);
    make_list(&more);
    make_list(&survival);
    make_list(&weights);
    ends_page = make_pages(1);
    while (read_number(8, &what)) {
        if (what == 1)
            print_rating();
        else
            print_chances(what ? foambeetle_chance_between : foambeetle_chance);
    }
    return 0;
}
