/* Makes the library's calls on every deck file of standard input and prints a line for each system that is asked for: its number, what
 * foambeetle_rate answers, in hex, the fan that is asked for with it, what foambeetle_worth answers, the spare's survival number, what foambeetle_gain
 * answers, and the unit. The input has for each file its length in 4 bytes, its bytes, the number of systems in 4 bytes, and for each its number, the fan's and
 * the spare's in 8 bytes, all lowest byte first.
 *
 * Every call is made twice, with what it is lent ending at a page that may not be touched and beginning behind another, so that a step past either
 * end stops the program. The two answers must be one, the file's bytes as they were, and the ends untouched where the call refuses.
 *
 * Each call has a stack of its own, of just the bytes that the older ship's loading computer grants, above a page that may not be touched either. The
 * last four lines are the deepest that each call went. */
#define _GNU_SOURCE
#include <inttypes.h>
#include <ucontext.h>

#include "foambeetle.h"
#include "pages.h"

/* Document 02, request 07. */
#define STACK 70000u
#define ENDS (2 * sizeof(int64_t))
/* The bytes of the ends' page that are looked at beside the ends. */
#define BESIDE 256u

static uint8_t *file_page, *ends_page, *gain_page;
static uint8_t before[PAGE];
static ucontext_t caller, callee;

/* A painted stack, and where a call on it begins. */
struct stack {
    uint8_t *bytes, *top;
};

static struct stack of_rate, of_worth, of_gain, of_unit;

/* What is asked of a file, and what is answered. */
struct asked {
    uint64_t system, fan, p;
};

struct answer {
    uint64_t rated, refused, no_gain, unit;
    int64_t ends[2], gain[2];
};

/* What the calls on the painted stacks are lent, and what they answer. */
static struct {
    const uint8_t *file;
    size_t length;
    struct asked asked;
    int64_t *ends, *gain;
    uint64_t rated, refused, no_gain, unit;
} call;

static void run_rate(void) {
    of_rate.top = __builtin_frame_address(0);
    call.rated = foambeetle_rate(call.file, call.length, call.asked.system);
}

static void run_worth(void) {
    of_worth.top = __builtin_frame_address(0);
    call.refused = foambeetle_worth(call.file, call.length, call.asked.system, call.asked.fan, call.ends);
}

static void run_gain(void) {
    of_gain.top = __builtin_frame_address(0);
    call.no_gain = foambeetle_gain(call.file, call.length, call.asked.system, call.asked.fan, call.asked.p, call.gain);
}

static void run_unit(void) {
    of_unit.top = __builtin_frame_address(0);
    call.unit = foambeetle_unit(call.file, call.length);
}

static void make_stack(struct stack *stack) {
    stack->bytes = make_pages(STACK / PAGE + 1);
}

static void run_on(struct stack *stack, void (*run)(void)) {
    if (getcontext(&callee))
        stop("no context");
    callee.uc_stack.ss_sp = stack->bytes;
    callee.uc_stack.ss_size = STACK;
    callee.uc_link = &caller;
    makecontext(&callee, run, 0);
    if (swapcontext(&caller, &callee))
        stop("cannot change stacks");
}

static size_t deepest(const struct stack *stack) {
    size_t lowest = 0;

    while (lowest < STACK && stack->bytes[lowest] == PAINT)
        lowest++;
    return (size_t)(stack->top - (stack->bytes + lowest));
}

/* Each call, on its painted stack. */
static void make_calls(const uint8_t *file, size_t length, struct asked asked, uint8_t *ends, uint8_t *gain) {
    call.file = file;
    call.length = length;
    call.asked = asked;
    call.ends = (int64_t *)ends;
    call.gain = (int64_t *)gain;
    run_on(&of_rate, run_rate);
    run_on(&of_worth, run_worth);
    run_on(&of_gain, run_gain);
    run_on(&of_unit, run_unit);
}

/* Lent room for two ends, and `beside` next to it: painted, and looked at after a call that writes it or refuses. */
struct ends {
    uint8_t *at;
    const uint8_t *beside;
};

static struct ends ends_at(uint8_t *page, int last) {
    struct ends ends;

    ends.at = last ? page + PAGE - ENDS : page;
    ends.beside = last ? ends.at - BESIDE : page + ENDS;
    return ends;
}

static void look_at(struct ends ends, uint64_t refused) {
    if (!painted(ends.beside, BESIDE))
        stop("a byte beside the ends was changed");
    if (refused && !painted(ends.at, ENDS))
        stop("the ends were written on a refusal");
}

/* All calls with what they are lent at these places: the answer, and nothing else changed. */
static struct answer answer_at(uint8_t *at, struct ends ends, struct ends gain, const uint8_t *file, size_t length, struct asked asked) {
    struct answer answer;

    memcpy(at, file, length);
    memset(ends.at, PAINT, ENDS);
    memset(gain.at, PAINT, ENDS);
    make_calls(at, length, asked, ends.at, gain.at);
    if (memcmp(at, file, length))
        stop("a lent byte was changed");
    look_at(ends, call.refused);
    look_at(gain, call.no_gain);
    answer.rated = call.rated;
    answer.refused = call.refused;
    answer.no_gain = call.no_gain;
    answer.unit = call.unit;
    memcpy(answer.ends, ends.at, ENDS);
    memcpy(answer.gain, gain.at, ENDS);
    return answer;
}

/* The same with all of it against the page behind, and against the page before: one answer. */
static struct answer answer_of(const uint8_t *file, size_t length, struct asked asked) {
    struct answer upper = answer_at(file_page + PAGE - length, ends_at(ends_page, 1), ends_at(gain_page, 1), file, length, asked);
    struct answer lower = answer_at(file_page, ends_at(ends_page, 0), ends_at(gain_page, 0), file, length, asked);

    if (memcmp(&upper, &lower, sizeof lower))
        stop("the two places are answered differently");
    return lower;
}

/* Two ends, or the refusal. */
static void print_ends(uint64_t refused, const int64_t *ends) {
    if (refused)
        printf(" refused %" PRIu64, refused);
    else
        printf(" lower %" PRId64 " upper %" PRId64, ends[0], ends[1]);
}

static void print_answer(struct asked asked, struct answer answer) {
    printf("system %" PRIu64 " %" PRIx64 " fan %" PRIu64, asked.system, answer.rated, asked.fan);
    print_ends(answer.refused, answer.ends);
    printf(" spare %" PRIu64, asked.p);
    print_ends(answer.no_gain, answer.gain);
    printf(" unit %" PRIu64 "\n", answer.unit);
}

/* The answers to all that is asked of a file. */
static void print_file(size_t length) {
    uint64_t count;
    struct asked asked;

    if (fread(before, 1, length, stdin) != length || !read_number(4, &count))
        stop("the file is cut short");
    for (; count > 0; count--) {
        if (!read_number(8, &asked.system) || !read_number(8, &asked.fan) || !read_number(8, &asked.p))
            stop("what is asked is cut short");
        print_answer(asked, answer_of(before, length, asked));
    }
}

int main(void) {
    uint64_t length;

    file_page = make_pages(1);
    ends_page = make_pages(1);
    gain_page = make_pages(1);
    make_stack(&of_rate);
    make_stack(&of_worth);
    make_stack(&of_gain);
    make_stack(&of_unit);
    while (read_number(4, &length)) {
        if (length > PAGE)
            stop("a file is longer than a page");
        print_file(length);
    }
    printf("foambeetle_rate %zu\nfoambeetle_worth %zu\n", deepest(&of_rate), deepest(&of_worth));
    printf("foambeetle_gain %zu\nfoambeetle_unit %zu\n", deepest(&of_gain), deepest(&of_unit));
    return 0;
}
