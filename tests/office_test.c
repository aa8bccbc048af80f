/* Writes every deck of standard input by the office's call and prints a line for each: the answer in hex, and the bytes of the room afterwards. The
 * input has for each the version in 8 bytes, the numbers of survival numbers, of weights, of the fans' board numbers, of the boards' survival numbers
 * and of the systems' numbers and the length of the room, in 4 bytes each, then the lists in this order: survival numbers in 4 bytes each, board
 * numbers in 1 and the others in 2, all lowest byte first.
 *
 * Every call is made twice, with the lists and the room ending at a page that may not be touched and beginning behind another, so that a step past
 * either end stops the program. The room is painted before. The two answers and the two rooms must be one, the lists as they were, and the bytes
 * beside the room still painted. */
#define _GNU_SOURCE
#include <inttypes.h>

#include "foambeetle_office.h"
#include "pages.h"

/* Room for lists that are much too long. */
#define PAGES 16u
#define ALL (PAGES * PAGE)
/* The bytes of the room's page that are looked at beside the room. */
#define BESIDE 256u

/* A list as it is typed, how many bytes it has, and the pages that it is lent from. */
struct list {
    uint8_t *typed, *pages;
    size_t bytes;
};

static struct list survival, weights, boards, board_survival, systems;
static uint8_t *room_page, *written;

static uint8_t *lend(const struct list *list, int last) {
    uint8_t *at = last ? list->pages + ALL - list->bytes : list->pages;

    memcpy(at, list->typed, list->bytes);
    return at;
}

static void see_unchanged(const struct list *list, const uint8_t *at) {
    if (memcmp(at, list->typed, list->bytes))
        stop("a list was changed");
}

/* One call with what it is lent at the end of its pages or at their beginning. */
static uint64_t answer_at(int last, uint64_t version, size_t length) {
    uint8_t *p = lend(&survival, last), *w = lend(&weights, last), *b = lend(&boards, last), *g = lend(&board_survival, last);
    uint8_t *s = lend(&systems, last);
    uint8_t *room = last ? room_page + PAGE - length : room_page, *beside = last ? room - BESIDE : room + length;
    uint64_t answer;

    memset(room_page, PAINT, PAGE);
    answer = foambeetle_write(version, (uint32_t *)p, survival.bytes / 4, (uint16_t *)w, weights.bytes / 2, b, boards.bytes, (uint32_t *)g,
                              board_survival.bytes / 4, (uint16_t *)s, systems.bytes / 2, room, length);
    see_unchanged(&survival, p);
    see_unchanged(&weights, w);
    see_unchanged(&boards, b);
    see_unchanged(&board_survival, g);
    see_unchanged(&systems, s);
    if (!painted(beside, BESIDE))
        stop("a byte beside the room was changed");
    if (foambeetle_refused(answer) && !painted(room, length))
        stop("a byte was written on a refusal");
    memcpy(written, room, length);
    return answer;
}

static void print_answer(uint64_t version, size_t length) {
    static uint8_t first[PAGE];
    uint64_t upper = answer_at(1, version, length), lower;
    size_t at;

    memcpy(first, written, length);
    lower = answer_at(0, version, length);
    if (upper != lower || memcmp(first, written, length))
        stop("the two places are answered differently");
    printf("%" PRIx64 " ", lower);
    for (at = 0; at < length; at++)
        printf("%02x", written[at]);
    printf("\n");
}

static void read_list(struct list *list) {
    if (fread(list->typed, 1, list->bytes, stdin) != list->bytes)
        stop("a list is cut short");
}

/* How many numbers of so many bytes a list has. */
static int read_size(struct list *list, unsigned width) {
    uint64_t count;

    if (!read_number(4, &count))
        return 0;
    if (count > ALL / width)
        stop("a list is longer than its pages");
    list->bytes = count * width;
    return 1;
}

static void make_list(struct list *list) {
    list->typed = malloc(ALL);
    list->pages = make_pages(PAGES);
    if (!list->typed)
        stop("no memory for a list");
}

int main(void) {
    uint64_t version, length;

    make_list(&survival);
    make_list(&weights);
    make_list(&boards);
    make_list(&board_survival);
    make_list(&systems);
    room_page = make_pages(1);
    written = malloc(PAGE);
    if (!written)
        stop("no memory for the room");
    while (read_number(8, &version)) {
        if (!read_size(&survival, 4) || !read_size(&weights, 2) || !read_size(&boards, 1) || !read_size(&board_survival, 4) ||
            !read_size(&systems, 2) || !read_number(4, &length) || length > PAGE - BESIDE)
            stop("a case is cut short, or its room longer than a page");
        read_list(&survival);
        read_list(&weights);
        read_list(&boards);
        read_list(&board_survival);
        read_list(&systems);
        print_answer(version, length);
    }
    return 0;
}
