/* foambeetle_office.h: for the office ashore: the deck file's writer, a deck's chances as doubles, ratings asked in doubles.
 *
 * Link with libfoambeetle_office.a or libfoambeetle_office.so (x86-64), which need nothing but memcpy and memset, and not
 * the ship's libfoambeetle. The calls keep nothing between calls and may run in several threads at once. Those over
 * doubles use up to 65,000 bytes of stack, 62,400 of them a working table.
 *
 * The table above each call lists its refusals. The first line that applies is given.
 */
#ifndef FOAMBEETLE_OFFICE_H
#define FOAMBEETLE_OFFICE_H

/* FOAMBEETLE_VERSION, and foambeetle_refused and foambeetle_refusal, which take the answer apart. */
#include "foambeetle.h"

#ifdef __cplusplus
extern "C" {
#endif

/* The length of the longest file. */
#define FOAMBEETLE_LONGEST_FILE 812

/* 11  version not 1, 2 or 3
 *  2  number of fans 0 or above 64
 *  5  not as many weights as fans
 * 12  number of systems not 1..32, or the last one has fewer than five numbers
 * 20  version 3: number of boards not 1..4
 * 21  version 3: not as many board numbers as fans, or one above the number of boards
 * 16  room too short
 *
 * Rules and survival numbers are not judged here: the ship refuses them, system by system.
 *
 * Writes the deck file of n fans into the front of the room, which has `length` bytes; the rest of it stays untouched.
 * `version` is the file's, 1 to 3, and says what the survival numbers are parts of: 2^30 in version 1, 1,000,000,000 in
 * versions 2 and 3. `w` and `s` are how many numbers `weights` and `systems` have: n, and five for each system, its kind,
 * first, second, and the first and last fan of its stretch. In version 3 `boards` has `b` numbers, n of them, each fan's
 * board, 0 for none, and `switchboards` the survival numbers of the `g` boards; versions 1 and 2 read neither list nor
 * its length. A pointer may be null if its length is 0. The room must not overlap a list. The answer is the file's length,
 * or, for a refusal, (2^32 - 1) times 2^32 plus its number; then nothing is written. */
uint64_t foambeetle_write(uint64_t version, const uint32_t *survival, size_t n, const uint16_t *weights, size_t w,
                          const uint8_t *boards, size_t b, const uint32_t *switchboards, size_t g,
                          const uint16_t *systems, size_t s, uint8_t *room, size_t length);

/* 10  file under 20 bytes
 * 11  version not 1, or the zero field not 0
 *  2, 12, 13, then 14, then 1 and 3 to 6, as the ship's call has them (foambeetle.h)
 *
 * The chance that a system of a version 1 deck file, counted from 1, works: it lies between ends[0] and ends[1], which
 * are low and high of foambeetle_rate, each divided by 2^30. That is exact: ends[0] * 1073741824.0 is low again. `file`
 * may be null if `length` is 0, and `ends` has room for two doubles. The answer is 0 if they are written; otherwise it is
 * the refusal's number, and nothing is written. */
uint64_t foambeetle_chance(const uint8_t *file, size_t length, uint64_t system, double *ends);

/* As foambeetle_rate (foambeetle.h): 10, 11 for a version not 1, 2 or 3, 2, 12, 20, 13, 21, then 14, then 1 and 3 to 6.
 *
 * The chance that a system of a deck file of any version, counted from 1, works, between two doubles: with u for the
 * file's unit and low and high as foambeetle_rate has them, ends[0] is the largest double that is at most low / u, and
 * ends[1] the smallest that is at least high / u. For version 1 they are those of foambeetle_chance. `file` may be null
 * if `length` is 0, and `ends` has room for two doubles. The answer is 0 if they are written; otherwise it is the refusal's
 * number, and nothing is written. */
uint64_t foambeetle_chance_between(const uint8_t *file, size_t length, uint64_t system, double *ends);

/*  1  kind not 1..8
 *  2  number of fans 0 or above 64
 *  3  stretch: a = 0, b < a, or b above the number of fans
 * 18  a chance of the stretch is a NaN, below 0 or above 1
 *  5  kind 2: not as many weights as fans, or the stretch's weights add up to more than 120
 *  6  first, second or a further pair out of range, more than three further pairs, or half a one
 * 19  kind 3: a chance of the stretch times 2^30 is no whole number
 *
 * Rates the stretch of n fans from a to b under the rule of kind, first and second. `survival` has each fan's chance to
 * last, a double from 0 to 1; negative zero is 0. `more` has kind 8's further pairs, two numbers each, `pairs` numbers in
 * all; no other kind reads them, only kind 2 reads `weights`, and nothing outside the stretch is read. A pointer may be
 * null where its length is 0.
 *
 * Each chance times 2^30 becomes the whole number just below and the one just above; low comes from the lower ones and
 * high from the upper. The exact chance over the doubles' own values lies between low / 2^30 and high / 2^30, which are
 * at most 2(b - a) + 1 parts of 2^30 apart. The answer is low times 2^32 plus high, or, for a refusal, (2^32 - 1) times
 * 2^32 plus its number; the functions of foambeetle.h take it apart. */
uint64_t foambeetle_rate_doubles(uint64_t kind, uint64_t first, uint64_t second, const uint64_t *more, size_t pairs,
                                 uint64_t a, uint64_t b, const double *survival, size_t n, const uint16_t *weights,
                                 size_t weighed);

/* As in foambeetle.h: if a length is 0, these functions pass an address of their own. */
FOAMBEETLE_INLINE uint64_t foambeetle_write_lent(uint64_t version, const uint32_t *survival, size_t n,
                                                 const uint16_t *weights, size_t w, const uint8_t *boards, size_t b,
                                                 const uint32_t *switchboards, size_t g, const uint16_t *systems,
                                                 size_t s, uint8_t *room, size_t length)
{
    const uint32_t no_number = 0;
    const uint16_t no_word = 0;
    const uint8_t no_byte = 0;
    uint8_t no_room = 0;

    return foambeetle_write(version, n ? survival : &no_number, n, w ? weights : &no_word, w, b ? boards : &no_byte, b,
                            g ? switchboards : &no_number, g, s ? systems : &no_word, s, length ? room : &no_room,
                            length);
}
#define foambeetle_write foambeetle_write_lent

FOAMBEETLE_INLINE uint64_t foambeetle_chance_lent(const uint8_t *file, size_t length, uint64_t system, double *ends)
{
    const uint8_t none = 0;

    return foambeetle_chance(length ? file : &none, length, system, ends);
}
#define foambeetle_chance foambeetle_chance_lent

FOAMBEETLE_INLINE uint64_t foambeetle_chance_between_lent(const uint8_t *file, size_t length, uint64_t system,
                                                          double *ends)
{
    const uint8_t none = 0;

    return foambeetle_chance_between(length ? file : &none, length, system, ends);
}
#define foambeetle_chance_between foambeetle_chance_between_lent

FOAMBEETLE_INLINE uint64_t foambeetle_rate_doubles_lent(uint64_t kind, uint64_t first, uint64_t second,
                                                        const uint64_t *more, size_t pairs, uint64_t a, uint64_t b,
                                                        const double *survival, size_t n, const uint16_t *weights,
                                                        size_t weighed)
{
    const uint64_t no_more = 0;
    const double no_chance = 0.0;
    const uint16_t no_weight = 0;

    return foambeetle_rate_doubles(kind, first, second, pairs ? more : &no_more, pairs, a, b,
                                   n ? survival : &no_chance, n, weighed ? weights : &no_weight, weighed);
}
#define foambeetle_rate_doubles foambeetle_rate_doubles_lent

#ifdef __cplusplus
}
#endif

#endif
