/* foambeetle.h: the loading computer's call, the worth of one fan, the gain of a spare in its place, and the unit of all.
 *
 * Link with libfoambeetle.a or libfoambeetle.so (x86-64), which need nothing but memcpy and memset. Each call reads a
 * deck file's bytes. foambeetle_rate rates one of its systems and answers one 64-bit number. foambeetle_worth reports
 * what one of its fans is worth to a system, foambeetle_gain what a spare in that fan's place adds, and foambeetle_unit
 * what the file's figures are parts of. A call writes only the two ends of a worth or a gain, keeps nothing between
 * calls, and may run in several threads at once. It uses up to 66,000 bytes of stack, 62,400 of them its working table.
 * A thread's stack also holds some 6,000 bytes of the C library's: give a thread 72,000.
 *
 * Figures and survival numbers are parts of the file's unit u, which foambeetle_unit answers: FOAMBEETLE_UNIT (2^30) in a
 * file of version 1, FOAMBEETLE_DECIMAL_UNIT (10^9) in one of version 2 or 3. The exact chance that the system works lies
 * between low / u and high / u. The ends of a worth or a gain may be negative; the exact difference lies between
 * ends[0] / u and ends[1] / u.
 *
 * A file of version 3 has one to four switchboards, each with a survival number, and for each fan the number of its board,
 * 0 for none. A board that fails takes its fans with it, and the exact chance counts that.
 *
 * A refusal is a number of this table. 2, 10 to 13, 20 and 21 refuse the whole file, 14 the system number, 17 the fan's,
 * and the others the system alone:
 *
 *    1  kind not 1..8
 *    2  number of fans 0 or above 64
 *    3  stretch: a = 0, b < a, or b above the number of fans
 *    4  a survival number above the file's unit, of a fan in the stretch or of any board; gain: the spare's too
 *    5  kind 2: the stretch's weights add up to more than 120
 *    6  first or second out of range; kind 6 takes a window of 2 to 64 over a stretch of any length, kind 8 a window of
 *       1 to 10 and no longer than the stretch
 *   10  file under 20 bytes, or of version 3 and under 28
 *   11  version not 1, 2 or 3, or the zero field not 0
 *   12  number of systems not 1..32
 *   13  an offset or the file's length differs from the layout
 *   14  system number 0 or above the file's count
 *   17  worth and gain: the fan is not in the system's stretch
 *   20  version 3: number of boards not 1..4
 *   21  version 3: a fan's board number above the number of boards
 *
 * A file is checked in this order: 10, 11, then 10 for a short header of version 3, 2, 12, 20, 13 and 21.
 */
#ifndef FOAMBEETLE_H
#define FOAMBEETLE_H

#include <stddef.h>
#include <stdint.h>

/* How an inline function is declared: C89 has no word for it, but most of its compilers know __inline__. */
#if defined(__cplusplus) || (defined(__STDC_VERSION__) && __STDC_VERSION__ >= 199901L)
#define FOAMBEETLE_INLINE static inline
#elif defined(__GNUC__)
#define FOAMBEETLE_INLINE static __inline__
#else
#define FOAMBEETLE_INLINE static
#endif

#ifdef __cplusplus
extern "C" {
#endif

/* The file VERSION. */
#define FOAMBEETLE_VERSION "1.1.0"

/* What a chance of 1 is in a file of version 1, and in one of version 2 or 3. */
#define FOAMBEETLE_UNIT 1073741824u
#define FOAMBEETLE_DECIMAL_UNIT 1000000000u

/* The unit of the deck file in `length` bytes from `file` on: one of these two, or 0 for a file that is refused. `file`
 * may be null if `length` is 0. */
uint64_t foambeetle_unit(const uint8_t *file, size_t length);

/* The figures of a system, counted from 1, of the same file. The answer is low times 2^32 plus high, or, for a refusal,
 * (2^32 - 1) times 2^32 plus its number. The functions below take it apart. */
uint64_t foambeetle_rate(const uint8_t *file, size_t length, uint64_t system);

/* Is the answer a refusal? 1 or 0. */
FOAMBEETLE_INLINE int foambeetle_refused(uint64_t answer)
{
    return (answer >> 32) == 0xffffffffu;
}

/* The refusal's number; 0 for an answer that is none. */
FOAMBEETLE_INLINE uint32_t foambeetle_refusal(uint64_t answer)
{
    return foambeetle_refused(answer) ? (uint32_t)(answer & 0xffffffffu) : 0u;
}

/* Low, of an answer that is no refusal: 0 to the file's unit. */
FOAMBEETLE_INLINE uint32_t foambeetle_low(uint64_t answer)
{
    return (uint32_t)(answer >> 32);
}

/* High, likewise. */
FOAMBEETLE_INLINE uint32_t foambeetle_high(uint64_t answer)
{
    return (uint32_t)(answer & 0xffffffffu);
}

/* The worth of a fan to a system, both counted from 1, of the same file: the system's chance with that fan sure to work,
 * less its chance with it sure to fail. With u for the file's unit, the exact difference lies between ends[0] / u, the
 * lower, and ends[1] / u, the upper; both run from -u to u, and they are at most 2n - 2 apart for a stretch of n fans,
 * 2(n + g) - 2 behind g boards. A fan that is sure to work may still lose its board. The answer is 0 if they are written;
 * otherwise it is the refusal's number, and nothing is written. `ends` has room for two numbers. */
uint64_t foambeetle_worth(const uint8_t *file, size_t length, uint64_t system, uint64_t fan, int64_t *ends);

/* The gain of a spare in the place of a fan of a system of the same file: the system's chance with that fan's survival
 * number replaced by `p`, in parts of the file's unit, less its chance as it is. The ends and the answer are as those of
 * foambeetle_worth. A fan's worth does not depend on how good the fan is now; the gain does, so it says where a spare
 * goes. The exact gain of a spare that cannot fail is the exact worth times the fan's own chance to fail. */
uint64_t foambeetle_gain(const uint8_t *file, size_t length, uint64_t system, uint64_t fan, uint64_t p, int64_t *ends);

/* The libraries themselves take no null pointer. A program that includes this header calls them through the functions
 * below, which pass an address of their own if the length is 0. */
FOAMBEETLE_INLINE uint64_t foambeetle_unit_lent(const uint8_t *file, size_t length)
{
    const uint8_t none = 0;

    return foambeetle_unit(length ? file : &none, length);
}
#define foambeetle_unit foambeetle_unit_lent

FOAMBEETLE_INLINE uint64_t foambeetle_rate_lent(const uint8_t *file, size_t length, uint64_t system)
{
    const uint8_t none = 0;

    return foambeetle_rate(length ? file : &none, length, system);
}
#define foambeetle_rate foambeetle_rate_lent

FOAMBEETLE_INLINE uint64_t foambeetle_worth_lent(const uint8_t *file, size_t length, uint64_t system, uint64_t fan,
                                                 int64_t *ends)
{
    const uint8_t none = 0;

    return foambeetle_worth(length ? file : &none, length, system, fan, ends);
}
#define foambeetle_worth foambeetle_worth_lent

FOAMBEETLE_INLINE uint64_t foambeetle_gain_lent(const uint8_t *file, size_t length, uint64_t system, uint64_t fan,
                                                uint64_t p, int64_t *ends)
{
    const uint8_t none = 0;

    return foambeetle_gain(length ? file : &none, length, system, fan, p, ends);
}
#define foambeetle_gain foambeetle_gain_lent

#ifdef __cplusplus
}
#endif

#endif
