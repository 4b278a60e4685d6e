/* Random words and rows: the same seed gives the same ones on every run. For calls.c and units.c. */
#include "kinds.h"

#define NAN_PRINTED UINT64_C(9221120237041090560) /* every NaN of an answer */
#define INFINITE UINT64_C(0x7FF0000000000000)     /* the exponent of an infinity and of a NaN */
#define SIGN (UINT64_C(1) << 63)

/* ---- Random words: xorshift64* */

static uint64_t seeded;

static uint64_t any_word(void)
{
    seeded ^= seeded >> 12;
    seeded ^= seeded << 25;
    seeded ^= seeded >> 27;
    return seeded * UINT64_C(2685821657736338717);
}

static uint64_t below(uint64_t n)
{
    return (any_word() >> 32) % n;
}

static uint64_t pattern(double number)
{
    uint64_t word;
    memcpy(&word, &number, sizeof word);
    return word;
}

/* From low to high in 4096 steps, so that thresholds are met exactly too. */
static double between(double low, double high)
{
    return low + (high - low) * (double)below(4097) / 4096;
}

/* Quiet and signalling NaNs of both signs, infinities. */
static uint64_t not_finite(void)
{
    static const uint64_t some[] = { INFINITE,     INFINITE | SIGN,     NAN_PRINTED, NAN_PRINTED | SIGN,
                                     INFINITE | 1, INFINITE | SIGN | 1, UINT64_MAX };
    uint64_t n = below(sizeof some / sizeof *some + 1);
    return n < sizeof some / sizeof *some ? some[n] : any_word() | INFINITE;
}

/* Zeros, subnormal numbers and the least normal ones, of both signs. */
static uint64_t tiny(void)
{
    static const uint64_t some[] = { 0, 1, UINT64_C(0x000FFFFFFFFFFFFF), UINT64_C(0x0010000000000000) };
    uint64_t n = below(sizeof some / sizeof *some + 1);
    return (n < sizeof some / sizeof *some ? some[n] : any_word() >> 12) | (any_word() & SIGN);
}

/* A finite number of any size. */
static uint64_t any_finite(void)
{
    uint64_t word = any_word();
    return (word & INFINITE) == INFINITE ? UINT64_C(0x7FEFFFFFFFFFFFFF) | (word & SIGN) : word;
}

static uint64_t any_whole(int64_t most)
{
    static const int64_t extreme[] = { INT64_MIN, INT64_MIN + 1, -1, INT64_MAX, INT64_C(1) << 32, INT64_MAX - 1 };
    return below(8) ? below((uint64_t)most + 1) : (uint64_t)extreme[below(sizeof extreme / sizeof *extreme)];
}

/* A level, or a bound of a signed byte. */
static uint64_t any_alarm(void)
{
    static const int64_t some[] = { INT8_MIN, INT8_MIN + 1, -1, INT8_MAX - 1, INT8_MAX };
    return below(4) ? below(5) : (uint64_t)some[below(sizeof some / sizeof *some)];
}

/* One that no signed byte holds: beside a bound, a level with a byte more, or far off. */
static uint64_t wide_alarm(void)
{
    static const int64_t some[] = { INT8_MIN - 1, INT8_MAX + 1, 256 + 2, -256, INT64_MIN, INT64_MAX, INT64_C(1) << 32 };
    return (uint64_t)some[below(sizeof some / sizeof *some)];
}

static uint64_t any_flag(void)
{
    uint64_t n = below(8);
    return n < 4 ? 0 : n < 7 ? 1 : any_word() | 1;
}

/* ---- Random rows */

/* The time that rows go on from, and the step; below 0 any up to 900 s. */
static double clock_time, pace = -1;

/* A number where the sequences decide something. */
static uint64_t drawn(char column)
{
    switch (column) {
    case 'T': return pattern(between(273, 282));
    case 'O': return pattern(between(292, 296));
    case 'P': return pattern(below(4) ? between(12, 20) : between(0, 40));
    case 'u': return pattern(between(0, 1));
    case 'v': return pattern(between(-1, 1));
    case 'a': return any_alarm();
    case 'm': return below(4) ? 1 : any_whole(7);
    case 's': return below(4) ? 0 : any_whole(3);
    default: return any_flag();
    }
}

/* Half a second, so that a relief window fills; a step of whole seconds; or any. */
static double any_pace(void)
{
    static const double some[] = { 0.5, 0.5, 1, 15, 60, 300 };
    uint64_t n = below(sizeof some / sizeof *some + 2);
    return n < sizeof some / sizeof *some ? some[n] : -1;
}

/* Mostly a step on; else the same time, one that falls or is negative, or one that is no number to go on from. wild: also times of any
 * size, after which most others fall. */
static uint64_t next_time(int wild)
{
    uint64_t n = below(256);
    if (n == 0)
        return not_finite();
    if (n == 1)
        return tiny() | (below(2) ? SIGN : 0);
    if (n == 2)
        return pattern(-between(0, 900));
    if (n < 8)
        return pattern(clock_time - between(0, 900));
    if (n < 16)
        return pattern(clock_time);
    if (n == 16 && wild)
        return any_finite();
    if (n == 17 && below(16) == 0)
        clock_time += 1e8 * between(0, 1);
    if (below(500) == 0)
        pace = any_pace();
    clock_time += pace < 0 ? between(0, 900) : pace;
    return pattern(clock_time);
}

/* Columns are often as they were; steady holds what a row goes on from, an odd number or alarm is of one row alone. wild: numbers of any size too, which a loop or a window may
 * never forget. */
static void next_row(int wild)
{
    static uint64_t steady[ROW];
    size_t columns = strlen(kind->row), odd = below(columns);
    for (size_t i = 1; i < columns; i++)
        if (steady[i] == 0 ? below(4) == 0 : below(12) == 0)
            steady[i] = drawn(kind->row[i]);
    memcpy(row, steady, sizeof row);
    row[0] = next_time(wild);
    if (odd > 0 && is_float(kind->row[odd]) && below(32) == 0)
        row[odd] = wild && below(2) ? any_finite() : below(2) ? not_finite() : tiny();
    if (kind->row[odd] == 'a' && below(32) == 0)
        row[odd] = wide_alarm();
}
