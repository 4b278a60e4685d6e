/* Words that no call gave, and a checksum of what the calls give. For calls.c and units.c. */
#include "random.h"

static int is_nan(uint64_t word)
{
    return (word & ~SIGN) > INFINITE;
}

/* ---- The checksum */

static uint64_t checksum;

/* Adds words to the checksum; which NaN it is does not matter. */
static void add(const uint64_t *words, size_t n)
{
    for (size_t i = 0; i < n; i++)
        checksum = (checksum ^ (is_nan(words[i]) ? NAN_PRINTED : words[i])) * UINT64_C(1099511628211);
}

/* ---- Forged words */

static uint64_t forged_word(void)
{
    switch (below(8)) {
    case 0: return any_word();
    case 1: return UINT64_MAX;
    case 2: return not_finite();
    case 3: return tiny();
    case 4: return pattern(clock_time - between(-900, 900));
    case 5: return pattern(between(0, 282));
    default: return below(6);
    }
}

static void forge(uint64_t *words, size_t n)
{
    switch (below(8)) {
    case 0: memset(words, 0xFF, n * sizeof *words); break;
    case 1:
        for (size_t i = 0; i < n; i++)
            words[i] = any_word();
        break;
    case 2:
        for (size_t i = 0; i < n; i++)
            words[i] = forged_word();
        break;
    default: words[below(n)] = forged_word();
    }
}

/* Forges one of the window's arrays: all of it now and then, since it is long. */
static void forge_window(double *numbers)
{
    uint64_t words[WOLDGRATER_WINDOW];
    size_t at = below(WOLDGRATER_WINDOW);
    memcpy(words, numbers, sizeof words);
    if (below(64) == 0)
        forge(words, WOLDGRATER_WINDOW);
    else
        words[at] = forged_word();
    memcpy(numbers, words, sizeof words);
}
