/* The calls of each kind of rows, a row, a state, commands and signals, with what is left on the timers, being the 8-byte words that they
 * consist of. Joined rows have no signals and no line. For calls.c and units.c. */
#include <stddef.h>
#include <stdint.h>
#include <string.h>

#include "woldgrater.h"

#define WORDS(type) (sizeof(type) / sizeof(uint64_t))

static uint64_t below(uint64_t n);

enum {
    ROW = WORDS(struct woldgrater_rooftop_row),
    COMMANDS = WORDS(struct woldgrater_rooftop_commands),
    STATE = WORDS(struct woldgrater_rooftop_state),
    SIGNALS = WORDS(struct woldgrater_relief_shown) - 1,
    LINE = WOLDGRATER_FREEZE_LINE
};

/* What is played: the row, the state before it, and what the calls give for it. The arrays are on the heap, where a memory checker sees a
 * byte too many. */
static uint64_t row[ROW];
static uint64_t state[STATE];
static double *times, *integrals;
static uint64_t status, given_state[STATE], commands[COMMANDS];
static uint64_t shown_status, signals[SIGNALS];
static uint8_t *line;

/* ---- The calls of each kind, on words: a row, a state, what starts it, what a row gives; then what its signals are, and its line */

#define CALLS(kind, started, given)                                                      \
    static struct woldgrater_##kind##_row kind##_row(void)                               \
    {                                                                                    \
        struct woldgrater_##kind##_row made;                                             \
        memcpy(&made, row, sizeof made);                                                 \
        return made;                                                                     \
    }                                                                                    \
    static struct woldgrater_##kind##_state kind##_state(void)                           \
    {                                                                                    \
        struct woldgrater_##kind##_state made;                                           \
        memcpy(&made, state, sizeof made);                                               \
        return made;                                                                     \
    }                                                                                    \
    static void kind##_start(void)                                                       \
    {                                                                                    \
        struct woldgrater_##kind##_state made = started;                                 \
        memcpy(state, &made, sizeof made);                                               \
    }                                                                                    \
    static void kind##_play(void)                                                        \
    {                                                                                    \
        struct woldgrater_##kind##_given made = given;                                   \
        status = made.status;                                                            \
        memcpy(given_state, &made.state, sizeof made.state);                             \
        memcpy(commands, &made.commands, sizeof made.commands);                          \
    }

#define SHOWS(kind, shown)                                                               \
    static void kind##_show(void)                                                        \
    {                                                                                    \
        struct woldgrater_##kind##_shown made = shown;                                   \
        shown_status = made.status;                                                      \
        memcpy(signals, &made.signals, sizeof made - sizeof made.status);                \
    }                                                                                    \
    static struct woldgrater_line_given kind##_line(size_t room)                         \
    {                                                                                    \
        return woldgrater_##kind##_line(kind##_row(), line, room);                       \
    }

CALLS(freeze, woldgrater_freeze_start(0), woldgrater_freeze_row(freeze_state(), freeze_row()))
SHOWS(freeze, woldgrater_freeze_signals(freeze_state(), freeze_row()))
CALLS(econ, woldgrater_econ_start(), woldgrater_econ_row(econ_state(), econ_row()))
SHOWS(econ, woldgrater_econ_signals(econ_state(), econ_row()))
CALLS(relief, woldgrater_relief_start(times, integrals), woldgrater_relief_row(times, integrals, relief_state(), relief_row()))
SHOWS(relief, woldgrater_relief_signals(times, integrals, relief_state(), relief_row()))
CALLS(rooftop, woldgrater_rooftop_start(times, integrals, below(2)),
      woldgrater_rooftop_row(times, integrals, rooftop_state(), rooftop_row()))

/* Freeze protection whose stage 2 keeps to its hour; any word but 0 asks for it. */
static void keep_hour_start(void)
{
    struct woldgrater_freeze_state made = woldgrater_freeze_start(UINT64_C(1) << 63);
    memcpy(state, &made, sizeof made);
}

/* ---- The kinds, and freeze protection in its other manner. Columns of a row: t time, T supply temperature, O outdoor temperature,
 * P pressure, u from 0 to 1, v from -1 to 1 (all floats), b flag, a alarm, m mode, s stage. Columns of an answer: f float, n whole
 * number or flag. */
static const struct kind {
    const char *name;
    const char *file;                      /* the first line of its row files */
    const char *row;
    const char *answer;
    size_t state;                          /* words */
    size_t signals;                        /* words */
    size_t same_signal;                    /* the word of the signals that is also a command, */
    size_t same_command;                   /* and the word of that command */
    size_t line;                           /* bytes */
    int windowed;                          /* it has alarms, and the arrays of a window */
    void (*start)(void);
    void (*play)(void);
    void (*show)(void);                    /* null where it has no signals, */
    struct woldgrater_line_given (*write)(size_t room); /* and where it has no line */
} kinds[] = {
    { "freeze", "freeze", "tuuuuuTbbuuT", "nnfffnfffnn", WORDS(struct woldgrater_freeze_state),
      WORDS(struct woldgrater_freeze_shown) - 1, offsetof(struct woldgrater_freeze_signals, stage) / 8, 0, WOLDGRATER_FREEZE_LINE, 0,
      freeze_start, freeze_play, freeze_show, freeze_line },
    { "keep-hour", "freeze", "tuuuuuTbbuuT", "nnfffnfffnn", WORDS(struct woldgrater_freeze_state),
      WORDS(struct woldgrater_freeze_shown) - 1, offsetof(struct woldgrater_freeze_signals, stage) / 8, 0, WOLDGRATER_FREEZE_LINE, 0,
      keep_hour_start, freeze_play, freeze_show, freeze_line },
    { "econ", "econ", "tuuvObms", "fnff", WORDS(struct woldgrater_econ_state), WORDS(struct woldgrater_econ_shown) - 1,
      offsetof(struct woldgrater_econ_signals, minimum_outdoor_air_loop_enabled) / 8, 1, WOLDGRATER_ECON_LINE, 0, econ_start, econ_play,
      econ_show, econ_line },
    { "relief", "relief", "tbbPaaaabbbb", "fffffffff", WORDS(struct woldgrater_relief_state), WORDS(struct woldgrater_relief_shown) - 1,
      offsetof(struct woldgrater_relief_signals, control.average) / 8, 0, WOLDGRATER_RELIEF_LINE, 1, relief_start, relief_play,
      relief_show, relief_line },
    { "rooftop", "rooftop", "tbuuvOmuuTbuuTPaaaabbbb", "fnffnnfffnfffnnfffffffff", WORDS(struct woldgrater_rooftop_state), 0, 0, 0, 0, 1,
      rooftop_start, rooftop_play, NULL, NULL },
};

static const struct kind *kind;

static int is_float(char column)
{
    return strchr("tTOPuvf", column) != NULL;
}
