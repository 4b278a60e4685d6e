/* Measures what each call of the library needs of the stack, and holds the macros WOLDGRATER_STACK_* to it.
 *
 *     stack ROWS...    row files, of each kind at least one
 *
 * Each call runs on a painted stack of its own; the deepest word that it writes tells its need. The need of a function that does nothing,
 * with the same arguments and the same kind of result, is taken off. Prints a line `NAME measured limit` for each call, the largest
 * over all rows and states tried, and ends with 1 where one is above its limit, or where a limit is above twice what is measured and
 * 1024 bytes more: a stale limit.
 */
#define _XOPEN_SOURCE 700
#include <stdio.h>
#include <stdlib.h>
#include <ucontext.h>

#include "woldgrater.h"

#define PAINT UINT64_C(0xA5A5A5A5A5A5A5A5)

enum { STACK = 262144 / 8, FILE_ROOM = 262144, ROWS = 24 };

/* What the calls are handed. */
static struct woldgrater_freeze_state freeze_state;
static struct woldgrater_freeze_row freeze_row;
static struct woldgrater_econ_state econ_state;
static struct woldgrater_econ_row econ_row;
static struct woldgrater_relief_state relief_state;
static struct woldgrater_relief_row relief_row;
static struct woldgrater_rooftop_state rooftop_state;
static struct woldgrater_rooftop_row rooftop_row;
static struct woldgrater_board board;
static uint64_t keeps_hour[6];
static size_t unit;
static struct woldgrater_state file_state;
static double times[WOLDGRATER_WINDOW], integrals[WOLDGRATER_WINDOW];
static uint8_t line[WOLDGRATER_LINE], file[FILE_ROOM], out[WOLDGRATER_ROOM(FILE_ROOM)];
static size_t file_len;

/* Each call: its place in `calls`, a function of its type that does nothing, and what runs it or that one. What it gives is kept in
 * given_NAME. */
#define CALL(name, result, parameters, arguments)                                  \
    static result given_##name;                                                    \
    static result nothing_##name parameters                                        \
    {                                                                              \
        static const result zero;                                                  \
        return zero;                                                               \
    }                                                                              \
    static void run_##name(int real)                                               \
    {                                                                              \
        result(*volatile called) parameters = real ? woldgrater_##name : nothing_##name; \
        given_##name = called arguments;                                           \
    }

/* The same of a call that gives nothing. */
#define CALL_ALONE(name, parameters, arguments)                                    \
    static void nothing_##name parameters {}                                       \
    static void run_##name(int real)                                               \
    {                                                                              \
        void(*volatile called) parameters = real ? woldgrater_##name : nothing_##name; \
        called arguments;                                                          \
    }

#pragma GCC diagnostic push
#pragma GCC diagnostic ignored "-Wunused-parameter"
CALL(freeze_start, struct woldgrater_freeze_state, (uint64_t keeps_hour), (1))
CALL(freeze_row, struct woldgrater_freeze_given, (struct woldgrater_freeze_state state, struct woldgrater_freeze_row row),
     (freeze_state, freeze_row))
CALL(freeze_signals, struct woldgrater_freeze_shown, (struct woldgrater_freeze_state state, struct woldgrater_freeze_row row),
     (freeze_state, freeze_row))
CALL(econ_start, struct woldgrater_econ_state, (void), ())
CALL(econ_row, struct woldgrater_econ_given, (struct woldgrater_econ_state state, struct woldgrater_econ_row row), (econ_state, econ_row))
CALL(econ_signals, struct woldgrater_econ_shown, (struct woldgrater_econ_state state, struct woldgrater_econ_row row),
     (econ_state, econ_row))
CALL(relief_start, struct woldgrater_relief_state, (double *t, double *i), (times, integrals))
CALL(relief_row, struct woldgrater_relief_given,
     (double *t, double *i, struct woldgrater_relief_state state, struct woldgrater_relief_row row),
     (times, integrals, relief_state, relief_row))
CALL(relief_signals, struct woldgrater_relief_shown,
     (const double *t, const double *i, struct woldgrater_relief_state state, struct woldgrater_relief_row row),
     (times, integrals, relief_state, relief_row))
CALL(relief_alarm, struct woldgrater_alarm_given, (struct woldgrater_relief_state state, size_t fan), (relief_state, 3))
CALL(rooftop_start, struct woldgrater_rooftop_state, (double *t, double *i, uint64_t keeps_hour), (times, integrals, 1))
CALL(rooftop_row, struct woldgrater_rooftop_given,
     (double *t, double *i, struct woldgrater_rooftop_state state, struct woldgrater_rooftop_row row),
     (times, integrals, rooftop_state, rooftop_row))
CALL_ALONE(board_start, (struct woldgrater_board *to, const uint64_t *keeps), (&board, keeps_hour))
CALL(board_offer, uint64_t, (struct woldgrater_board *to, size_t of, struct woldgrater_rooftop_row row), (&board, unit, rooftop_row))
CALL(board_tick, struct woldgrater_board_served, (struct woldgrater_board *to), (&board))
CALL(freeze_line, struct woldgrater_line_given, (struct woldgrater_freeze_row row, uint8_t *to, size_t len),
     (freeze_row, out, WOLDGRATER_FREEZE_LINE))
CALL(econ_line, struct woldgrater_line_given, (struct woldgrater_econ_row row, uint8_t *to, size_t len),
     (econ_row, out, WOLDGRATER_ECON_LINE))
CALL(relief_line, struct woldgrater_line_given, (struct woldgrater_relief_row row, uint8_t *to, size_t len),
     (relief_row, out, WOLDGRATER_RELIEF_LINE))
CALL(play, size_t, (const uint8_t *rows, size_t len, uint8_t *to, size_t to_len), (file, file_len, out, sizeof out))
CALL(start, struct woldgrater_state, (void), ())
CALL(feed, struct woldgrater_fed,
     (const uint8_t *chunk, size_t len, uint8_t *to, size_t to_len, uint8_t *kept, double *t, double *i, struct woldgrater_state state),
     (file, file_len, out, sizeof out, line, times, integrals, file_state))
CALL(finish, size_t, (uint8_t *to, size_t len, const uint8_t *kept, struct woldgrater_state state),
     (out, sizeof out, line, file_state))
#pragma GCC diagnostic pop

enum limit { FREEZE, ECON, RELIEF, ROOFTOP, BOARD, LINE, PLAY, FEED, START_FINISH, LIMITS };

static const size_t limits[LIMITS] = {
    WOLDGRATER_STACK_FREEZE, WOLDGRATER_STACK_ECON, WOLDGRATER_STACK_RELIEF, WOLDGRATER_STACK_ROOFTOP,      WOLDGRATER_STACK_BOARD,
    WOLDGRATER_STACK_LINE,   WOLDGRATER_STACK_PLAY, WOLDGRATER_STACK_FEED,   WOLDGRATER_STACK_START_FINISH,
};

#define NAMED(name, limit) { #name, limit, run_##name, 0 }
static struct call {
    const char *name;
    enum limit limit;
    void (*run)(int real);
    size_t measured;
} calls[] = {
    NAMED(freeze_start, FREEZE), NAMED(freeze_row, FREEZE), NAMED(freeze_signals, FREEZE), NAMED(econ_start, ECON),
    NAMED(econ_row, ECON),       NAMED(econ_signals, ECON), NAMED(relief_start, RELIEF),   NAMED(relief_row, RELIEF),
    NAMED(relief_signals, RELIEF), NAMED(relief_alarm, RELIEF), NAMED(rooftop_start, ROOFTOP), NAMED(rooftop_row, ROOFTOP),
    NAMED(board_start, BOARD),   NAMED(board_offer, BOARD), NAMED(board_tick, BOARD),
    NAMED(freeze_line, LINE),    NAMED(econ_line, LINE),    NAMED(relief_line, LINE),      NAMED(play, PLAY),
    NAMED(start, START_FINISH),  NAMED(feed, FEED),         NAMED(finish, START_FINISH),
};

/* ---- The painted stack */

static uint64_t stack[STACK] __attribute__((aligned(64)));
static ucontext_t caller, measuring;
static void (*running)(int real);
static int really;

static void enter(void)
{
    running(really);
}

/* The bytes of the stack down to the deepest word that a run writes. */
static size_t depth(void (*run)(int real), int real)
{
    size_t untouched = 0;
    running = run;
    really = real;
    for (size_t i = 0; i < STACK; i++)
        stack[i] = PAINT;
    if (getcontext(&measuring) != 0)
        exit(2);
    measuring.uc_stack.ss_sp = stack;
    measuring.uc_stack.ss_size = sizeof stack;
    measuring.uc_link = &caller;
    makecontext(&measuring, enter, 0);
    if (swapcontext(&caller, &measuring) != 0)
        exit(2);
    while (untouched < STACK && stack[untouched] == PAINT)
        untouched++;
    return (STACK - untouched) * sizeof *stack;
}

/* Runs a call, which gives what it gives, and notes its need. The call that does nothing runs first. */
static void measure(void (*run)(int real))
{
    size_t base = depth(run, 0), deep = depth(run, 1), i = 0;
    while (calls[i].run != run)
        i++;
    if (deep > base && deep - base > calls[i].measured)
        calls[i].measured = deep - base;
}

/* ---- What is tried */

static uint64_t word_of(size_t n)
{
    return (n + 1) * UINT64_C(0x9E3779B97F4A7C15);
}

/* Words that no call gave. */
static void forge(void *state, size_t size, size_t n)
{
    uint64_t *words = state;
    for (size_t i = 0; i < size / sizeof *words; i++)
        words[i] = n % 2 ? word_of(i + n) : i % 4;
}

/* The time of a row: it goes on, and on every sixth row it falls, on every seventh it is negative. */
static double time_of(size_t n)
{
    return n % 7 == 6 ? -1 : n % 6 == 5 ? 1 : 300.0 * (double)n;
}

static void try_freeze(size_t n)
{
    struct woldgrater_freeze_row row = { time_of(n), 0.2, 0.6, 0.3, 0.2, 0.7, n % 3 ? 273 : 276, n % 5 == 4, n % 4 != 3, 0.6, 0.4, 290 };
    freeze_row = row;
    measure(run_freeze_signals);
    measure(run_freeze_row);
    measure(run_freeze_line);
    freeze_state = given_freeze_row.state;
}

static void try_econ(size_t n)
{
    struct woldgrater_econ_row row = { time_of(n), 0.2, 0.3, 0.4, n % 3 ? 295 : 293, n % 4 != 3, 1, n % 5 == 4 };
    econ_row = row;
    measure(run_econ_signals);
    measure(run_econ_row);
    measure(run_econ_line);
    econ_state = given_econ_row.state;
}

static void try_relief(size_t n)
{
    struct woldgrater_relief_row row = { time_of(n), { 1, n % 4 != 3 }, n % 3 ? 24 : 12, { 0, 0, (int64_t)n % 5, 0 }, { n % 2, 0, 1, 0 } };
    relief_row = row;
    measure(run_relief_signals);
    measure(run_relief_row);
    measure(run_relief_alarm);
    measure(run_relief_line);
    relief_state = given_relief_row.state;
}

static void sample_rooftop(size_t n)
{
    struct woldgrater_rooftop_row row = {
        .time = time_of(n),
        .supply_fan_status = n % 4 != 3,
        .outdoor_airflow_normalized = 0.2,
        .minimum_outdoor_airflow_setpoint_normalized = 0.3,
        .supply_temperature_signal = 0.4,
        .outdoor_air_temperature = n % 3 ? 295 : 293,
        .operation_mode = 1,
        .heating_coil = 0.3,
        .minimum_outdoor_damper = 0.2,
        .supply_air_temperature = n % 3 ? 273 : 276,
        .software_reset = n % 5 == 4,
        .supply_fan_speed = 0.6,
        .cooling_coil = 0.4,
        .mixed_air_temperature = 290,
        .pressure = n % 3 ? 24 : 12,
        .alarm = { 0, 0, (int64_t)n % 5, n % 11 == 10 ? 128 : 0 },
        .proof = { n % 2, 0, 1, 0 },
    };
    rooftop_row = row;
}

static void try_rooftop(size_t n)
{
    sample_rooftop(n);
    measure(run_rooftop_row);
    rooftop_state = given_rooftop_row.state;
}

/* Rows are offered for two or three units before one is served, so that some are turned away, and some for a unit that there is not. */
static void try_board(size_t n)
{
    for (unit = n % 3; unit < 8; unit += 3) {
        sample_rooftop(n);
        measure(run_board_offer);
    }
    measure(run_board_tick);
}

/* Rows of the three sequences, joined ones and those of a board, on states that calls gave and on forged ones. */
static void try_rows(void)
{
    measure(run_freeze_start);
    measure(run_econ_start);
    measure(run_relief_start);
    freeze_state = given_freeze_start;
    econ_state = given_econ_start;
    relief_state = given_relief_start;
    for (size_t n = 0; n < 2 * ROWS; n++) {
        if (n >= ROWS) {
            forge(&freeze_state, sizeof freeze_state, n);
            forge(&econ_state, sizeof econ_state, n);
            forge(&relief_state, sizeof relief_state, n);
        }
        try_freeze(n);
        try_econ(n);
        try_relief(n);
    }
    measure(run_rooftop_start);
    rooftop_state = given_rooftop_start;
    for (size_t n = 0; n < 2 * ROWS; n++) {
        if (n >= ROWS)
            forge(&rooftop_state, sizeof rooftop_state, n);
        try_rooftop(n);
    }
    measure(run_board_start);
    measure(run_board_tick);
    for (size_t n = 0; n < 2 * ROWS; n++) {
        if (n >= ROWS)
            forge(&board, sizeof board, n);
        try_board(n);
    }
}

/* A row file, or as much of it as there is room for. */
static int try_file(const char *path)
{
    FILE *source = fopen(path, "rb");
    if (source == NULL)
        return 0;
    file_len = fread(file, 1, sizeof file, source);
    fclose(source);
    measure(run_play);
    measure(run_start);
    file_state = given_start;
    measure(run_finish);
    measure(run_feed);
    file_state = given_feed.state;
    measure(run_finish);
    return given_play > 0 && given_play != WOLDGRATER_REFUSED;
}

/* ---- What is said */

static int told(void)
{
    size_t most[LIMITS] = { 0 };
    int bad = 0;
    for (size_t i = 0; i < sizeof calls / sizeof *calls; i++) {
        size_t limit = limits[calls[i].limit];
        printf("%s %zu %zu\n", calls[i].name, calls[i].measured, limit);
        if (calls[i].measured > limit) {
            printf("%s needs more than its limit\n", calls[i].name);
            bad = 1;
        }
        if (calls[i].measured > most[calls[i].limit])
            most[calls[i].limit] = calls[i].measured;
    }
    for (size_t i = 0; i < LIMITS; i++)
        if (limits[i] > 2 * most[i] + 1024) {
            printf("limit %zu of the header is stale: %zu bytes are needed\n", limits[i], most[i]);
            bad = 1;
        }
    return bad;
}

int main(int argc, char **argv)
{
    for (int again = 0; again < 2; again++) {
        /* The first time a function of C's library may be looked up, which is not the call's need. */
        for (size_t i = 0; i < sizeof calls / sizeof *calls; i++)
            calls[i].measured = 0;
        try_rows();
        for (int i = 1; i < argc; i++)
            if (!try_file(argv[i])) {
                printf("%s is not played\n", argv[i]);
                return 2;
            }
    }
    return told();
}
