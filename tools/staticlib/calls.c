/* Plays random rows a call at a time. The same seed gives the same rows on every run.
 *
 *     calls KIND SEED N ROWS ANSWERS   plays N rows from the start, checks each call, writes the rows as a row file to ROWS and their
 *                                      answers, as the program `rows` prints them, to ANSWERS; prints how many rows got each status.
 *                                      Joined rows are written likewise, but no program reads them
 *     calls KIND SEED N                plays N rows on forged states, whose words no call gave, checks each call, and prints one
 *                                      checksum of all that the calls gave
 *
 * KIND is freeze, keep-hour (freeze rows, stage 2 keeps to its hour), relief, econ or rooftop (joined rows, from either start). The first
 * check that fails is printed with the number of its row, and the program ends with 1.
 */
#include <inttypes.h>
#include <stdio.h>
#include <stdlib.h>

#include "alarms.h"

enum { STATUSES = WOLDGRATER_ALARM_OUT_OF_RANGE + 1, WIDTH = 21, TEXT = WIDTH * (1 + COMMANDS) + 1 };

/* ---- Lines */

/* A column: spaces, a minus where there is one, and the digits. */
static char *column(char *at, uint64_t word, int minus)
{
    char *digit = at + WIDTH;
    memset(at, ' ', WIDTH);
    do
        *--digit = (char)('0' + word % 10);
    while (word /= 10);
    if (minus)
        *--digit = '-';
    return at + WIDTH;
}

static char *row_column(char *at, char form, uint64_t word)
{
    int minus = strchr("ams", form) != NULL && (word & SIGN) != 0;
    return column(at, form == 'b' ? word != 0 : minus ? 0 - word : word, minus);
}

static size_t row_text(char *text)
{
    char *at = text;
    for (size_t i = 0; kind->row[i]; i++)
        at = row_column(at, kind->row[i], row[i]);
    *at++ = '\n';
    return (size_t)(at - text);
}

static size_t answer_text(char *text)
{
    char *at = column(text, status, 0);
    for (size_t i = 0; status == WOLDGRATER_ACCEPTED && kind->answer[i]; i++)
        at = column(at, kind->answer[i] == 'f' && is_nan(commands[i]) ? NAN_PRINTED : commands[i], 0);
    *at++ = '\n';
    return (size_t)(at - text);
}

/* ---- Checks */

static size_t played;

static void expect(const char *what, int held)
{
    if (!held) {
        printf("%s, row %zu: %s\n", kind->name, played, what);
        exit(1);
    }
}

static int all_zero(const uint64_t *words, size_t n)
{
    while (n > 0 && words[n - 1] == 0)
        n--;
    return n == 0;
}

static int finite_row(void)
{
    size_t i = 0;
    while (kind->row[i] && !(is_float(kind->row[i]) && (row[i] & INFINITE) == INFINITE))
        i++;
    return kind->row[i] == 0;
}

/* Statuses 1, 2 and but for 3 also 11 are said by the row alone: what is handed on in a joined row refuses none. */
static void check_status(void)
{
    if (!finite_row())
        expect("a row that is not finite is refused with 1", status == WOLDGRATER_NOT_FINITE);
    else if (row[0] & SIGN)
        expect("a negative time is refused with 2", status == WOLDGRATER_NEGATIVE_TIME);
    else if (!alarms_fit())
        expect("an alarm that fits no byte is refused with 3 or 11",
               status == WOLDGRATER_FALLING_TIME || status == WOLDGRATER_ALARM_OUT_OF_RANGE);
    else
        expect("the status is 0, 3 or with a window 4", status == WOLDGRATER_ACCEPTED || status == WOLDGRATER_FALLING_TIME ||
                                                            (kind->windowed && status == WOLDGRATER_WINDOW_FULL));
}

/* The commands of a row, and its signals against them. */
static void check_given(void)
{
    uint64_t signal = signals[kind->same_signal], command = commands[kind->same_command];
    expect("a refused row has commands of 0", status == WOLDGRATER_ACCEPTED || all_zero(commands, strlen(kind->answer)));
    if (kind->show == NULL)
        return;
    expect("row and signals have one status", status == shown_status);
    expect("a refused row has signals of 0", status == WOLDGRATER_ACCEPTED || all_zero(signals, kind->signals));
    expect("the signal that is a command agrees", signal == command || (is_nan(signal) && is_nan(command)));
}

/* Whether a call with so much room leaves the output as it was, and gives this status. */
static int refused_line(size_t room, uint64_t expected)
{
    uint8_t before[LINE];
    struct woldgrater_line_given given;
    memset(before, 0xA5, sizeof before);
    memcpy(line, before, kind->line);
    given = kind->write(room);
    return given.status == expected && given.len == 0 && memcmp(line, before, kind->line) == 0;
}

static void check_line(const char *text)
{
    struct woldgrater_line_given given;
    size_t short_room = below(4) ? kind->line - 1 : below(kind->line);
    if (!finite_row()) {
        expect("the line of a row that is not finite is refused with 1", refused_line(kind->line, WOLDGRATER_NOT_FINITE));
        expect("1 goes before 10", refused_line(short_room, WOLDGRATER_NOT_FINITE));
        return;
    }
    if (below(8) == 0)
        expect("a line without room is refused with 10", refused_line(short_room, WOLDGRATER_NO_ROOM));
    given = kind->write(kind->line);
    expect("a line with just enough room is written", given.status == WOLDGRATER_ACCEPTED && given.len == kind->line);
    expect("the line is that of the row file", memcmp(line, text, kind->line) == 0);
}

/* The window before a row. */
static double times_before[WOLDGRATER_WINDOW], integrals_before[WOLDGRATER_WINDOW];

static void keep_window(void)
{
    memcpy(times_before, times, sizeof times_before);
    memcpy(integrals_before, integrals, sizeof integrals_before);
}

static int window_left(void)
{
    return memcmp(times, times_before, sizeof times_before) == 0 && memcmp(integrals, integrals_before, sizeof integrals_before) == 0;
}

/* A refused row on a state that a call gave. */
static void check_handed_back(void)
{
    expect("a refused row hands the state back", memcmp(given_state, state, kind->state * sizeof *state) == 0);
}

/* ---- Rows from the start */

static void show(void)
{
    if (kind->show != NULL)
        kind->show();
}

/* Shows and plays the row, and moves on. */
static void call_row(void)
{
    keep_window();
    show();
    expect("signals leave the window", window_left());
    kind->play();
    check_status();
    check_given();
    if (status == WOLDGRATER_ACCEPTED) {
        const char *timer = untimed();
        expect(timer ? timer : "timers", timer == NULL);
    } else {
        check_handed_back();
        expect("a refused row leaves the window", window_left());
    }
    if (remembers())
        expect("the alarms of the last accepted row are remembered", remembered());
    memcpy(state, given_state, sizeof state);
}

static int play_rows(size_t n, FILE *rows, FILE *answers)
{
    size_t counts[STATUSES] = { 0 };
    char text[TEXT];
    int bad = fprintf(rows, "%s\n", kind->file) < 0;
    kind->start();
    for (played = 0; played < n && !bad; played++) {
        size_t len;
        next_row(played >= n - n / 16);
        call_row();
        counts[status]++;
        len = row_text(text);
        if (kind->write != NULL)
            check_line(text);
        bad |= fwrite(text, 1, len, rows) != len;
        len = answer_text(text);
        bad |= fwrite(text, 1, len, answers) != len;
    }
    for (size_t i = 0; i < STATUSES; i++)
        printf("%zu%c", counts[i], i + 1 < STATUSES ? ' ' : '\n');
    return bad;
}

static int play_files(size_t n, const char *rows_path, const char *answers_path)
{
    FILE *rows = fopen(rows_path, "wb"), *answers = fopen(answers_path, "wb");
    int bad = rows == NULL || answers == NULL || play_rows(n, rows, answers);
    bad |= rows == NULL || fclose(rows) != 0;
    bad |= answers == NULL || fclose(answers) != 0;
    if (bad)
        fputs("calls: a file is not written\n", stderr);
    return bad;
}

/* ---- Rows on forged states */

static void add_window(void)
{
    uint64_t words[WOLDGRATER_WINDOW];
    memcpy(words, times, sizeof words);
    add(words, WOLDGRATER_WINDOW);
    memcpy(words, integrals, sizeof words);
    add(words, WOLDGRATER_WINDOW);
}

static void play_forged(size_t n)
{
    char text[TEXT];
    kind->start();
    for (played = 0; played < n; played++) {
        int forged = below(2) != 0, kept = kind->windowed && below(16) == 0;
        if (below(256) == 0)
            kind->start();
        if (forged)
            forge(state, kind->state);
        if (kind->windowed && below(8) == 0)
            forge_window(below(2) ? times : integrals);
        next_row(1);
        if (kept)
            keep_window();
        show();
        kind->play();
        check_status();
        check_given();
        if (status != WOLDGRATER_ACCEPTED && !forged)
            check_handed_back();
        if (status != WOLDGRATER_ACCEPTED && kept)
            expect("a refused row leaves the window", window_left());
        if (remembers() && below(16) == 0)
            expect("of any state four bytes are remembered", bytes_remembered());
        if (kind->write != NULL && below(16) == 0) {
            row_text(text);
            check_line(text);
        }
        add(&status, 1);
        add(commands, strlen(kind->answer));
        add(given_state, kind->state);
        add(signals, kind->signals);
        if (kind->windowed && below(64) == 0)
            add_window();
        memcpy(state, given_state, sizeof state);
    }
    printf("%s %" PRIu64 "\n", kind->name, checksum);
}

static const struct kind *named(const char *name)
{
    size_t i = sizeof kinds / sizeof *kinds;
    while (i > 0 && strcmp(kinds[i - 1].name, name) != 0)
        i--;
    return i > 0 ? &kinds[i - 1] : NULL;
}

int main(int argc, char **argv)
{
    int bad = 0;
    kind = argc == 4 || argc == 6 ? named(argv[1]) : NULL;
    if (kind == NULL) {
        fputs("calls KIND SEED N [ROWS ANSWERS]\n", stderr);
        return 2;
    }
    seeded = strtoull(argv[2], NULL, 10) + UINT64_C(0x9E3779B97F4A7C15);
    times = calloc(WOLDGRATER_WINDOW, sizeof *times);
    integrals = calloc(WOLDGRATER_WINDOW, sizeof *integrals);
    line = malloc(kind->line > 0 ? kind->line : 1);
    if (times == NULL || integrals == NULL || line == NULL)
        return 2;
    if (argc == 6)
        bad = play_files(strtoull(argv[3], NULL, 10), argv[4], argv[5]);
    else
        play_forged(strtoull(argv[3], NULL, 10));
    free(line);
    free(integrals);
    free(times);
    return bad;
}
