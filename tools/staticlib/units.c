/* Plays a board of six rooftop units, and holds its calls to a line and a joined row for each unit. The same seed gives the same on every
 * run.
 *
 *     units            plays what the header says of the calls, case by case
 *     units SEED N     plays N random commands on a board from its start, and prints how many rows got each status, as they were served or
 *                      turned away; then N more on a board whose words are forged now and then, and prints one checksum of all that the
 *                      ticks gave
 *
 * The first check that fails is printed with the number of its command, and the program ends with 1.
 */
#include <inttypes.h>
#include <stdio.h>
#include <stdlib.h>

#include "forged.h"

enum {
    UNITS = WOLDGRATER_UNITS,
    PLACES = WOLDGRATER_PLACES,
    TIMES_USED = 5,
    STATUSES = WOLDGRATER_LINE_FULL + 1,
    BOARD = WORDS(struct woldgrater_board)
};

static size_t played;

static void expect(const char *what, int held)
{
    if (!held) {
        printf("units, command %zu: %s\n", played, what);
        exit(1);
    }
}

/* ---- The board, and what is expected of it */

/* The board and the words of its start, on the heap, where a memory checker sees a byte too many. */
static struct woldgrater_board *board;
static uint64_t *keeps_hour;

/* The board before a call that is to leave it as it is. */
static struct woldgrater_board before;

/* Whether the board may have words that no call gave. */
static int forged;

static const struct kind *const joined = &kinds[sizeof kinds / sizeof *kinds - 1];

/* What is expected of each unit: its state and window, and how many rows it took and how many of them were served. The row of number n
 * stands in place n % PLACES. */
static struct expected {
    uint64_t state[STATE];
    double times[WOLDGRATER_WINDOW], integrals[WOLDGRATER_WINDOW];
    uint64_t rows[PLACES][ROW];
    size_t taken, served;
} units[UNITS];

/* The unit that was served last; at first the one before unit 0. */
static size_t last = UNITS - 1;

static size_t waiting(size_t unit)
{
    return units[unit].taken - units[unit].served;
}

/* Whether words are the same; which NaN one is does not matter. */
static int same(const uint64_t *some, const uint64_t *others, size_t n)
{
    while (n > 0 && (some[n - 1] == others[n - 1] || (is_nan(some[n - 1]) && is_nan(others[n - 1]))))
        n--;
    return n == 0;
}

static int same_numbers(const double *some, const double *others)
{
    uint64_t words[2][WOLDGRATER_WINDOW];
    memcpy(words[0], some, sizeof words[0]);
    memcpy(words[1], others, sizeof words[1]);
    return same(words[0], words[1], WOLDGRATER_WINDOW);
}

/* Whether a row on the board says what is expected. A flag is a yes where it is not 0. */
static int same_row(const struct woldgrater_rooftop_row *some, const uint64_t *expected)
{
    uint64_t words[ROW];
    size_t i = 0;
    memcpy(words, some, sizeof words);
    while (i < ROW && (joined->row[i] == 'b' ? !words[i] == !expected[i] : same(&words[i], &expected[i], 1)))
        i++;
    return i == ROW;
}

/* What a count and a turn of any size are read as. */
static size_t counted(size_t unit)
{
    return board->counts[unit] < PLACES ? board->counts[unit] : PLACES;
}

static size_t asked_first(void)
{
    return board->turn < UNITS ? board->turn : 0;
}

/* Holds a unit on the board to what is expected: its line, its state and its window. */
static void check_unit(size_t unit)
{
    const struct expected *u = &units[unit];
    expect("as many rows are counted as wait", counted(unit) == waiting(unit) && (forged || board->counts[unit] <= PLACES));
    for (size_t i = 0; i < waiting(unit); i++)
        expect("the rows that wait stand in the first places, in their order",
               same_row(&board->rows[unit][i], u->rows[(u->served + i) % PLACES]));
    expect("the unit's state is the one that its rows give", same(board->units[unit].words, u->state, STATE));
    expect("the unit's window is the one that its rows give",
           same_numbers(board->times[unit], u->times) && same_numbers(board->integrals[unit], u->integrals));
}

static void check_board(void)
{
    expect("the unit after the one last served is asked first", asked_first() == (last + 1) % UNITS && (forged || board->turn <= UNITS));
    for (size_t unit = 0; unit < UNITS; unit++)
        check_unit(unit);
}

/* ---- The calls */

/* Starts the board, whose bytes are all `byte` before. */
static void start_on(int byte)
{
    memset(board, byte, sizeof *board);
    woldgrater_board_start(board, keeps_hour);
    last = UNITS - 1;
    for (size_t unit = 0; unit < UNITS; unit++) {
        struct expected *u = &units[unit];
        struct woldgrater_rooftop_state state_of_unit = woldgrater_rooftop_start(u->times, u->integrals, keeps_hour[unit]);
        memcpy(u->state, &state_of_unit, sizeof u->state);
        u->taken = u->served = 0;
    }
    check_board();
}

static void keep_board(void)
{
    memcpy(&before, board, sizeof before);
}

static int board_left(void)
{
    return memcmp(board, &before, sizeof before) == 0;
}

static uint64_t expected_verdict(size_t unit)
{
    return unit >= UNITS ? WOLDGRATER_NO_UNIT : waiting(unit) == PLACES ? WOLDGRATER_LINE_FULL : WOLDGRATER_ACCEPTED;
}

/* Offers the row to a unit: gives what the call gives. */
static uint64_t offer(size_t unit)
{
    uint64_t verdict = expected_verdict(unit), given;
    played++;
    if (verdict != WOLDGRATER_ACCEPTED)
        keep_board();
    given = woldgrater_board_offer(board, unit, rooftop_row());
    expect("a row is taken, or turned away with 12 or 13", given == verdict);
    if (verdict != WOLDGRATER_ACCEPTED) {
        expect("a row that is turned away leaves the board", board_left());
        return given;
    }
    memcpy(units[unit].rows[units[unit].taken++ % PLACES], row, sizeof row);
    check_unit(unit);
    return given;
}

/* The unit to be served, UNITS where no row waits. */
static size_t next_unit(void)
{
    for (size_t i = 1; i <= UNITS; i++)
        if (waiting((last + i) % UNITS) > 0)
            return (last + i) % UNITS;
    return UNITS;
}

/* Plays the next row of a unit by woldgrater_rooftop_row on the unit's own state: status and commands are what is to be given. */
static void play_next(struct expected *u)
{
    memcpy(row, u->rows[u->served++ % PLACES], sizeof row);
    memcpy(state, u->state, sizeof u->state);
    times = u->times;
    integrals = u->integrals;
    joined->play();
    memcpy(u->state, given_state, sizeof u->state);
}

/* Ticks where no row waits. */
static void tick_idle(void)
{
    static const uint64_t none[WORDS(struct woldgrater_board_served)];
    struct woldgrater_board_served given;
    keep_board();
    given = woldgrater_board_tick(board);
    expect("with no row waiting all that is given is 0", memcmp(&given, none, sizeof none) == 0);
    expect("with no row waiting the board is left", board_left());
}

/* Ticks: the unit that is served, UNITS where none is. */
static size_t tick(void)
{
    size_t unit = next_unit();
    struct woldgrater_board_served given;
    uint64_t given_commands[COMMANDS];
    played++;
    if (unit == UNITS) {
        tick_idle();
        return unit;
    }
    given = woldgrater_board_tick(board);
    expect("a row that waits is served", given.served == 1);
    expect("the unit served is the next in turn", given.unit == unit);
    last = unit;
    play_next(&units[unit]);
    memcpy(given_commands, &given.commands, sizeof given_commands);
    expect("the status is the joined row's", given.status == status);
    expect("the commands are the joined row's", same(given_commands, commands, COMMANDS));
    check_unit(unit);
    return unit;
}

/* ---- Case by case */

static void start(void)
{
    start_on(0xA5);
}

/* A row of a time that is accepted where times do not fall. */
static void row_at(double time)
{
    static const struct woldgrater_rooftop_row sample = {
        .supply_fan_status = 2, .outdoor_airflow_normalized = 0.2, .minimum_outdoor_airflow_setpoint_normalized = 0.3,
        .supply_temperature_signal = 0.1, .outdoor_air_temperature = 295, .operation_mode = 1, .heating_coil = 0.3,
        .minimum_outdoor_damper = 0.2, .supply_air_temperature = 276, .supply_fan_speed = 0.6, .cooling_coil = 0.4,
        .mixed_air_temperature = 290, .pressure = 24, .alarm = { -1, 2, 0, 127 }, .proof = { 0, 1, 0, 3 },
    };
    memcpy(row, &sample, sizeof row);
    row[0] = pattern(time);
}

static void offer_at(size_t unit, double time)
{
    row_at(time);
    expect("there is room in the line", offer(unit) == WOLDGRATER_ACCEPTED);
}

static void serves(size_t unit)
{
    expect("the unit that is expected is served", tick() == unit);
}

static void try_layout(void)
{
    expect("there are six units with four places", UNITS == 6 && PLACES == 4);
    expect("the board has no more than its fields",
           BOARD == 1 + UNITS + UNITS * PLACES * ROW + UNITS * STATE + 2 * UNITS * WOLDGRATER_WINDOW);
    expect("what is served has no more than its fields", WORDS(struct woldgrater_board_served) == 3 + COMMANDS);
    expect("the fields stand in their order",
           offsetof(struct woldgrater_board, turn) == 0 && offsetof(struct woldgrater_board, counts) == 8 &&
               offsetof(struct woldgrater_board, rows) == 8 * (1 + UNITS) &&
               offsetof(struct woldgrater_board, units) == 8 * (1 + UNITS + UNITS * PLACES * ROW) &&
               offsetof(struct woldgrater_board, times) == 8 * (1 + UNITS + UNITS * PLACES * ROW + UNITS * STATE) &&
               offsetof(struct woldgrater_board, integrals) == sizeof *board - sizeof board->integrals);
}

/* Every byte is written: those that were one thing and those that were another are then the same. A word that is not 0 keeps the hour. */
static void try_start(void)
{
    static const uint64_t words[UNITS] = { 0, 1, 0, UINT64_C(1) << 63, UINT64_C(1) << 32, 0 };
    memcpy(keeps_hour, words, sizeof words);
    start_on(0xA5);
    keep_board();
    start_on(0x5A);
    expect("the start writes every word", board_left());
    expect("units are started in two manners", !same(units[0].state, units[1].state, STATE));
    for (size_t unit = 0; unit < UNITS; unit++)
        expect("each unit is started in its own manner", same(units[unit].state, units[words[unit] != 0].state, STATE));
    expect("the start leaves its words", memcmp(keeps_hour, words, sizeof words) == 0);
    expect("nothing is served after the start", tick() == UNITS);
}

/* Four rows are taken; a fifth, and one for no unit, are turned away while every line is full, 12 before 13, and while none is. */
static void try_turned_away(void)
{
    static const size_t none[] = { UNITS, UNITS + 1, 256, UINT32_MAX, (size_t)UINT32_MAX + 1, SIZE_MAX - 1, SIZE_MAX };
    start();
    for (size_t n = 0; n <= PLACES; n++)
        for (size_t unit = 0; unit < UNITS; unit++) {
            row_at((double)n);
            expect("the fifth row is turned away with 13", offer(unit) == (n < PLACES ? WOLDGRATER_ACCEPTED : WOLDGRATER_LINE_FULL));
        }
    for (size_t i = 0; i < sizeof none / sizeof *none; i++)
        expect("12 goes before 13", offer(none[i]) == WOLDGRATER_NO_UNIT);
    check_board();
    start();
    for (size_t i = 0; i < sizeof none / sizeof *none; i++)
        expect("a row for no unit is turned away with 12", offer(none[i]) == WOLDGRATER_NO_UNIT);
    check_board();
    row_at(0);
    row[0] = NAN_PRINTED;
    expect("a row that will be refused is taken", offer(3) == WOLDGRATER_ACCEPTED);
    serves(3);
    for (size_t i = 0; i < sizeof none / sizeof *none; i++)
        expect("12 is the same after a turn", offer(none[i]) == WOLDGRATER_NO_UNIT);
    serves(UNITS);
}

/* All lines full are emptied in turn, a row of each and round, and then nothing is served. */
static void try_round(void)
{
    start();
    for (size_t n = 0; n < UNITS * PLACES; n++)
        offer_at(n % UNITS, (double)(60 * n));
    for (size_t n = 0; n < UNITS * PLACES; n++)
        serves(n % UNITS);
    serves(UNITS);
    check_board();
}

/* Units without a row are passed; the turn goes on from the one that was served, also where a tick served none between. */
static void try_passing(void)
{
    static const size_t order[] = { 1, 4, 1, 4, 4 };
    start();
    offer_at(1, 0);
    offer_at(1, 1);
    for (size_t n = 0; n < 3; n++)
        offer_at(4, (double)n);
    for (size_t i = 0; i < sizeof order / sizeof *order; i++)
        serves(order[i]);
    serves(UNITS);
    offer_at(4, 3);
    offer_at(5, 0);
    offer_at(0, 0);
    serves(5);
    serves(0);
    serves(4);
    offer_at(4, 4);
    serves(4);
    check_board();
}

/* A line that is always full keeps no other waiting for more than its turn. */
static void try_fair(void)
{
    static const size_t others[] = { 3, 1, 5, 0 };
    start();
    for (size_t n = 0; n < PLACES; n++)
        offer_at(2, (double)n);
    serves(2);
    for (size_t i = 0; i < sizeof others / sizeof *others; i++) {
        offer_at(2, (double)(PLACES + i));
        offer_at(others[i], 0);
        serves(others[i]);
        serves(2);
    }
}

/* A row that is refused when it is served counts as served: its place is free, its unit's turn is over, nothing else of it stays. */
static void try_refused(void)
{
    start();
    offer_at(2, 600);
    offer_at(2, 300);
    offer_at(2, 900);
    offer_at(3, 0);
    offer_at(3, 1);
    serves(2);
    expect("a row is accepted", status == WOLDGRATER_ACCEPTED);
    serves(3);
    keep_board();
    serves(2);
    expect("a row whose time falls is refused", status == WOLDGRATER_FALLING_TIME);
    expect("a refused row leaves state and window",
           memcmp(&board->units[2], &before.units[2], sizeof before.units[2]) == 0 &&
               memcmp(board->times, before.times, sizeof before.times) == 0 &&
               memcmp(board->integrals, before.integrals, sizeof before.integrals) == 0);
    serves(3);
    serves(2);
    expect("the row after it is accepted", status == WOLDGRATER_ACCEPTED);
    serves(UNITS);
    check_board();
}

/* The places of a line are used again and again, with one, two, three and four rows in it. */
static void try_again(void)
{
    start();
    for (size_t most = 1; most <= PLACES; most++)
        for (size_t n = 0; n < TIMES_USED; n++) {
            for (size_t i = 0; i < most; i++)
                offer_at(5, (double)played);
            for (size_t i = 0; i < most; i++) {
                serves(5);
                expect("rows in their order are accepted", status == WOLDGRATER_ACCEPTED);
            }
        }
    expect("no more rows wait", tick() == UNITS);
    check_board();
}

/* A line never empty: 20 rows through it, each served in its order. */
static void try_never_empty(void)
{
    start();
    for (size_t n = 0; n < PLACES * TIMES_USED; n++) {
        offer_at(0, (double)(100 * n));
        if (n >= PLACES - 1) {
            serves(0);
            expect("the first that came is the first that is served", row[0] == pattern((double)(100 * (n + 1 - PLACES))));
        }
    }
}

/* A count that no call gave is read as 4. */
static void try_forged_counts(void)
{
    static const size_t large[] = { PLACES, PLACES + 1, 8, (size_t)1 << 32, (size_t)1 << 63, SIZE_MAX };
    for (size_t i = 0; i < sizeof large / sizeof *large; i++) {
        start();
        for (size_t n = 0; n < PLACES; n++)
            offer_at(1, (double)n);
        board->counts[1] = large[i];
        row_at(9);
        expect("a large count is a full line", offer(1) == WOLDGRATER_LINE_FULL);
        for (size_t n = 0; n < PLACES; n++)
            serves(1);
        serves(UNITS);
        check_board();
    }
}

/* A row waits for each unit, and they are served from one on and round. */
static void serves_from(size_t first)
{
    for (size_t unit = 0; unit < UNITS; unit++)
        offer_at(unit, 0);
    last = first + UNITS - 1;
    for (size_t i = 0; i < UNITS; i++)
        serves((first + i) % UNITS);
}

/* A turn above 5 is read as 0: where no row waits it is left. */
static void try_turns(void)
{
    static const size_t large[] = { UNITS, UNITS + 1, UNITS + 4, 256 + 3, (size_t)UINT32_MAX + 3, SIZE_MAX - 2, SIZE_MAX };
    for (size_t i = 0; i < sizeof large / sizeof *large; i++) {
        start();
        board->turn = large[i];
        tick_idle();
        serves_from(0);
    }
    for (size_t turn = 0; turn < UNITS; turn++) {
        start();
        board->turn = turn;
        serves_from(turn);
        check_board();
    }
}

/* ---- Random commands */

/* How many rows got each status, as they were served or turned away. */
static size_t statuses[STATUSES];

/* Where the time of each unit goes on from; the unit that most rows are for, UNITS where none is; how many commands of eight are offers. */
static double clocks[UNITS];
static size_t favoured;
static uint64_t offers = 4;

static size_t any_unit(void)
{
    static const size_t none[] = { UNITS, UNITS + 1, SIZE_MAX, (size_t)UINT32_MAX + 1 };
    uint64_t n = below(64);
    if (n < sizeof none / sizeof *none)
        return none[n];
    if (n == 4)
        return (size_t)any_word();
    return favoured < UNITS && n < 56 ? favoured : (size_t)below(UNITS);
}

/* A row that is turned away lets no time pass. */
static void offer_any(int wild)
{
    size_t unit = any_unit();
    uint64_t given;
    clock_time = clocks[unit < UNITS ? unit : 0];
    next_row(wild);
    given = offer(unit);
    if (given == WOLDGRATER_ACCEPTED)
        clocks[unit] = clock_time;
    else
        statuses[given]++;
}

static void tick_any(void)
{
    size_t unit = tick();
    if (unit == UNITS)
        return;
    statuses[status]++;
    add(&status, 1);
    add(commands, COMMANDS);
    add(units[unit].state, STATE);
}

static void command(int wild)
{
    if (below(4000) == 0)
        favoured = (size_t)below(UNITS + 1);
    if (below(200) == 0)
        offers = 2 + below(5);
    if (below(8) < offers)
        offer_any(wild);
    else
        tick_any();
    if (below(64) == 0)
        check_board();
}

static void start_any(void)
{
    for (size_t unit = 0; unit < UNITS; unit++)
        keeps_hour[unit] = below(2) ? any_word() : 0;
    start();
}

static void play(size_t n)
{
    start_any();
    for (size_t i = 0; i < n; i++)
        command(i >= n - n / 16);
    check_board();
}

/* What a board of any words is read as. */
static void read_board(void)
{
    last = asked_first() + UNITS - 1;
    for (size_t unit = 0; unit < UNITS; unit++) {
        struct expected *u = &units[unit];
        u->served = 0;
        u->taken = counted(unit);
        memcpy(u->rows, board->rows[unit], sizeof u->rows);
        memcpy(u->state, &board->units[unit], sizeof u->state);
        memcpy(u->times, board->times[unit], sizeof u->times);
        memcpy(u->integrals, board->integrals[unit], sizeof u->integrals);
    }
}

static void forge_all(void)
{
    static uint64_t words[BOARD];
    memcpy(words, board, sizeof words);
    forge(words, BOARD);
    memcpy(board, words, sizeof words);
}

static void forge_place(struct woldgrater_rooftop_row *place)
{
    uint64_t words[ROW];
    memcpy(words, place, sizeof words);
    forge(words, ROW);
    memcpy(place, words, sizeof words);
}

/* Forges a part of the board: all of it now and then, since it is long. */
static void forge_board(void)
{
    size_t unit = (size_t)below(UNITS);
    switch (below(below(16) ? 7 : 8)) {
    case 0: board->turn = (size_t)forged_word(); break;
    case 1: board->counts[unit] = (size_t)forged_word(); break;
    case 2:
    case 3: forge_place(&board->rows[unit][below(PLACES)]); break;
    case 4: forge_window(below(2) ? board->times[unit] : board->integrals[unit]); break;
    case 7: forge_all(); break;
    default: forge(board->units[unit].words, STATE);
    }
    read_board();
}

static void play_forged(size_t n)
{
    start_any();
    forged = 1;
    for (size_t i = 0; i < n; i++) {
        if (below(256) == 0)
            start_any();
        if (below(4) == 0)
            forge_board();
        command(1);
    }
    check_board();
}

/* ---- What is played */

static void play_cases(void)
{
    try_layout();
    try_start();
    try_turned_away();
    try_round();
    try_passing();
    try_fair();
    try_refused();
    try_again();
    try_never_empty();
    try_forged_counts();
    try_turns();
}

static void play_random(const char *seed, size_t n)
{
    seeded = strtoull(seed, NULL, 10) + UINT64_C(0x9E3779B97F4A7C15);
    play(n);
    for (size_t i = 0; i < STATUSES; i++)
        printf("%zu%c", statuses[i], i + 1 < STATUSES ? ' ' : '\n');
    play_forged(n);
    printf("units %" PRIu64 "\n", checksum);
}

int main(int argc, char **argv)
{
    kind = joined;
    board = malloc(sizeof *board);
    keeps_hour = calloc(UNITS, sizeof *keeps_hour);
    if (board == NULL || keeps_hour == NULL || argc == 2 || argc > 3)
        return 2;
    if (argc == 1)
        play_cases();
    else
        play_random(argv[1], strtoull(argv[2], NULL, 10));
    free(keeps_hour);
    free(board);
    return 0;
}
