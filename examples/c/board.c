/* Three hours of six rooftop units on one board. A unit sends a joined row when it has one, and every five minutes the board serves one of
 * the rows that wait. It is mild outside, and chilled water valves that do not shut make the supply air of units 1, 2 and 3 cold.
 *
 * A line has the minute, the units that a row was offered to at it, the unit that was served, the minute that the row
 * is of and its supply air, what freeze protection says of it, stage, outdoor damper and supply fan, the row's status,
 * and how many rows then wait for units 0 to 5.
 *
 * - Units 1 and 2 send the same rows and get to stage 2. Unit 1 keeps to the hour: its row of minute 90 gives stage 1. Unit 2 is started as
 *   published, and its stage 2 stands when it is mild again.
 * - Unit 3 gets to stage 3, which stops its supply fan, while the others run on.
 * - Unit 4 was cut off, and sends five rows at minute 110. Its line takes four; the fifth is turned away, 4:13, and
 *   offered again every five minutes until a place is free. No later row of the unit would be offered before it.
 * - Unit 5 has its clock set back for one row, which comes at minute 90 and says 30. It is refused when it is served, with 3; that was unit
 *   5's turn all the same.
 * - At minute 40 a row comes for a unit 6, which there is not: it is turned away, 6:12.
 * - At minute 175 no row waits, so nothing is served and nothing changes.
 */
#include <inttypes.h>
#include <stdbool.h>
#include <stdio.h>

#include "woldgrater.h"

enum { UNITS = WOLDGRATER_UNITS, STEP = 5, END = 180 };

/* A row that a unit sends: the minute at which it does, the unit, the minute that the row is of by the unit's own clock, and the supply air
 * temperature in kelvin. */
static const struct sample {
    int minute;
    size_t unit;
    int clock;
    double supply;
} samples[] = {
    { 0, 0, 0, 285 },     { 0, 1, 0, 279 },     { 0, 2, 0, 279 },     { 5, 3, 5, 277 },     { 5, 5, 5, 284 },     { 10, 4, 10, 283 },
    { 15, 1, 15, 276 },   { 15, 2, 15, 276 },   { 20, 3, 20, 276 },   { 25, 1, 25, 276 },   { 25, 2, 25, 276 },   { 30, 0, 30, 285 },
    { 30, 3, 30, 275.5 }, { 40, 6, 40, 285 },   { 40, 3, 40, 275 },   { 55, 1, 55, 278 },   { 55, 2, 55, 278 },   { 60, 0, 60, 284 },
    { 65, 5, 65, 284 },   { 70, 3, 70, 276 },   { 90, 1, 90, 278 },   { 90, 2, 90, 278 },   { 90, 5, 30, 284 },   { 90, 0, 90, 284 },
    { 110, 4, 70, 283 },  { 110, 4, 80, 283 },  { 110, 4, 90, 283 },  { 110, 4, 100, 284 }, { 110, 4, 110, 284 }, { 115, 5, 115, 284 },
    { 120, 0, 120, 285 }, { 125, 1, 125, 281 }, { 125, 2, 125, 281 }, { 140, 3, 140, 279 }, { 140, 1, 140, 281 }, { 140, 2, 140, 281 },
};
enum { SAMPLES = sizeof samples / sizeof *samples };

/* Units 1 and 5 are started so that stage 2 keeps to its hour. */
static const uint64_t keeps_hour[UNITS] = { 0, 1, 0, 0, 0, 1 };

/* Each unit's own weather, in kelvin, and how far its economizer is asked to cool. */
static const double outdoor[UNITS] = { 295, 294.5, 294.5, 298, 297, 296 };
static const double cooling[UNITS] = { -0.1, -0.05, -0.05, 0.1, -0.15, 0.05 };

/* The board, some 66,000 bytes: the calls change it where it stands. */
static struct woldgrater_board board;

/* The row of a sample. A unit that there is not has the weather of unit 0. */
static struct woldgrater_rooftop_row row_of(const struct sample *sample)
{
    size_t unit = sample->unit < UNITS ? sample->unit : 0;
    struct woldgrater_rooftop_row row = {
        .time = 60.0 * sample->clock,
        .supply_fan_status = 1,
        .outdoor_airflow_normalized = sample->clock < 30 ? 0.29995 : 0.3,
        .minimum_outdoor_airflow_setpoint_normalized = 0.3,
        .supply_temperature_signal = cooling[unit],
        .outdoor_air_temperature = outdoor[unit],
        .operation_mode = 1,
        .heating_coil = 0.31,
        .minimum_outdoor_damper = 0.17,
        .supply_air_temperature = sample->supply,
        .supply_fan_speed = 0.58,
        .mixed_air_temperature = 283,
    };
    return row;
}

/* Offers the rows that have come by this minute and were not taken yet, and prints their units; what a row is turned
 * away with stands behind the unit. A row that finds its line full is kept, and the later rows of its unit with it: to
 * be taken after them would make its time fall. A row for no unit is not offered again. */
static void offer_all(int minute)
{
    static bool done[SAMPLES];
    bool full[UNITS] = { false };
    int width = printf("%6d ", minute);
    for (size_t i = 0; i < SAMPLES && samples[i].minute <= minute; i++) {
        size_t unit = samples[i].unit;
        uint64_t status;
        if (done[i] || (unit < UNITS && full[unit]))
            continue;
        status = woldgrater_board_offer(&board, unit, row_of(&samples[i]));
        width += printf(" %zu", unit);
        if (status != WOLDGRATER_ACCEPTED)
            width += printf(":%" PRIu64, status);
        if (status == WOLDGRATER_LINE_FULL)
            full[unit] = true;
        else
            done[i] = true;
    }
    printf("%*s", width < 24 ? 24 - width : 0, "");
}

/* The sample that a unit is served now: its rows are served in the order in which they came. */
static const struct sample *sample_of(size_t unit)
{
    static size_t next[UNITS];
    while (samples[next[unit]].unit != unit)
        next[unit]++;
    return &samples[next[unit]++];
}

static void print_served(const struct woldgrater_board_served *given)
{
    const struct sample *sample = sample_of(given->unit);
    const struct woldgrater_freeze_commands *freeze = &given->commands.freeze;
    printf("%6zu  %6d  %5.1f K", given->unit, sample->clock, sample->supply);
    if (given->status == WOLDGRATER_ACCEPTED)
        printf("  %5" PRIu64 "    %.2f  %3" PRIu64, freeze->freeze_protection_stage, freeze->outdoor_damper_command,
               freeze->supply_fan_status);
    else
        printf("  %5s    %4s  %3s", "-", "-", "-");
    printf("  %6" PRIu64, given->status);
}

int main(void)
{
    woldgrater_board_start(&board, keeps_hour);
    printf("minute  offered         served  row of   supply  stage  damper  fan  status  waiting\n");
    for (int minute = 0; minute < END; minute += STEP) {
        struct woldgrater_board_served given;
        offer_all(minute);
        given = woldgrater_board_tick(&board);
        if (given.served)
            print_served(&given);
        else
            printf("%6s%46s", "-", "");
        printf("  ");
        for (size_t unit = 0; unit < UNITS; unit++)
            printf(" %zu", board.counts[unit]);
        printf("\n");
    }
    return 0;
}
