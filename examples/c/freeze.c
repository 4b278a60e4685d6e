/* Freeze protection a row at a time: prints the stage and the outdoor damper's command at each sample, from either start.
 *
 * It is case F5 of the tests. As published, stage 2 stands although it is mild again; where it keeps to its hour, stage 1 follows at
 * 3900 s. A sample whose time falls is refused and changes nothing. A controller does the same with its own samples and one of the
 * starts; libwoldgrater.a alone is linked.
 */
#include <inttypes.h>
#include <stdio.h>

#include "woldgrater.h"

/* What changes from sample to sample: the time in seconds, the supply air temperature in kelvin. */
static const struct sample {
    double time;
    double supply;
} samples[] = {
    { 0, 276 },
    { 300, 276 },
    { 240, 290 }, /* the time falls */
    { 360, 278 },
    { 3900, 278 },
};

/* The row of a sample: the fan runs, and the rest stands still. */
static struct woldgrater_freeze_row row_of(struct sample sample)
{
    struct woldgrater_freeze_row row = {
        .time = sample.time,
        .outdoor_damper_min_position = 0.2,
        .outdoor_damper = 0.62,
        .heating_coil = 0.31,
        .minimum_outdoor_damper = 0.17,
        .return_damper = 0.73,
        .supply_air_temperature = sample.supply,
        .software_reset = 0,
        .supply_fan_status = 1,
        .supply_fan_speed = 0.58,
        .cooling_coil = 0.44,
        .mixed_air_temperature = 300.15,
    };
    return row;
}

static void play(uint64_t keeps_hour)
{
    /* The answer is kept whole and its state handed on: a state that is kept apart would be copied once more a row. */
    struct woldgrater_freeze_given given = { .state = woldgrater_freeze_start(keeps_hour) };
    printf("%s\n", keeps_hour ? "stage 2 keeps to its hour" : "as published");
    for (size_t i = 0; i < sizeof samples / sizeof *samples; i++) {
        given = woldgrater_freeze_row(given.state, row_of(samples[i]));
        printf("%4.0f s  %.0f K  ", samples[i].time, samples[i].supply);
        if (given.status == WOLDGRATER_ACCEPTED)
            printf("stage %" PRIu64 "  outdoor damper %.2f\n", given.commands.freeze_protection_stage,
                   given.commands.outdoor_damper_command);
        else
            printf("refused: %" PRIu64 "\n", given.status);
    }
}

int main(void)
{
    play(0);
    play(1);
    return 0;
}
