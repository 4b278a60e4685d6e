/* A night of one air handler, a joined row every ten minutes or more: the economizer, freeze protection and the relief fan group as one
 * sequence. It is mild outside, and a chilled water valve that does not shut makes the supply air ever colder.
 *
 * At each row stand the clock, the supply air, the stage, the outdoor and return dampers as the economizer commands them and as freeze
 * protection sends them out, the supply fan, the speed of relief fan 3 and the alarm's level. Stage 1 holds the outdoor damper at its
 * minimum; stage 2 shuts it, keeps to its hour and gives way to stage 1 at 00:20; stage 3 stops the supply fan, whose status the relief
 * fans are handed, so they stop with it. A reset at 06:00 ends stage 3. The economizer is handed the stage a row later: stage 1 comes at
 * 22:50, and at 23:00 its return damper is full open, ten minutes before its outdoor damper goes to the minimum; it modulates again at
 * 06:10.
 */
#include <inttypes.h>
#include <stdio.h>

#include "woldgrater.h"

/* What changes from sample to sample: minutes from 22:00 on, the supply air temperature in kelvin, and the operator's reset. */
static const struct sample {
    int minutes;
    double supply;
    int reset;
} samples[] = {
    { 0, 285, 0 },      { 10, 281, 0 },     { 20, 278.5, 0 },   { 30, 277.75, 0 },  { 40, 277.5, 0 },   { 50, 277.25, 0 },
    { 60, 277, 0 },     { 70, 276.25, 0 },  { 80, 276.25, 0 },  { 90, 277, 0 },     { 120, 277, 0 },    { 130, 277, 0 },
    { 140, 277, 0 },    { 150, 276.25, 0 }, { 160, 276, 0 },    { 170, 275.5, 0 },  { 180, 275, 0 },    { 190, 275, 0 },
    { 460, 284, 0 },    { 470, 285, 0 },    { 480, 285, 1 },    { 490, 285, 0 },    { 500, 285, 0 },    { 510, 285, 0 },
};

/* What the row before gave, with its state, and the arrays of the relief window. */
static struct woldgrater_rooftop_given given;
static double times[WOLDGRATER_WINDOW];
static double integrals[WOLDGRATER_WINDOW];

/* The row of a sample. At first a little too little outdoor air comes in, which raises the outdoor damper's minimum. The building is under
 * pressure while the supply fan runs, and relief fan 3 is proven on the row after the one that started it. */
static struct woldgrater_rooftop_row row_of(struct sample sample)
{
    struct woldgrater_rooftop_row row = {
        .time = 60.0 * sample.minutes,
        .supply_fan_status = 1,
        .outdoor_airflow_normalized = sample.minutes < 30 ? 0.29995 : 0.3,
        .minimum_outdoor_airflow_setpoint_normalized = 0.3,
        .supply_temperature_signal = 0.1,
        .outdoor_air_temperature = 295,
        .operation_mode = 1,
        .heating_coil = 0.31,
        .minimum_outdoor_damper = 0.17,
        .supply_air_temperature = sample.supply,
        .software_reset = (uint64_t)sample.reset,
        .supply_fan_speed = 0.58,
        .cooling_coil = 0,
        .mixed_air_temperature = 283,
        .pressure = given.commands.freeze.supply_fan_status ? 18.7 : 0,
        .alarm = { 0, 0, 0, 0 },
        .proof = { 0, 0, given.commands.relief.fan_speed_3 > 0, 0 },
    };
    return row;
}

static void print_row(struct sample sample)
{
    const struct woldgrater_econ_commands *econ = &given.commands.economizer;
    const struct woldgrater_freeze_commands *freeze = &given.commands.freeze;
    printf("%02d:%02d  %6.2f K  %5" PRIu64, (22 + sample.minutes / 60) % 24, sample.minutes % 60, sample.supply,
           freeze->freeze_protection_stage);
    printf("   %.2f %.2f", econ->outdoor_damper_command, econ->return_damper_command);
    printf("   %.2f %.2f", freeze->outdoor_damper_command, freeze->return_damper_command);
    printf("  %3" PRIu64 "    %.2f  %5" PRIu64 "\n", freeze->supply_fan_status, given.commands.relief.fan_speed_3, freeze->alarm_level);
}

int main(void)
{
    given.state = woldgrater_rooftop_start(times, integrals, 1);
    printf("clock    supply  stage  economizer     dampers  fan  relief  alarm\n");
    for (size_t i = 0; i < sizeof samples / sizeof *samples; i++) {
        given = woldgrater_rooftop_row(times, integrals, given.state, row_of(samples[i]));
        if (given.status != WOLDGRATER_ACCEPTED)
            return 1;
        print_row(samples[i]);
    }
    return 0;
}
