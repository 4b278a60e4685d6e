/* The three sequences of one air handler side by side on one clock, a row a minute.
 *
 * A little too little outdoor air comes in, so the economizer opens the outdoor damper from row to row; it is handed the freeze stage of
 * the minute before. Freeze protection is handed the economizer's dampers, and its own commands go out: as it gets colder, stage 1 holds
 * the outdoor damper at its minimum position and stage 2 shuts it. The building's pressure starts relief fans; a fan's proof comes a
 * minute after its command. At the end stand the stage and the latches of freeze protection at the last row, as a display shows them.
 */
#include <inttypes.h>
#include <stdio.h>

#include "woldgrater.h"

enum { ROWS = 20 };

/* What each sequence gave last, with its state; the relief fan group has the arrays of its window beside it. */
static struct woldgrater_freeze_given freeze;
static struct woldgrater_econ_given econ;
static struct woldgrater_relief_given relief;
static double times[WOLDGRATER_WINDOW];
static double integrals[WOLDGRATER_WINDOW];

static struct woldgrater_freeze_row freeze_sample(int n)
{
    struct woldgrater_freeze_row row = {
        .time = 60.0 * n,
        .outdoor_damper_min_position = 0.2,
        .outdoor_damper = econ.commands.outdoor_damper_command,
        .heating_coil = 0.31,
        .minimum_outdoor_damper = 0.17,
        .return_damper = econ.commands.return_damper_command,
        .supply_air_temperature = 279.0 - 0.25 * n,
        .software_reset = 0,
        .supply_fan_status = 1,
        .supply_fan_speed = 0.58,
        .cooling_coil = 0.0,
        .mixed_air_temperature = 285.0 - 0.25 * n,
    };
    return row;
}

static struct woldgrater_econ_row econ_sample(int n)
{
    struct woldgrater_econ_row row = {
        .time = 60.0 * n,
        .outdoor_airflow_normalized = 0.2999,
        .minimum_outdoor_airflow_setpoint_normalized = 0.3,
        .supply_temperature_signal = 0.4,
        .outdoor_air_temperature = 272.0 - 0.25 * n,
        .supply_fan_status = 1,
        .operation_mode = 1,
        .freeze_protection_stage = (int64_t)freeze.commands.freeze_protection_stage,
    };
    return row;
}

/* A fan is proven on the row after the one that started it. Fan 4 has an alarm of level 3, which shuts nothing. */
static struct woldgrater_relief_row relief_sample(int n)
{
    struct woldgrater_relief_row row = {
        .time = 60.0 * n,
        .supply = { 1, 1 },
        .pressure = 18.7,
        .alarm = { 0, 0, 0, 3 },
        .proof = { relief.commands.fan_speed_1 > 0, relief.commands.fan_speed_2 > 0, relief.commands.fan_speed_3 > 0,
                   relief.commands.fan_speed_4 > 0 },
    };
    return row;
}

static void print_commands(int n)
{
    printf("%4d s  economizer %.2f %.2f  stage %" PRIu64 "  dampers %.2f %.2f  pressure %.2f  fans %.2f %.2f %.2f %.2f\n", 60 * n,
           econ.commands.outdoor_damper_command, econ.commands.return_damper_command, freeze.commands.freeze_protection_stage,
           freeze.commands.outdoor_damper_command, freeze.commands.return_damper_command, relief.commands.averaged_pressure,
           relief.commands.fan_speed_1, relief.commands.fan_speed_2, relief.commands.fan_speed_3, relief.commands.fan_speed_4);
}

int main(void)
{
    struct woldgrater_freeze_shown shown = { 0 };
    freeze.state = woldgrater_freeze_start(0);
    econ.state = woldgrater_econ_start();
    relief.state = woldgrater_relief_start(times, integrals);
    for (int n = 0; n < ROWS; n++) {
        struct woldgrater_freeze_row sampled;
        econ = woldgrater_econ_row(econ.state, econ_sample(n));
        sampled = freeze_sample(n);
        shown = woldgrater_freeze_signals(freeze.state, sampled);
        freeze = woldgrater_freeze_row(freeze.state, sampled);
        relief = woldgrater_relief_row(times, integrals, relief.state, relief_sample(n));
        if (freeze.status != WOLDGRATER_ACCEPTED || econ.status != WOLDGRATER_ACCEPTED || relief.status != WOLDGRATER_ACCEPTED)
            return 1;
        print_commands(n);
    }
    printf("last row: stage %" PRIu64 "  lat %" PRIu64 "  lat1 %" PRIu64 "  lat2 %" PRIu64 "\n", shown.signals.stage, shown.signals.lat_y,
           shown.signals.lat1_y, shown.signals.lat2_y);
    printf("stage 3 is called after %.0f s more: cold for %.0f s\n", shown.left.tim3, shown.signals.calls.tim3.elapsed);
    for (size_t fan = 0; fan < 4; fan++)
        printf("%s %" PRId64, fan == 0 ? "alarms remembered:" : "", woldgrater_relief_alarm(relief.state, fan).alarm);
    printf("\n");
    return 0;
}
