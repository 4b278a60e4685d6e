/* Woldgrater for firmware on x86-64 (System V calls): freeze protection, relief fan group and economizer of air handlers.
 *
 * A call a row for each sequence, and for all three joined; six of these on one board: link target/staticlib/libwoldgrater.a, which
 * `tools/build woldgrater` writes. Signals for a display, the alarms that a relief state remembers, the line of a row for a row file, and
 * whole row files: link libwoldgrater_service.a beside it (`tools/build woldgrater_service`). Every function stands in a section of its
 * own, so with -Wl,--gc-sections a program has only what it calls. docs/FIRMWARE.md leads from a struct of samples to a linked program.
 *
 * The functions are proved: for all words, all doubles and all bytes they do exactly what is said here, end, and touch no memory but
 * what they are lent. They keep nothing between calls, take no memory of their own but the stack, and call nothing but memcpy, memmove
 * and memset.
 *
 * Owed by the caller, and nothing else:
 * - Each pointer is not null, also for a length of 0, is aligned for its type, and leads to as many bytes as its length says, at most
 *   PTRDIFF_MAX, or to the whole array that is declared; what is lent to be written overlaps nothing else that is lent; nothing else
 *   writes there during the call.
 * - The stack has room for the call, as WOLDGRATER_STACK_* say below, besides the caller's own structs.
 * - The floating-point unit is set as a C program starts with it: rounding to nearest, subnormal numbers kept (no flush to zero, so
 *   nothing linked with -ffast-math), exceptions masked. Else the answers may be other ones, or the processor may trap.
 * - A state is kept for the library of one WOLDGRATER_VERSION_MAJOR: another may lay its words out otherwise (of 4 and 5 those of
 *   the economizer and of the relief fan group are the same, those of freeze protection and of the row reader are not).
 */
#ifndef WOLDGRATER_H
#define WOLDGRATER_H

#include <stddef.h>
#include <stdint.h>

#ifdef __cplusplus
extern "C" {
#endif

/* Major, minor: the minor grows with what is added, the major where a state or a struct is laid out anew. */
#define WOLDGRATER_VERSION_MAJOR 5
#define WOLDGRATER_VERSION_MINOR 2

/* Statuses. 0: accepted. The others are refusals: a refused row hands the old state back (the same words, where a call gave them; of
 * any other words those of the state that they are read as), and its commands, signals and seconds left are all zero and mean nothing. */
#define WOLDGRATER_ACCEPTED 0
#define WOLDGRATER_NOT_FINITE 1          /* a number of the row is NaN or infinite */
#define WOLDGRATER_NEGATIVE_TIME 2       /* the time has its sign bit set: -0.0 too */
#define WOLDGRATER_FALLING_TIME 3        /* the time is below that of the last accepted row */
#define WOLDGRATER_ALARM_OUT_OF_RANGE 11 /* relief, joined: an alarm is below -128 or above 127; tried after 3 and before 4 */
#define WOLDGRATER_WINDOW_FULL 4         /* relief, joined: the window of 300 s holds 512 points */
#define WOLDGRATER_NO_ROOM 10            /* a line does not fit the output */
#define WOLDGRATER_NO_UNIT 12            /* board: a row is offered to a unit above 5 */
#define WOLDGRATER_LINE_FULL 13          /* board: four rows wait for the unit already; tried after 12 */

/* The numbers of a relief window: each of its two arrays. */
#define WOLDGRATER_WINDOW 512

/* The units of a board, from 0 on, and the places of each unit's waiting line. */
#define WOLDGRATER_UNITS 6
#define WOLDGRATER_PLACES 4

/* What a call needs of the stack at most, in bytes, its arguments and what it gives not counted. A test measures it. */
#define WOLDGRATER_STACK_FREEZE 2560
#define WOLDGRATER_STACK_ECON 512
#define WOLDGRATER_STACK_RELIEF 7168
#define WOLDGRATER_STACK_ROOFTOP 5120
#define WOLDGRATER_STACK_BOARD 6144
#define WOLDGRATER_STACK_LINE 512
#define WOLDGRATER_STACK_PLAY 20480
#define WOLDGRATER_STACK_FEED 14336
#define WOLDGRATER_STACK_START_FINISH 3072

/* ---- What goes in and out. A flag of a row is a yes where it is not 0; one that is given is 0 or 1. What the words of a state say is
 * the library's own; any words are safe: they are read as some state. Names and order of the fields are those of the Rust records. In
 * C++ write `struct` before a type that shares its name with a function. */

/* ---- records, written by tools/words */

/* Timers. */

/* A timer's answer at a row, CDL.Logical.Timer's passed and y: whether its time has passed, and the seconds since
 * its input became true. */
struct woldgrater_timer_output {
    uint64_t passed;                                        /* flag */
    double elapsed;
};

/* Freeze protection. */

struct woldgrater_freeze_state {
    uint64_t words[69];
};

/* A sampled row: its time in seconds, and Inputs. Temperatures in kelvin, positions and speeds from 0 to 1. */
struct woldgrater_freeze_row {
    double time;
    double outdoor_damper_min_position;
    double outdoor_damper;
    double heating_coil;
    double minimum_outdoor_damper;
    double return_damper;
    double supply_air_temperature;
    uint64_t software_reset;                                /* flag */
    uint64_t supply_fan_status;                             /* flag */
    double supply_fan_speed;
    double cooling_coil;
    double mixed_air_temperature;
};

/* The outputs, in the order of Trace. */
struct woldgrater_freeze_commands {
    uint64_t freeze_protection_stage;
    uint64_t chilled_water_pump_enable;                     /* flag */
    double return_damper_command;
    double outdoor_damper_command;
    double minimum_outdoor_damper_command;
    uint64_t supply_fan_status;                             /* flag */
    double supply_fan_speed;
    double cooling_coil_command;
    double heating_coil_command;
    uint64_t hot_water_plant_request;
    uint64_t alarm_level;
};

/* The outputs of the thresholds and the whole answers of the timers on them: what the temperature calls for. */
struct woldgrater_freeze_calls {
    uint64_t les_thr_y;                                     /* flag */
    struct woldgrater_timer_output tim;
    uint64_t gre_thr_y;                                     /* flag */
    struct woldgrater_timer_output tim1;
    uint64_t end_sta_one_y;                                 /* flag */
    uint64_t les_thr1_y;                                    /* flag */
    struct woldgrater_timer_output tim2;
    uint64_t hol_sta2_y;                                    /* flag */
    struct woldgrater_timer_output tim3;
    uint64_t les_thr2_y;                                    /* flag */
    struct woldgrater_timer_output tim4;
};

/* Every block's output at a row: what the commands and the next state are worked from. */
struct woldgrater_freeze_signals {
    struct woldgrater_freeze_calls calls;
    uint64_t or8_y;                                         /* flag */
    uint64_t lat1_y;                                        /* flag */
    struct woldgrater_timer_output tim5;
    uint64_t end_sta_two_y;                                 /* flag */
    uint64_t lat2_y;                                        /* flag */
    uint64_t or2_y;                                         /* flag */
    uint64_t lat_y;                                         /* flag */
    uint64_t stage;
    double stage_1_heat;
    double stage_3_measurement;
    double stage_3_heat;
};

/* The seconds left until each timer passes: tim calls stage 1, tim1 ends it, tim2 and its hold begin stage 2, tim3
 * or tim4 calls stage 3, and tim5 ends stage 2. A timer whose input is off has its whole time left; where stage 2
 * keeps to its hour, tim5 runs on, and has its whole time left until the hold first comes on. */
struct woldgrater_freeze_left {
    double tim;
    double tim1;
    double tim2;
    double tim3;
    double tim4;
    double tim5;
};

/* The state after a row, its status, and the commands of an accepted one: those of a refused one are 0 and mean
 * nothing. */
struct woldgrater_freeze_given {
    struct woldgrater_freeze_state state;
    uint64_t status;
    struct woldgrater_freeze_commands commands;
};

/* The status of a row, and what the commands of an accepted one are worked from. Beside it the seconds left on its
 * timers. */
struct woldgrater_freeze_shown {
    uint64_t status;
    struct woldgrater_freeze_signals signals;
    struct woldgrater_freeze_left left;
};

/* Economizer. */

struct woldgrater_econ_state {
    uint64_t words[23];
};

/* A sampled row: its time in seconds, and Row. Airflows are normalized, the temperature is in kelvin. Mode 1 is
 * occupied; stage 0 is no freeze protection. */
struct woldgrater_econ_row {
    double time;
    double outdoor_airflow_normalized;
    double minimum_outdoor_airflow_setpoint_normalized;
    double supply_temperature_signal;
    double outdoor_air_temperature;
    uint64_t supply_fan_status;                             /* flag */
    int64_t operation_mode;
    int64_t freeze_protection_stage;
};

/* The outputs, in the order of ControllerTrace. */
struct woldgrater_econ_commands {
    double outdoor_damper_min_limit;
    uint64_t minimum_outdoor_air_loop_enabled;              /* flag */
    double outdoor_damper_command;
    double return_damper_command;
};

/* The damper limits that the first pass gives: those of DamperLimitsTrace. Positions from 0 to 1. */
struct woldgrater_damper_limits {
    double outdoor_damper_min_limit;
    double outdoor_damper_max_limit;
    double return_damper_min_limit;
    double return_damper_max_limit;
    double return_damper_physical_max_limit;
};

/* What the blocks of the second pass give at a row. */
struct woldgrater_enable_signals {
    double dry_bulb_delta;
    uint64_t outdoor_air_condition;                         /* flag */
    uint64_t held_condition;                                /* flag */
    uint64_t enabled;                                       /* flag */
    uint64_t outdoor_delay_done;                            /* flag */
    uint64_t return_delay_done;                             /* flag */
};

/* The damper limits that the second pass gives: EnableTrace. */
struct woldgrater_enable_limits {
    double outdoor_damper_max_limit;
    double return_damper_min_limit;
    double return_damper_max_limit;
};

/* Every block's output at a row, and the limits worked from them: what the commands and the next state are worked
 * from. */
struct woldgrater_econ_signals {
    double loop_signal;
    uint64_t minimum_outdoor_air_loop_enabled;              /* flag */
    struct woldgrater_damper_limits damper_limits;
    struct woldgrater_enable_signals enable;
    struct woldgrater_enable_limits enable_limits;
};

/* The state after a row, its status, and the commands of an accepted one: those of a refused one are 0 and mean
 * nothing. */
struct woldgrater_econ_given {
    struct woldgrater_econ_state state;
    uint64_t status;
    struct woldgrater_econ_commands commands;
};

/* The status of a row, and what the commands of an accepted one are worked from. */
struct woldgrater_econ_shown {
    uint64_t status;
    struct woldgrater_econ_signals signals;
};

/* Relief fan group. */

struct woldgrater_relief_state {
    uint64_t words[172];
};

/* A sampled row: its time in seconds, and Inputs. The pressure in pascal, an alarm's level, a flag for each fan. */
struct woldgrater_relief_row {
    double time;
    uint64_t supply[2];                                     /* flag */
    double pressure;
    int64_t alarm[4];
    uint64_t proof[4];                                      /* flag */
};

/* The outputs, in the order of Trace. */
struct woldgrater_relief_commands {
    double averaged_pressure;
    double fan_speed_1;
    double fan_speed_2;
    double fan_speed_3;
    double fan_speed_4;
    double damper_1;
    double damper_2;
    double damper_3;
    double damper_4;
};

/* The pressure loop, and the fans that the supply fans enable. */
struct woldgrater_pressure_control {
    double average;
    double controller;
    uint64_t ena_rel_group;                                 /* flag */
    double gated_controller;
    double ena_rel[4];
    double gai[4];
    uint64_t any_enabled;                                   /* flag */
};

/* The dampers of stage zero, and the timer whose pass shuts them. */
struct woldgrater_damper_enable {
    uint64_t damper_open;                                   /* flag */
    uint64_t damper_close_request;                          /* flag */
    struct woldgrater_timer_output tim;
    uint64_t ena_dam[4];                                    /* flag */
};

/* The next fan to start, the timer whose pass is the up pulse, and the latch that it sets. */
struct woldgrater_stage_up {
    uint64_t all_fans_off;                                  /* flag */
    double pro1[4];
    double up_distance[4];
    uint64_t or2[4];                                        /* flag */
    uint64_t all_newly_started_proven;                      /* flag */
    uint64_t up_gate;                                       /* flag */
    struct woldgrater_timer_output up_tim;
    uint64_t lat2_y;                                        /* flag */
};

/* The next fan to stop, the timer whose pass is the down pulse, and the latch that it sets. */
struct woldgrater_stage_down {
    double pro2[4];
    double down_distance[4];
    uint64_t xor_y[4];                                      /* flag */
    uint64_t not5[4];                                       /* flag */
    uint64_t all_stopped_matches;                           /* flag */
    uint64_t down_gate;                                     /* flag */
    struct woldgrater_timer_output dow_tim;
    uint64_t lat1_y;                                        /* flag */
};

/* Every block's output at a row: what the commands and the next state are worked from. */
struct woldgrater_relief_signals {
    struct woldgrater_pressure_control control;
    struct woldgrater_damper_enable dampers;
    struct woldgrater_stage_up up;
    struct woldgrater_stage_down down;
};

/* The seconds left until each timer passes: tim shuts the dampers of stage zero, up_tim is the up pulse, and
 * dow_tim the down pulse. A timer whose input is off has its whole time left. */
struct woldgrater_relief_left {
    double tim;
    double up_tim;
    double dow_tim;
};

/* The state after a row, its status, and the commands of an accepted one: those of a refused one are 0 and mean
 * nothing. */
struct woldgrater_relief_given {
    struct woldgrater_relief_state state;
    uint64_t status;
    struct woldgrater_relief_commands commands;
};

/* The status of a row, and what the commands of an accepted one are worked from. Beside it the seconds left on its
 * timers. */
struct woldgrater_relief_shown {
    uint64_t status;
    struct woldgrater_relief_signals signals;
    struct woldgrater_relief_left left;
};

/* The alarm of a fan at the last accepted row, 0 before any, and 1 where there is such a fan: for another index
 * both are 0. */
struct woldgrater_alarm_given {
    uint64_t known;
    int64_t alarm;
};

/* The joined row. */

struct woldgrater_rooftop_state {
    uint64_t words[265];
};

/* A sampled row: its time in seconds and the supply fan status, which more than one sequence takes; then what the
 * economizer, freeze protection and the relief fan group take of their own. What one sequence hands to another is
 * not in it. */
struct woldgrater_rooftop_row {
    double time;
    uint64_t supply_fan_status;                             /* flag */
    double outdoor_airflow_normalized;
    double minimum_outdoor_airflow_setpoint_normalized;
    double supply_temperature_signal;
    double outdoor_air_temperature;
    int64_t operation_mode;
    double heating_coil;
    double minimum_outdoor_damper;
    double supply_air_temperature;
    uint64_t software_reset;                                /* flag */
    double supply_fan_speed;
    double cooling_coil;
    double mixed_air_temperature;
    double pressure;
    int64_t alarm[4];
    uint64_t proof[4];                                      /* flag */
};

/* The outputs of all three. */
struct woldgrater_rooftop_commands {
    struct woldgrater_econ_commands economizer;
    struct woldgrater_freeze_commands freeze;
    struct woldgrater_relief_commands relief;
};

/* The state after a row, its status, and the commands of an accepted one: those of a refused one are 0 and mean
 * nothing. */
struct woldgrater_rooftop_given {
    struct woldgrater_rooftop_state state;
    uint64_t status;
    struct woldgrater_rooftop_commands commands;
};

/* The board. */

/* A board: the unit asked first at the next tick, where any number above 5 is as 0; how many rows wait for each
 * unit, where any number above 4 is as 4; the places of each unit's line, of which the first so many hold the rows
 * that wait, the next to be served first; the units' states, and the arrays of their relief windows. */
struct woldgrater_board {
    size_t turn;
    size_t counts[6];
    struct woldgrater_rooftop_row rows[6][4];
    struct woldgrater_rooftop_state units[6];
    double times[6][512];
    double integrals[6][512];
};

/* What a tick served: 1, the unit, and the status and the commands of its row as the unit's own call would give
 * them. Where no row waited all is 0. */
struct woldgrater_board_served {
    uint64_t served;
    size_t unit;
    uint64_t status;
    struct woldgrater_rooftop_commands commands;
};

/* The line of a row. */

/* The status, and the number of bytes written. */
struct woldgrater_line_given {
    uint64_t status;
    size_t len;
};

/* Row files. */

struct woldgrater_state {
    uint64_t words[267];
};

/* The same, and 1 where the reader has stopped: it reads no more. */
struct woldgrater_fed {
    struct woldgrater_state state;
    size_t sent;
    uint64_t stopped;
};
/* ---- end of the records */

/* ---- A call a row
 *
 * Start a sequence, then hand each row the state that the call before gave, and keep what it gives:
 *
 *     struct woldgrater_freeze_state state = woldgrater_freeze_start(0);
 *     for each sample:
 *         struct woldgrater_freeze_given given = woldgrater_freeze_row(state, row);
 *         state = given.state;
 *         if (given.status == WOLDGRATER_ACCEPTED) use given.commands
 *
 * woldgrater_freeze_start(0) starts freeze protection as the published Rust does: stage 2 may stand for good (docs/ANSWERS.md, question 2).
 * With any other word stage 2 keeps to its hour, as Guideline 36 has it: on the first row that is 3600 s or more after the hold last came
 * on it gives way to stage 1, or to 0 where the supply air has recovered on that row; a trip of stage 3 stands through it. The state
 * carries the manner; row and signals are the same calls.
 *
 * KIND_signals gives what the commands of that row would be worked from, and moves nothing: thresholds, timers, latches and the stage
 * (freeze); enable and delays (economizer); pulses and latches (relief). Each timer of freeze protection and of the relief fan group has
 * its mark and its elapsed seconds there, 0 where its input is off or has just come on, and in `left` the seconds until it passes, 0 once
 * it has. While the input stays on it passes at the first row that much later: exactly so for times in whole seconds, else but for the
 * rounding of a difference of times (docs/FIRMWARE.md). Where stage 2 keeps to its hour, tim5 alone counts on when its input goes off,
 * from the row at which it last came on. A relief caller lends the two arrays of its window, which woldgrater_relief_start
 * sets to 0 and woldgrater_relief_row changes; a caller that goes back to an earlier state puts the arrays back with it.
 *
 * A relief state remembers the alarms of the last accepted row in a byte each: woldgrater_relief_alarm gives that of a fan, by its index
 * from 0 to 3, 0 before any row; for an index above 3 known is 0. */
struct woldgrater_freeze_state woldgrater_freeze_start(uint64_t keeps_hour);
struct woldgrater_freeze_given woldgrater_freeze_row(struct woldgrater_freeze_state state, struct woldgrater_freeze_row row);
struct woldgrater_freeze_shown woldgrater_freeze_signals(struct woldgrater_freeze_state state, struct woldgrater_freeze_row row);

struct woldgrater_econ_state woldgrater_econ_start(void);
struct woldgrater_econ_given woldgrater_econ_row(struct woldgrater_econ_state state, struct woldgrater_econ_row row);
struct woldgrater_econ_shown woldgrater_econ_signals(struct woldgrater_econ_state state, struct woldgrater_econ_row row);

struct woldgrater_relief_state woldgrater_relief_start(double times[WOLDGRATER_WINDOW], double integrals[WOLDGRATER_WINDOW]);
struct woldgrater_relief_given woldgrater_relief_row(double times[WOLDGRATER_WINDOW], double integrals[WOLDGRATER_WINDOW],
                                                     struct woldgrater_relief_state state, struct woldgrater_relief_row row);
struct woldgrater_relief_shown woldgrater_relief_signals(const double times[WOLDGRATER_WINDOW],
                                                         const double integrals[WOLDGRATER_WINDOW],
                                                         struct woldgrater_relief_state state, struct woldgrater_relief_row row);
struct woldgrater_alarm_given woldgrater_relief_alarm(struct woldgrater_relief_state state, size_t fan);

/* The joined row: the economizer, freeze protection and the relief fan group of one air handler as one sequence, a call a row.
 *
 * One after the other they are handed: the economizer the freeze stage of the last accepted row, 0 before any; freeze protection this
 * row's outdoor minimum and outdoor and return commands of the economizer; the relief fan group this row's fan status that freeze
 * protection commands, as both its supply flags. The rest stands in the row. The commands of an accepted row are those of all three.
 *
 * A refused row moves none of the three on. The time falls where it is below the last accepted time of any of them. What is handed on
 * refuses nothing: the economizer's numbers are finite for all words of a state and all rows.
 *
 * The caller lends the two arrays of the relief window, as to woldgrater_relief_row: woldgrater_rooftop_start sets them to 0 and
 * woldgrater_rooftop_row changes them, in place. A word keeps_hour that is not 0 is woldgrater_freeze_start's. */
struct woldgrater_rooftop_state woldgrater_rooftop_start(double times[WOLDGRATER_WINDOW], double integrals[WOLDGRATER_WINDOW],
                                                         uint64_t keeps_hour);
struct woldgrater_rooftop_given woldgrater_rooftop_row(double times[WOLDGRATER_WINDOW], double integrals[WOLDGRATER_WINDOW],
                                                       struct woldgrater_rooftop_state state, struct woldgrater_rooftop_row row);

/* The board: six air handlers, each a joined sequence with a waiting line of its own for at most four rows, of which each tick serves one.
 *
 * What is said here is proved of the board that the words stand for. That the start writes every word, and that an offer that is turned
 * away and a tick with no row waiting leave every word as it was, is tested.
 *
 * woldgrater_board_start needs nothing of what stands in the board's memory before. No row waits then, unit 0 is asked first, and each
 * unit has started by its word of keeps_hour, as by that of woldgrater_rooftop_start.
 *
 * woldgrater_board_offer gives 0, and the row waits behind the others of its unit; or it gives WOLDGRATER_NO_UNIT or WOLDGRATER_LINE_FULL,
 * and the board is as it was. Nothing else of the row is looked at: a row that its unit refuses is refused when it is served. A row that
 * was turned away with WOLDGRATER_LINE_FULL must be offered again before later rows of its unit: else these go first, and once
 * one of them is accepted, the row's time is a falling one, which is refused with WOLDGRATER_FALLING_TIME when it is served.
 *
 * woldgrater_board_tick asks the units in turn, from the one named by turn on and round, and serves the first row of the first unit for
 * which any waits: the row leaves its line, the unit answers it as woldgrater_rooftop_row would, and the unit numbered one above it, 0
 * after 5, is asked first at the next tick. Units are never mixed: each gives for its rows, in their order, what it would give by itself,
 * and with a row waiting for it is served at one of the next six ticks. With no row waiting, served is 0 and so is all else that is given,
 * and the board is as it was.
 *
 * The board is some 66,000 bytes, changed where it stands. Any words are some board, read as said at the struct. */
void woldgrater_board_start(struct woldgrater_board *board, const uint64_t keeps_hour[WOLDGRATER_UNITS]);
uint64_t woldgrater_board_offer(struct woldgrater_board *board, size_t unit, struct woldgrater_rooftop_row row);
struct woldgrater_board_served woldgrater_board_tick(struct woldgrater_board *board);

/* ---- The line of a row, for a row file (docs/ROW_FILES.md). Gives status 0 and the line's bytes with its newline, which stand in the
 * first bytes of out; or the refusal, 1 before 10, and 0 bytes, with out as it was. A row's time is not looked at. */
#define WOLDGRATER_FREEZE_LINE 253
#define WOLDGRATER_ECON_LINE 169
#define WOLDGRATER_RELIEF_LINE 253
struct woldgrater_line_given woldgrater_freeze_line(struct woldgrater_freeze_row row, uint8_t *out, size_t out_len);
struct woldgrater_line_given woldgrater_econ_line(struct woldgrater_econ_row row, uint8_t *out, size_t out_len);
struct woldgrater_line_given woldgrater_relief_line(struct woldgrater_relief_row row, uint8_t *out, size_t out_len);

/* ---- Row files */

/* The bytes asked of an output for the answers to n bytes of a row file (n below SIZE_MAX / 22 - 257). */
#define WOLDGRATER_ROOM(n) ((size_t)22 * ((size_t)257 + (size_t)(n)))

/* The bytes asked of an output for the answer to the end of a row file. */
#define WOLDGRATER_ROOM_FINISH ((size_t)22)

/* The answer where the output has less room than is asked. */
#define WOLDGRATER_REFUSED SIZE_MAX

/* The bytes of a line that has not ended, which the caller holds from chunk to chunk. */
#define WOLDGRATER_LINE 256

/* A row file at once.
 *
 * rows is the file, as the program `rows` reads it: a first line `freeze`, `relief` or `econ`, then a line for each row. Each row is
 * answered by a line, its status and, where it is accepted, its commands. docs/ROW_FILES.md has columns and statuses.
 *
 * Where out_len is at least WOLDGRATER_ROOM(rows_len): gives the length of the output, and the output stands in the first bytes
 * of out. (The program `rows` prints the same bytes, which is tested.) The bytes after it are as they were.
 * Else: gives WOLDGRATER_REFUSED, and out is as it was. */
size_t woldgrater_play(const uint8_t *rows, size_t rows_len, uint8_t *out, size_t out_len);

/* A row file chunk by chunk, cut anywhere: start it, feed each chunk as it comes, then finish it. What is given to be written by
 * these calls, one after another, is the output that woldgrater_play gives for the whole file.
 *
 * The caller holds what is carried from call to call: the state, WOLDGRATER_LINE bytes of a line that has not ended, and two
 * arrays of WOLDGRATER_WINDOW numbers for the window of the relief fan group. The arrays need not be set before the first call.
 * Two files, as of two air handlers, go on side by side in memory of their own. To go back to a moment, put back state, line and
 * arrays together. */

/* The state before the first chunk. */
struct woldgrater_state woldgrater_start(void);

/* Feeds the next chunk.
 *
 * Where out_len is at least WOLDGRATER_ROOM(chunk_len): gives the next state, and in sent the number of bytes to be written, which
 * stand in the first bytes of out: the answers to the lines that end in this chunk. The bytes after them are as they were.
 * Else: gives the state as it was and WOLDGRATER_REFUSED in sent, and nothing that is lent is written.
 * In both cases stopped is 1 where the reader of the state that is given has stopped, after a first line that names no kind: it
 * reads no more, and further chunks need not be fed. */
struct woldgrater_fed woldgrater_feed(const uint8_t *chunk, size_t chunk_len, uint8_t *out, size_t out_len,
                                      uint8_t line[WOLDGRATER_LINE], double times[WOLDGRATER_WINDOW],
                                      double integrals[WOLDGRATER_WINDOW], struct woldgrater_state state);

/* Ends the file.
 *
 * Where out_len is at least WOLDGRATER_ROOM_FINISH: gives the number of bytes to be written, which stand in the first bytes of out:
 * the refusal of a last line without a newline, or of a file without a first line, or none. The bytes after them are as they were.
 * Else: gives WOLDGRATER_REFUSED, and out is as it was. */
size_t woldgrater_finish(uint8_t *out, size_t out_len, const uint8_t line[WOLDGRATER_LINE], struct woldgrater_state state);

#ifdef __cplusplus
}
#endif

#endif
