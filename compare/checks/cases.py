"""The cases of document 01 that a row file can show, as tables, the shortest lists that miss a relief
stage, and alarms that do not fit a signed byte (document 02, job 10); and cases of freeze protection in the
start in which stage 2 keeps to its hour (document 02, job 4).

Fields stand before the bar, what the answer must hold after it; fields that a table does not name
have the values of DEFAULTS. A dash is not looked at. R4 and the panic of E4 are tests in
compare/reference, since no row file shows them; F7, R5 and alarms in a full window are in playing.py.
"""

DEFAULTS = {
    'freeze': dict(outdoor_damper_min_position=0.2, outdoor_damper=0.62, heating_coil=0.31,
                   minimum_outdoor_damper=0.17, return_damper=0.73, software_reset=0,
                   supply_fan_status=1, supply_fan_speed=0.58, cooling_coil=0.44,
                   mixed_air_temperature=300.15),
    'relief': dict(supply_1=1, supply_2=1, pressure=18, alarm_1=0, alarm_2=0, alarm_3=0, alarm_4=0,
                   proof_1=0, proof_2=0, proof_3=0, proof_4=0),
    'econ': dict(outdoor_airflow_normalized=0, minimum_outdoor_airflow_setpoint_normalized=0,
                 supply_temperature_signal=0, outdoor_air_temperature=295, supply_fan_status=1,
                 operation_mode=1, freeze_protection_stage=0),
}

# Short names of fields and outputs, as document 01 uses them.
NAMES = {
    'freeze': dict(supply='supply_air_temperature', mixed='mixed_air_temperature',
                   reset='software_reset', stage='freeze_protection_stage',
                   pump='chilled_water_pump_enable', back='return_damper_command',
                   out='outdoor_damper_command', min_out='minimum_outdoor_damper_command',
                   fan='supply_fan_status', speed='supply_fan_speed', cool='cooling_coil_command',
                   heat='heating_coil_command', water='hot_water_plant_request',
                   alarm='alarm_level'),
    'relief': dict(mean='averaged_pressure', speed_1='fan_speed_1', speed_2='fan_speed_2',
                   speed_3='fan_speed_3', speed_4='fan_speed_4'),
    'econ': dict(setpoint='minimum_outdoor_airflow_setpoint_normalized',
                 outdoor='outdoor_air_temperature', fan='supply_fan_status',
                 stage='freeze_protection_stage', min='outdoor_damper_min_limit',
                 on='minimum_outdoor_air_loop_enabled', out='outdoor_damper_command',
                 back='return_damper_command'),
}

CASES = [
    ('F1 277 for 299 s is stage 0', 'freeze', '''
        time supply | stage
        0    277    | 0
        299  277    | 0
    '''),
    ('F1 277 for 300 s is stage 1', 'freeze', '''
        time supply | stage
        0    277    | 0
        300  277    | 1
    '''),
    ('F2 277.55 is not cold', 'freeze', '''
        time supply | stage
        0    277.55 | 0
        300  277.55 | 0
    '''),
    ('F2 after a cold row 277.79 is still cold', 'freeze', '''
        time supply | stage
        0    277    | 0
        10   277.79 | 0
        300  277.79 | 1
    '''),
    ('F2 after a cold row 277.81 is not cold', 'freeze', '''
        time supply | stage
        0    277    | 0
        10   277.81 | 0
        300  277    | 0
        310  277    | 0
    '''),
    ('F3 a reset does not relatch while the call stays, a new rise does', 'freeze', '''
        time supply reset | stage
        0    273    0     | 0
        300  273    0     | 3
        360  273    1     | 2
        420  273    0     | 2
        480  280    0     | 2
        540  273    0     | 2
        840  273    0     | 3
    '''),
    ('F4 a rise on the row of the reset is lost', 'freeze', '''
        time supply reset | stage
        0    273    0     | 0
        300  273    1     | 2
        360  273    0     | 2
    '''),
    ('F5 the hold drops on the row of its hour, and stage 2 stays', 'freeze', '''
        time supply | stage
        0    276    | 0
        300  276    | 2
        360  278    | 2
        3900 278    | 2
    '''),
    ('F6 the hour passes while it is cold', 'freeze', '''
        time supply | stage
        0    276    | 0
        300  276    | 2
        360  278    | 2
        3540 276    | 2
        3900 276    | 1
    '''),
    ('however cold, row 0 and a row at its time have stage 0', 'freeze', '''
        time supply reset | stage
        0    273    1     | 0
        0    273    0     | 0
    '''),
    ('the commands of stages 0 and 1', 'freeze', '''
        time supply | stage pump back out  min_out fan speed cool heat water alarm
        0    277    | 0     0    0.73 0.62 0.17    1   0.58  0.44 0.31 0     0
        300  277    | 1     0    0.73 0.2  0.17    1   0.58  0.44 -    2     0
    '''),
    ('the commands of stage 2, hot water 2 by the stage 1 latch', 'freeze', '''
        time supply | stage pump back out min_out fan speed cool heat water alarm
        0    276    | 0     0    0.73 0.62 0.17   1   0.58  0.44 0.31 0     0
        300  276    | 2     0    1    0   0       1   0.58  0.44 -    2     3
    '''),
    ('the commands of stage 3', 'freeze', '''
        time supply | stage pump back out min_out fan speed cool heat water alarm
        0    273    | 0     0    0.73 0.62 0.17   1   0.58  0.44 0.31 0     0
        300  273    | 3     1    0    0   0       0   0     1    -    2     2
    '''),
    ('R1 the first mean is 0', 'relief', '''
        time pressure | mean
        0    18       | 0
    '''),
    ('R1 the first mean is 0 at any time and pressure', 'relief', '''
        time pressure | mean
        77.5 -1e300   | 0
    '''),
    ('R2 the second mean', 'relief', '''
        time pressure | mean
        0    18       | 0
        15   18       | 270/(15+0.001)
    '''),
    ('R3 an unproven fan at alarm 2 has damper 0 and keeps its speed', 'relief', '''
        time pressure alarm_3 | speed_3 damper_3
        0    24       2       | 0       0
        300  24       2       | 0       0
        720  24       2       | 1       0
    '''),
    ('R3 alarm 3 does nothing', 'relief', '''
        time pressure alarm_3 | speed_3 damper_3
        0    24       3       | 0       0
        300  24       3       | 0       1
        720  24       3       | 1       1
    '''),
    ('R3 nor does alarm 2 at a proven fan', 'relief', '''
        time pressure alarm_3 proof_3 | speed_3 damper_3
        0    24       2       1       | 0.1     1
    '''),
    ('a stage up is missed where the next fan changes on the row of the pulse', 'relief', '''
        time supply_1 | mean           speed_1 speed_2 speed_3 speed_4
        0    0        | 0              0       0       0       0
        15   0        | 270/(15+0.001) 0       0       0       0
        435  1        | 18             0       0       0       0
    '''),
    ('it is not missed where that fan has been the next for 2 s', 'relief', '''
        time supply_1 | speed_3
        0    0        | 0
        15   0        | 0
        433  1        | 0
        435  1        | 0.5
    '''),
    ('a stage down is missed where the next fan changes on the row of the pulse', 'relief', '''
        time pressure proof_1 proof_3 | speed_1 speed_3
        0    12       1       1       | 0.1     0.1
        300  12       1       0       | 0.1     0
    '''),
    ('it is not missed where that fan was the next before', 'relief', '''
        time pressure proof_1 | speed_1
        0    12       1       | 0.1
        300  12       1       | 0
    '''),
    ('E1 a difference of 0 does not rise', 'econ', '''
        time outdoor | out
        0    294.15  | 0
    '''),
    ('E1 a difference above 0 rises', 'econ', '''
        time outdoor       | out
        0    294.15+2**-44 | 1
    '''),
    ('E1 it stays at -1 and not below', 'econ', '''
        time outdoor       | out
        0    295           | 1
        600  293.15        | 1
        615  293.15        | 1
        800  293.15-2**-44 | 1
        814  293.15-2**-44 | 1
        815  293.15-2**-44 | 0
    '''),
    ('E2 both delays are true on row 0', 'econ', '''
        time outdoor setpoint | min out  back
        0    256     0.75     | 1   1    0.5
    '''),
    ('E2 outdoor delay: 14 s no, 15 s yes', 'econ', '''
        time stage | out
        0    0     | 1
        100  1     | 1
        114  1     | 1
        115  1     | 0
    '''),
    ('E2 return delay: 179 s no', 'econ', '''
        time stage setpoint | back
        0    0     0        | 1
        100  1     0        | 1
        279  1     0.75     | 1
    '''),
    ('E2 return delay: 180 s yes', 'econ', '''
        time stage setpoint | back
        0    0     0        | 1
        100  1     0        | 1
        280  1     0.75     | 0.5
    '''),
    ('E3 a rising fan resets the sum after that row, row 0 included', 'econ', '''
        time setpoint fan | min  on
        0    0.25     1   | 0.5  1
        0    0.25     1   | 0    1
        0    0.25     0   | 0    0
        0    0.5      1   | 0.5  1
        0    0.5      1   | 0    1
        0    0.625    1   | 0.25 1
    '''),
    ('E4 one time travels with one row', 'econ', '''
        time | out
        0    | 1
        60   | 1
        120  | 1
    '''),
    ('refusals 1, 2 and 3 of a freeze row, and equal times', 'freeze', '''
        time  supply | status stage
        5     280    | 0      0
        nan   280    | 1      -
        inf   280    | 1      -
        6     nan    | 1      -
        -inf  280    | 1      -
        -0.0  280    | 2      -
        -1    280    | 2      -
        4     280    | 3      -
        5     280    | 0      0
    '''),
    ('the refusal that comes first is given', 'econ', '''
        time outdoor | status out
        5    295     | 0      1
        -1   inf     | 1      -
        4    nan     | 1      -
        -0.0 295     | 2      -
        0    295     | 3      -
    '''),
    ('alarms of each fan from -128 to 127 are taken, others refused with 11', 'relief', '''
        time alarm_1 alarm_2 alarm_3 alarm_4 | status
        0    -128    127     -128    127     | 0
        1    127     -128    127     -128    | 0
        2    -129    0       0       0       | 11
        2    128     0       0       0       | 11
        2    0       -129    0       0       | 11
        2    0       128     0       0       | 11
        2    0       0       -129    0       | 11
        2    0       0       128     0       | 11
        2    0       0       0       -129    | 11
        2    0       0       0       128     | 11
        2    -2**63  0       0       0       | 11
        2    0       2**63-1 0       0       | 11
        2    0       0       256+2   0       | 11
        2    0       0       0       -256    | 11
        2    127     127     127     127     | 0
    '''),
    ('refusals 1, 2 and 3 of a relief row come before 11, and an equal time is taken', 'relief', '''
        time pressure alarm_2 alarm_4 | status
        15   18       0       0       | 0
        nan  18       128     0       | 1
        -1   inf      0       -129    | 1
        16   nan      128     0       | 1
        -1   18       0       128     | 2
        -0.0 18       -129    0       | 2
        14   18       128     0       | 3
        0    18       0       -129    | 3
        15   18       128     0       | 11
        16   18       0       -129    | 11
        15   18       127     -128    | 0
    '''),
    ('a row refused with 11 leaves no trace: its pressure is not in the mean, nor its time the last', 'relief', '''
        time pressure alarm_3 | status mean
        0    18       0       | 0      0
        10   1000     128     | 11     -
        20   1000     256+2   | 11     -
        15   18       0       | 0      270/(15+0.001)
    '''),
    ('a refused row leaves no trace', 'freeze', '''
        time  supply reset | status stage
        0     277    0     | 0      0
        nan   290    0     | 1      -
        299   277    0     | 0      0
        298   290    0     | 3      -
        300   277    0     | 0      1
    '''),
]

# In the start in which stage 2 keeps to its hour.
KEEP_HOUR_CASES = [
    ('F5 stage 1 follows on the row on which the hold drops', '''
        time  supply | stage
        0     276    | 0
        300   276    | 2
        360   278    | 2
        3900  278    | 1
        86400 278    | 1
    '''),
    ('one step before the hour is over stage 2 stands', '''
        time         supply | stage
        0            276    | 0
        300          276    | 2
        360          278    | 2
        3900-2**-41  278    | 2
        3900         278    | 1
    '''),
    ('F6 the hour passes while it is cold', '''
        time supply | stage
        0    276    | 0
        300  276    | 2
        360  278    | 2
        3540 276    | 2
        3900 276    | 1
    '''),
    ('the hour passes while the hold stands by rounding', '''
        time   supply | stage
        0      276    | 0
        300.1  276    | 2
        300.3  278    | 2
        3900.1 278    | 1
    '''),
    ('recovery on the end-of-hour row: the clear wins', '''
        time supply | stage
        0    276    | 0
        300  276    | 2
        3600 281    | 2
        3900 281    | 0
    '''),
    ('a hold that drops by rounding before its hour is over', '''
        time   supply | stage
        0      276    | 0
        496.4  276    | 2
        496.6  278    | 2
        4096.4 278    | 2
        4096.5 278    | 1
    '''),
    ('a hold on again on the row that would end its hour starts it anew', '''
        time   supply | stage
        0      276    | 0
        496.4  276    | 2
        496.6  278    | 2
        4096.4 276    | 2
        4396.4 276    | 2
        7996.3 278    | 2
        7996.4 278    | 1
    '''),
    ('a hold on again after its hour is stage 2 anew', '''
        time supply | stage
        0    276    | 0
        300  276    | 2
        360  278    | 2
        3900 278    | 1
        4000 276    | 1
        4300 276    | 2
        4360 278    | 2
        7900 278    | 1
    '''),
    ('an hour ends once for each time that the hold comes on', '''
        time supply | stage
        0    276    | 0
        300  276    | 2
        360  278    | 2
        3900 278    | 1
        4000 281    | 1
        4300 281    | 0
        7500 281    | 0
        7560 281    | 0
    '''),
    ('stage 3 stands on the end-of-hour row, and after it a reset gives stage 1', '''
        time supply reset | stage
        0    273    0     | 0
        300  273    0     | 3
        3900 273    0     | 3
        3960 273    1     | 1
    '''),
    ('a refused row is not the end of an hour', '''
        time supply | status stage
        0    276    | 0      0
        300  276    | 0      2
        360  278    | 0      2
        3900 nan    | 1      -
        3960 278    | 0      1
    '''),
    ('the commands of stages 2 and 1, and after a recovery', '''
        time supply | stage pump back out  min_out fan speed cool heat water alarm
        0    276    | 0     0    0.73 0.62 0.17    1   0.58  0.44 0.31 0     0
        300  276    | 2     0    1    0    0       1   0.58  0.44 -    2     3
        3900 278    | 1     0    0.73 0.2  0.17    1   0.58  0.44 -    2     0
        3960 281    | 1     0    0.73 0.2  0.17    1   0.58  0.44 -    2     0
        4260 281    | 0     0    0.73 0.62 0.17    1   0.58  0.44 0.31 0     0
    '''),
]
