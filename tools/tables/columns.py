"""The kinds of row files and their columns: the one table of them, for tools/ and compare/ alike.

A column is a pair of a name and a form: f a float, b a yes or no, i an integer. docs/ROW_FILES.md shows the
table, and the crates' records have its fields; tests hold both to it.
"""

WIDTH = 21       # bytes of a column
WORDS = {'f': 'float', 'b': 'yes or no', 'i': 'integer'}


def forms(table):
    """The columns of each kind as pairs of name and form."""
    return {kind: [tuple(column.split('/')) for column in text.split()] for kind, text in table.items()}


ROWS = forms({
    'freeze': 'time/f outdoor_damper_min_position/f outdoor_damper/f heating_coil/f'
              ' minimum_outdoor_damper/f return_damper/f supply_air_temperature/f software_reset/b'
              ' supply_fan_status/b supply_fan_speed/f cooling_coil/f mixed_air_temperature/f',
    'relief': 'time/f supply_1/b supply_2/b pressure/f alarm_1/i alarm_2/i alarm_3/i alarm_4/i'
              ' proof_1/b proof_2/b proof_3/b proof_4/b',
    'econ': 'time/f outdoor_airflow_normalized/f minimum_outdoor_airflow_setpoint_normalized/f'
            ' supply_temperature_signal/f outdoor_air_temperature/f supply_fan_status/b'
            ' operation_mode/i freeze_protection_stage/i',
})
ANSWERS = forms({
    'freeze': 'status/i freeze_protection_stage/i chilled_water_pump_enable/b'
              ' return_damper_command/f outdoor_damper_command/f minimum_outdoor_damper_command/f'
              ' supply_fan_status/b supply_fan_speed/f cooling_coil_command/f'
              ' heating_coil_command/f hot_water_plant_request/i alarm_level/i',
    'relief': 'status/i averaged_pressure/f fan_speed_1/f fan_speed_2/f fan_speed_3/f fan_speed_4/f'
              ' damper_1/f damper_2/f damper_3/f damper_4/f',
    'econ': 'status/i outdoor_damper_min_limit/f minimum_outdoor_air_loop_enabled/b'
            ' outdoor_damper_command/f return_damper_command/f',
})
KINDS = list(ROWS)
