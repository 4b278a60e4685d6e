//! A joined row, and the commands of all three sequences.

#[derive(Clone, Copy, Debug, Default)]
pub struct Row {
    pub time: f64,
    pub supply_fan_status: bool,
    pub outdoor_airflow_normalized: f64,
    pub minimum_outdoor_airflow_setpoint_normalized: f64,
    pub supply_temperature_signal: f64,
    pub outdoor_air_temperature: f64,
    pub operation_mode: i64,
    pub heating_coil: f64,
    pub minimum_outdoor_damper: f64,
    pub supply_air_temperature: f64,
    pub software_reset: bool,
    pub supply_fan_speed: f64,
    pub cooling_coil: f64,
    pub mixed_air_temperature: f64,
    pub pressure: f64,
    pub alarm: [i64; 4],
    pub proof: [bool; 4],
}

/// A number of a row by its name.
pub type Number = (&'static str, fn(&mut Row) -> &mut f64);

/// Every number of a row.
pub const NUMBERS: [Number; 12] = [
    ("time", |row| &mut row.time),
    ("outdoor_airflow_normalized", |row| &mut row.outdoor_airflow_normalized),
    ("minimum_outdoor_airflow_setpoint_normalized", |row| &mut row.minimum_outdoor_airflow_setpoint_normalized),
    ("supply_temperature_signal", |row| &mut row.supply_temperature_signal),
    ("outdoor_air_temperature", |row| &mut row.outdoor_air_temperature),
    ("heating_coil", |row| &mut row.heating_coil),
    ("minimum_outdoor_damper", |row| &mut row.minimum_outdoor_damper),
    ("supply_air_temperature", |row| &mut row.supply_air_temperature),
    ("supply_fan_speed", |row| &mut row.supply_fan_speed),
    ("cooling_coil", |row| &mut row.cooling_coil),
    ("mixed_air_temperature", |row| &mut row.mixed_air_temperature),
    ("pressure", |row| &mut row.pressure),
];

impl Row {
    pub fn numbers(mut self) -> [f64; 12] {
        NUMBERS.map(|(_, number)| *number(&mut self))
    }

    pub fn is_finite(self) -> bool {
        self.numbers().into_iter().all(f64::is_finite)
    }
}

/// Flags are 0 and 1, as the library gives them.
#[derive(Clone, Copy, Debug, Default)]
pub struct Economizer {
    pub outdoor_damper_min_limit: f64,
    pub minimum_outdoor_air_loop_enabled: u64,
    pub outdoor_damper_command: f64,
    pub return_damper_command: f64,
}

impl Economizer {
    /// The numbers that the other sequences are handed are finite.
    pub fn is_finite(&self) -> bool {
        [self.outdoor_damper_min_limit, self.outdoor_damper_command, self.return_damper_command]
            .into_iter()
            .all(f64::is_finite)
    }
}

#[derive(Clone, Copy, Debug, Default)]
pub struct Freeze {
    pub freeze_protection_stage: u64,
    pub chilled_water_pump_enable: u64,
    pub return_damper_command: f64,
    pub outdoor_damper_command: f64,
    pub minimum_outdoor_damper_command: f64,
    pub supply_fan_status: u64,
    pub supply_fan_speed: f64,
    pub cooling_coil_command: f64,
    pub heating_coil_command: f64,
    pub hot_water_plant_request: u64,
    pub alarm_level: u64,
}

#[derive(Clone, Copy, Debug, Default)]
pub struct Relief {
    pub averaged_pressure: f64,
    pub fan_speed: [f64; 4],
    pub damper: [f64; 4],
}

#[derive(Clone, Copy, Debug, Default)]
pub struct Commands {
    pub economizer: Economizer,
    pub freeze: Freeze,
    pub relief: Relief,
}

/// The commands of an accepted row, or the status of a refused one.
pub type Answer = Result<Commands, u64>;

#[derive(Clone, Copy, Debug)]
pub enum Output {
    Real(f64),
    Whole(u64),
}

impl Output {
    /// Equal bit for bit, but a NaN is as any NaN and a zero as any zero.
    pub fn agrees(self, other: Output) -> bool {
        match (self, other) {
            (Output::Real(one), Output::Real(two)) => one == two || one.is_nan() && two.is_nan(),
            (Output::Whole(one), Output::Whole(two)) => one == two,
            _ => false,
        }
    }

    /// The sign, but that of a NaN.
    fn sign(self) -> bool {
        matches!(self, Output::Real(value) if !value.is_nan() && value.is_sign_negative())
    }
}

impl Commands {
    /// Every output by its name.
    pub fn outputs(&self) -> [(&'static str, Output); 24] {
        use Output::{Real, Whole};
        let (economizer, freeze, relief) = (&self.economizer, &self.freeze, &self.relief);
        [
            ("economizer.outdoor_damper_min_limit", Real(economizer.outdoor_damper_min_limit)),
            ("economizer.minimum_outdoor_air_loop_enabled", Whole(economizer.minimum_outdoor_air_loop_enabled)),
            ("economizer.outdoor_damper_command", Real(economizer.outdoor_damper_command)),
            ("economizer.return_damper_command", Real(economizer.return_damper_command)),
            ("freeze.freeze_protection_stage", Whole(freeze.freeze_protection_stage)),
            ("freeze.chilled_water_pump_enable", Whole(freeze.chilled_water_pump_enable)),
            ("freeze.return_damper_command", Real(freeze.return_damper_command)),
            ("freeze.outdoor_damper_command", Real(freeze.outdoor_damper_command)),
            ("freeze.minimum_outdoor_damper_command", Real(freeze.minimum_outdoor_damper_command)),
            ("freeze.supply_fan_status", Whole(freeze.supply_fan_status)),
            ("freeze.supply_fan_speed", Real(freeze.supply_fan_speed)),
            ("freeze.cooling_coil_command", Real(freeze.cooling_coil_command)),
            ("freeze.heating_coil_command", Real(freeze.heating_coil_command)),
            ("freeze.hot_water_plant_request", Whole(freeze.hot_water_plant_request)),
            ("freeze.alarm_level", Whole(freeze.alarm_level)),
            ("relief.averaged_pressure", Real(relief.averaged_pressure)),
            ("relief.fan_speed_1", Real(relief.fan_speed[0])),
            ("relief.fan_speed_2", Real(relief.fan_speed[1])),
            ("relief.fan_speed_3", Real(relief.fan_speed[2])),
            ("relief.fan_speed_4", Real(relief.fan_speed[3])),
            ("relief.damper_1", Real(relief.damper[0])),
            ("relief.damper_2", Real(relief.damper[1])),
            ("relief.damper_3", Real(relief.damper[2])),
            ("relief.damper_4", Real(relief.damper[3])),
        ]
    }
}

/// What is different between two answers, or nothing.
pub fn difference(expected: &Answer, given: &Answer) -> Option<String> {
    match (expected, given) {
        (Ok(expected), Ok(given)) => expected.outputs().into_iter().zip(given.outputs()).find_map(|((name, wanted), (_, got))| {
            (!wanted.agrees(got)).then(|| format!("{name} is {got:?}, expected {wanted:?}"))
        }),
        (Err(expected), Err(given)) if expected == given => None,
        _ => Some(format!("status {}, expected {}", status(given), status(expected))),
    }
}

/// How many outputs are zeros of different signs.
pub fn other_signs(expected: &Answer, given: &Answer) -> usize {
    let (Ok(expected), Ok(given)) = (expected, given) else { return 0 };
    let pairs = expected.outputs().into_iter().zip(given.outputs());
    pairs.filter(|((_, one), (_, two))| one.agrees(*two) && one.sign() != two.sign()).count()
}

pub fn status(answer: &Answer) -> u64 {
    answer.err().unwrap_or(0)
}
