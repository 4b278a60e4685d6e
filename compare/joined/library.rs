//! The joined row of the firmware library, a call a row, with all that is kept from row to row in sight.

#[cfg(events)]
use super::row::Answer;
use super::row::{Commands, Economizer, Freeze, Relief, Row};
use crate::woldgrater as library;

pub fn sample(row: &Row) -> library::RooftopRow {
    library::RooftopRow {
        time: row.time,
        supply_fan_status: row.supply_fan_status.into(),
        outdoor_airflow_normalized: row.outdoor_airflow_normalized,
        minimum_outdoor_airflow_setpoint_normalized: row.minimum_outdoor_airflow_setpoint_normalized,
        supply_temperature_signal: row.supply_temperature_signal,
        outdoor_air_temperature: row.outdoor_air_temperature,
        operation_mode: row.operation_mode,
        heating_coil: row.heating_coil,
        minimum_outdoor_damper: row.minimum_outdoor_damper,
        supply_air_temperature: row.supply_air_temperature,
        software_reset: row.software_reset.into(),
        supply_fan_speed: row.supply_fan_speed,
        cooling_coil: row.cooling_coil,
        mixed_air_temperature: row.mixed_air_temperature,
        pressure: row.pressure,
        alarm: row.alarm,
        proof: row.proof.map(u64::from),
    }
}

pub fn commands(given: &library::RooftopCommands) -> Commands {
    let (economizer, freeze, relief) = (&given.economizer, &given.freeze, &given.relief);
    Commands {
        economizer: Economizer {
            outdoor_damper_min_limit: economizer.outdoor_damper_min_limit,
            minimum_outdoor_air_loop_enabled: economizer.minimum_outdoor_air_loop_enabled,
            outdoor_damper_command: economizer.outdoor_damper_command,
            return_damper_command: economizer.return_damper_command,
        },
        freeze: Freeze {
            freeze_protection_stage: freeze.freeze_protection_stage,
            chilled_water_pump_enable: freeze.chilled_water_pump_enable,
            return_damper_command: freeze.return_damper_command,
            outdoor_damper_command: freeze.outdoor_damper_command,
            minimum_outdoor_damper_command: freeze.minimum_outdoor_damper_command,
            supply_fan_status: freeze.supply_fan_status,
            supply_fan_speed: freeze.supply_fan_speed,
            cooling_coil_command: freeze.cooling_coil_command,
            heating_coil_command: freeze.heating_coil_command,
            hot_water_plant_request: freeze.hot_water_plant_request,
            alarm_level: freeze.alarm_level,
        },
        relief: Relief {
            averaged_pressure: relief.averaged_pressure,
            fan_speed: [relief.fan_speed_1, relief.fan_speed_2, relief.fan_speed_3, relief.fan_speed_4],
            damper: [relief.damper_1, relief.damper_2, relief.damper_3, relief.damper_4],
        },
    }
}

/// The state, as the words that it is made of.
#[repr(C)]
#[derive(Clone, Copy, PartialEq)]
struct State {
    words: [u64; size_of::<library::RooftopState>() / size_of::<u64>()],
}

#[repr(C)]
struct Given {
    state: State,
    status: u64,
    commands: library::RooftopCommands,
}

// The module of the examples declares the same calls with the words out of sight.
#[allow(clashing_extern_declarations)]
unsafe extern "C" {
    fn woldgrater_rooftop_start(times: *mut f64, integrals: *mut f64, keeps_hour: u64) -> State;
    fn woldgrater_rooftop_row(times: *mut f64, integrals: *mut f64, state: State, row: library::RooftopRow) -> Given;
}

/// All that is kept from row to row.
#[derive(Clone, Copy)]
pub struct Rooftop {
    state: State,
    times: [f64; library::WINDOW],
    integrals: [f64; library::WINDOW],
}

impl Rooftop {
    /// The arrays hold anything before.
    pub fn start(keeps_hour: bool) -> Self {
        let (mut times, mut integrals) = ([f64::NAN; library::WINDOW], [-1.0; library::WINDOW]);
        let state = unsafe { woldgrater_rooftop_start(times.as_mut_ptr(), integrals.as_mut_ptr(), keeps_hour.into()) };
        Rooftop { state, times, integrals }
    }

    pub fn row(&mut self, row: library::RooftopRow) -> Result<library::RooftopCommands, u64> {
        let given = unsafe { woldgrater_rooftop_row(self.times.as_mut_ptr(), self.integrals.as_mut_ptr(), self.state, row) };
        self.state = given.state;
        if given.status == 0 { Ok(given.commands) } else { Err(given.status) }
    }

    #[cfg(events)]
    fn is_same(&self, other: &Rooftop) -> bool {
        let same = |one: &[f64], two: &[f64]| one.iter().zip(two).all(|(one, two)| one.to_bits() == two.to_bits());
        self.state == other.state && same(&self.times, &other.times) && same(&self.integrals, &other.integrals)
    }
}

/// The sequence, and how it was before its last row.
#[cfg(events)]
pub struct Library {
    now: Rooftop,
    before: Rooftop,
}

#[cfg(events)]
impl Library {
    pub fn start(keeps_hour: bool) -> Self {
        let now = Rooftop::start(keeps_hour);
        Self { now, before: now }
    }

    pub fn row(&mut self, row: &Row) -> Answer {
        self.before = self.now;
        self.now.row(sample(row)).map(|given| commands(&given))
    }

    /// Whether the last row left anything of what is kept from row to row other than it was.
    pub fn changed(&self) -> bool {
        !self.now.is_same(&self.before)
    }

    /// Changes a bit of the state, or of the window's arrays.
    pub fn damage(&mut self, window: bool) {
        if window {
            let [.., last] = &mut self.now.integrals;
            *last = f64::from_bits(last.to_bits() ^ 1);
        } else {
            let [.., last] = &mut self.now.state.words;
            *last ^= 1;
        }
    }
}
