//! include/woldgrater.h in Rust: its records, its functions, and a safe type for each sequence, for the board and for a row file that is
//! fed. A slice, an array or a reference of Rust keeps what the header asks of pointers.
#![allow(dead_code)]

pub const WINDOW: usize = 512;
pub const LINE: usize = 256;
pub const UNITS: usize = 6;
/// How many rows wait for a unit of a board at most.
pub const PLACES: usize = 4;

/// What a row is turned away with at a board: there is no such unit; its line is full.
pub const NO_UNIT: u64 = 12;
pub const LINE_FULL: u64 = 13;

// ---- records, written by tools/words

#[repr(C)]
#[derive(Clone, Copy)]
pub struct TimerOutput {
    pub passed: u64,
    pub elapsed: f64,
}

#[repr(C)]
#[derive(Clone, Copy)]
pub struct FreezeState {
    words: [u64; 69],
}

#[repr(C)]
#[derive(Clone, Copy)]
pub struct FreezeRow {
    pub time: f64,
    pub outdoor_damper_min_position: f64,
    pub outdoor_damper: f64,
    pub heating_coil: f64,
    pub minimum_outdoor_damper: f64,
    pub return_damper: f64,
    pub supply_air_temperature: f64,
    pub software_reset: u64,
    pub supply_fan_status: u64,
    pub supply_fan_speed: f64,
    pub cooling_coil: f64,
    pub mixed_air_temperature: f64,
}

#[repr(C)]
#[derive(Clone, Copy)]
pub struct FreezeCommands {
    pub freeze_protection_stage: u64,
    pub chilled_water_pump_enable: u64,
    pub return_damper_command: f64,
    pub outdoor_damper_command: f64,
    pub minimum_outdoor_damper_command: f64,
    pub supply_fan_status: u64,
    pub supply_fan_speed: f64,
    pub cooling_coil_command: f64,
    pub heating_coil_command: f64,
    pub hot_water_plant_request: u64,
    pub alarm_level: u64,
}

#[repr(C)]
#[derive(Clone, Copy)]
pub struct FreezeCalls {
    pub les_thr_y: u64,
    pub tim: TimerOutput,
    pub gre_thr_y: u64,
    pub tim1: TimerOutput,
    pub end_sta_one_y: u64,
    pub les_thr1_y: u64,
    pub tim2: TimerOutput,
    pub hol_sta2_y: u64,
    pub tim3: TimerOutput,
    pub les_thr2_y: u64,
    pub tim4: TimerOutput,
}

#[repr(C)]
#[derive(Clone, Copy)]
pub struct FreezeSignals {
    pub calls: FreezeCalls,
    pub or8_y: u64,
    pub lat1_y: u64,
    pub tim5: TimerOutput,
    pub end_sta_two_y: u64,
    pub lat2_y: u64,
    pub or2_y: u64,
    pub lat_y: u64,
    pub stage: u64,
    pub stage_1_heat: f64,
    pub stage_3_measurement: f64,
    pub stage_3_heat: f64,
}

#[repr(C)]
#[derive(Clone, Copy)]
pub struct FreezeLeft {
    pub tim: f64,
    pub tim1: f64,
    pub tim2: f64,
    pub tim3: f64,
    pub tim4: f64,
    pub tim5: f64,
}

#[repr(C)]
#[derive(Clone, Copy)]
pub struct FreezeGiven {
    pub state: FreezeState,
    pub status: u64,
    pub commands: FreezeCommands,
}

#[repr(C)]
#[derive(Clone, Copy)]
pub struct FreezeShown {
    pub status: u64,
    pub signals: FreezeSignals,
    pub left: FreezeLeft,
}

#[repr(C)]
#[derive(Clone, Copy)]
pub struct EconState {
    words: [u64; 23],
}

#[repr(C)]
#[derive(Clone, Copy)]
pub struct EconRow {
    pub time: f64,
    pub outdoor_airflow_normalized: f64,
    pub minimum_outdoor_airflow_setpoint_normalized: f64,
    pub supply_temperature_signal: f64,
    pub outdoor_air_temperature: f64,
    pub supply_fan_status: u64,
    pub operation_mode: i64,
    pub freeze_protection_stage: i64,
}

#[repr(C)]
#[derive(Clone, Copy)]
pub struct EconCommands {
    pub outdoor_damper_min_limit: f64,
    pub minimum_outdoor_air_loop_enabled: u64,
    pub outdoor_damper_command: f64,
    pub return_damper_command: f64,
}

#[repr(C)]
#[derive(Clone, Copy)]
pub struct DamperLimits {
    pub outdoor_damper_min_limit: f64,
    pub outdoor_damper_max_limit: f64,
    pub return_damper_min_limit: f64,
    pub return_damper_max_limit: f64,
    pub return_damper_physical_max_limit: f64,
}

#[repr(C)]
#[derive(Clone, Copy)]
pub struct EnableSignals {
    pub dry_bulb_delta: f64,
    pub outdoor_air_condition: u64,
    pub held_condition: u64,
    pub enabled: u64,
    pub outdoor_delay_done: u64,
    pub return_delay_done: u64,
}

#[repr(C)]
#[derive(Clone, Copy)]
pub struct EnableLimits {
    pub outdoor_damper_max_limit: f64,
    pub return_damper_min_limit: f64,
    pub return_damper_max_limit: f64,
}

#[repr(C)]
#[derive(Clone, Copy)]
pub struct EconSignals {
    pub loop_signal: f64,
    pub minimum_outdoor_air_loop_enabled: u64,
    pub damper_limits: DamperLimits,
    pub enable: EnableSignals,
    pub enable_limits: EnableLimits,
}

#[repr(C)]
#[derive(Clone, Copy)]
pub struct EconGiven {
    pub state: EconState,
    pub status: u64,
    pub commands: EconCommands,
}

#[repr(C)]
#[derive(Clone, Copy)]
pub struct EconShown {
    pub status: u64,
    pub signals: EconSignals,
}

#[repr(C)]
#[derive(Clone, Copy)]
pub struct ReliefState {
    words: [u64; 172],
}

#[repr(C)]
#[derive(Clone, Copy)]
pub struct ReliefRow {
    pub time: f64,
    pub supply: [u64; 2],
    pub pressure: f64,
    pub alarm: [i64; 4],
    pub proof: [u64; 4],
}

#[repr(C)]
#[derive(Clone, Copy)]
pub struct ReliefCommands {
    pub averaged_pressure: f64,
    pub fan_speed_1: f64,
    pub fan_speed_2: f64,
    pub fan_speed_3: f64,
    pub fan_speed_4: f64,
    pub damper_1: f64,
    pub damper_2: f64,
    pub damper_3: f64,
    pub damper_4: f64,
}

#[repr(C)]
#[derive(Clone, Copy)]
pub struct PressureControl {
    pub average: f64,
    pub controller: f64,
    pub ena_rel_group: u64,
    pub gated_controller: f64,
    pub ena_rel: [f64; 4],
    pub gai: [f64; 4],
    pub any_enabled: u64,
}

#[repr(C)]
#[derive(Clone, Copy)]
pub struct DamperEnable {
    pub damper_open: u64,
    pub damper_close_request: u64,
    pub tim: TimerOutput,
    pub ena_dam: [u64; 4],
}

#[repr(C)]
#[derive(Clone, Copy)]
pub struct StageUp {
    pub all_fans_off: u64,
    pub pro1: [f64; 4],
    pub up_distance: [f64; 4],
    pub or2: [u64; 4],
    pub all_newly_started_proven: u64,
    pub up_gate: u64,
    pub up_tim: TimerOutput,
    pub lat2_y: u64,
}

#[repr(C)]
#[derive(Clone, Copy)]
pub struct StageDown {
    pub pro2: [f64; 4],
    pub down_distance: [f64; 4],
    pub xor: [u64; 4],
    pub not5: [u64; 4],
    pub all_stopped_matches: u64,
    pub down_gate: u64,
    pub dow_tim: TimerOutput,
    pub lat1_y: u64,
}

#[repr(C)]
#[derive(Clone, Copy)]
pub struct ReliefSignals {
    pub control: PressureControl,
    pub dampers: DamperEnable,
    pub up: StageUp,
    pub down: StageDown,
}

#[repr(C)]
#[derive(Clone, Copy)]
pub struct ReliefLeft {
    pub tim: f64,
    pub up_tim: f64,
    pub dow_tim: f64,
}

#[repr(C)]
#[derive(Clone, Copy)]
pub struct ReliefGiven {
    pub state: ReliefState,
    pub status: u64,
    pub commands: ReliefCommands,
}

#[repr(C)]
#[derive(Clone, Copy)]
pub struct ReliefShown {
    pub status: u64,
    pub signals: ReliefSignals,
    pub left: ReliefLeft,
}

#[repr(C)]
#[derive(Clone, Copy)]
pub struct AlarmGiven {
    pub known: u64,
    pub alarm: i64,
}

#[repr(C)]
#[derive(Clone, Copy)]
pub struct RooftopState {
    words: [u64; 265],
}

#[repr(C)]
#[derive(Clone, Copy)]
pub struct RooftopRow {
    pub time: f64,
    pub supply_fan_status: u64,
    pub outdoor_airflow_normalized: f64,
    pub minimum_outdoor_airflow_setpoint_normalized: f64,
    pub supply_temperature_signal: f64,
    pub outdoor_air_temperature: f64,
    pub operation_mode: i64,
    pub heating_coil: f64,
    pub minimum_outdoor_damper: f64,
    pub supply_air_temperature: f64,
    pub software_reset: u64,
    pub supply_fan_speed: f64,
    pub cooling_coil: f64,
    pub mixed_air_temperature: f64,
    pub pressure: f64,
    pub alarm: [i64; 4],
    pub proof: [u64; 4],
}

#[repr(C)]
#[derive(Clone, Copy)]
pub struct RooftopCommands {
    pub economizer: EconCommands,
    pub freeze: FreezeCommands,
    pub relief: ReliefCommands,
}

#[repr(C)]
#[derive(Clone, Copy)]
pub struct RooftopGiven {
    pub state: RooftopState,
    pub status: u64,
    pub commands: RooftopCommands,
}

#[repr(C)]
#[derive(Clone, Copy)]
pub struct Board {
    pub turn: usize,
    pub counts: [usize; 6],
    pub rows: [[RooftopRow; 4]; 6],
    pub units: [RooftopState; 6],
    pub times: [[f64; 512]; 6],
    pub integrals: [[f64; 512]; 6],
}

#[repr(C)]
#[derive(Clone, Copy)]
pub struct BoardServed {
    pub served: u64,
    pub unit: usize,
    pub status: u64,
    pub commands: RooftopCommands,
}

#[repr(C)]
#[derive(Clone, Copy)]
pub struct LineGiven {
    pub status: u64,
    pub len: usize,
}

#[repr(C)]
#[derive(Clone, Copy)]
pub struct State {
    words: [u64; 267],
}

#[repr(C)]
#[derive(Clone, Copy)]
pub struct Fed {
    pub state: State,
    pub sent: usize,
    pub stopped: u64,
}
// ---- end of the records

unsafe extern "C" {
    fn woldgrater_freeze_start(keeps_hour: u64) -> FreezeState;
    fn woldgrater_freeze_row(state: FreezeState, row: FreezeRow) -> FreezeGiven;
    fn woldgrater_freeze_signals(state: FreezeState, row: FreezeRow) -> FreezeShown;
    fn woldgrater_freeze_line(row: FreezeRow, out: *mut u8, out_len: usize) -> LineGiven;
    fn woldgrater_econ_start() -> EconState;
    fn woldgrater_econ_row(state: EconState, row: EconRow) -> EconGiven;
    fn woldgrater_econ_signals(state: EconState, row: EconRow) -> EconShown;
    fn woldgrater_econ_line(row: EconRow, out: *mut u8, out_len: usize) -> LineGiven;
    fn woldgrater_relief_start(times: *mut f64, integrals: *mut f64) -> ReliefState;
    fn woldgrater_relief_row(times: *mut f64, integrals: *mut f64, state: ReliefState, row: ReliefRow) -> ReliefGiven;
    fn woldgrater_relief_signals(times: *const f64, integrals: *const f64, state: ReliefState, row: ReliefRow) -> ReliefShown;
    fn woldgrater_relief_alarm(state: ReliefState, fan: usize) -> AlarmGiven;
    fn woldgrater_relief_line(row: ReliefRow, out: *mut u8, out_len: usize) -> LineGiven;
    fn woldgrater_rooftop_start(times: *mut f64, integrals: *mut f64, keeps_hour: u64) -> RooftopState;
    fn woldgrater_rooftop_row(times: *mut f64, integrals: *mut f64, state: RooftopState, row: RooftopRow) -> RooftopGiven;
    fn woldgrater_board_start(board: *mut Board, keeps_hour: *const u64);
    fn woldgrater_board_offer(board: *mut Board, unit: usize, row: RooftopRow) -> u64;
    fn woldgrater_board_tick(board: *mut Board) -> BoardServed;
    fn woldgrater_play(rows: *const u8, rows_len: usize, out: *mut u8, out_len: usize) -> usize;
    fn woldgrater_start() -> State;
    fn woldgrater_feed(
        chunk: *const u8,
        chunk_len: usize,
        out: *mut u8,
        out_len: usize,
        line: *mut u8,
        times: *mut f64,
        integrals: *mut f64,
        state: State,
    ) -> Fed;
    fn woldgrater_finish(out: *mut u8, out_len: usize, line: *const u8, state: State) -> usize;
}

/// What a call gives: its value, or the status of the refusal.
fn accepted<T>(status: u64, value: T) -> Result<T, u64> {
    if status == 0 { Ok(value) } else { Err(status) }
}

/// The line of a row in the first bytes of `out`, or the status of the refusal.
fn line(given: LineGiven, out: &[u8]) -> Result<&[u8], u64> {
    accepted(given.status, &out[..given.len])
}

/// Freeze protection, a call a row.
pub struct Freeze {
    state: FreezeState,
}

impl Freeze {
    /// As the published Rust starts it.
    pub fn start() -> Self {
        Freeze { state: unsafe { woldgrater_freeze_start(0) } }
    }

    /// So that stage 2 keeps to its hour, and then hands over to stage 1.
    pub fn start_keeping_hour() -> Self {
        Freeze { state: unsafe { woldgrater_freeze_start(1) } }
    }

    /// The commands of an accepted row, or the status of a refused one, which changes nothing.
    pub fn row(&mut self, row: FreezeRow) -> Result<FreezeCommands, u64> {
        let given = unsafe { woldgrater_freeze_row(self.state, row) };
        self.state = given.state;
        accepted(given.status, given.commands)
    }

    /// What the commands of this row would be worked from.
    pub fn signals(&self, row: FreezeRow) -> Result<FreezeSignals, u64> {
        let shown = unsafe { woldgrater_freeze_signals(self.state, row) };
        accepted(shown.status, shown.signals)
    }

    /// The seconds left on each timer at this row.
    pub fn left(&self, row: FreezeRow) -> Result<FreezeLeft, u64> {
        let shown = unsafe { woldgrater_freeze_signals(self.state, row) };
        accepted(shown.status, shown.left)
    }

    pub fn line(row: FreezeRow, out: &mut [u8]) -> Result<&[u8], u64> {
        line(unsafe { woldgrater_freeze_line(row, out.as_mut_ptr(), out.len()) }, out)
    }
}

/// The economizer, a call a row.
pub struct Econ {
    state: EconState,
}

impl Econ {
    pub fn start() -> Self {
        Econ { state: unsafe { woldgrater_econ_start() } }
    }

    pub fn row(&mut self, row: EconRow) -> Result<EconCommands, u64> {
        let given = unsafe { woldgrater_econ_row(self.state, row) };
        self.state = given.state;
        accepted(given.status, given.commands)
    }

    pub fn signals(&self, row: EconRow) -> Result<EconSignals, u64> {
        let shown = unsafe { woldgrater_econ_signals(self.state, row) };
        accepted(shown.status, shown.signals)
    }

    pub fn line(row: EconRow, out: &mut [u8]) -> Result<&[u8], u64> {
        line(unsafe { woldgrater_econ_line(row, out.as_mut_ptr(), out.len()) }, out)
    }
}

/// The relief fan group, a call a row, with the arrays of its window.
pub struct Relief {
    state: ReliefState,
    times: [f64; WINDOW],
    integrals: [f64; WINDOW],
}

impl Relief {
    pub fn start() -> Self {
        let (mut times, mut integrals) = ([0.0; WINDOW], [0.0; WINDOW]);
        let state = unsafe { woldgrater_relief_start(times.as_mut_ptr(), integrals.as_mut_ptr()) };
        Relief { state, times, integrals }
    }

    pub fn row(&mut self, row: ReliefRow) -> Result<ReliefCommands, u64> {
        let given = unsafe { woldgrater_relief_row(self.times.as_mut_ptr(), self.integrals.as_mut_ptr(), self.state, row) };
        self.state = given.state;
        accepted(given.status, given.commands)
    }

    pub fn signals(&self, row: ReliefRow) -> Result<ReliefSignals, u64> {
        let shown = unsafe { woldgrater_relief_signals(self.times.as_ptr(), self.integrals.as_ptr(), self.state, row) };
        accepted(shown.status, shown.signals)
    }

    /// The seconds left on each timer at this row.
    pub fn left(&self, row: ReliefRow) -> Result<ReliefLeft, u64> {
        let shown = unsafe { woldgrater_relief_signals(self.times.as_ptr(), self.integrals.as_ptr(), self.state, row) };
        accepted(shown.status, shown.left)
    }

    /// The alarm of a fan, by its index from 0, at the last accepted row, 0 before any; nothing for an index above 3.
    pub fn alarm(&self, fan: usize) -> Option<i64> {
        let given = unsafe { woldgrater_relief_alarm(self.state, fan) };
        (given.known != 0).then_some(given.alarm)
    }

    pub fn line(row: ReliefRow, out: &mut [u8]) -> Result<&[u8], u64> {
        line(unsafe { woldgrater_relief_line(row, out.as_mut_ptr(), out.len()) }, out)
    }
}

/// The joined row, a call a row, with the arrays of the relief window.
pub struct Rooftop {
    state: RooftopState,
    times: [f64; WINDOW],
    integrals: [f64; WINDOW],
}

impl Rooftop {
    /// With freeze protection as the published Rust starts it.
    pub fn start() -> Self {
        Self::started(0)
    }

    /// So that stage 2 of freeze protection keeps to its hour.
    pub fn start_keeping_hour() -> Self {
        Self::started(1)
    }

    fn started(keeps_hour: u64) -> Self {
        let (mut times, mut integrals) = ([0.0; WINDOW], [0.0; WINDOW]);
        let state = unsafe { woldgrater_rooftop_start(times.as_mut_ptr(), integrals.as_mut_ptr(), keeps_hour) };
        Rooftop { state, times, integrals }
    }

    /// The commands of all three, or the status of a refused row, which changes nothing.
    pub fn row(&mut self, row: RooftopRow) -> Result<RooftopCommands, u64> {
        let given = unsafe { woldgrater_rooftop_row(self.times.as_mut_ptr(), self.integrals.as_mut_ptr(), self.state, row) };
        self.state = given.state;
        accepted(given.status, given.commands)
    }
}

/// A board of six joined units with waiting lines, which is changed where it stands.
impl Board {
    /// A started board: a word that is not 0 starts its unit so that stage 2 of freeze protection keeps to its hour.
    pub fn start(keeps_hour: &[u64; UNITS]) -> Box<Self> {
        let mut board = Box::new_uninit();
        // The call writes every word of the board, which is tested.
        unsafe {
            woldgrater_board_start(board.as_mut_ptr(), keeps_hour.as_ptr());
            board.assume_init()
        }
    }

    /// Offers a row to a unit: it waits, or is turned away with the status, which changes nothing.
    pub fn offer(&mut self, unit: usize, row: RooftopRow) -> Result<(), u64> {
        accepted(unsafe { woldgrater_board_offer(self, unit, row) }, ())
    }

    /// Serves the next row in turn: its unit, and the commands of all three or the status of a refused row; nothing where no row waits.
    pub fn tick(&mut self) -> Option<(usize, Result<RooftopCommands, u64>)> {
        let given = unsafe { woldgrater_board_tick(self) };
        (given.served != 0).then(|| (given.unit, accepted(given.status, given.commands)))
    }
}

/// The bytes asked of an output for the answers to `n` bytes of a row file; they are enough for the end of the file too.
pub fn room(n: usize) -> usize {
    22 * (257 + n)
}

/// A whole row file's answers in the first bytes of `out`; nothing where it has too little room.
pub fn play<'a>(rows: &[u8], out: &'a mut [u8]) -> Option<&'a [u8]> {
    let len = unsafe { woldgrater_play(rows.as_ptr(), rows.len(), out.as_mut_ptr(), out.len()) };
    (len != usize::MAX).then(|| &out[..len])
}

/// A row file that is being fed, with what is carried from chunk to chunk.
pub struct Feeding {
    state: State,
    line: [u8; LINE],
    times: [f64; WINDOW],
    integrals: [f64; WINDOW],
    stopped: bool,
}

impl Feeding {
    pub fn start() -> Self {
        Feeding {
            state: unsafe { woldgrater_start() },
            line: [0; LINE],
            times: [0.0; WINDOW],
            integrals: [0.0; WINDOW],
            stopped: false,
        }
    }

    /// The answers to the lines that end in the chunk, at the start of `out`; nothing where it has too little room.
    pub fn feed<'a>(&mut self, chunk: &[u8], out: &'a mut [u8]) -> Option<&'a [u8]> {
        let fed = unsafe {
            woldgrater_feed(
                chunk.as_ptr(),
                chunk.len(),
                out.as_mut_ptr(),
                out.len(),
                self.line.as_mut_ptr(),
                self.times.as_mut_ptr(),
                self.integrals.as_mut_ptr(),
                self.state,
            )
        };
        self.state = fed.state;
        self.stopped = fed.stopped != 0;
        (fed.sent != usize::MAX).then(|| &out[..fed.sent])
    }

    /// Whether the reader has stopped, after a first line that names no kind.
    pub fn stopped(&self) -> bool {
        self.stopped
    }

    /// The answer to the end of the file, at the start of `out`; nothing where it has too little room.
    pub fn finish<'a>(&self, out: &'a mut [u8]) -> Option<&'a [u8]> {
        let said = unsafe { woldgrater_finish(out.as_mut_ptr(), out.len(), self.line.as_ptr(), self.state) };
        (said != usize::MAX).then(|| &out[..said])
    }
}
