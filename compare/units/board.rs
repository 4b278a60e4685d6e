//! The board of the firmware library, with all that it holds in sight, and a joined unit of the same words alone.

use crate::woldgrater as library;
use library::{PLACES, RooftopCommands, RooftopRow, UNITS, WINDOW};

/// The state of a unit, as the words that it is made of.
#[repr(C)]
#[derive(Clone, Copy)]
pub struct State {
    words: [u64; size_of::<library::RooftopState>() / size_of::<u64>()],
}

#[repr(C)]
#[derive(Clone, Copy)]
pub struct Board {
    /// The unit asked first at the next tick; a number above 5 is as 0.
    pub turn: usize,
    /// How many rows wait for each unit; a number above 4 is as 4.
    pub counts: [usize; UNITS],
    /// The first places of a unit, the next row to be served first.
    pub rows: [[RooftopRow; PLACES]; UNITS],
    units: [State; UNITS],
    times: [[f64; WINDOW]; UNITS],
    integrals: [[f64; WINDOW]; UNITS],
}

#[repr(C)]
#[derive(Clone, Copy)]
pub struct Served {
    /// 1 where a row was served.
    pub served: u64,
    pub unit: usize,
    pub status: u64,
    pub commands: RooftopCommands,
}

#[repr(C)]
struct Given {
    state: State,
    status: u64,
    commands: RooftopCommands,
}

// The module of the examples declares some of the calls with the words out of sight.
#[allow(clashing_extern_declarations)]
unsafe extern "C" {
    fn woldgrater_board_start(board: *mut Board, keeps_hour: *const u64);
    fn woldgrater_board_offer(board: *mut Board, unit: usize, row: RooftopRow) -> u64;
    fn woldgrater_board_tick(board: *mut Board) -> Served;
    fn woldgrater_rooftop_start(times: *mut f64, integrals: *mut f64, keeps_hour: u64) -> State;
    fn woldgrater_rooftop_row(times: *mut f64, integrals: *mut f64, state: State, row: RooftopRow) -> Given;
}

/// The words of a board, which has no gap between its fields.
const WORDS: usize = size_of::<Board>() / size_of::<u64>();

impl Board {
    /// A board of any words.
    pub fn of(mut word: impl FnMut() -> u64) -> Box<Self> {
        let words: Box<[u64; WORDS]> = Box::new(std::array::from_fn(|_| word()));
        // Each field is of words that may be any.
        unsafe { Box::from_raw(Box::into_raw(words).cast()) }
    }

    pub fn start(&mut self, keeps_hour: &[u64; UNITS]) {
        unsafe { woldgrater_board_start(self, keeps_hour.as_ptr()) };
    }

    pub fn offer(&mut self, unit: usize, row: RooftopRow) -> u64 {
        unsafe { woldgrater_board_offer(self, unit, row) }
    }

    pub fn tick(&mut self) -> Served {
        unsafe { woldgrater_board_tick(self) }
    }

    /// The unit asked first at the next tick.
    pub fn asked_first(&self) -> usize {
        if self.turn < UNITS { self.turn } else { 0 }
    }

    /// The rows that wait for a unit.
    pub fn line(&self, unit: usize) -> &[RooftopRow] {
        &self.rows[unit][..self.counts[unit].min(PLACES)]
    }

    pub fn unit(&self, unit: usize) -> Unit {
        Unit { state: self.units[unit], times: self.times[unit], integrals: self.integrals[unit] }
    }

    pub fn words(&self) -> &[u64; WORDS] {
        unsafe { &*std::ptr::from_ref(self).cast() }
    }

    /// A word of a unit's state, or one of its times or its integrals.
    pub fn word(&mut self, unit: usize, part: usize, place: usize) -> &mut u64 {
        let words: &mut [u64] = match part {
            0 => &mut self.units[unit].words,
            1 => bits_mut(&mut self.times[unit]),
            _ => bits_mut(&mut self.integrals[unit]),
        };
        let place = place % words.len();
        &mut words[place]
    }

    /// The words of a unit: its state, its times, its integrals.
    pub fn unit_words(&self, unit: usize) -> [&[u64]; 3] {
        [&self.units[unit].words, bits(&self.times[unit]), bits(&self.integrals[unit])]
    }
}

fn bits(numbers: &[f64; WINDOW]) -> &[u64] {
    unsafe { &*std::ptr::from_ref(numbers).cast::<[u64; WINDOW]>() }
}

fn bits_mut(numbers: &mut [f64; WINDOW]) -> &mut [u64] {
    unsafe { &mut *std::ptr::from_mut(numbers).cast::<[u64; WINDOW]>() }
}

/// A joined unit alone.
#[derive(Clone, Copy)]
pub struct Unit {
    state: State,
    times: [f64; WINDOW],
    integrals: [f64; WINDOW],
}

impl Unit {
    pub fn start(keeps_hour: bool) -> Self {
        let (mut times, mut integrals) = ([f64::NAN; WINDOW], [-1.0; WINDOW]);
        let state = unsafe { woldgrater_rooftop_start(times.as_mut_ptr(), integrals.as_mut_ptr(), keeps_hour.into()) };
        Self { state, times, integrals }
    }

    /// The status of a row and what is commanded on it.
    pub fn row(&mut self, row: RooftopRow) -> (u64, RooftopCommands) {
        let (times, integrals) = (self.times.as_mut_ptr(), self.integrals.as_mut_ptr());
        let given = unsafe { woldgrater_rooftop_row(times, integrals, self.state, row) };
        self.state = given.state;
        (given.status, given.commands)
    }

    pub fn words(&self) -> [&[u64]; 3] {
        [&self.state.words, bits(&self.times), bits(&self.integrals)]
    }
}
