//! The model of a board: six lines, a turn and six joined units alone.

use std::collections::VecDeque;

use super::board::{Board, Unit};
use super::faults::Fault;
use crate::woldgrater::{LINE_FULL, NO_UNIT, PLACES, RooftopCommands, RooftopRow, UNITS};

pub const TAKEN: u64 = 0;

/// A row that was served: its unit, its status and what is commanded on it.
#[derive(Clone, Copy)]
pub struct Answer {
    pub unit: usize,
    pub status: u64,
    pub commands: RooftopCommands,
}

pub struct Model {
    fault: Option<Fault>,
    turn: usize,
    lines: [VecDeque<RooftopRow>; UNITS],
    units: Box<[Unit]>,
    /// How many rows of each unit were served.
    served: [usize; UNITS],
}

impl Model {
    pub fn start(manners: [bool; UNITS], fault: Option<Fault>) -> Self {
        let other = |unit| fault == Some(Fault::Start) && unit == 3;
        let units = manners.iter().enumerate().map(|(unit, &keeps_hour)| Unit::start(keeps_hour != other(unit)));
        Self { fault, turn: 0, lines: Default::default(), units: units.collect(), served: [0; UNITS] }
    }

    /// A board as its comments read it.
    pub fn read(board: &Board, fault: Option<Fault>) -> Self {
        let turn = match fault {
            Some(Fault::ForgedTurn) => board.turn % UNITS,
            Some(Fault::ForgedTurnFive) => board.turn.min(UNITS - 1),
            _ => board.asked_first(),
        };
        let forged = |unit: usize| fault == Some(Fault::ForgedCount) && board.counts[unit] > PLACES;
        let line = |unit| if forged(unit) { VecDeque::new() } else { board.line(unit).to_vec().into() };
        let units = (0..UNITS).map(|unit| board.unit(unit)).collect();
        Self { fault, turn, lines: std::array::from_fn(line), units, served: [0; UNITS] }
    }

    pub fn turn(&self) -> usize {
        self.turn
    }

    pub fn line(&self, unit: usize) -> &VecDeque<RooftopRow> {
        &self.lines[unit]
    }

    pub fn unit(&self, unit: usize) -> &Unit {
        &self.units[unit]
    }

    pub fn is_full(&self, unit: usize) -> bool {
        self.lines[unit].len() >= self.places(unit)
    }

    pub fn offer(&mut self, unit: usize, row: RooftopRow) -> u64 {
        let unit = match self.fault {
            Some(Fault::Round) => unit % UNITS,
            Some(Fault::Order) if self.is_full(unit.min(UNITS - 1)) => return LINE_FULL,
            _ => unit,
        };
        if unit >= UNITS {
            return NO_UNIT;
        }
        let full = self.is_full(unit);
        if full && self.fault == Some(Fault::PushedOut) {
            self.lines[unit].pop_back();
        }
        if !full || self.fault == Some(Fault::PushedOut) {
            self.lines[unit].push_back(row);
        }
        if full { LINE_FULL } else { TAKEN }
    }

    fn places(&self, unit: usize) -> usize {
        match self.fault {
            Some(Fault::ThreePlaces) => PLACES - 1,
            Some(Fault::FivePlaces) => PLACES + 1,
            Some(Fault::PlaceLost) if self.served[unit] > 0 => PLACES - 1,
            _ => PLACES,
        }
    }

    /// Serves the first row of the first unit, in turn, that has one.
    pub fn tick(&mut self) -> Option<Answer> {
        let answer = self.serve()?;
        match self.fault {
            Some(Fault::TwoServed) => self.serve().or(Some(answer)),
            Some(Fault::RefusedGoesOn) if answer.status != 0 => self.tick().or(Some(answer)),
            _ => Some(answer),
        }
    }

    fn serve(&mut self) -> Option<Answer> {
        let Some(unit) = self.asked().find(|&unit| !self.lines[unit].is_empty()) else {
            if self.fault == Some(Fault::TurnIdle) {
                self.turn = (self.turn + 1) % UNITS;
            }
            return None;
        };
        let row = self.next_row(unit);
        let state = if self.fault == Some(Fault::OtherUnit) { (unit + 1) % UNITS } else { unit };
        let (status, commands) = self.units[state].row(row);
        if status != 0 && self.fault == Some(Fault::RefusedStays) {
            self.lines[unit].push_front(row);
        }
        self.served[unit] += 1;
        self.turn = self.turn_after(unit, status);
        Some(Answer { unit, status, commands })
    }

    /// The units, in the order in which they are asked.
    fn asked(&self) -> impl Iterator<Item = usize> + use<> {
        let down = self.fault == Some(Fault::TurnDown);
        let first = match self.fault {
            Some(Fault::NeverFive) if self.turn == UNITS - 1 => 0,
            _ => self.turn,
        };
        let count = if self.fault == Some(Fault::OneAsked) { 1 } else { UNITS };
        (0..count).map(move |step| (if down { first + UNITS - step } else { first + step }) % UNITS)
    }

    fn next_row(&mut self, unit: usize) -> RooftopRow {
        let line = &mut self.lines[unit];
        let row = if self.fault == Some(Fault::LastFirst) { line.pop_back() } else { line.pop_front() };
        row.expect("a row waits")
    }

    /// Where the turn begins after a row of a unit was served.
    fn turn_after(&self, unit: usize, status: u64) -> usize {
        match self.fault {
            Some(Fault::TurnStays) => unit,
            Some(Fault::TurnZero) => 0,
            Some(Fault::TurnRefused) if status != 0 => unit,
            _ => (unit + 1) % UNITS,
        }
    }
}
