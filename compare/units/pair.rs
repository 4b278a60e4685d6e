//! A board and the model beside it, compared at each command.

use super::board::{Board, Served};
use super::events::Tally;
use super::faults::Fault;
use super::model::{Answer, Model, TAKEN};
use super::same::{commands_differ, same_row, same_words};
use crate::joined::row::Commands;
use crate::woldgrater::{RooftopRow, UNITS};

pub struct Pair<'a> {
    board: Box<Board>,
    /// The board before the command.
    before: Box<Board>,
    model: Model,
    /// Words that no sequence has may be put right even by a row that is refused.
    forged: bool,
    fault: Option<Fault>,
    /// How many ticks have passed by the first row of each line.
    waited: [usize; UNITS],
    tally: &'a mut Tally,
}

impl<'a> Pair<'a> {
    /// Starts a board, which holds anything before; a word that is not 0 keeps the hour.
    pub fn start(
        mut board: Box<Board>,
        keeps_hour: &[u64; UNITS],
        fault: Option<Fault>,
        tally: &'a mut Tally,
    ) -> Result<Self, String> {
        let manners = keeps_hour.map(|word| word != 0);
        tally.started(&manners);
        board.start(keeps_hour);
        let model = Model::start(manners, fault);
        let pair = Self { before: board.clone(), board, model, forged: false, fault, waited: [0; UNITS], tally };
        pair.agrees()?;
        Ok(pair)
    }

    /// A board as it stands.
    pub fn forged(board: Box<Board>, fault: Option<Fault>, tally: &'a mut Tally) -> Self {
        tally.forged();
        let model = Model::read(&board, fault);
        Self { before: board.clone(), board, model, forged: true, fault, waited: [0; UNITS], tally }
    }

    pub fn into_board(self) -> Box<Board> {
        self.board
    }

    /// Offers a row to both: its status.
    pub fn offer(&mut self, unit: usize, row: RooftopRow) -> Result<u64, String> {
        *self.before = *self.board;
        let expected = self.model.offer(unit, row);
        let given = self.board.offer(unit, row);
        self.damage_after_offer(unit, given);
        if given != expected {
            return Err(format!("the offer to unit {unit} has status {given}, expected {expected}"));
        }
        match given {
            TAKEN => self.is_kept_but(None)?,
            _ => self.is_untouched("an offer that was turned away")?,
        }
        self.agrees()?;
        self.tally.offer(&self.before, unit, given);
        Ok(given)
    }

    /// A tick of both: what the board has served.
    pub fn tick(&mut self) -> Result<Option<Answer>, String> {
        *self.before = *self.board;
        let expected = self.model.tick();
        let mut given = self.board.tick();
        self.damage_after_tick(&mut given);
        match expected {
            None => {
                idle(&given)?;
                self.is_untouched("an idle tick")?;
                self.tally.idle(&self.before);
                Ok(None)
            }
            Some(expected) => {
                let answer = served(&given, &expected)?;
                let moved = answer.status == 0 || self.forged;
                self.is_kept_but(moved.then_some(answer.unit))?;
                self.agrees()?;
                self.tally.served(&self.before, &answer, self.waited[answer.unit]);
                self.passed_by(answer.unit)?;
                Ok(Some(answer))
            }
        }
    }

    /// No first row waits for more than six ticks.
    fn passed_by(&mut self, served: usize) -> Result<(), String> {
        let most = if self.fault == Some(Fault::Within) { UNITS - 1 } else { UNITS };
        for unit in (0..UNITS).filter(|&unit| !self.before.line(unit).is_empty()) {
            self.waited[unit] = if unit == served { 0 } else { self.waited[unit] + 1 };
            if self.waited[unit] >= most {
                return Err(format!("the first row of unit {unit} was not served within {most} ticks"));
            }
        }
        Ok(())
    }

    /// Every word is as it was.
    fn is_untouched(&self, what: &str) -> Result<(), String> {
        match self.board.words() == self.before.words() {
            true => Ok(()),
            false => Err(format!("{what} changed the board")),
        }
    }

    /// The state and window of every other unit are as they were.
    fn is_kept_but(&self, served: Option<usize>) -> Result<(), String> {
        let changed = |unit: &usize| self.board.unit_words(*unit) != self.before.unit_words(*unit);
        match (0..UNITS).filter(|&unit| Some(unit) != served).find(changed) {
            None => Ok(()),
            Some(unit) => Err(format!("state or window of unit {unit} changed")),
        }
    }

    /// The board holds what the model does: turn, lines, states and windows.
    fn agrees(&self) -> Result<(), String> {
        if self.board.asked_first() != self.model.turn() {
            return Err(format!("the turn is {}, expected {}", self.board.turn, self.model.turn()));
        }
        for unit in 0..UNITS {
            let (given, expected) = (self.board.line(unit), self.model.line(unit));
            if given.len() != expected.len() {
                return Err(format!("{} rows wait for unit {unit}, expected {}", given.len(), expected.len()));
            }
            if let Some(place) = given.iter().zip(expected).position(|(given, expected)| !same_row(given, expected)) {
                return Err(format!("row {place} that waits for unit {unit} is another"));
            }
            if !same_words(self.board.unit_words(unit), self.model.unit(unit).words()) {
                return Err(format!("state or window of unit {unit} is another than that of the unit alone"));
            }
        }
        Ok(())
    }

    fn damage_after_offer(&mut self, unit: usize, status: u64) {
        let board = &mut self.board;
        match self.fault {
            Some(Fault::TurnedAway) if status != TAKEN => *board.word(UNITS - 1, 2, usize::MAX) ^= 1,
            Some(Fault::Taken) if status == TAKEN => *board.word(unit, 0, usize::MAX) ^= 1,
            Some(Fault::TakenRow) if status == TAKEN => board.rows[unit][board.counts[unit] - 1].alarm[3] ^= 1,
            _ => {}
        }
    }

    fn damage_after_tick(&mut self, served: &mut Served) {
        let board = &mut self.board;
        let beside = (served.unit + 1) % UNITS;
        match self.fault {
            Some(Fault::Idle) if served.served == 0 => *board.word(0, 1, usize::MAX) ^= 1,
            Some(Fault::IdleRest) if served.served == 0 => served.unit = 1,
            Some(Fault::Beside) if served.served != 0 => *board.word(beside, 0, usize::MAX) ^= 1,
            Some(Fault::BesideWindow) if served.served != 0 => *board.word(beside, 2, usize::MAX) ^= 1,
            Some(Fault::BesideLine) if served.served != 0 => board.rows[beside][0].alarm[3] ^= 1,
            Some(Fault::Status) => served.status = 0,
            Some(Fault::Command) if served.served != 0 => served.commands.freeze.alarm_level ^= 1,
            _ => {}
        }
    }
}

/// What a tick has to give where no row waits.
fn idle(given: &Served) -> Result<(), String> {
    if given.served != 0 {
        return Err(format!("a row of unit {} was served where none waits", given.unit));
    }
    match (given.unit, given.status, commands_differ(&given.commands, &Commands::default())) {
        (0, 0, None) => Ok(()),
        (unit, status, _) => Err(format!("an idle tick gives unit {unit}, status {status} or a command")),
    }
}

/// The row that is served, where it is the expected one.
fn served(given: &Served, expected: &Answer) -> Result<Answer, String> {
    if given.served != 1 {
        return Err(format!("served is {}, expected a row of unit {}", given.served, expected.unit));
    }
    let numbers = [("unit", given.unit as u64, expected.unit as u64), ("status", given.status, expected.status)];
    for (name, got, wanted) in numbers {
        if got != wanted {
            return Err(format!("{name} is {got}, expected {wanted}"));
        }
    }
    let expected = crate::joined::library::commands(&expected.commands);
    match commands_differ(&given.commands, &expected) {
        None => Ok(Answer { unit: given.unit, status: given.status, commands: given.commands }),
        Some(what) => Err(what),
    }
}
