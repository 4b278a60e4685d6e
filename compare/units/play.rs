//! Plays a schedule on a board and the model, and what was taken on the units alone.

use super::board::Board;
use super::events::Tally;
use super::faults::Fault;
use super::model::{Answer, TAKEN};
use super::pair::Pair;
use super::same::commands_differ;
use super::schedule::{Schedule, Step};
use crate::joined::library::{Rooftop, commands, sample};
use crate::joined::row::Commands;
use crate::random::Random;
use crate::woldgrater::{PLACES, RooftopRow, UNITS};

/// What goes wrong at a step, by its place.
pub type Wrong = (usize, String);

/// Plays a schedule: the board at its end, or the first step that is answered otherwise.
pub fn play(schedule: &Schedule, fault: Option<Fault>, tally: &mut Tally) -> Result<Box<Board>, Wrong> {
    let mut pair = Pair::start(memory(schedule), &schedule.keeps_hour, fault, tally).map_err(|what| (0, what))?;
    let mut alone = Alone::default();
    for (index, step) in schedule.steps.iter().enumerate() {
        let done = match step {
            Step::Offer(unit, row) => {
                let row = sample(row);
                pair.offer(*unit, row).map(|status| if status == TAKEN { alone.taken[*unit].push(row) })
            }
            Step::Tick => pair.tick().map(|answer| answer.into_iter().for_each(|answer| alone.add(answer))),
        };
        done.map_err(|what| (index, what))?;
    }
    let board = pair.into_board();
    let last = schedule.steps.len().saturating_sub(1);
    match alone.difference(schedule, &board, fault) {
        None => Ok(board),
        Some(what) => Err((last, what)),
    }
}

/// Memory that holds anything, a turn and lines that are another board's.
fn memory(schedule: &Schedule) -> Box<Board> {
    let mut random = Random::new(schedule.steps.len() as u64);
    let mut board = Board::of(|| random.bits());
    board.turn = random.between(1, UNITS - 1);
    board.counts = std::array::from_fn(|_| random.between(1, PLACES));
    board
}

/// The rows taken into each line, and the answers that were given of them.
#[derive(Default)]
struct Alone {
    taken: [Vec<RooftopRow>; UNITS],
    given: [Vec<Answer>; UNITS],
}

impl Alone {
    fn add(&mut self, answer: Answer) {
        self.given[answer.unit].push(answer);
    }

    /// What is otherwise where each unit's rows are played alone.
    fn difference(&self, schedule: &Schedule, board: &Board, fault: Option<Fault>) -> Option<String> {
        (0..UNITS).find_map(|unit| {
            let what = self.of_unit(unit, schedule.keeps_hour[unit] != 0, board.line(unit).len(), fault)?;
            Some(format!("unit {unit} alone: {what}"))
        })
    }

    fn of_unit(&self, unit: usize, keeps_hour: bool, waiting: usize, fault: Option<Fault>) -> Option<String> {
        let (taken, given) = (&self.taken[unit], &self.given[unit]);
        if taken.len() != given.len() + waiting {
            return Some(format!("{} rows taken, {} served, {waiting} wait", taken.len(), given.len()));
        }
        let mut rooftop = Rooftop::start(keeps_hour);
        let left_out = usize::from(fault == Some(Fault::Alone));
        taken.iter().skip(left_out).zip(given).enumerate().find_map(|(place, (row, given))| {
            let answer = rooftop.row(*row);
            let status = answer.err().unwrap_or(0);
            let expected = answer.map_or(Commands::default(), |given| commands(&given));
            let what = match status == given.status {
                true => commands_differ(&given.commands, &expected)?,
                false => format!("status {}, expected {status}", given.status),
            };
            Some(format!("row {place} of its line: {what}"))
        })
    }
}
