//! Boards of any words: read as their comments say, and played a little further.

use super::board::Board;
use super::events::Tally;
use super::faults::Fault;
use super::pair::Pair;
use super::schedule::{Schedule, Step};
use crate::joined::library::sample;
use crate::joined::row::Row;
use crate::random::Random;
use crate::woldgrater::UNITS;

const TURNS: [usize; 12] = [0, 1, 4, 5, 5, 5, 6, 7, 9, 11, 1 << 32, usize::MAX];
const COUNTS: [usize; 13] = [0, 0, 0, 1, 1, 2, 3, 4, 5, 9, 1 << 32, usize::MAX - 3, usize::MAX];

/// A forged board, and what is done to it.
struct Forged {
    board: Box<Board>,
    steps: Vec<Step>,
}

/// Plays so many forged boards of a seed, in part made of the board at the end of its schedule: what is wrong with the
/// first one that is answered otherwise.
pub fn play(
    seed: u64,
    count: u64,
    schedule: &Schedule,
    end: &Board,
    fault: Option<Fault>,
    tally: &mut Tally,
) -> Result<(), String> {
    let mut random = Random::new(seed ^ u64::from_be_bytes(*b"\0\0forged"));
    let rows: Vec<Row> = schedule.steps.iter().filter_map(offered).copied().collect();
    for number in 0..count {
        let forged = forge(&mut random, &rows, end);
        let board = &forged.board;
        let shown = format!("forged board {number}, turn {}, counts {:?}", board.turn, board.counts);
        one(forged, fault, tally).map_err(|what| format!("{shown}: {what}"))?;
    }
    Ok(())
}

fn offered(step: &Step) -> Option<&Row> {
    match step {
        Step::Offer(_, row) => Some(row),
        Step::Tick => None,
    }
}

fn one(forged: Forged, fault: Option<Fault>, tally: &mut Tally) -> Result<(), String> {
    let mut pair = Pair::forged(forged.board, fault, tally);
    for (index, step) in forged.steps.into_iter().enumerate() {
        let done = match step {
            Step::Offer(unit, row) => pair.offer(unit, sample(&row)).map(drop),
            Step::Tick => pair.tick().map(drop),
        };
        done.map_err(|what| format!("{what}, at command {index}"))?;
    }
    Ok(())
}

fn forge(random: &mut Random, rows: &[Row], end: &Board) -> Forged {
    let mut board = memory(random, end);
    board.turn = random.pick(&TURNS);
    board.counts = std::array::from_fn(|_| random.pick(&COUNTS));
    if random.one_in(8) {
        board.counts = [0; UNITS];
    }
    let strange = random.one_in(4);
    for place in board.rows.as_flattened_mut() {
        if !strange || random.one_in(2) {
            *place = sample(&random.pick(rows));
        }
        if random.one_in(4) {
            // A flag is on for any word but 0.
            (place.supply_fan_status, place.proof) = (random.bits(), [random.bits(), 0, 2, u64::MAX]);
        }
    }
    let steps = (0..random.between(1, 20)).map(|_| step(random, rows)).collect();
    Forged { board, steps }
}

/// Any words, or those of a board that was played, a few of them forged.
fn memory(random: &mut Random, end: &Board) -> Box<Board> {
    if random.one_in(3) {
        return Board::of(|| word(random));
    }
    let mut board = Box::new(*end);
    for _ in 0..random.pick(&[0, 1, 3, 30]) {
        let (unit, part, place) = (random.below(UNITS), random.below(3), random.below(1 << 16));
        *board.word(unit, part, place) = word(random);
    }
    board
}

fn word(random: &mut Random) -> u64 {
    let number = random.range(-1e4, 1e4).to_bits();
    let odd = [f64::NAN, f64::INFINITY, -0.0, f64::MAX, 5e-324].map(f64::to_bits);
    let odd = random.pick(&odd);
    let words = [0, 1, 2, 511, 512, 513, u64::MAX, 1 << 63, number, odd, random.bits(), random.bits()];
    random.pick(&words)
}

fn step(random: &mut Random, rows: &[Row]) -> Step {
    let row = random.pick(rows);
    match random.below(30) {
        0 => Step::Offer(random.pick(&[UNITS, UNITS + 1, usize::MAX]), row),
        1..=11 => Step::Offer(random.below(UNITS), row),
        _ => Step::Tick,
    }
}
