//! A schedule from a seed: the manners in which the units start, and offers of joined rows and ticks, by phases.

use std::collections::VecDeque;

use crate::joined::plans;
use crate::joined::row::Row;
use crate::random::Random;
use crate::woldgrater::{PLACES, UNITS};

#[derive(Clone, Copy)]
pub enum Step {
    Offer(usize, Row),
    Tick,
}

pub struct Schedule {
    /// The words that the units are started with.
    pub keeps_hour: [u64; UNITS],
    pub steps: Vec<Step>,
}

const PHASES: [fn(&mut Maker); 9] = [even, busy, busy, calm, flood, alone, bursts, bursts, drain];

/// The schedule of a seed.
pub fn of(seed: u64) -> Schedule {
    let mut random = Random::new(seed ^ u64::from_be_bytes(*b"\0\0\0units"));
    let words = [0, 0, 0, 1, 1, 2, 1 << 32, u64::MAX];
    let keeps_hour = std::array::from_fn(|_| random.pick(&words));
    let lists = std::array::from_fn(|_| plans::list(random.bits() >> 16).into());
    let length = random.pick(&[300, 1000, 2500, 5000]);
    let mut maker = Maker { random, lists, waiting: [0; UNITS], turn: 0, steps: Vec::new() };
    while maker.steps.len() < length && maker.lists.iter().any(|list| !list.is_empty()) {
        maker.random.pick(&PHASES)(&mut maker);
    }
    Schedule { keeps_hour, steps: maker.steps }
}

struct Maker {
    random: Random,
    /// The rows that are still to be offered.
    lists: [VecDeque<Row>; UNITS],
    /// How many rows wait for each unit, and the unit asked first, by which the phases go.
    waiting: [usize; UNITS],
    turn: usize,
    steps: Vec<Step>,
}

impl Maker {
    /// Offers the next row of a unit, if it has one. A row that is turned away is mostly offered again.
    fn offer(&mut self, unit: usize) {
        let Some(&row) = self.lists[unit].front() else { return };
        self.steps.push(Step::Offer(unit, row));
        let is_taken = self.waiting[unit] < PLACES;
        self.waiting[unit] += usize::from(is_taken);
        if is_taken || self.random.one_in(12) {
            self.lists[unit].pop_front();
        }
    }

    /// Offers a row of some unit to a number that no unit has.
    fn astray(&mut self) {
        let list = self.random.below(UNITS);
        let Some(&row) = self.lists[list].front() else { return };
        let any = UNITS + self.random.below(usize::MAX - UNITS);
        let number = self.random.pick(&[6, 7, usize::MAX, 8, 12, 1 << 32, any]);
        self.steps.push(Step::Offer(number, row));
    }

    fn tick(&mut self) {
        self.steps.push(Step::Tick);
        let asked = (0..UNITS).map(|step| (self.turn + step) % UNITS);
        if let Some(unit) = asked.into_iter().find(|&unit| self.waiting[unit] > 0) {
            self.waiting[unit] -= 1;
            self.turn = (unit + 1) % UNITS;
        }
    }

    fn ticks(&mut self, count: usize) {
        (0..count).for_each(|_| self.tick());
    }

    fn unit(&mut self) -> usize {
        self.random.below(UNITS)
    }

    /// So many commands: of ten so many offers, to units that are picked so.
    fn mixed(&mut self, offers: usize, mut pick: impl FnMut(&mut Self) -> usize) {
        for _ in 0..self.random.between(10, 120) {
            if self.random.one_in(25) {
                self.astray();
            } else if self.random.below(10) < offers {
                let unit = pick(self);
                self.offer(unit);
            } else {
                self.tick();
            }
        }
    }
}

/// About as many offers as ticks, to all units alike.
fn even(maker: &mut Maker) {
    maker.mixed(5, Maker::unit);
}

/// Some units send much more than the others, and more than is served.
fn busy(maker: &mut Maker) {
    let often: Vec<usize> = (0..maker.random.between(1, 3)).map(|_| maker.unit()).collect();
    maker.mixed(7, |maker| if maker.random.one_in(6) { maker.unit() } else { maker.random.pick(&often) });
}

/// Few offers.
fn calm(maker: &mut Maker) {
    maker.mixed(2, Maker::unit);
}

/// All lines full, and then some ticks.
fn flood(maker: &mut Maker) {
    for _ in 0..=PLACES {
        let first = maker.unit();
        (0..UNITS).for_each(|step| maker.offer((first + step) % UNITS));
    }
    maker.astray();
    let ticks = maker.random.below(UNITS * PLACES + 3);
    maker.ticks(ticks);
}

/// One unit alone, after what waits is served; often it goes on for long.
fn alone(maker: &mut Maker) {
    let unit = maker.unit();
    let waiting = maker.waiting.iter().sum();
    maker.ticks(waiting);
    for _ in 0..maker.random.pick(&[5, 20, 100, 300]) {
        if maker.lists[unit].is_empty() {
            break;
        }
        let burst = maker.random.between(1, PLACES + 1);
        (0..burst).for_each(|_| maker.offer(unit));
        maker.ticks(burst);
    }
}

/// Bursts of rows for one unit and then another, with ticks between.
fn bursts(maker: &mut Maker) {
    for _ in 0..maker.random.between(2, 12) {
        let (unit, count) = (maker.unit(), maker.random.between(1, 9));
        (0..count).for_each(|_| maker.offer(unit));
        let ticks = maker.random.below(12);
        maker.ticks(ticks);
    }
}

/// All that waits is served, and some ticks find nothing.
fn drain(maker: &mut Maker) {
    let waiting = maker.waiting.iter().sum::<usize>();
    let idle = maker.random.below(5);
    maker.ticks(waiting + idle);
}
