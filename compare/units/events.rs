//! Counts events on boards, so that schedules that never make one of them are found out.

use super::board::Board;
use super::model::{Answer, TAKEN};
use crate::woldgrater::{LINE_FULL, NO_UNIT, PLACES, UNITS};

#[derive(Clone, Copy)]
enum Event {
    Taken,
    Filled,
    AllFilled,
    PlaceAgain,
    Unit6,
    Unit7,
    UnitMost,
    NoUnitAllFull,
    TurnedAway,
    Accepted,
    Refused1,
    Refused2,
    Refused3,
    Refused4,
    Refused11,
    RefusedBefore,
    AfterRefused,
    Stage1,
    Stage2,
    Stage3,
    Idle,
    PassedOver,
    PassedFive,
    Round,
    FromFive,
    Sixth,
    Emptied,
    Manners,
    ForgedFive,
    ForgedTurn,
    ForgedIdle,
    ForgedFull,
    ForgedServed,
    ForgedAccepted,
    ForgedRefused,
}

const EVENTS: [(Event, &str); 35] = [
    (Event::Taken, "taken"),
    (Event::Filled, "line full to 4"),
    (Event::AllFilled, "the last of all lines full to 4"),
    (Event::PlaceAgain, "place used again"),
    (Event::Unit6, "12: unit 6"),
    (Event::Unit7, "12: unit 7"),
    (Event::UnitMost, "12: the largest number"),
    (Event::NoUnitAllFull, "12 where all lines are full"),
    (Event::TurnedAway, "13"),
    (Event::Accepted, "served: accepted"),
    (Event::Refused1, "served: 1"),
    (Event::Refused2, "served: 2"),
    (Event::Refused3, "served: 3"),
    (Event::Refused4, "served: 4"),
    (Event::Refused11, "served: 11"),
    (Event::RefusedBefore, "refused with another row behind it"),
    (Event::AfterRefused, "accepted after a refused row of the unit"),
    (Event::Stage1, "accepted at stage 1"),
    (Event::Stage2, "accepted at stage 2"),
    (Event::Stage3, "accepted at stage 3"),
    (Event::Idle, "idle tick"),
    (Event::PassedOver, "turn passed over empty lines"),
    (Event::PassedFive, "turn passed over five empty lines"),
    (Event::Round, "turn passed round from 5 to 0 in a tick"),
    (Event::FromFive, "unit 0 served after unit 5"),
    (Event::Sixth, "first row served at its sixth tick"),
    (Event::Emptied, "the last row of all lines served"),
    (Event::Manners, "both manners on a board"),
    (Event::ForgedFive, "forged turn 5: unit 5 served first"),
    (Event::ForgedTurn, "forged turn above 6: unit 0 served first"),
    (Event::ForgedIdle, "forged turn above 6: idle tick"),
    (Event::ForgedFull, "forged count above 4: 13"),
    (Event::ForgedServed, "forged count above 4: a row of the line served"),
    (Event::ForgedAccepted, "forged state: accepted"),
    (Event::ForgedRefused, "forged state: refused"),
];

/// The counts, and what they hang on beside the board.
pub struct Tally {
    counts: [u64; EVENTS.len()],
    forged: bool,
    /// How many rows the line of each unit took.
    taken: [usize; UNITS],
    /// Whether the last row of each unit was refused.
    refused: [bool; UNITS],
    /// The unit last served.
    last: Option<usize>,
}

impl Tally {
    pub fn new() -> Self {
        Self { counts: [0; EVENTS.len()], forged: false, taken: [0; UNITS], refused: [false; UNITS], last: None }
    }

    /// Begins with a board that was started in these manners.
    pub fn started(&mut self, manners: &[bool; UNITS]) {
        *self = Self { counts: self.counts, ..Self::new() };
        self.when(Event::Manners, manners.contains(&true) && manners.contains(&false));
    }

    /// Begins with a forged board.
    pub fn forged(&mut self) {
        *self = Self { counts: self.counts, forged: true, ..Self::new() };
    }

    pub fn add(&mut self, other: &Tally) {
        self.counts.iter_mut().zip(other.counts).for_each(|(mine, others)| *mine += others);
    }

    /// Every event by its name, with how often it occurred.
    pub fn events(&self) -> Vec<(&'static str, u64)> {
        EVENTS.iter().map(|&(event, name)| (name, self.counts[event as usize])).collect()
    }

    fn when(&mut self, event: Event, happened: bool) {
        self.counts[event as usize] += u64::from(happened);
    }

    /// An offer to a board as it was before, with the status that it is given.
    pub fn offer(&mut self, before: &Board, unit: usize, status: u64) {
        let full = (0..UNITS).filter(|&unit| before.line(unit).len() == PLACES).count();
        if status == TAKEN {
            let fills = before.line(unit).len() + 1 == PLACES;
            self.taken[unit] += 1;
            self.when(Event::Taken, true);
            self.when(Event::Filled, fills);
            self.when(Event::AllFilled, fills && full + 1 == UNITS);
            self.when(Event::PlaceAgain, self.taken[unit] > PLACES);
        }
        self.when(Event::Unit6, status == NO_UNIT && unit == 6);
        self.when(Event::Unit7, status == NO_UNIT && unit == 7);
        self.when(Event::UnitMost, status == NO_UNIT && unit == usize::MAX);
        self.when(Event::NoUnitAllFull, status == NO_UNIT && full == UNITS);
        self.when(Event::TurnedAway, status == LINE_FULL);
        self.when(Event::ForgedFull, status == LINE_FULL && before.counts[unit] > PLACES);
    }

    /// A tick of a board as it was before, which serves nothing.
    pub fn idle(&mut self, before: &Board) {
        self.when(Event::Idle, true);
        // A turn of 6 is no forged one: it stands on any board after unit 5 was served.
        self.when(Event::ForgedIdle, self.forged && before.turn > UNITS);
    }

    /// A tick of a board as it was before, with the row that it serves, which so many ticks had passed by.
    pub fn served(&mut self, before: &Board, answer: &Answer, waited: usize) {
        let unit = answer.unit;
        let passed = (unit + UNITS - before.asked_first()) % UNITS;
        let behind = before.line(unit).len() - 1;
        let left: usize = (0..UNITS).map(|unit| before.line(unit).len()).sum::<usize>() - 1;
        self.when(Event::PassedOver, passed > 0);
        self.when(Event::PassedFive, passed == UNITS - 1);
        self.when(Event::Round, unit < before.asked_first());
        self.when(Event::FromFive, unit == 0 && self.last == Some(UNITS - 1));
        self.when(Event::Sixth, waited == UNITS - 1);
        self.when(Event::Emptied, left == 0);
        let first = self.forged && self.last.is_none();
        self.when(Event::ForgedFive, first && before.turn == UNITS - 1 && unit == UNITS - 1);
        self.when(Event::ForgedTurn, first && before.turn > UNITS && unit == 0);
        self.when(Event::ForgedServed, before.counts[unit] > PLACES);
        self.answered(answer, behind);
        self.last = Some(unit);
    }

    fn answered(&mut self, answer: &Answer, behind: usize) {
        let (unit, status, refused) = (answer.unit, answer.status, answer.status != 0);
        self.when(Event::Accepted, !refused);
        let statuses = [Event::Refused1, Event::Refused2, Event::Refused3, Event::Refused4, Event::Refused11];
        for (number, event) in [1, 2, 3, 4, 11].into_iter().zip(statuses) {
            self.when(event, status == number);
        }
        self.when(Event::RefusedBefore, refused && behind > 0);
        self.when(Event::AfterRefused, !refused && self.refused[unit]);
        let stage = answer.commands.freeze.freeze_protection_stage;
        for (number, event) in [1, 2, 3].into_iter().zip([Event::Stage1, Event::Stage2, Event::Stage3]) {
            self.when(event, !refused && stage == number);
        }
        self.when(Event::ForgedAccepted, self.forged && !refused);
        self.when(Event::ForgedRefused, self.forged && refused);
        self.refused[unit] = refused;
    }
}
