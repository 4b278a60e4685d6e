//! Row times that never fall.

use crate::random::Random;

pub struct Clock {
    pub now: f64,
    /// Times of recent rows, from which a delay may be running.
    recent: Vec<f64>,
}

impl Clock {
    /// A clock that starts at 0, or at some other moment.
    pub fn start(random: &mut Random) -> Self {
        let now = match random.below(6) {
            0 => random.unit(),
            1 => random.range(0.0, 1e4),
            2 => random.below(100_000) as f64,
            3 => 1.7e9 + random.below(1000) as f64,
            _ => 0.0,
        };
        Self::at(now)
    }

    pub fn at(now: f64) -> Self {
        Self {
            now,
            recent: vec![now],
        }
    }

    pub fn move_to(&mut self, time: f64) -> f64 {
        if time > self.now {
            self.now = time;
            self.recent.push(time);
            if self.recent.len() > 6 {
                self.recent.remove(0);
            }
        }
        self.now
    }

    pub fn step(&mut self, gap: f64) -> f64 {
        self.move_to(self.now + gap)
    }

    /// A time at which one of the delays, begun at a recent row, is just over, or one step beside.
    pub fn delay(&mut self, random: &mut Random, delays: &[f64]) -> f64 {
        let end = random.pick(&self.recent) + random.pick(delays);
        self.move_to(random.beside(end))
    }

    /// A step or a delay, as edges of time ask for.
    pub fn edge(&mut self, random: &mut Random, delays: &[f64]) -> f64 {
        match random.below(8) {
            0 => self.now,
            1 => self.step(random.range(0.0, 100.0)),
            2 => self.step(random.pick(&[0.5, 1.0, 15.0, 60.0])),
            3 => self.move_to(self.now.next_up()),
            _ => self.delay(random, delays),
        }
    }
}

/// Rising times from the least to the largest float, for gap sums that overflow and for times so
/// large that a step of one float is longer than a delay.
pub fn spans(random: &mut Random, rows: usize) -> Vec<f64> {
    let mut times: Vec<f64> = (0..rows)
        .map(|_| match random.below(8) {
            0 => f64::from_bits(random.bits() >> 1).min(f64::MAX),
            1 => random.range(0.0, 1e4),
            2 => random.pick(&[0.0, f64::MIN_POSITIVE, 5e-324, 1.0, 300.0, 3600.0]),
            3 => f64::MAX / (1 + random.below(4)) as f64,
            4 => 2f64.powi(random.between(30, 64) as i32),
            _ => random.unit() * 2f64.powi(random.between(1, 70) as i32),
        })
        .collect();
    times.sort_by(f64::total_cmp);
    // Runs of neighbours and of equal times.
    for index in 1..times.len() {
        if random.one_in(3) {
            times[index] = match random.below(3) {
                0 => times[index - 1],
                1 => times[index - 1].next_up(),
                _ => times[index - 1] + 300.0,
            }
            .min(f64::MAX);
        }
    }
    times.sort_by(f64::total_cmp);
    if random.one_in(2) {
        // A last gap that is rounded up makes the sum of the gaps infinite.
        times.retain(|&time| time < 2f64.powi(1022));
        times.extend([too_far(random), f64::MAX]);
    }
    times
}

/// A number so far below the largest float that, with roundings, the way there is too long.
pub fn too_far(random: &mut Random) -> f64 {
    loop {
        let number = random.range(2f64.powi(1022), 2f64.powi(1023));
        if number + (f64::MAX - number) == f64::INFINITY {
            return number;
        }
    }
}

/// Rising times: the first within a second after `start`, `rows` uneven ones, then those so many
/// seconds `before_end`, then the end of a delay that runs from the first. They are chosen, if tries
/// find such, to have the sum of the gaps and the difference of the times part: one of the two
/// reaches the delay and the other does not. The nearer to 0, the likelier.
pub fn parted(
    random: &mut Random,
    start: f64,
    delay: f64,
    rows: usize,
    before_end: &[f64],
) -> Vec<f64> {
    let mut times = Vec::new();
    for _ in 0..1000 {
        let begin = start + random.unit();
        let end = random.beside(begin + delay);
        let last: Vec<f64> = before_end
            .iter()
            .map(|before| end - before)
            .chain([end])
            .collect();
        times = (0..rows)
            .map(|_| begin + (last[0] - begin) * random.unit())
            .collect();
        times.extend(last);
        times.sort_by(f64::total_cmp);
        times.insert(0, begin);
        let sum = times
            .windows(2)
            .fold(0.0, |sum, pair| sum + (pair[1] - pair[0]));
        if (sum >= delay) != (end - begin >= delay) {
            break;
        }
    }
    times
}
