//! The 300 s mean pressure, worked as the published block works it, to aim pressures with.

#[derive(Default)]
pub struct Mean {
    start: f64,
    last: Option<f64>,
    sum: f64,
    points: Vec<(f64, f64)>,
}

impl Mean {
    fn sum_at(&self, time: f64, pressure: f64) -> f64 {
        self.sum + pressure * self.last.map_or(0.0, |last| time - last)
    }

    fn mean(&self, time: f64, pressure: f64) -> f64 {
        let start = self.last.map_or(time, |_| self.start);
        let first = self.points.first().map_or(start, |point| point.0);
        let sum = self.sum_at(time, pressure);
        let span = if time >= start + 300.0 {
            (time - (time - 300.0).max(first).max(start)).max(1e-5)
        } else {
            time - start + 1e-3
        };
        (sum - self.sum_before(time - 300.0, time, sum)) / span
    }

    fn sum_before(&self, target: f64, time: f64, sum: f64) -> f64 {
        match self.points.first() {
            None => return sum,
            Some(first) if target <= first.0 => return first.1,
            Some(_) => {}
        }
        let next = self.points.iter().position(|point| target <= point.0);
        let (low, high) = match next {
            Some(next) => (self.points[next - 1], self.points[next]),
            None => (self.points[self.points.len() - 1], (time, sum)),
        };
        low.1 + (high.1 - low.1) * ((target - low.0) / (high.0 - low.0))
    }

    /// The pressure loop, limited to 0 to 1.
    fn limited(&self, time: f64, pressure: f64) -> f64 {
        (self.mean(time, pressure) / 12.0 - 1.0).clamp(0.0, 1.0)
    }

    pub fn take(&mut self, time: f64, pressure: f64) {
        let sum = self.sum_at(time, pressure);
        if self.last.is_none() {
            self.start = time;
        }
        let old = self.points.partition_point(|point| point.0 <= time - 300.0);
        self.points.drain(..old.saturating_sub(1));
        match self.points.last_mut() {
            Some(last) if last.0 == time => last.1 = sum,
            _ => self.points.push((time, sum)),
        }
        (self.sum, self.last) = (sum, Some(time));
    }

    /// A pressure that takes the sum at `time` from what it was to about `factor` times that.
    pub fn pull(&self, time: f64, factor: f64) -> f64 {
        let pressure = (self.sum * factor - self.sum) / (time - self.last_time());
        if pressure.is_finite() { pressure } else { 18.0 }
    }

    /// Whether the window of 512 points has room for a row at `time`.
    pub fn has_room(&self, time: f64) -> bool {
        let old = self.points.partition_point(|point| point.0 <= time - 300.0);
        self.points.len() - old.saturating_sub(1) < 512 || self.last == Some(time)
    }

    pub fn last_time(&self) -> f64 {
        self.last.unwrap_or(0.0)
    }

    /// The time of the second point, whose 300th second makes room in a full window.
    pub fn second_time(&self) -> f64 {
        self.points.get(1).map_or(0.0, |point| point.0)
    }

    /// Pressures that bring the limited loop as near to `target` as floats allow: at most it, and
    /// at least it.
    pub fn aim(&self, time: f64, target: f64) -> (f64, f64) {
        let wanted = 12.0 * (1.0 + target);
        let slope = self.mean(time, 1.0) - self.mean(time, 0.0);
        if slope == 0.0 || !slope.is_finite() {
            return (wanted, wanted);
        }
        let mut pressure = (wanted - self.mean(time, 0.0)) / slope;
        pressure += (wanted - self.mean(time, pressure)) / slope;
        let (mut low, mut high) = (pressure, pressure);
        for _ in 0..40 {
            if self.limited(time, low) > target {
                low = low.next_down();
            }
            if self.limited(time, high) < target {
                high = high.next_up();
            }
        }
        (low, high)
    }
}
