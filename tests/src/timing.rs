//! What the benchmarks time with.
use std::hint::black_box;
use std::time::Instant;

pub fn median(mut times: Vec<f64>) -> f64 {
    times.sort_by(f64::total_cmp);
    times[times.len() / 2]
}

fn microseconds(start: Instant) -> f64 {
    start.elapsed().as_nanos() as f64 / 1_000.0
}

/// A clock, with what looking at it costs, and memory to read.
pub struct Watch {
    memory: Vec<u64>,
    cost: f64,
}

impl Default for Watch {
    fn default() -> Self {
        let cost = median((0..10_001).map(|_| microseconds(Instant::now())).collect());
        Watch { memory: (0..1 << 19).collect(), cost }
    }
}

impl Watch {
    /// Reads 4 MB, as other work would: what is timed behind it finds the nearer caches so.
    pub fn sweep(&self) {
        black_box(black_box(&self.memory).iter().fold(0, |a, &b| a ^ b));
    }

    /// The microseconds that work takes, less what the clock costs.
    pub fn time(&self, work: impl FnOnce()) -> f64 {
        let start = Instant::now();
        work();
        microseconds(start) - self.cost
    }

    /// The same behind a sweep.
    pub fn alone(&self, work: impl FnOnce()) -> f64 {
        self.sweep();
        self.time(work)
    }
}
