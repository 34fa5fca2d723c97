//! Measuring engines side by side: batches taken in turn, and medians over many rounds.

use std::hint::black_box;
use std::time::Instant;

use crate::records::Record;

/// A record played on a state.
pub type Engine = fn(&mut [u16], &[u8]) -> u64;

/// Records played in turn on one state, which they leave as it was, by two engines.
pub struct Task {
    records: Vec<Record>,
    engines: [Engine; 2],
    states: [Vec<u16>; 2],
    passes: usize,
    // Nanoseconds of a call, a number for each round.
    times: [Vec<f64>; 2],
}

impl Task {
    pub fn new(records: &[Record], engines: [Engine; 2], state: &[u16]) -> Task {
        Task {
            records: records.to_vec(),
            engines,
            states: [state.to_vec(), state.to_vec()],
            passes: 1,
            times: [vec![], vec![]],
        }
    }

    /// Nanoseconds of a call in one batch, and the sum of the answers.
    fn batch(&mut self, engine: usize, passes: usize) -> (f64, u64) {
        let call = self.engines[engine];
        let state = &mut self.states[engine];
        let mut sum = 0;
        let begin = Instant::now();
        for _ in 0..passes {
            for record in &self.records {
                sum += call(black_box(state), black_box(record));
            }
        }
        let calls = passes * self.records.len();
        (begin.elapsed().as_nanos() as f64 / calls as f64, sum)
    }

    /// Chooses the batches so that the slower engine's takes about so many nanoseconds.
    fn fit(&mut self, nanoseconds: f64) {
        let slower = self.batch(0, 4).0.max(self.batch(1, 4).0);
        let pass = slower * self.records.len() as f64;
        self.passes = (nanoseconds / pass).ceil() as usize;
    }

    /// A batch of each engine; which goes first changes from round to round. One pass before it warms the caches.
    fn round(&mut self, number: usize) {
        let mut sums = [0; 2];
        for turn in 0..2 {
            let engine = (number + turn) % 2;
            self.batch(engine, 1);
            let (time, sum) = self.batch(engine, self.passes);
            self.times[engine].push(time);
            sums[engine] = sum;
        }
        assert_eq!(sums[0], sums[1], "the engines differ");
    }

    /// The median time of a call by an engine, in nanoseconds.
    pub fn time(&self, engine: usize) -> f64 {
        median(self.times[engine].clone())
    }

    /// The median of the rounds' ratios of the first engine to the second.
    pub fn ratio(&self) -> f64 {
        ratio(&self.times[0], &self.times[1])
    }

    /// The median of the rounds' ratios of this task to another, for one engine.
    pub fn growth(&self, other: &Task, engine: usize) -> f64 {
        ratio(&self.times[engine], &other.times[engine])
    }
}

/// Measures all tasks in turn, round by round.
pub fn measure(tasks: &mut [&mut Task], rounds: usize) {
    for task in tasks.iter_mut() {
        task.fit(100_000.0);
    }
    for number in 0..rounds {
        for task in tasks.iter_mut() {
            task.round(number);
        }
    }
}

/// The median of the ratios, pair by pair.
pub fn ratio(times: &[f64], others: &[f64]) -> f64 {
    median(times.iter().zip(others).map(|(a, b)| a / b).collect())
}

pub fn median(mut numbers: Vec<f64>) -> f64 {
    numbers.sort_by(f64::total_cmp);
    numbers[numbers.len() / 2]
}
