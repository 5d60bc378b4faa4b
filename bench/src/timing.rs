//! Measuring a workload beside other work on the same bytes.

use std::hint::black_box;
use std::time::Instant;

pub const ROUNDS: usize = 7;
/// Repetitions are raised until one measurement takes this long.
const LEAST_NANOS: u128 = 30_000_000;

/// A workload: what one repetition is, how it is called, what it must answer, and what stands
/// beside it.
pub struct Row {
    pub name: String,
    /// How many items, and how many payload bytes, one repetition has.
    pub items: u64,
    pub bytes: u64,
    pub call: Box<dyn Fn(u64) -> u64>,
    /// The answer to one repetition, computed plainly.
    pub want: u64,
    /// A plain copy, or what the row's name says.
    pub copy: Box<dyn FnMut(u64) -> u64>,
    /// The same work in plain Rust, with the same answer.
    pub rust: Option<Box<dyn Fn(u64) -> u64>>,
}

/// What a row took.
pub struct Measured {
    pub nanos: f64,
    pub gigabytes: f64,
    /// Over the time of what stands beside it.
    pub of_copy: f64,
    pub of_rust: Option<f64>,
    /// The slowest round over the best.
    pub spread: f64,
}

impl Measured {
    /// The ratio that holds from machine to machine: over plain Rust where that is measured.
    pub fn ratio(&self) -> f64 {
        self.of_rust.unwrap_or(self.of_copy)
    }
}

fn nanos(call: &mut dyn FnMut(u64) -> u64, reps: u64) -> u128 {
    let start = Instant::now();
    black_box(call(reps));
    start.elapsed().as_nanos()
}

fn repetitions(call: &mut dyn FnMut(u64) -> u64) -> u64 {
    let mut n = 4;
    while n < 1 << 40 && nanos(call, 1 + n) < LEAST_NANOS {
        n *= 2;
    }
    n
}

/// The rounds of a workload: the least time of 1 + n repetitions and that of one, and the longest
/// of what n took beyond one.
struct Rounds {
    n: u64,
    least_all: u128,
    least_one: u128,
    longest: u128,
}

impl Rounds {
    fn new(call: &mut dyn FnMut(u64) -> u64) -> Self {
        Rounds { n: repetitions(call), least_all: u128::MAX, least_one: u128::MAX, longest: 0 }
    }

    fn run(&mut self, call: &mut dyn FnMut(u64) -> u64) {
        let all = nanos(call, 1 + self.n);
        let one = nanos(call, 1);
        self.least_all = self.least_all.min(all);
        self.least_one = self.least_one.min(one);
        self.longest = self.longest.max(all.saturating_sub(one));
    }

    /// The time of one repetition.
    fn best(&self) -> f64 {
        self.least_all.saturating_sub(self.least_one).max(1) as f64 / self.n as f64
    }

    fn worst(&self) -> f64 {
        self.longest as f64 / self.n as f64
    }
}

/// Memory that is held for a round, so that its buffers lie elsewhere than those of the round before:
/// the time of a copy changes with where both sides lie.
fn shift(round: usize) -> Vec<u8> {
    black_box(vec![1; 1 + round * 1040])
}

/// The time of one repetition of each call, all in turns.
pub fn best_of(calls: &mut [Box<dyn FnMut(u64) -> u64>]) -> Vec<f64> {
    let mut rounds: Vec<Rounds> = calls.iter_mut().map(|call| Rounds::new(call)).collect();
    for round in 0..ROUNDS {
        let _held = shift(round);
        for (rounds, call) in rounds.iter_mut().zip(calls.iter_mut()) {
            rounds.run(call);
        }
    }
    rounds.iter().map(Rounds::best).collect()
}

// That three repetitions answer three times what one is to answer.
fn check(call: &dyn Fn(u64) -> u64, want: u64) -> Result<(), String> {
    let (got, want) = (call(3), want.wrapping_mul(3));
    if got == want { Ok(()) } else { Err(format!("answered {got}, computed {want}")) }
}

pub fn measure(row: &mut Row) -> Result<Measured, String> {
    check(&row.call, row.want)?;
    let mut works = Rounds::new(&mut row.call);
    let mut copies = Rounds::new(&mut row.copy);
    let mut rust = None;
    if let Some(call) = &mut row.rust {
        check(call, row.want).map_err(|why| format!("in Rust: {why}"))?;
        rust = Some((Rounds::new(call), call));
    }
    for round in 0..ROUNDS {
        let _held = shift(round);
        works.run(&mut row.call);
        copies.run(&mut row.copy);
        if let Some((rounds, call)) = &mut rust {
            rounds.run(call);
        }
    }
    Ok(Measured {
        nanos: works.best() / row.items as f64,
        gigabytes: row.bytes as f64 / works.best(),
        of_copy: works.best() / copies.best(),
        of_rust: rust.map(|(rounds, _)| works.best() / rounds.best()),
        spread: works.worst() / works.best(),
    })
}
