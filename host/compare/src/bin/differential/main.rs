//! Compares every call of the proved library with the plain implementation of document 01, on random inputs, valid and damaged.
//!
//!     cargo run --release --bin differential -- [--seconds N] [--seed S] [--round R]
mod calls;
mod ndx;
mod rounds;
mod tally;

use gatherloom_compare::random::Random;
use std::sync::atomic::{AtomicU64, Ordering};
use std::time::{Duration, Instant};
use tally::Tally;

static SEED: AtomicU64 = AtomicU64::new(0);
static ROUND: AtomicU64 = AtomicU64::new(0);

extern "C" {
    fn signal(number: i32, handler: extern "C" fn(i32)) -> usize;
    fn _exit(status: i32) -> !;
}

/// A call touched memory that it was not lent.
extern "C" fn touched(signal: i32) {
    println!(
        "difference: a call ended in signal {signal} with --seed {} --round {}",
        SEED.load(Ordering::Relaxed),
        ROUND.load(Ordering::Relaxed)
    );
    unsafe { _exit(1) }
}

struct Options {
    seconds: u64,
    seed: u64,
    round: Option<u64>,
}

fn options() -> Options {
    let mut options = Options {
        seconds: 120,
        seed: 1,
        round: None,
    };
    let mut words = std::env::args().skip(1);
    while let Some(word) = words.next() {
        let number = words.next().and_then(|n| n.parse().ok());
        match (word.as_str(), number) {
            ("--seconds", Some(n)) => options.seconds = n,
            ("--seed", Some(n)) => options.seed = n,
            ("--round", Some(n)) => options.round = Some(n),
            _ => {
                eprintln!("usage: differential [--seconds N] [--seed S] [--round R]");
                std::process::exit(2);
            }
        }
    }
    options
}

fn main() {
    let options = options();
    SEED.store(options.seed, Ordering::Relaxed);
    for number in [4, 6, 7, 8, 11] {
        unsafe { signal(number, touched) };
    }
    let mut tally = Tally::new(options.seed);
    let mut arenas = rounds::Arenas::new();
    let start = Instant::now();
    let first = options.round.unwrap_or(1);
    for round in first.. {
        tally.round = round;
        ROUND.store(round, Ordering::Relaxed);
        let mut r = Random::new(options.seed.wrapping_mul(1 << 32).wrapping_add(round));
        rounds::round(&mut r, &mut arenas, &mut tally);
        let over = start.elapsed() >= Duration::from_secs(options.seconds);
        if over || options.round.is_some() {
            break;
        }
    }
    tally.report();
    println!(
        "\n{} comparisons, {} differences, rounds {first} to {}, seed {}, {:.1} s",
        tally.compared(),
        tally.differences(),
        tally.round,
        options.seed,
        start.elapsed().as_secs_f64()
    );
    if tally.differences() > 0 {
        std::process::exit(1);
    }
}
