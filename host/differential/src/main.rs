//! Plays histories on the C library and compares it with the reference after every call, and asks it for reasons; then
//! reads their pages, as they are and damaged.
//!
//!     differential          the sweeps, and the random histories of all seeds
//!     differential SEED     the random histories of one seed

mod bench;
mod calls;
mod compare;
mod lent;
mod pages;
mod sweeps;
mod tally;

use std::process::ExitCode;
use std::sync::atomic::{AtomicU64, Ordering};
use std::thread;

use reference::random::Random;

use bench::Bench;
use tally::Tally;

const SEEDS: u64 = 100_000;
/// More than one, so that calls run at the same time.
const THREADS: usize = 4;
/// Reasons that are asked for after each call of a drawn history.
const QUESTIONS: usize = 2;

fn main() -> ExitCode {
    let run = match std::env::args().nth(1) {
        Some(seed) => play(seed.parse().expect("a seed")),
        None => play_all().and_then(Tally::if_complete),
    };
    match run {
        Ok(tally) => {
            println!("differential: {tally}");
            ExitCode::SUCCESS
        }
        Err(error) => {
            eprintln!("differential: {error}");
            ExitCode::FAILURE
        }
    }
}

/// The sweeps, then all seeds, shared out to threads.
fn play_all() -> Result<Tally, String> {
    let mut tally = sweep()?;
    let next = AtomicU64::new(0);
    thread::scope(|scope| {
        let threads: Vec<_> = (0..THREADS).map(|_| scope.spawn(|| play_share(&next))).collect();
        for thread in threads {
            tally.add(&thread.join().expect("a thread that ends")?);
        }
        Ok(tally)
    })
}

fn sweep() -> Result<Tally, String> {
    let mut tally = Tally::default();
    for history in sweeps::histories() {
        let mut bench = Bench::new(1);
        for call in history {
            bench.call(0, call, 0).map_err(|difference| format!("a sweep\n{difference}"))?;
        }
        tally.add(&bench.end()?);
    }
    pages::sweep(&mut tally).map_err(|difference| format!("a sweep of pages\n{difference}"))?;
    Ok(tally)
}

/// One thread's share; a failure leaves no seed to the others.
fn play_share(next: &AtomicU64) -> Result<Tally, String> {
    let mut tally = Tally::default();
    loop {
        let seed = next.fetch_add(1, Ordering::Relaxed);
        if seed >= SEEDS {
            return Ok(tally);
        }
        let played = play(seed).inspect_err(|_| next.store(SEEDS, Ordering::Relaxed));
        tally.add(&played?);
    }
}

/// Names the seed of a panic.
struct Played(u64);

impl Drop for Played {
    fn drop(&mut self) {
        if thread::panicking() {
            eprintln!("differential: seed {}", self.0);
        }
    }
}

/// Random histories of one to four monitors, their calls interleaved.
fn play(seed: u64) -> Result<Tally, String> {
    let _played = Played(seed);
    let mut random = Random::new(seed);
    let monitors = random.from(1, 4) as usize;
    let mut bench = Bench::new(monitors);
    let mut to_make: Vec<usize> = (0..monitors).map(|_| history_length(&mut random)).collect();
    let named = |difference| format!("seed {seed}\n{difference}");
    while let Some(at) = pick_unfinished(&mut random, &to_make) {
        to_make[at] -= 1;
        let call = calls::next(&mut random, bench.history(at));
        bench.call(at, call, random.bits() as u8).map_err(named)?;
        for _ in 0..QUESTIONS {
            let (command, latency_us) = calls::completion(&mut random, bench.history(at));
            bench.ask(at, command, latency_us).map_err(named)?;
        }
    }
    bench.read_pages(&mut random).map_err(named)?;
    bench.end().map_err(named)
}

/// Mostly short: the reference asks each fact of the whole history.
fn history_length(random: &mut Random) -> usize {
    let (low, high) = if random.below(100) == 0 { (100, 200) } else { (1, 40) };
    random.from(low, high) as usize
}

/// A monitor with calls left to make.
fn pick_unfinished(random: &mut Random, to_make: &[usize]) -> Option<usize> {
    let unfinished: Vec<usize> = (0..to_make.len()).filter(|&at| to_make[at] > 0).collect();
    (!unfinished.is_empty()).then(|| random.pick(&unfinished))
}
