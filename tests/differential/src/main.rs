//! Compares the proved library with a plain implementation of document 01, over random and adversarial sequences of
//! calls: every answer, and every word of every array after every call.
//!
//!     differential [CALLS [SEED [EPISODE]]]
//!
//! CALLS is how many calls to make at least (those for one address are counted apart, as lookups). SEED fixes the run.
//! With EPISODE only that part of the run is made, the way to look at a fault again.

mod broadcasts;
mod changes;
#[cfg(feature = "longest")]
mod covers;
mod damage;
#[cfg(feature = "forward")]
mod forwards;
mod gh;
#[cfg(feature = "pair")]
mod gh_pair;
mod images;
mod inputs;
#[cfg(feature = "pair")]
mod isolated;
mod maps;
#[cfg(feature = "pair")]
mod pair_damage;
#[cfg(feature = "pair")]
mod pair_twice;
#[cfg(feature = "pair")]
mod pairs;
mod parts;
mod run;
#[cfg(feature = "step")]
mod steps;
mod tables;
mod twice;
#[cfg(feature = "update")]
mod updates;

use differential::gen::Rng;
use parts::{EPISODES, LARGE};
use run::Run;
use std::time::{Instant, SystemTime, UNIX_EPOCH};

/// A run of at least this many calls must meet everything that it should. What is rare may take longer: the run then goes
/// on, up to so many times its length.
const FULL: u64 = 20_000;
const LONGER: u64 = 4;
const DEFAULT: u64 = 40_000;

fn main() {
    let args: Vec<u64> =
        std::env::args().skip(1).map(|a| a.replace('_', "").parse().unwrap_or_else(|_| usage())).collect();
    if args.len() > 3 {
        usage();
    }
    let wanted = args.first().copied().unwrap_or(DEFAULT);
    let seed = args.get(1).copied().unwrap_or_else(|| {
        let now = SystemTime::now().duration_since(UNIX_EPOCH).map_or(1, |d| d.as_nanos() as u64);
        now % 1_000_000_000
    });
    println!("seed {seed}, at least {wanted} calls");
    let begin = Instant::now();
    let mut run = Run::new(seed);
    if let Some(&only) = args.get(2) {
        run.episode = only;
        episode(&mut run);
        println!("episode {only}: {} calls and {} lookups agree", run.calls, run.lookups);
        return;
    }
    let full = wanted >= FULL;
    while run.calls < wanted || (full && run.calls < LONGER * wanted && !run.missing().is_empty()) {
        episode(&mut run);
        run.episode += 1;
    }
    run.print();
    let seconds = begin.elapsed().as_secs_f64();
    println!(
        "{} calls and {} lookups in {} episodes agree with the plain implementation, {seconds:.1} s, seed {seed}",
        run.calls, run.lookups, run.episode
    );
    let missing = run.missing();
    for what in &missing {
        println!("never happened: {what}");
    }
    if full && !missing.is_empty() {
        std::process::exit(1);
    }
}

/// One part of the run. Which kind it is follows from its number.
fn episode(run: &mut Run) {
    let n = run.episode;
    let mut rng = Rng::part(run.seed, n);
    match n % 100 {
        7 => tables::large(run, &mut rng, n / 100),
        57 => inputs::long(run, &mut rng),
        77 => maps::long(run, &mut rng),
        27 => changes::large(run, &mut rng),
        47 if !LARGE.is_empty() => LARGE[n as usize / 100 % LARGE.len()](run, &mut rng),
        k if k % 10 == 3 => inputs::episode(run, &mut rng),
        k if k % 10 == 6 => images::episode(run, &mut rng),
        k if k % 20 == 9 => images::wild(run, &mut rng),
        k if k % 20 == 15 => maps::episode(run, &mut rng),
        k if k % 20 == 5 => changes::wild(run, &mut rng),
        k if k % 10 == 1 => changes::episode(run, &mut rng),
        k if k % 5 == 2 && !EPISODES.is_empty() => EPISODES[n as usize / 5 % EPISODES.len()](run, &mut rng),
        _ => tables::episode(run, &mut rng),
    }
}

fn usage() -> ! {
    println!("usage: differential [CALLS [SEED [EPISODE]]]");
    std::process::exit(2)
}
