//! Tests of the process kernel against an implementation that shares nothing with it.
//!
//! `cargo run --release` runs every suite once with a fixed seed.
//! `cargo run --release -- fuzz SECONDS [SEED]` repeats them with fresh seeds.
//! KERNEL_LIB_DIR names the folder of libkernel.a.

mod call;
mod coverage;
mod damage;
mod guarded;
mod history;
mod ledger;
mod library;
mod random;
mod reference;
mod sample;
mod suites;

use random::Random;
use std::process::ExitCode;
use std::time::{Duration, Instant, SystemTime, UNIX_EPOCH};
use suites::{Outcome, Tally};

const SEED: u64 = 1_023;

type Suite = (&'static str, fn(&mut Tally, &mut Random) -> Outcome);

fn suites() -> Vec<Suite> {
    vec![
        ("reference against ledger", suites::ledger::run),
        ("reference on known areas", suites::known::run),
        ("table on reference", |tally, _| {
            suites::table::on_reference(tally)
        }),
        ("table on library", |tally, _| {
            suites::table::on_library(tally)
        }),
        ("ahead", |tally, _| suites::ahead::run(tally)),
        ("abort", suites::abort::run),
        ("start", suites::start::run),
        ("sound", suites::sound::run),
        ("calls", suites::calls::run),
        ("list", suites::list::run),
        ("due and nearest", suites::timers::run),
        ("sleeps", suites::sleeps::run),
        ("turns", suites::turns::run),
        ("sheet", suites::sheet::run),
        ("rehearse", suites::rehearse::run),
        ("show", suites::show::run),
    ]
}

/// Runs every suite and prints a line for each; true if all agree.
fn run_all(seed: u64) -> bool {
    println!("seed {seed}");
    let mut good = true;
    for (name, suite) in suites() {
        let begun = Instant::now();
        let mut tally = Tally::default();
        let mut outcome = suite(&mut tally, &mut Random::new(seed));
        if outcome.is_ok() && tally.compared == 0 {
            outcome = Err("nothing was compared".to_string());
        }
        let seconds = begun.elapsed().as_secs_f64();
        let Tally { compared, remark } = tally;
        match outcome {
            Ok(()) => println!("{name:28} {compared:>10} comparisons {seconds:6.1} s{remark}"),
            Err(why) => {
                println!("{name:28} FAILED after {compared} comparisons, seed {seed}: {why}");
                good = false;
            }
        }
    }
    good
}

fn fuzz(seconds: u64, first: u64) -> bool {
    let end = Instant::now() + Duration::from_secs(seconds);
    let mut seed = first;
    while run_all(seed) {
        if Instant::now() >= end {
            return true;
        }
        seed = Random::new(seed).next();
    }
    false
}

fn seed_of_the_clock() -> u64 {
    let now = SystemTime::now().duration_since(UNIX_EPOCH);
    now.map_or(SEED, |since| Random::new(since.as_nanos() as u64).next())
}

fn main() -> ExitCode {
    let arguments: Vec<String> = std::env::args().skip(1).collect();
    let words: Vec<&str> = arguments.iter().map(String::as_str).collect();
    let number = |text: &str| text.parse::<u64>().ok();
    let good = match words[..] {
        [] => Some(run_all(SEED)),
        ["fuzz", seconds] => number(seconds).map(|time| fuzz(time, seed_of_the_clock())),
        ["fuzz", seconds, seed] => number(seconds)
            .zip(number(seed))
            .map(|(time, seed)| fuzz(time, seed)),
        _ => None,
    };
    match good {
        Some(true) => ExitCode::SUCCESS,
        Some(false) => ExitCode::FAILURE,
        None => {
            eprintln!("usage: kernel-tests [fuzz SECONDS [SEED]]");
            ExitCode::from(2)
        }
    }
}
