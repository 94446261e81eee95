//! `compare`: drives the proved library and the twin through the same calls
//! from a seed, and compares all that they answer and leave. A difference is
//! found again by the same command line.
#![forbid(unsafe_code)]

use compare::duo::Duo;
use compare::random::Random;
use compare::scenarios;
use compare::side::{Proved, Twin};
use std::process::ExitCode;

const USAGE: &str = "\
usage: compare [--seed N] [--requests N] [--soak] [--help]
  --seed N       where the calls come from (1)
  --requests N   at least so many calls (300000)
  --soak         goes on until a difference is found or it is stopped
It ends with 0 where nothing differed, with 1 where something did or where an
answer was not reached, with 2 for a wrong command line.";

/// Between two lines of progress.
const PROGRESS: u64 = 5_000_000;

struct Options {
    seed: u64,
    requests: u64,
    soak: bool,
}

/// The options; none where help is asked for.
fn options() -> Result<Option<Options>, String> {
    let mut seed = 1;
    let mut requests = None;
    let mut soak = false;
    let mut arguments = std::env::args().skip(1);
    while let Some(argument) = arguments.next() {
        let mut value = || arguments.next().ok_or(format!("{argument}: no value"));
        match argument.as_str() {
            "--seed" => seed = number(&value()?)?,
            "--requests" => requests = Some(number(&value()?)?),
            "--soak" => soak = true,
            "--help" => return Ok(None),
            _ => return Err(format!("{argument}: not an option")),
        }
    }
    if soak && requests.is_some() {
        return Err("--soak has no end: it does not go with --requests".into());
    }
    Ok(Some(Options {
        seed,
        requests: requests.unwrap_or(300_000),
        soak,
    }))
}

fn number(text: &str) -> Result<u64, String> {
    text.parse().map_err(|_| format!("{text}: not a number"))
}

fn main() -> ExitCode {
    match options() {
        Ok(Some(options)) => compare(&options),
        Ok(None) => {
            println!("{USAGE}");
            ExitCode::SUCCESS
        }
        Err(error) => {
            eprintln!("{error}\n{USAGE}");
            ExitCode::from(2)
        }
    }
}

fn compare(options: &Options) -> ExitCode {
    let mut duo = Duo::new(Box::new(Proved), Box::new(Twin));
    if options.soak {
        soak(&mut duo, options.seed);
    } else {
        scenarios::compare(&mut duo, options.seed, options.requests);
    }
    duo.tally.print();
    if let Some(fault) = duo.fault() {
        println!("DIFFERENCE: seed {}, {fault}", options.seed);
        return ExitCode::FAILURE;
    }
    let unreached = duo.tally.unreached();
    if !unreached.is_empty() {
        println!("not reached: {}", unreached.join(", "));
        return ExitCode::FAILURE;
    }
    let calls = duo.tally.calls;
    println!("seed {}: {calls} calls, no difference", options.seed);
    ExitCode::SUCCESS
}

/// The calls of a run without an end; from time to time a line of progress.
fn soak(duo: &mut Duo, seed: u64) {
    scenarios::fixed(duo);
    let mut random = Random::new(seed);
    let mut next = PROGRESS;
    while duo.fault().is_none() {
        scenarios::by_chance(duo, &mut random);
        if duo.tally.calls >= next {
            println!("seed {seed}: {} calls, no difference", duo.tally.calls);
            next += PROGRESS;
        }
    }
}
