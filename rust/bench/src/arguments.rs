//! The command line.

use crate::timing::Plan;
use crate::which::Which;
use std::time::Duration;

pub const USAGE: &str = "\
usage: bench [--quick] [--only TEXT]
       bench --count ROW SIDE TIMES
       bench --help
Times the proved library, hand-tuned C and plain Rust, once what they do was compared.
Four tables are printed:
  the first     in a ring of 65,536 bytes, one run of as many units of a kind as fit;
                bursts, feeds, takes, looks and runs of limit 0; layouts and decodes
  the second    in the same ring, one run of streams of three lengths
  the third     a feed beside a bare copy and beside storing byte after byte, among them
                feeds that fill rings of 256 bytes to 1 MiB round their end
  the fourth    the time of a unit in rings of 256 bytes to 1 MiB: the same mixed stream of
                1 MiB sent through each by feeds and runs of pieces that are 129 bytes
                shorter than the ring; and one run of as many units of a kind as fit
  --quick       a short run, for trying it out
  --only TEXT   only the rows whose name holds TEXT
  --count ROW SIDE TIMES
                does one row's work so many times for one side and times nothing, for an
                instruction counter: ROW is a row's name, or a part of it that no other
                row of the first table has; SIDE is proved, C or Rust
It ends with 0, with 1 where the sides differ, with 2 for a wrong command line.";

/// What is asked for.
pub enum Wish {
    Time {
        plan: Plan,
        /// What a row's name must hold.
        only: String,
    },
    Count {
        row: String,
        which: Which,
        times: u64,
    },
    Help,
}

fn plan(quick: bool) -> Plan {
    let (repetitions, least) = if quick { (11, 200) } else { (101, 500) };
    Plan {
        repetitions,
        least: Duration::from_micros(least),
    }
}

/// The wish, or what is wrong.
pub fn parse(arguments: &[String]) -> Result<Wish, String> {
    let words: Vec<&str> = arguments.iter().map(String::as_str).collect();
    match words[..] {
        ["--help"] => return Ok(Wish::Help),
        ["--count", row, side, times] => return count(row, side, times),
        _ => {}
    }
    let (mut quick, mut only) = (false, String::new());
    let mut rest = &words[..];
    while let [first, more @ ..] = rest {
        rest = more;
        match (*first, more) {
            ("--quick", _) => quick = true,
            ("--only", [text, after @ ..]) => {
                only = text.to_string();
                rest = after;
            }
            ("--only", []) => return Err("--only: no text".into()),
            ("--count", _) => return Err("--count: a row, a side and a number, alone".into()),
            (other, _) => return Err(format!("{other}: not an option")),
        }
    }
    Ok(Wish::Time {
        plan: plan(quick),
        only,
    })
}

fn count(row: &str, side: &str, times: &str) -> Result<Wish, String> {
    let which = Which::of(side).ok_or(format!("{side}: no side that was built"))?;
    let times = times.parse();
    Ok(Wish::Count {
        row: row.into(),
        which,
        times: times.map_err(|_| "--count: TIMES is a number".to_string())?,
    })
}
