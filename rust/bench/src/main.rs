//! Times the proved library beside hand-tuned C and beside the implementation in plain
//! Rust, also in rings of several sizes, and its feed beside a bare copy and beside a feed
//! byte after byte, and prints markdown tables. Nothing is timed before what is compared
//! was the same.
#![forbid(unsafe_code)]

mod arguments;
mod feeds;
mod formats;
mod machine;
mod player;
mod random;
mod rings;
mod rows;
mod streams;
mod tables;
mod timing;
mod vertices;
mod which;

use arguments::{parse, Wish, USAGE};
use feeds::{feeds, Feeds, SIZES};
use rings::{rings, Rings};
use rows::{lengths, rows, thousands, Lengths, Made, Row, Several};
use std::process::ExitCode;
use tables::{print_feeds, print_lengths, print_preface, print_rings, print_rows};
use timing::{Plan, Side};
use which::Which;

fn main() -> ExitCode {
    let arguments: Vec<String> = std::env::args().skip(1).collect();
    match parse(&arguments) {
        Ok(Wish::Time { plan, only }) => time(&plan, &only),
        Ok(Wish::Count { row, which, times }) => count(&row, which, times),
        Ok(Wish::Help) => {
            println!("{USAGE}");
            ExitCode::SUCCESS
        }
        Err(what) => wrong(&what),
    }
}

/// A wrong command line.
fn wrong(what: &str) -> ExitCode {
    eprintln!("{what}\n{USAGE}");
    ExitCode::from(2)
}

fn differ(what: &str) -> ExitCode {
    eprintln!("Not the same, so nothing was timed: {what}");
    ExitCode::FAILURE
}

/// The rows of the four tables, all compared.
struct Tables {
    rows: Vec<(Row, Made)>,
    lengths: Vec<(Lengths, Several)>,
    feeds: Vec<Feeds>,
    rings: Vec<(Rings, Several)>,
}

impl Tables {
    fn is_empty(&self) -> bool {
        let Tables {
            rows,
            lengths,
            feeds,
            rings,
        } = self;
        rows.is_empty() && lengths.is_empty() && feeds.is_empty() && rings.is_empty()
    }
}

/// Those whose name holds the text. The names of the other tables are as "run of BP loads",
/// "feed of 64 bytes" and "rings: BP loads, one run of a full ring".
fn compared(only: &str) -> Result<Tables, String> {
    let rows = rows().into_iter().filter(|row| row.name.contains(only));
    let named = |stream: &Lengths| format!("run of {}", stream.name).contains(only);
    let lengths = lengths().into_iter().filter(named);
    let fed = |&(_, bytes): &(usize, usize)| {
        let name = format!("feed of {} bytes", thousands(bytes as u64));
        name.contains(only)
    };
    let sizes: Vec<(usize, usize)> = SIZES.into_iter().filter(fed).collect();
    let in_rings = |rings: &Rings| format!("rings: {}", rings.name).contains(only);
    let rings = rings().into_iter().filter(in_rings);
    let rows: Result<_, String> = rows
        .map(|row| row.make(Which::ALL).map(|made| (row, made)))
        .collect();
    let lengths: Result<_, String> = lengths
        .map(|stream| stream.make().map(|made| (stream, made)))
        .collect();
    let rings: Result<_, String> = rings
        .map(|rings| rings.make().map(|made| (rings, made)))
        .collect();
    Ok(Tables {
        rows: rows?,
        lengths: lengths?,
        feeds: feeds(&sizes)?,
        rings: rings?,
    })
}

fn time(plan: &Plan, only: &str) -> ExitCode {
    let tables = match compared(only) {
        Ok(tables) => tables,
        Err(what) => return differ(&what),
    };
    if tables.is_empty() {
        return wrong(&format!("--only: no row's name holds \"{only}\""));
    }
    print_preface(plan);
    print_rows(tables.rows, plan);
    print_lengths(tables.lengths, plan);
    print_feeds(tables.feeds, plan);
    print_rings(tables.rings, plan);
    ExitCode::SUCCESS
}

/// The row of that name, or the only one whose name holds it.
fn row_named(name: &str) -> Result<Row, String> {
    let mut rows = rows();
    if let Some(at) = rows.iter().position(|row| row.name == name) {
        return Ok(rows.swap_remove(at));
    }
    let all: Vec<String> = rows.iter().map(|row| row.name.clone()).collect();
    rows.retain(|row| row.name.contains(name));
    match rows.pop() {
        Some(row) if rows.is_empty() => Ok(row),
        _ => Err(format!(
            "--count: \"{name}\" is not one row; the rows are\n  {}",
            all.join("\n  ")
        )),
    }
}

/// One side's work, so often. A counter may be told to count this function alone.
#[inline(never)]
fn counted(side: &mut dyn Side) -> u64 {
    side.work()
}

fn count(name: &str, which: Which, times: u64) -> ExitCode {
    let row = match row_named(name) {
        Ok(row) => row,
        Err(what) => return wrong(&what),
    };
    let mut made = match row.make(&[which]) {
        Ok(made) => made,
        Err(what) => return differ(&what),
    };
    let mut units = 0;
    for _ in 0..times {
        made.sides[0].reset();
        units += counted(&mut *made.sides[0]);
    }
    let (title, side) = (row.title(&made), which.name());
    println!(
        "{title}: {side}, {times} times, {} in all",
        thousands(units)
    );
    ExitCode::SUCCESS
}
