//! The tables, in markdown.

use crate::feeds::Feeds;
use crate::rings::Rings;
use crate::rows::{thousands, Lengths, Made, Row, Several};
use crate::timing::{clock_cost, difference, in_turn, median, ratio, Plan};
use crate::which::Which;

pub fn print_preface(plan: &Plan) {
    println!(
        "Compared before timing, on the input of every row of the first, second and fourth table: each answer, \
         the units done, and the state words, ring, XF words and vertex buffer left; all were the same. Of the \
         third: every feed was accepted, and the proved feed and the one byte after byte left the same write \
         pointer and ring."
    );
    println!();
    match hand::COMPILER {
        Some(compiler) => println!(
            "C is hand-tuned (`rust/bench/hand`), compiled by `{compiler}` with `-O3 -march=x86-64`."
        ),
        None => println!(
            "No C compiler for x86-64 was found when this was built: the column of hand-tuned C is left out."
        ),
    }
    println!();
    println!(
        "Medians of {} repetitions, each side at least {} µs; an empty timed part takes {:.0} ns.",
        plan.repetitions,
        plan.least.as_micros(),
        clock_cost()
    );
}

/// Nanoseconds with about three places that count.
fn nanoseconds(time: f64) -> String {
    let places = match time.abs() {
        t if t < 1.0 => 4,
        t if t < 100.0 => 2,
        t if t < 1000.0 => 1,
        _ => 0,
    };
    format!("{time:.places$}")
}

/// The heads of the columns that all sides have, and of those to the proved one.
fn side_heads() -> Vec<String> {
    let names = Which::ALL.iter().map(|which| which.name());
    let times = names.clone().map(|name| format!("{name}, ns"));
    let ratios = names.skip(1).map(|name| format!("proved / {name}"));
    times.chain(ratios).collect()
}

/// The columns under them.
fn side_columns(times: &[Vec<f64>]) -> Vec<String> {
    let own = times.iter().map(|side| nanoseconds(median(side)));
    let ratios = times[1..]
        .iter()
        .map(|side| format!("{:.2}", ratio(&times[0], side)));
    own.chain(ratios).collect()
}

fn print_line(columns: &[String]) {
    println!("| {} |", columns.join(" | "));
}

/// A table's head; its first columns are text.
fn print_head(heads: &[String], text: usize) {
    println!();
    print_line(heads);
    let rules = (0..heads.len()).map(|at| if at < text { "---" } else { "---:" });
    println!("|{}|", rules.collect::<Vec<_>>().join("|"));
}

pub fn print_rows(rows: Vec<(Row, Made)>, plan: &Plan) {
    if rows.is_empty() {
        return;
    }
    print_head(&[vec!["Row".into()], side_heads()].concat(), 1);
    for (row, mut made) in rows {
        let times = in_turn(&mut made.sides, plan);
        print_line(&[vec![row.title(&made)], side_columns(&times)].concat());
    }
}

/// A table of sizes; those of one name are timed in turn, and the last columns compare each
/// with one of them.
fn print_several(first: [&str; 3], base: &str, all: Vec<(&str, Several)>, plan: &Plan) {
    if all.is_empty() {
        return;
    }
    let first = first.map(String::from).to_vec();
    let last = Which::ALL
        .iter()
        .map(|which| format!("{}, {base}", which.name()))
        .collect();
    print_head(&[first, side_heads(), last].concat(), 1);
    for (name, mut made) in all {
        let times = in_turn(&mut made.sides, plan);
        let sizes: Vec<_> = times.chunks(Which::ALL.len()).collect();
        for ((bytes, units), size) in made.sizes.into_iter().zip(&sizes) {
            let first = vec![name.into(), thousands(bytes as u64), thousands(units)];
            let grown = size.iter().zip(sizes[made.base]);
            let last = grown.map(|(side, base)| format!("{:.2}", ratio(side, base)));
            print_line(&[first, side_columns(size), last.collect()].concat());
        }
    }
}

/// The second table.
pub fn print_lengths(streams: Vec<(Lengths, Several)>, plan: &Plan) {
    let streams = streams.into_iter();
    let named = streams.map(|(stream, made)| (stream.name, made)).collect();
    let first = ["`run` of", "bytes", "units"];
    print_several(first, "to the shortest", named, plan);
}

/// The fourth table.
pub fn print_rings(rings: Vec<(Rings, Several)>, plan: &Plan) {
    let rings = rings.into_iter();
    let named = rings.map(|(rings, made)| (rings.name, made)).collect();
    let first = ["per unit of", "ring, bytes", "units"];
    print_several(first, "to 65,536", named, plan);
}

/// The third table. The three sides of a size are timed in turn.
pub fn print_feeds(sizes: Vec<Feeds>, plan: &Plan) {
    if sizes.is_empty() {
        return;
    }
    let heads = [
        "ring, bytes",
        "bytes of a feed",
        "feeds",
        "proved, ns",
        "bare copy, ns",
        "proved to copy",
        "proved beyond copy, ns",
        "byte after byte, ns",
        "proved to it",
    ];
    print_head(&heads.map(String::from), 0);
    for mut size in sizes {
        let times = in_turn(&mut size.sides, plan);
        print_line(&[
            thousands(size.ring as u64),
            thousands(size.bytes as u64),
            thousands(size.feeds as u64),
            nanoseconds(median(&times[0])),
            nanoseconds(median(&times[1])),
            format!("{:.2}", ratio(&times[0], &times[1])),
            nanoseconds(difference(&times[0], &times[1])),
            nanoseconds(median(&times[2])),
            format!("{:.2}", ratio(&times[0], &times[2])),
        ]);
    }
}
