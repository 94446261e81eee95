//! The rows of the first two tables.

use crate::formats::{LONGEST, ONE_BYTE, TWELVE_BYTES};
use crate::machine::RING;
use crate::player::{sides, Input, Work};
use crate::random::Random;
use crate::streams::{
    bp_loads, cp_loads, draws, long_draw, mixed, no_operations, repeated, xf_loads, Stream,
};
use crate::timing::Sides;
use crate::vertices::{attributes, layouts, positions, whole_vertices};
use crate::which::Which;
use model::words::FormatWords;

/// The most bytes that a ring holds.
const ROOM: usize = RING - 1;
/// A sixteenth of that.
const SIXTEENTH: usize = ROOM / 16;
/// A draw of so many vertices is alone in the ring and may not fit.
const LONG: u32 = 60_000;
const DRAW_SIZES: [u32; 3] = [3, 100, LONG];
const BURSTS: [usize; 3] = [32, 256, 4096];
/// How many runs of limit 0 one timed part has.
const EMPTY_RUNS: u32 = 1000;
const VERTICES: [(usize, FormatWords); 3] = [(1, ONE_BYTE), (12, TWELVE_BYTES), (129, LONGEST)];

/// A row whose sides were compared.
pub struct Made {
    /// How many units a timed part has, where that is told.
    count: Option<u64>,
    pub sides: Sides,
}

type Make = Box<dyn Fn(&[Which]) -> Result<Made, String>>;

/// A row of the first table.
pub struct Row {
    pub name: String,
    /// What a time is of.
    per: &'static str,
    make: Make,
}

impl Row {
    /// The sides that are asked for, once they did the same.
    pub fn make(&self, which: &[Which]) -> Result<Made, String> {
        (self.make)(which).map_err(|what| format!("{}: {what}", self.name))
    }

    /// The name, and what the times of its sides are of.
    pub fn title(&self, made: &Made) -> String {
        let (name, per) = (&self.name, self.per);
        match made.count {
            Some(count) if count > 1 => {
                format!("{name}, per {per} ({} {per}s)", thousands(count))
            }
            _ => format!("{name}, per {per}"),
        }
    }
}

/// A number with commas.
pub fn thousands(number: u64) -> String {
    if number < 1000 {
        number.to_string()
    } else {
        format!("{},{:03}", thousands(number / 1000), number % 1000)
    }
}

/// A row of a machine; its input is made when it is needed.
fn machine_row(
    name: impl Into<String>,
    per: &'static str,
    input: impl Fn() -> Input + 'static,
) -> Row {
    let make = move |which: &[Which]| {
        let input = input();
        Ok(Made {
            count: Some(input.units()),
            sides: sides::<RING>(&input, which)?,
        })
    };
    Row {
        name: name.into(),
        per,
        make: Box::new(make),
    }
}

/// A row without a machine.
fn plain_row(name: &str, per: &'static str, sides: fn(&[Which]) -> Result<Sides, String>) -> Row {
    let make = move |which: &[Which]| {
        let sides = sides(which)?;
        Ok(Made { count: None, sides })
    };
    Row {
        name: name.into(),
        per,
        make: Box::new(make),
    }
}

/// One run of a stream.
pub fn run_of(preamble: Stream, stream: Stream) -> Input {
    Input {
        preamble,
        stream,
        work: Work::Run,
    }
}

/// Work that begins with an empty ring.
pub fn from_empty(work: Work) -> Input {
    Input {
        preamble: Stream::default(),
        stream: Stream::default(),
        work,
    }
}

/// All rows of the first table.
pub fn rows() -> Vec<Row> {
    let mut rows = vec![
        stream_row("BP loads", || bp_loads(ROOM)),
        stream_row("CP loads", || cp_loads(ROOM)),
        stream_row("XF loads of 16 words", || xf_loads(ROOM)),
        stream_row("no-operations", || no_operations(ROOM / 2)),
    ];
    for count in DRAW_SIZES {
        rows.extend(VERTICES.map(|(length, words)| draw_row(count, length, words)));
    }
    rows.push(stream_row("mixed stream", || mixed(ROOM)));
    rows.extend(BURSTS.map(burst_row));
    rows.extend(feed_rows());
    rows.extend(single_rows());
    rows.push(machine_row("run of limit 0", "run", || {
        from_empty(Work::EmptyRuns(EMPTY_RUNS))
    }));
    rows.push(plain_row("layout", "layout", layouts));
    rows.push(plain_row("position of three s16", "decode", positions));
    rows.push(plain_row(
        "21 decodes of a 129-byte vertex",
        "vertex",
        attributes,
    ));
    rows.push(plain_row(
        "a whole 129-byte vertex by one call",
        "vertex",
        whole_vertices,
    ));
    rows
}

fn stream_row(name: &str, stream: fn() -> Stream) -> Row {
    machine_row(name, "unit", move || run_of(Stream::default(), stream()))
}

/// As many draws as fit, or the part of a long one that does.
fn draw_row(count: u32, length: usize, words: FormatWords) -> Row {
    let long = count == LONG;
    let draws_of = if long { "one draw" } else { "draws" };
    let open = if 3 + length * count as usize > ROOM {
        ", left open"
    } else {
        ""
    };
    let count_told = thousands(count.into());
    let name = format!("{draws_of} of {count_told} {length}-byte vertices{open}");
    machine_row(name, "unit", move || {
        let mut preamble = Stream::default();
        preamble.set_format(0, &words);
        let stream = if long {
            long_draw(ROOM, &words, count)
        } else {
            draws(ROOM, &words, count)
        };
        run_of(preamble, stream)
    })
}

/// A feed that fills the ring and wraps, and small feeds until it is full.
fn feed_rows() -> [Row; 2] {
    [
        machine_row("wrapped feed of 65,535 bytes", "feed", || {
            let full = Random::new(7).bytes(ROOM);
            from_empty(Work::Feeds(full, 1))
        }),
        machine_row("feeds of 64 bytes", "feed", || {
            let small = Random::new(7).bytes(64);
            let times = ROOM / small.len();
            from_empty(Work::Feeds(small, times as u32))
        }),
    ]
}

/// Every unit of the mixed stream by a take of its own, and with a look before it.
fn single_rows() -> [Row; 2] {
    let of = |name, per, work: fn(u32) -> Work| {
        machine_row(name, per, move || {
            let stream = mixed(ROOM);
            let work = work(stream.units);
            Input {
                preamble: Stream::default(),
                stream,
                work,
            }
        })
    };
    [
        of("single takes through the mixed stream", "take", Work::Takes),
        of(
            "a look and a take of each unit of the mixed stream",
            "unit",
            Work::LooksAndTakes,
        ),
    ]
}

fn burst_row(size: usize) -> Row {
    let bytes = thousands(size as u64);
    let name = format!("mixed stream in bursts of {bytes} bytes, a feed and a run");
    machine_row(name, "burst", move || {
        from_empty(Work::Bursts(mixed(ROOM), size))
    })
}

/// One stream at several lengths, for the second table.
pub struct Lengths {
    pub name: &'static str,
    once: fn() -> Stream,
}

/// Sizes that are timed in turn; the sides of each were compared.
#[derive(Default)]
pub struct Several {
    /// Bytes, of the stream or of the ring, and units.
    pub sizes: Vec<(usize, u64)>,
    /// The sides of each size, one after the other.
    pub sides: Sides,
    /// The size that the others are compared with.
    pub base: usize,
}

impl Several {
    pub fn add(&mut self, size: (usize, u64), sides: Sides) {
        self.sizes.push(size);
        self.sides.extend(sides);
    }
}

/// The second table: a stream once, four times and sixteen times, so that all
/// lengths have the same units in the same order.
pub fn lengths() -> [Lengths; 2] {
    [
        Lengths {
            name: "BP loads",
            once: || bp_loads(SIXTEENTH),
        },
        Lengths {
            name: "mixed stream",
            once: || mixed(SIXTEENTH),
        },
    ]
}

impl Lengths {
    /// All are compared with the shortest.
    pub fn make(&self) -> Result<Several, String> {
        let mut made = Several::default();
        let once = (self.once)();
        for times in [1, 4, 16] {
            let stream = repeated(&once, times);
            let size = (stream.bytes.len(), stream.units.into());
            let sides = sides::<RING>(&run_of(Stream::default(), stream), Which::ALL);
            let (name, bytes) = (self.name, size.0);
            made.add(
                size,
                sides.map_err(|what| format!("{name} of {bytes} bytes: {what}"))?,
            );
        }
        Ok(made)
    }
}
