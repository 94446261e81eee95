//! The fourth table: the time of a unit in rings of 256 bytes to a mebibyte.

use crate::formats::TWELVE_BYTES;
use crate::machine::RING;
use crate::player::{sides, Input, Work};
use crate::rows::{from_empty, run_of, Several};
use crate::streams::{bp_loads, draws, mixed, repeated, Stream};
use crate::timing::Sides;
use crate::which::Which;
use model::LARGEST_RING;

const SMALLEST: usize = 256;
const PAGE: usize = 4096;
const LARGEST: usize = LARGEST_RING as usize;
/// The bytes of the longest unit, and so more than wait of one that is cut.
const LONGEST_UNIT: usize = 129;

/// One stream, or one kind of stream, in rings of several sizes.
pub struct Rings {
    pub name: &'static str,
    rings: &'static [usize],
    /// What is done in a ring of so many bytes.
    input: fn(usize) -> Input,
}

/// A mixed stream goes through the ring, the same one for all sizes: as much at a time as
/// there is room for whatever waits, a feed and a run of each piece.
fn through(ring: usize) -> Input {
    let stream = mixed(LARGEST - LONGEST_UNIT);
    from_empty(Work::Through(stream, ring - LONGEST_UNIT))
}

/// One run of a mixed stream of a page, as often as it fits.
fn mixed_full(ring: usize) -> Input {
    let stream = repeated(&mixed(PAGE - 1), ring / PAGE);
    run_of(Stream::default(), stream)
}

fn bp_loads_full(ring: usize) -> Input {
    run_of(Stream::default(), bp_loads(ring - 1))
}

fn draws_full(ring: usize) -> Input {
    let mut preamble = Stream::default();
    preamble.set_format(0, &TWELVE_BYTES);
    run_of(preamble, draws(ring - 1, &TWELVE_BYTES, 3))
}

/// The rows of the fourth table, by what is done.
pub fn rings() -> [Rings; 4] {
    const ALL: &[usize] = &[SMALLEST, PAGE, RING, LARGEST];
    [
        Rings {
            name: "mixed stream of 1 MiB, in feeds and runs of a ring",
            rings: ALL,
            input: through,
        },
        Rings {
            name: "mixed stream, one run of a full ring",
            // The smallest ring does not hold it.
            rings: &ALL[1..],
            input: mixed_full,
        },
        Rings {
            name: "BP loads, one run of a full ring",
            rings: ALL,
            input: bp_loads_full,
        },
        Rings {
            name: "draws of 3 12-byte vertices, one run of a full ring",
            rings: ALL,
            input: draws_full,
        },
    ]
}

/// The sides with rings of so many bytes.
fn sides_of(ring: usize, input: &Input) -> Result<Sides, String> {
    match ring {
        SMALLEST => sides::<SMALLEST>(input, Which::ALL),
        PAGE => sides::<PAGE>(input, Which::ALL),
        RING => sides::<RING>(input, Which::ALL),
        _ => sides::<LARGEST>(input, Which::ALL),
    }
}

impl Rings {
    /// The sides of each ring, once they did the same; they are compared with those of the
    /// ring of 65,536 bytes.
    pub fn make(&self) -> Result<Several, String> {
        let mut made = Several::default();
        for (at, &ring) in self.rings.iter().enumerate() {
            let input = (self.input)(ring);
            let sides = sides_of(ring, &input);
            let name = self.name;
            made.add(
                (ring, input.units()),
                sides.map_err(|what| format!("{name}, ring of {ring} bytes: {what}"))?,
            );
            if ring == RING {
                made.base = at;
            }
        }
        Ok(made)
    }
}
