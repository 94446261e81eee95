//! The rows without a machine: layouts and attributes.

use crate::formats::{vertex_length, LONGEST, ONE_BYTE, POSITION_S16, TWELVE_BYTES, USUAL};
use crate::random::Random;
use crate::timing::{Side, Sides, Stateless};
use crate::which::Which;
use model::words::{self, format_of, FormatWords, ValueWords, VertexWords, VERTEX_WORDS};
use model::{decode, layout, ATTRIBUTES};
use std::hint::black_box;

/// How often a timed part goes through its inputs.
const ROUNDS: usize = 100;
const POSITION: u32 = 9;
/// The vertices of a timed part.
const VERTICES: usize = 64;

/// The sides that are asked for, once what they tell of every input is the same.
fn compared<T: std::fmt::Debug, V: PartialEq>(
    which: &[Which],
    inputs: &[T],
    told: impl Fn(Which, &T) -> V,
    side: impl Fn(Which) -> Box<dyn Side>,
) -> Result<Sides, String> {
    for input in inputs {
        let differs = |&&other: &&Which| told(other, input) != told(which[0], input);
        if let Some(other) = which.iter().find(differs) {
            let (these, those) = (which[0].name(), other.name());
            return Err(format!("{these} and {those} differ at {input:X?}"));
        }
    }
    Ok(which.iter().map(|&which| side(which)).collect())
}

/// A side that does the same for each input, again and again.
fn again<T: Clone + 'static>(inputs: &[T], mut work: impl FnMut(&T) + 'static) -> Box<dyn Side> {
    let inputs = inputs.to_vec();
    let times = ROUNDS * inputs.len();
    Box::new(Stateless(move || {
        for input in inputs.iter().cycle().take(times) {
            work(black_box(input));
        }
        times as u64
    }))
}

/// As it is told.
#[derive(PartialEq)]
struct LaidOut {
    answer: u32,
    sizes: [u8; ATTRIBUTES],
    offsets: [u8; ATTRIBUTES],
    length: u32,
}

fn laid_out(
    call: impl Fn(&FormatWords, &mut [u8; ATTRIBUTES], &mut [u8; ATTRIBUTES], &mut u32) -> u32,
    format: &FormatWords,
) -> LaidOut {
    let mut laid = LaidOut {
        answer: 0,
        sizes: [0; ATTRIBUTES],
        offsets: [0; ATTRIBUTES],
        length: 0,
    };
    laid.answer = call(format, &mut laid.sizes, &mut laid.offsets, &mut laid.length);
    laid
}

/// Eight formats laid out, one after the other.
pub fn layouts(which: &[Which]) -> Result<Sides, String> {
    let mut formats = vec![ONE_BYTE, TWELVE_BYTES, LONGEST];
    formats.extend(USUAL);
    let told = |which, format: &FormatWords| match which {
        Which::Proved => laid_out(proved::lay_out, format),
        #[cfg(hand_c)]
        Which::C => laid_out(hand::lay_out, format),
        Which::Rust => laid_out(words::lay_out, format),
    };
    let side = |which| match which {
        Which::Proved => again(&formats, |format| {
            black_box(laid_out(proved::lay_out, format));
        }),
        #[cfg(hand_c)]
        Which::C => again(&formats, |format| {
            black_box(laid_out(hand::lay_out, format));
        }),
        Which::Rust => {
            let formats: Vec<_> = formats.iter().map(format_of).collect();
            again(&formats, |format| {
                let _ = black_box(layout(format));
            })
        }
    };
    compared(which, &formats, told, side)
}

type Decoded = (u32, ValueWords);

fn decoded(
    call: impl Fn(&FormatWords, u32, &[u8], &mut ValueWords) -> u32,
    format: &FormatWords,
    attribute: u32,
    vertex: &[u8],
) -> Decoded {
    let mut values = [0; 10];
    let answer = call(format, attribute, vertex, &mut values);
    (answer, values)
}

/// One attribute as a side tells it.
fn told_one(which: Which, format: &FormatWords, attribute: u32, vertex: &[u8]) -> Decoded {
    match which {
        Which::Proved => decoded(proved::decode, format, attribute, vertex),
        #[cfg(hand_c)]
        Which::C => decoded(hand::decode, format, attribute, vertex),
        Which::Rust => decoded(words::decode, format, attribute, vertex),
    }
}

/// Vertices of one format, by chance.
fn vertices(format: &FormatWords) -> Vec<Vec<u8>> {
    let mut random = Random::new(6);
    let length = vertex_length(format);
    (0..VERTICES).map(|_| random.bytes(length)).collect()
}

/// A row that decodes attributes of vertices of one format, a call for each.
fn decodes(
    which: &[Which],
    format: FormatWords,
    attributes: std::ops::Range<u32>,
) -> Result<Sides, String> {
    let vertices = vertices(&format);
    let numbers = attributes.clone();
    let told = |which, vertex: &Vec<u8>| -> Vec<Decoded> {
        let numbers = numbers.clone();
        numbers
            .map(|k| told_one(which, &format, k, vertex))
            .collect()
    };
    let side = |which| {
        let numbers = attributes.clone();
        match which {
            Which::Proved => again(&vertices, move |vertex| {
                for k in numbers.clone() {
                    black_box(decoded(proved::decode, &format, black_box(k), vertex));
                }
            }),
            #[cfg(hand_c)]
            Which::C => again(&vertices, move |vertex| {
                for k in numbers.clone() {
                    black_box(decoded(hand::decode, &format, black_box(k), vertex));
                }
            }),
            Which::Rust => again(&vertices, move |vertex| {
                for k in numbers.clone() {
                    let _ = black_box(decode(&format_of(&format), black_box(k) as u8, vertex));
                }
            }),
        }
    };
    compared(which, &vertices, told, side)
}

/// The position of vertices of three s16.
pub fn positions(which: &[Which]) -> Result<Sides, String> {
    decodes(which, POSITION_S16, POSITION..POSITION + 1)
}

/// All attributes of the longest vertices, one after the other.
pub fn attributes(which: &[Which]) -> Result<Sides, String> {
    decodes(which, LONGEST, 0..ATTRIBUTES as u32)
}

type Values = [ValueWords; ATTRIBUTES];

/// Plain Rust has no call for a whole vertex: one for each attribute; the last one's
/// answer.
fn one_by_one(format: &FormatWords, vertex: &[u8], values: &mut Values) -> u32 {
    let numbered = values.iter_mut().zip(0..);
    let answers = numbered.map(|(values, k)| words::decode(format, k, vertex, values));
    answers.last().unwrap_or(0)
}

/// The ten words of each attribute one after the other.
fn flat(values: &mut Values) -> &mut VertexWords {
    let words = values.as_flattened_mut();
    words.try_into().expect("ten words for each attribute")
}

/// A side that has all attributes told to the same place again and again.
fn again_whole(
    vertices: &[Vec<u8>],
    call: impl Fn(&FormatWords, &[u8], &mut VertexWords) -> u32 + 'static,
) -> Box<dyn Side> {
    let mut values = Box::new([0; VERTEX_WORDS]);
    again(vertices, move |vertex| {
        black_box(call(black_box(&LONGEST), vertex, &mut values));
        black_box(&mut values);
    })
}

/// All attributes of the longest vertices by one call; of plain Rust as above.
pub fn whole_vertices(which: &[Which]) -> Result<Sides, String> {
    let vertices = vertices(&LONGEST);
    let told = |which, vertex: &Vec<u8>| {
        let mut values = [[0; 10]; ATTRIBUTES];
        let answer = match which {
            Which::Proved => proved::decode_all(&LONGEST, vertex, flat(&mut values)),
            #[cfg(hand_c)]
            Which::C => hand::decode_all(&LONGEST, vertex, flat(&mut values)),
            Which::Rust => one_by_one(&LONGEST, vertex, &mut values),
        };
        (answer, values)
    };
    let side = |which| match which {
        Which::Proved => again_whole(&vertices, proved::decode_all),
        #[cfg(hand_c)]
        Which::C => again_whole(&vertices, hand::decode_all),
        Which::Rust => again(&vertices, |vertex| {
            for k in 0..ATTRIBUTES as u8 {
                let _ = black_box(decode(&format_of(&LONGEST), black_box(k), vertex));
            }
        }),
    };
    compared(which, &vertices, told, side)
}
