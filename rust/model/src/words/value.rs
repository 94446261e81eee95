//! A decoded attribute as the header's ten words: the kind and nine values.

use super::{ValueWords, VALUE_WORDS};
use crate::Attribute;

const ABSENT: u32 = 0;
const MATRIX: u32 = 1;
const INDEX: u32 = 2;
const THREE_INDICES: u32 = 3;
const COLOUR: u32 = 4;
const POSITION: u32 = 5;
const TEXTURE: u32 = 6;
const NORMAL: u32 = 7;
const NORMAL_OF_NINE: u32 = 8;

/// "A float is told by its bits, every NaN as 7FC00000 (hex)".
const NAN: u32 = 0x7FC0_0000;

fn float_word(value: f32) -> u32 {
    if value.is_nan() {
        NAN
    } else {
        value.to_bits()
    }
}

/// "the kind and nine values, 0 where unused"
fn words<const N: usize>(kind: u32, values: [u32; N]) -> ValueWords {
    let mut words = [0; VALUE_WORDS];
    words[0] = kind;
    words[1..=N].copy_from_slice(&values);
    words
}

pub(super) fn value_words(attribute: &Attribute) -> ValueWords {
    match *attribute {
        Attribute::Absent => words(ABSENT, []),
        Attribute::Matrix(number) => words(MATRIX, [number.into()]),
        Attribute::Index(index) => words(INDEX, [index.into()]),
        Attribute::Indices(indices) => words(THREE_INDICES, indices.map(u32::from)),
        Attribute::Colour(number) => words(COLOUR, [number]),
        Attribute::Position(p) => words(POSITION, [p.x, p.y, p.z].map(float_word)),
        Attribute::Texture { s, t } => words(TEXTURE, [s, t].map(float_word)),
        Attribute::Normal(values) => words(NORMAL, values.map(float_word)),
        Attribute::Normals(values) => words(NORMAL_OF_NINE, values.map(float_word)),
    }
}
