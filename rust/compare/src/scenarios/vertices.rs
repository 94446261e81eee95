//! Layouts, attributes, whole vertices and raw words.

use crate::duo::Duo;
use crate::formats::{any_format, format_with_normal, length_of, vertex_bytes};
use crate::random::Random;

/// With right and wrong lengths, and attribute numbers that are none.
pub fn vertices(duo: &mut Duo, random: &mut Random) {
    duo.scenario("layouts and attributes");
    for _ in 0..random.between(1, 4) {
        let format = any_format(random);
        duo.lay_out(&format);
        let length = length_of(&format).unwrap_or(random.below(140) as usize);
        let vertex = vertex_bytes(random, length);
        for attribute in 0..21 {
            duo.decode(&format, attribute, &vertex);
            if random.once_in(2) {
                duo.raw_words(&format, attribute, &vertex);
            }
        }
        duo.decode_all(&format, &vertex);
        let other = random.word();
        let attribute = random.pick(&[21, 22, 255, 256 + 9, 0x1_0009, u32::MAX, other]);
        duo.decode(&format, attribute, &vertex);
        duo.raw_words(&format, attribute, &vertex);
        let other = random.pick(&[0, length.saturating_sub(1), length + 1, 129, length + 256]);
        let vertex = vertex_bytes(random, other);
        let attribute = random.below(22);
        duo.decode(&format, attribute, &vertex);
        duo.decode_all(&format, &vertex);
        duo.raw_words(&format, attribute, &vertex);
    }
}

/// Direct normals of every format, three components and nine, the same bytes
/// with bit 30 clear and set.
pub fn normals(duo: &mut Duo, random: &mut Random) {
    duo.scenario("normals");
    for _ in 0..random.between(2, 8) {
        let mut format = format_with_normal(random);
        let Some(length) = length_of(&format) else {
            continue;
        };
        let vertex = vertex_bytes(random, length);
        for _ in 0..2 {
            format[2] ^= 1 << 30;
            duo.decode(&format, 10, &vertex);
            duo.decode_all(&format, &vertex);
            duo.raw_words(&format, 10, &vertex);
        }
    }
}
