//! Vertex formats for whole vertices.

use compare::random::Random;
use model::words::FormatWords;

/// A vertex format by chance, for the most part a good one.
pub fn format(random: &mut Random) -> FormatWords {
    let mut words: FormatWords = random.array();
    if random.below(8) != 0 {
        words[0] |= 0x200;
    }
    if random.below(4) != 0 {
        make_good(&mut words);
        if random.once_in(2) {
            // f32 in groups 0 and 1.
            words[2] = words[2] & !0x01C0_1C0E | 0x0100_1008;
            words[3] = words[3] & !0x7038_1C0E | 0x4020_1008;
        }
    }
    if random.once_in(3) {
        words[1] = 0;
    }
    if random.once_in(3) {
        words[0] &= !0x1FF;
    }
    words
}

/// No component format above 3, no colour format above 3.
fn make_good(words: &mut FormatWords) {
    words[2] &= !0x0111_1008;
    words[3] &= !0x4020_1008;
    words[4] &= !0x0402_0100;
}
