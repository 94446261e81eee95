//! Vertex formats by chance: mostly good, with every attribute and format.

use crate::random::Random;
use model::words::FormatWords;

/// The places of the component formats in the VAT, as (group, bit).
const COMPONENT_FORMATS: [(usize, u32); 10] = [
    (0, 1),
    NORMAL_FORMAT,
    (0, 22),
    (1, 1),
    (1, 10),
    (1, 19),
    (1, 28),
    (2, 6),
    (2, 15),
    (2, 24),
];
const NORMAL_FORMAT: (usize, u32) = (0, 10);
const COLOUR_FORMATS: [(usize, u32); 2] = [(0, 14), (0, 18)];

fn put(vat: &mut [u32; 3], (group, bit): (usize, u32), value: u32) {
    vat[group] = vat[group] & !(7 << bit) | value << bit;
}

/// All components f32, the largest counts, colour format 5.
const LONGEST: [u32; 3] = [0x0135_5209, 0x4824_1209, 0x0482_4120];

/// A VAT whose formats are all good; counts, shifts and other bits by chance.
pub fn good_vat(random: &mut Random) -> [u32; 3] {
    if random.once_in(10) {
        return LONGEST;
    }
    let mut vat = [random.u32(), random.u32(), random.u32()];
    let all_f32 = random.once_in(6);
    for place in COMPONENT_FORMATS {
        let format = if all_f32 { 4 } else { random.below(5) };
        put(&mut vat, place, format);
    }
    for place in COLOUR_FORMATS {
        put(&mut vat, place, random.below(6));
    }
    vat
}

/// A VAT with one format that is not good.
pub fn bad_vat(random: &mut Random) -> [u32; 3] {
    let mut vat = good_vat(random);
    if random.once_in(5) {
        let place = random.pick(&COLOUR_FORMATS);
        put(&mut vat, place, random.between(6, 7));
    } else {
        let place = random.pick(&COMPONENT_FORMATS);
        put(&mut vat, place, random.between(5, 7));
    }
    vat
}

/// A VCD with position present, its other bits by chance.
pub fn good_vcd(random: &mut Random) -> [u32; 2] {
    let mut vcd = match random.below(5) {
        0 => [0, 0],
        1 => [0xABFF, 0x5555],
        2 => [random.u32() & random.u32(), random.u32() & random.u32()],
        _ => [random.u32() & 0x1_FFFF, random.u32() & 0xFFFF],
    };
    vcd[0] = vcd[0] & !0x600 | random.between(1, 3) << 9;
    vcd
}

fn words(vcd: [u32; 2], vat: [u32; 3]) -> FormatWords {
    [vcd[0], vcd[1], vat[0], vat[1], vat[2]]
}

pub fn good_format(random: &mut Random) -> FormatWords {
    words(good_vcd(random), good_vat(random))
}

/// The same with a direct normal, each of its formats as often as any other.
pub fn format_with_normal(random: &mut Random) -> FormatWords {
    let mut vcd = good_vcd(random);
    vcd[0] = vcd[0] & !0x1800 | 0x800;
    let mut vat = good_vat(random);
    put(&mut vat, NORMAL_FORMAT, random.below(5));
    if random.once_in(2) {
        vat[0] ^= 1 << 9;
    }
    words(vcd, vat)
}

/// A format that is good more often than not.
pub fn any_format(random: &mut Random) -> FormatWords {
    match random.below(10) {
        0 => random.array(),
        1 => words(good_vcd(random), bad_vat(random)),
        2 => words([random.u32() & !0x600, random.u32()], good_vat(random)),
        // Few bits set.
        3 => random
            .array()
            .map(|word: u32| word & random.u32() & random.u32()),
        _ => good_format(random),
    }
}

/// The bytes of a vertex; none where 9 or 10 refuse its layout.
pub fn length_of(format: &FormatWords) -> Option<usize> {
    let layout = model::layout(&model::words::format_of(format));
    Some(usize::from(layout.ok()?.length))
}

/// Vertex bytes, with patterns of f32s at some edge among them.
pub fn vertex_bytes(random: &mut Random, length: usize) -> Vec<u8> {
    let mut bytes: Vec<u8> = Vec::new();
    while bytes.len() < length {
        match random.below(3) {
            0 => bytes.push(random.pick(&[0, 1, 0x7F, 0x80, 0xFF])),
            _ => bytes.extend(random.float_pattern().to_be_bytes()),
        }
    }
    bytes.truncate(length);
    bytes
}
