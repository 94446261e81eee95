//! Document 02's L2 and L4, with numbers worked out by hand: normals have fixed
//! fractions, and the metrics opcode is 44; what waiting says is lacking.
#![forbid(unsafe_code)]

mod common;

use common::{exact_bits, format, told, Bench};
use model::{
    decode, raw_words, words, write_command, Answer, Attribute, Command, Draw, End, Refusal, Run,
};

const U8: u32 = 0;
const S8: u32 = 1;
const U16: u32 = 2;
const S16: u32 = 3;
const F32: u32 = 4;

/// A position of two u8 and a normal, both direct.
const VCD: u32 = 0x200 | 1 << 11;
const NORMAL: u8 = 10;

/// Every other bit of group 0 that might be taken for a shift, and bit 31.
const OTHERS: u32 = 31 << 4 | 31 << 25 | 1 << 31;

/// The VAT's group 0 with these fields of a normal.
fn vat(component: u32, nine: bool, bit_30: bool) -> u32 {
    u32::from(nine) << 9 | component << 10 | u32::from(bit_30) << 30
}

/// The bits of a normal's components.
fn normal(vat: u32, components: &[u8]) -> Vec<u32> {
    let vertex = [&[0x11, 0x22], components].concat();
    match decode(&format(VCD, vat), NORMAL, &vertex) {
        Ok(Attribute::Normal(values)) => values.map(f32::to_bits).to_vec(),
        Ok(Attribute::Normals(values)) => values.map(f32::to_bits).to_vec(),
        other => panic!("{other:?}"),
    }
}

/// Format, the bytes of one component, and the bits of the number it is.
type Example = (u32, &'static [u8], u32);

const EXAMPLES: [Example; 18] = [
    // s8 has 6 bits: 1, -2, 127/64, -1, 1/64.
    (S8, &[0x40], 0x3F80_0000),
    (S8, &[0x80], 0xC000_0000),
    (S8, &[0x7F], 0x3FFE_0000),
    (S8, &[0xC0], 0xBF80_0000),
    (S8, &[0x01], 0x3C80_0000),
    // u8 has 7: 1, 255/128, 1/2, 1/128.
    (U8, &[0x80], 0x3F80_0000),
    (U8, &[0xFF], 0x3FFF_0000),
    (U8, &[0x40], 0x3F00_0000),
    (U8, &[0x01], 0x3C00_0000),
    // s16 has 14: 1, -2, -1, 1/16384.
    (S16, &[0x40, 0x00], 0x3F80_0000),
    (S16, &[0x80, 0x00], 0xC000_0000),
    (S16, &[0xC0, 0x00], 0xBF80_0000),
    (S16, &[0x00, 0x01], 0x3880_0000),
    // u16 has 15: 1, 65535/32768, 1/32768.
    (U16, &[0x80, 0x00], 0x3F80_0000),
    (U16, &[0xFF, 0xFF], 0x3FFF_FF00),
    (U16, &[0x00, 0x01], 0x3800_0000),
    // "f32 is untouched": 1, and the number next below 0.
    (F32, &[0x3F, 0x80, 0x00, 0x00], 0x3F80_0000),
    (F32, &[0x80, 0x00, 0x00, 0x01], 0x8000_0001),
];

/// "They apply whatever bit 30 says": each example at each place of a normal of
/// three and of nine, the other components 0, which is +0.
#[test]
fn normals_have_fixed_fractions() {
    for (component, bytes, bits) in EXAMPLES {
        for (nine, count) in [(false, 3), (true, 9)] {
            for place in 0..count {
                let mut components = vec![0; count * bytes.len()];
                components[place * bytes.len()..][..bytes.len()].copy_from_slice(bytes);
                let mut expected = vec![0; count];
                expected[place] = bits;
                for bit_30 in [false, true] {
                    let vat = vat(component, nine, bit_30);
                    assert_eq!(normal(vat, &components), expected, "{vat:X} {bytes:X?}");
                    assert_eq!(normal(vat | OTHERS, &components), expected);
                }
            }
        }
    }
}

/// Nine components that all differ.
#[test]
fn a_normal_of_nine() {
    let components = [0x40, 0x80, 0x7F, 0xC0, 0x01, 0x00, 0x20, 0xFF, 0x60];
    let signed = [
        1.0, -2.0, 1.984375, -1.0, 0.015625, 0.0, 0.5, -0.015625, 1.5,
    ];
    let unsigned = [
        0.5, 1.0, 0.9921875, 1.5, 0.0078125, 0.0, 0.25, 1.9921875, 0.75,
    ];
    for bit_30 in [false, true] {
        let bits = normal(vat(S8, true, bit_30), &components);
        assert_eq!(bits, signed.map(f32::to_bits));
        let bits = normal(vat(U8, true, bit_30), &components);
        assert_eq!(bits, unsigned.map(f32::to_bits));
    }
}

/// Every number of every integer format is exactly n / 2^s.
#[test]
fn every_normal_is_exact() {
    for bit_30 in [false, true] {
        for n in 0..=u8::MAX {
            let bits = |component| normal(vat(component, false, bit_30), &[n, 0, n]);
            let unsigned = exact_bits(i32::from(n), 7);
            assert_eq!(bits(U8), [unsigned, 0, unsigned]);
            let signed = exact_bits(i32::from(n as i8), 6);
            assert_eq!(bits(S8), [signed, 0, signed]);
        }
        for n in 0..=u16::MAX {
            let [a, b] = n.to_be_bytes();
            let bits = |component| normal(vat(component, false, bit_30), &[0, 0, a, b, 0, 0]);
            assert_eq!(bits(U16), [0, exact_bits(i32::from(n), 15), 0]);
            assert_eq!(bits(S16), [0, exact_bits(i32::from(n as i16), 14), 0]);
        }
    }
}

/// "f32 is untouched": its patterns too, and integers have no raw words.
#[test]
fn raw_words_of_normals() {
    let patterns = [0x7F80_0001, 0x8000_0000, 0x0000_0001u32];
    let components = patterns.map(u32::to_be_bytes).concat();
    let vertex = [&[0x11, 0x22], &components[..]].concat();
    for bit_30 in [false, true] {
        let raw = raw_words(&format(VCD, vat(F32, false, bit_30)), NORMAL, &vertex).unwrap();
        assert_eq!(raw.count, 3);
        assert_eq!(raw.words[..3], patterns);
        for (component, length) in [(U8, 5), (S8, 5), (U16, 8), (S16, 8)] {
            let format = format(VCD, vat(component, false, bit_30));
            let raw = raw_words(&format, NORMAL, &vertex[..length]).unwrap();
            assert_eq!((raw.count, raw.words), (0, [0; 9]));
        }
    }
}

/// Positions and textures keep document 01's rule: the VAT's shift, for 8-bit
/// components 0 where bit 30 is clear.
#[test]
fn positions_and_textures_have_their_shifts() {
    // Position and texture 0 of one format, shifts 3 and 5.
    let vertex = |component: u32, bit_30: u32, bytes: &[u8]| {
        let mut format = format(0x200, component << 1 | 3 << 4 | component << 22 | 5 << 25);
        format.vcd[1] = 1;
        format.vat[0] |= bit_30 << 30;
        let position = match decode(&format, 9, bytes) {
            Ok(Attribute::Position(position)) => position.x,
            other => panic!("{other:?}"),
        };
        match decode(&format, 13, bytes) {
            Ok(Attribute::Texture { s, .. }) => (position, s),
            other => panic!("{other:?}"),
        }
    };
    let byte = [0x40, 0, 0x40];
    let word = [0x40, 0, 0, 0, 0x40, 0];
    for component in [U8, S8] {
        assert_eq!(vertex(component, 0, &byte), (64.0, 64.0));
        assert_eq!(vertex(component, 1, &byte), (8.0, 2.0));
    }
    for component in [U16, S16] {
        for bit_30 in [0, 1] {
            assert_eq!(vertex(component, bit_30, &word), (2048.0, 512.0));
        }
    }
}

/// "the byte 44 with no argument": one unit of one byte, "without effect".
#[test]
fn metrics_is_one_byte_of_no_effect() {
    let mut bench = Bench::new(256).at(0x10FF);
    bench.feed(&[0x44]).unwrap();
    let before = bench.copy();
    assert_eq!(bench.take(), told(Command::Metrics, 1));
    // The read pointer moves by one byte, around the ring's end.
    assert_eq!(bench.state.window.read, 0x1000);
    assert_eq!(bench.state.window.count(), Ok(0));
    bench.state.window.read = 0x10FF;
    assert!(bench.same_as(&before));
}

/// "68 now gives refusal 6": it consumes nothing, also when more is fed, and a
/// run keeps the units before it.
#[test]
fn the_old_metrics_byte_is_refused() {
    let mut bench = Bench::new(256);
    bench.feed(&[0x68]).unwrap();
    for _ in 0..3 {
        let before = bench.copy();
        assert_eq!(bench.take(), Answer::Refused(Refusal::Opcode));
        assert_eq!(Refusal::Opcode.number(), 6);
        let refused = Run {
            units: 0,
            end: End::Refused(Refusal::Opcode),
        };
        assert_eq!(bench.run(9), refused);
        assert!(bench.same_as(&before));
        bench.feed(&[0x44]).unwrap();
    }
    let mut bench = Bench::new(256);
    bench.feed(&[0x44, 0x44, 0x68, 0x44]).unwrap();
    let kept = Run {
        units: 2,
        end: End::Refused(Refusal::Opcode),
    };
    assert_eq!(bench.run(9), kept);
    assert_eq!(bench.state.window.count(), Ok(2));
}

/// In an open draw and in a load's fields both are bytes like any other.
#[test]
fn both_bytes_within_other_units() {
    let mut bench = Bench::new(256);
    bench.state.cp.vcd[0] = 0x200;
    bench.state.draw = Some(Draw {
        primitive: 0,
        format: 0,
        left: 1,
    });
    assert_eq!(bench.unit(&[0x68, 0x44]), told(Command::Vertex, 2));
    assert_eq!(bench.vertex[..2], [0x68, 0x44]);
    let load = Command::BpLoad {
        register: 0x68,
        number: 0x44_6844,
    };
    assert_eq!(bench.unit(&[0x61, 0x68, 0x44, 0x68, 0x44]), told(load, 5));
    assert_eq!(bench.state.bp[0x68], 0x44_6844);
}

/// The answer to a command of this kind to write, what the output of two bytes
/// then holds, and how many bytes were told.
fn write_kind(kind: u32) -> (u32, [u8; 2], u32) {
    let (mut output, mut written) = ([0xEE; 2], 0xEEEE_EEEE);
    let answer = words::write_command(&[kind, 9, 9, 9, 9], &[], &mut output, &mut written);
    (answer, output, written)
}

/// The command is written as 44; as a kind to write, 68 is none: 18, not 6.
#[test]
fn metrics_written() {
    let mut output = [0xEE; 2];
    assert_eq!(write_command(&Command::Metrics, &[], &mut output), Ok(1));
    assert_eq!(output, [0x44, 0xEE]);
    let short = write_command(&Command::Metrics, &[], &mut []);
    assert_eq!(short, Err(Refusal::OutputShort));
    assert_eq!(write_kind(0x44), (words::DONE, [0x44, 0xEE], 1));
    assert_eq!(write_kind(0x68), (18, [0xEE; 2], 0xEEEE_EEEE));
    let metrics = words::command_words(&Command::Metrics, 0);
    assert_eq!(metrics, [0x44, 0, 0, 0, 0]);
    assert_eq!(words::command_of(&metrics), Some(Command::Metrics));
    assert_eq!(words::command_of(&[0x68, 0, 0, 0, 0]), None);
}

/// "one for an empty ring with no draw open, then the rest of the unit, for an XF
/// load first of its five-byte head, then of its words; in an open draw, the rest
/// of the vertex": the bytes that are there, whether a draw of 12 bytes a vertex
/// is open, and the bytes lacking.
const LACKING: [(&[u8], bool, u32); 14] = [
    (&[], false, 1),
    (&[0x08], false, 5),
    (&[0x08, 0x30], false, 4),
    (&[0x61, 0x41], false, 3),
    (&[0x20], false, 4),
    (&[0x40], false, 8),
    (&[0x90], false, 2),
    (&[0x10], false, 4),
    (&[0x10, 0x00], false, 3),
    (&[0x10, 0x00, 0x03, 0x00, 0x00], false, 16),
    (&[0x10, 0x00, 0x03, 0x00, 0x00, 0xA5], false, 15),
    (&[], true, 12),
    (&[0x10], true, 11),
    (&[0xFF; 11], true, 1),
];

#[test]
fn waiting_says_for_how_much() {
    for (bytes, open, lacking) in LACKING {
        let mut bench = Bench::new(256).at(0x10FE);
        bench.state.cp.vcd[0] = 0x200;
        bench.state.cp.vat[0][0] = 9;
        if open {
            bench.state.draw = Some(Draw {
                primitive: 2,
                format: 0,
                left: 3,
            });
        }
        bench.feed(bytes).expect("fed");
        assert_eq!(bench.take(), Answer::Waiting { lacking });
        let end = End::Waiting { lacking };
        assert_eq!(bench.run(9), Run { units: 0, end });
    }
}

#[test]
fn the_fifth_byte_gives_8_before_waiting() {
    let mut bench = Bench::new(256);
    assert_eq!(
        bench.unit(&[0x10, 0x00, 0x01, 0x10]),
        Answer::Waiting { lacking: 1 }
    );
    assert!(matches!(bench.unit(&[0x57]), Answer::Refused(refusal) if refusal.number() == 8));
}

#[test]
fn a_run_ended_by_its_limit_says_nothing_of_bytes() {
    let mut bench = Bench::new(256);
    bench.feed(&[0x00]).expect("fed");
    let end = End::Limit;
    assert_eq!(bench.run(1), Run { units: 1, end });
}
