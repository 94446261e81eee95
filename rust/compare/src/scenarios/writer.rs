//! Commands good and not, written, and read back.

use crate::duo::Duo;
use crate::random::Random;
use crate::stream::{open_ring, scatter_registers, take_one};
use crate::units::bad_cp_address;
use model::words::CommandWords;

/// A command's words, the words lent beside it, and the bytes it is to take.
struct Written {
    command: CommandWords,
    words: Vec<u32>,
    length: usize,
}

/// Commands into outputs about as long as they need.
pub fn writer(duo: &mut Duo, random: &mut Random) {
    duo.scenario("writer");
    for _ in 0..random.between(10, 30) {
        let Written {
            command,
            words,
            length,
        } = any_command(random);
        let output = match random.below(5) {
            0 => length.saturating_sub(1),
            1 => 0,
            2 => length,
            3 => length + random.between(1, 9) as usize,
            _ => random.below(256) as usize,
        };
        duo.write_command(command, &words, output);
    }
}

/// What was written is fed and taken.
pub fn read_back(duo: &mut Duo, random: &mut Random) {
    duo.scenario("written commands read back");
    open_ring(duo, random);
    scatter_registers(duo, random);
    for _ in 0..random.between(3, 12) {
        let Written { command, words, .. } = any_command(random);
        let (_, bytes) = duo.write_command(command, &words, 80);
        let (first, rest) = bytes.split_at(random.below(bytes.len() as u32 + 1) as usize);
        duo.feed(first);
        take_one(duo, random);
        duo.feed(rest);
        take_one(duo, random);
    }
}

/// A field that is mostly within its width, and sometimes at or past it.
fn field(random: &mut Random, most: u32) -> u32 {
    match random.below(8) {
        0 => most,
        1 if random.once_in(2) => most.wrapping_add(1),
        2 if random.once_in(3) => random.word(),
        3 if random.once_in(4) => 0x1_0000 << random.below(16) | random.below(most.max(1)),
        _ => (u64::from(random.u32()) % (u64::from(most) + 1)) as u32,
    }
}

fn any_command(random: &mut Random) -> Written {
    let number = random.word();
    // What the kind does not name is by chance.
    let [c, d] = random.array();
    let (command, length) = match random.below(10) {
        0 => ([random.pick(&[0x00, 0x44, 0x48]), number, number, c, d], 1),
        1 => ([none(random), number, number, c, d], 1),
        2 => ([0x08, cp_address(random), number, c, d], 6),
        3 | 4 => return xf_command(random),
        5 | 6 => (indexed_command(random, d), 5),
        7 => ([0x40, number, random.word(), c, d], 9),
        8 => {
            let register = field(random, 0xFF);
            ([0x61, register, field(random, 0xFF_FFFF), c, d], 5)
        }
        _ => {
            let (primitive, format) = (field(random, 7), field(random, 7));
            ([0x80, primitive, format, field(random, 0xFFFF), d], 3)
        }
    };
    let lent = if random.once_in(4) {
        random.below(20)
    } else {
        0
    };
    Written {
        command,
        words: random.words(lent as usize),
        length,
    }
}

/// A vertex, or a kind that is none: often 68, which was one until document 02's
/// L2.
fn none(random: &mut Random) -> u32 {
    if random.once_in(4) {
        return 0x68;
    }
    random.pick(&[
        0x01,
        0x02,
        0x29,
        0x81,
        0xBF,
        0x100,
        0x101,
        0x144,
        0x161,
        0x168,
        0x1_0000,
        0x8000_0000,
        u32::MAX,
    ])
}

fn cp_address(random: &mut Random) -> u32 {
    if random.once_in(3) {
        bad_cp_address(random).into()
    } else {
        field(random, 0xFF)
    }
}

fn indexed_command(random: &mut Random, d: u32) -> CommandWords {
    let kind = random.pick(&[0x20, 0x28, 0x30, 0x38]);
    let words = if random.once_in(6) {
        random.pick(&[0, 17, 256, 257])
    } else {
        random.between(1, 16)
    };
    [kind, field(random, 0xFFFF), words, field(random, 0xFFF), d]
}

fn xf_command(random: &mut Random) -> Written {
    let count = if random.once_in(6) {
        random.pick(&[0, 17, 18, 256 + 3, 0x1_0001])
    } else {
        random.between(1, 16)
    };
    let lent = if random.once_in(6) {
        random.below(19)
    } else {
        count.min(300)
    };
    let last = 4184u32.saturating_sub(count);
    let address = match random.below(8) {
        0 => last,
        1 => last + 1,
        2 => random.pick(&[4184, 65_535, 65_536, 0x1_0005, u32::MAX]),
        _ => random.below(4184),
    };
    Written {
        command: [0x10, count, address, random.word(), random.word()],
        words: (0..lent).map(|_| random.word()).collect(),
        length: 5 + 4 * lent.min(16) as usize,
    }
}
