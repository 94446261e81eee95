//! Calls with words, lengths and bytes by chance, over states by chance.

use crate::call::Patch;
use crate::duo::Duo;
use crate::random::Random;
use crate::scenarios::registers::any_offset;
use crate::stream::{any_limit, open_ring, sometimes_look, take_one};
use crate::world::word;
use model::words::FormatWords;

pub fn wild(duo: &mut Duo, random: &mut Random) {
    duo.scenario("by chance alone");
    let ring = open_ring(duo, random);
    // The ring's bytes by chance are there to be taken.
    duo.poke(word::WRITE, ring.start + random.below(ring.size));
    if random.once_in(3) {
        any_state(duo, random);
    }
    for _ in 0..random.between(5, 40) {
        match random.below(4) {
            0 | 1 => take(duo, random),
            2 => stateless(duo, random),
            _ => change(duo, random),
        }
    }
}

/// Any words at all.
fn any_state(duo: &mut Duo, random: &mut Random) {
    let all = random.once_in(4);
    let from = if random.once_in(2) { word::CONTROL } else { 0 };
    for index in from..327 {
        if all || random.once_in(40) {
            duo.poke(index, random.word());
        }
    }
}

fn take(duo: &mut Duo, random: &mut Random) {
    match random.below(4) {
        0 => {
            sometimes_look(duo, random);
            duo.run(any_limit(random));
        }
        1 => {
            let length = random.below(80) as usize;
            let mut bytes = random.bytes(length);
            // A first byte that means something, or did, more often than not.
            if let Some(first) = bytes.first_mut() {
                *first = random.pick(&[
                    0x08, 0x10, 0x20, 0x40, 0x44, 0x48, 0x61, 0x68, 0x80, 0x93, *first,
                ]);
            }
            duo.feed(&bytes);
        }
        _ => {
            take_one(duo, random);
        }
    }
}

fn change(duo: &mut Duo, random: &mut Random) {
    match random.below(8) {
        0 => duo.poke(random.below(327) as usize, random.word()),
        1 => duo.poke(word::DRAW_OPEN + random.below(4) as usize, random.below(3)),
        2 => duo.poke(word::CONTROL, 1),
        3 => {
            duo.write(any_offset(random), random.u16());
        }
        4 => duo.poke_ring(
            random.below(200) as usize,
            &random.float_pattern().to_be_bytes(),
        ),
        _ => {
            duo.read(any_offset(random));
        }
    }
}

/// Five words, often with few bits set.
fn sparse_words(random: &mut Random) -> FormatWords {
    random.array().map(|word: u32| {
        let bits = word & random.u32();
        if random.once_in(4) {
            bits
        } else {
            bits & random.u32() & random.u32()
        }
    })
}

fn stateless(duo: &mut Duo, random: &mut Random) {
    let attribute = random.u32() >> random.below(32);
    let length = (random.u8() >> random.below(8)) as usize;
    match random.below(8) {
        0 => {
            duo.lay_out(&sparse_words(random));
        }
        1 => {
            let vertex = random.bytes(length);
            duo.decode(&sparse_words(random), attribute, &vertex);
        }
        2 => {
            let vertex = random.bytes(length);
            duo.decode_all(&sparse_words(random), &vertex);
        }
        3 => {
            let vertex = random.bytes(length);
            duo.raw_words(&sparse_words(random), attribute, &vertex);
        }
        4 => {
            let command = random.array().map(|word: u32| word >> random.below(32));
            let words = random.below(20) as usize;
            duo.write_command(command, &random.words(words), length);
        }
        _ => with_patches(duo, random),
    }
}

fn with_patches(duo: &mut Duo, random: &mut Random) {
    let patch = any_patch(random);
    match random.below(3) {
        0 => {
            duo.check_patch(&patch);
        }
        1 => {
            let other = any_patch(random);
            let length = random.pick(&[256, 256, 256, 0, 255, 300]);
            duo.merge_patches(&patch, &other, length, 256);
        }
        _ => {
            duo.write_patch(&patch, random.below(3000) as usize);
        }
    }
}

/// Lists of any lengths; few of their entries, or all, are not 0.
fn any_patch(random: &mut Random) -> Patch {
    Patch {
        masks: any_list(random),
        numbers: any_list(random),
    }
}

fn any_list(random: &mut Random) -> Vec<u32> {
    let length = if random.once_in(5) {
        random.below(301)
    } else {
        256
    };
    let full = random.once_in(3);
    let entry = |_| {
        if full || random.once_in(90) {
            random.u32() >> random.below(32)
        } else {
            0
        }
    };
    (0..length).map(entry).collect()
}
