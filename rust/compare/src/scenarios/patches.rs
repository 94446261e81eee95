//! Patches good and bad: checked, merged, written, and fed to the ring.

use crate::call::Patch;
use crate::duo::Duo;
use crate::random::Random;
use crate::stream::{open_ring_of, play, scatter_registers, Pace};

/// Room for every patch.
const ROOM: usize = 2550;

fn good_patch(random: &mut Random) -> Patch {
    let mut patch = Patch::empty();
    let named = random.pick(&[0, 1, 3, 20, 256]);
    for _ in 0..named {
        let register = if random.once_in(6) {
            random.pick(&[0, 0xFD, 0xFF, 0x41])
        } else {
            random.below(256)
        };
        if register != 0xFE {
            let mask = random.word() & 0xFF_FFFF;
            patch.masks[register as usize] = mask;
            patch.numbers[register as usize] = random.u32() & mask;
        }
    }
    patch
}

/// Puts a fault into a patch, or does not.
fn spoil(random: &mut Random, patch: &mut Patch) {
    let register = random.below(256) as usize;
    match random.below(8) {
        0 => patch.masks[0xFE] = random.pick(&[1, 0x100_0000, 0xFF_FFFF]),
        1 => patch.numbers[0xFE] = random.word(),
        2 => patch.masks[register] |= 0x100_0000 << random.below(8),
        3 => patch.numbers[register] |= !patch.masks[register] & 1 << random.below(24),
        4 => patch.numbers[register] |= 0x100_0000 << random.below(8),
        5 => {
            let length = random.pick(&[0, 1, 255, 257, 300, 512]);
            if random.once_in(2) {
                patch.masks.resize(length, 0);
            } else {
                patch.numbers.resize(length, 0);
            }
        }
        _ => {}
    }
}

fn any_patch(random: &mut Random) -> Patch {
    let mut patch = good_patch(random);
    let faults = random.pick(&[0, 0, 0, 1, 1, 2, 3]);
    for _ in 0..faults {
        if patch.masks.len() == 256 && patch.numbers.len() == 256 {
            spoil(random, &mut patch);
        }
    }
    patch
}

/// Checked, merged and written.
pub fn patches(duo: &mut Duo, random: &mut Random) {
    duo.scenario("patches");
    for _ in 0..random.between(1, 3) {
        let a = any_patch(random);
        let b = any_patch(random);
        duo.check_patch(&a);
        duo.check_patch(&b);
        let length = if random.once_in(8) {
            random.pick(&[0, 255, 257, 300, 1000])
        } else {
            256
        };
        let (masks, numbers) = random.pick(&[(256, length), (length, 256)]);
        duo.merge_patches(&a, &b, masks, numbers);
        let needed = 10 * a.masks.iter().filter(|&&mask| mask != 0).count();
        let output = match random.below(5) {
            0 => needed.saturating_sub(1),
            1 => needed,
            2 => needed + random.between(1, 50) as usize,
            3 => random.pick(&[0, 5, 10, ROOM, ROOM + 1, 5000]),
            _ => random.below(2600) as usize,
        };
        duo.write_patch(&a, output);
    }
}

/// Patches in a row, with clears between, and then all of them merged.
pub fn through_the_ring(duo: &mut Duo, random: &mut Random) {
    duo.scenario("patches through the ring");
    let size = random.pick(&[256, 4096]);
    open_ring_of(duo, random, size);
    scatter_registers(duo, random);
    let mut merged = Patch::empty();
    for _ in 0..random.between(1, 3) {
        let patch = good_patch(random);
        let (_, bytes) = duo.write_patch(&patch, ROOM);
        let pace = random.pick(&[Pace::Bulk, Pace::Mixed]);
        play(duo, random, &bytes, pace);
        duo.write(0x004, random.u16());
        (_, merged) = duo.merge_patches(&merged, &patch, 256, 256);
    }
    let (_, bytes) = duo.write_patch(&merged, ROOM);
    play(duo, random, &bytes, Pace::Bulk);
}
