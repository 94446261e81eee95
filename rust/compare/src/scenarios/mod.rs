//! What both sides are driven through. The fixed part is the same whatever the
//! seed; each scenario by chance begins from a fresh state and drives one part.

pub mod cuts;
mod draws;
pub mod formats_between_draws;
mod mebibyte;
mod patches;
mod recordings;
mod refusals;
mod registers;
mod states;
mod streams;
mod tables;
mod vertices;
mod wild;
mod worked;
mod writer;

use crate::duo::Duo;
use crate::random::Random;

/// The seed of the fixed part.
const FIXED: u64 = 0x6669_7865;

/// The worked numbers, every refusal from every call that can give it, every fault
/// of a recording, every row of the tables, all that a run is to go through; and last,
/// as they take the longest, long recordings and the bounds of rings and runs.
pub fn fixed(duo: &mut Duo) {
    worked::worked(duo);
    refusals::every_refusal(duo);
    recordings::every_fault(duo);
    tables::every_table_row(duo);
    let random = &mut Random::new(FIXED);
    (0..4).for_each(|_| formats_between_draws::stream(duo, random));
    formats_between_draws::each_word(duo, random);
    formats_between_draws::each_address(duo, random);
    cuts::every_cut(duo);
    cuts::every_zeros(duo, random);
    cuts::xf_ends(duo, random);
    recordings::every_long_fault(duo);
    mebibyte::every_bound(duo);
}

/// One scenario by chance.
pub fn by_chance(duo: &mut Duo, random: &mut Random) {
    match random.below(47) {
        0..=3 => streams::stream(duo, random),
        4 => streams::runs(duo, random),
        5..=8 => streams::mutated(duo, random),
        9..=18 => states::broken(duo, random),
        19..=21 => draws::open_draw(duo, random),
        22 | 23 => draws::draws(duo, random),
        24 | 25 => registers::registers(duo, random),
        26 => streams::feeds(duo, random),
        27 | 28 => vertices::vertices(duo, random),
        29 | 30 => writer::writer(duo, random),
        31 => writer::read_back(duo, random),
        32 | 33 => patches::patches(duo, random),
        34 => patches::through_the_ring(duo, random),
        35..=38 => wild::wild(duo, random),
        39 => vertices::normals(duo, random),
        40 => streams::loaded(duo, random),
        41 => formats_between_draws::stream(duo, random),
        42 => streams::judged(duo, random),
        43 => match random.below(8) {
            0 => formats_between_draws::each_address(duo, random),
            1 => cuts::zeros(duo, random),
            2 => cuts::xf_ends(duo, random),
            3..=5 => cuts::draws_cut(duo, random),
            _ => formats_between_draws::each_word(duo, random),
        },
        44 | 45 => recordings::recordings(duo, random),
        _ => match random.below(12) {
            0 => draws::big_draw(duo, random),
            8..=11 => mebibyte::large(duo, random),
            1..=3 => registers::offsets(duo, random),
            4 => registers::first_bytes(duo, random),
            _ => streams::runs(duo, random),
        },
    }
}

/// The fixed part, then scenarios from the seed until so many calls were made
/// or a difference was found.
pub fn compare(duo: &mut Duo, seed: u64, calls: u64) {
    fixed(duo);
    let mut random = Random::new(seed);
    while duo.tally.calls < calls && duo.fault().is_none() {
        by_chance(duo, &mut random);
    }
}
