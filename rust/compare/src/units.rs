//! Units of the stream that mean something, and units that are refused.

use crate::formats::{bad_vat, good_vat, good_vcd, vertex_bytes};
use crate::random::Random;
use model::{layout, CpRegisters};

/// Units as their bytes, while the registers that rule vertices are followed.
pub struct Units {
    pub cp: CpRegisters,
    pub units: Vec<Vec<u8>>,
}

fn bytes_of(head: &[u8], numbers: &[u32]) -> Vec<u8> {
    let mut bytes = head.to_vec();
    numbers
        .iter()
        .for_each(|number| bytes.extend(number.to_be_bytes()));
    bytes
}

impl Units {
    pub fn new(cp: CpRegisters) -> Units {
        Units {
            cp,
            units: Vec::new(),
        }
    }

    pub fn bytes(&self) -> Vec<u8> {
        self.units.concat()
    }

    /// One more unit, or a draw with its vertices.
    pub fn add(&mut self, random: &mut Random) {
        match random.below(12) {
            0 => self.units.push(vec![random.pick(&[0x00, 0x44, 0x48])]),
            1 | 2 => self.add_cp_load(random),
            3 | 4 => self.add_xf_load(random),
            5 => self.add_indexed_load(random),
            6 => self
                .units
                .push(bytes_of(&[0x40], &[random.word(), random.word()])),
            7..=9 => self.add_bp_load(random),
            _ => self.add_draw(random),
        }
    }

    /// Loads one after the other, as a material or a transform has them.
    pub fn add_loads(&mut self, random: &mut Random) {
        let xf = random.once_in(4);
        for _ in 0..random.between(1, 12) {
            if xf && random.once_in(2) {
                self.add_xf_load(random);
            } else {
                self.add_bp_load(random);
            }
        }
    }

    /// A CP load; the registers that rule vertices follow it.
    pub fn cp_load(&mut self, address: u8, number: u32) {
        self.units.push(bytes_of(&[0x08, address], &[number]));
        if let (group @ 5..=9, low) = (address >> 4, address & 15) {
            if group < 7 || low < 8 {
                self.follow(usize::from(group - 5), low & 7, number);
            }
        }
    }

    /// One of a format's five words becomes this; those of the VCD are every
    /// format's.
    pub fn follow(&mut self, at: usize, format: u8, number: u32) {
        match at {
            0 | 1 => self.cp.vcd[at] = number,
            _ => self.cp.vat[usize::from(format)][at - 2] = number,
        }
    }

    /// Loads one of a format's five words.
    pub fn load_word(&mut self, at: usize, format: u8, number: u32) {
        self.cp_load((0x50 + 0x10 * at as u8) | format, number);
    }

    /// Loads all words that rule vertices, as they are: what follows means the same
    /// whatever came before.
    pub fn load_formats(&mut self) {
        let CpRegisters { vcd, vat, .. } = self.cp;
        for (at, number) in vcd.into_iter().enumerate() {
            self.load_word(at, 0, number);
        }
        for (format, groups) in (0..).zip(vat) {
            for (group, number) in groups.into_iter().enumerate() {
                self.load_word(2 + group, format, number);
            }
        }
    }

    fn add_cp_load(&mut self, random: &mut Random) {
        let low = random.u8() & 15;
        match random.below(9) {
            0 => self.cp_load(0x20, random.word()),
            1 => self.cp_load(random.pick(&[0x30, 0x40]) | low, random.word()),
            2 => self.cp_load(0xA0 | low, random.word()),
            3 => self.cp_load(0xB0 | low, random.word()),
            4 => {
                let vcd = good_vcd(random);
                self.cp_load(0x50 | low, vcd[0]);
                self.cp_load(0x60 | random.u8() & 15, vcd[1]);
            }
            _ => {
                let format = random.below(8) as u8;
                let vat = good_vat(random);
                let group = random.below(3) as u8;
                // One group at a time or all three.
                for each in 0..3 {
                    if each == group || random.once_in(2) {
                        self.cp_load((0x70 + 0x10 * each) | format, vat[each as usize]);
                    }
                }
            }
        }
    }

    pub fn add_xf_load(&mut self, random: &mut Random) {
        let words = random.between(1, 16);
        let highest = 4184 - words;
        let address = match random.below(4) {
            0 => highest,
            1 => 0,
            _ => random.below(highest + 1),
        };
        self.xf_load(random, words, address);
    }

    pub fn xf_load(&mut self, random: &mut Random, words: u32, address: u32) {
        // "16-bit XF lengths taken whole": high bits by chance.
        let high = if random.once_in(2) {
            random.u32() & 0xFFF0
        } else {
            0
        };
        let length = (words - 1) | high;
        let mut unit = bytes_of(&[0x10], &[length << 16 | address]);
        (0..words).for_each(|_| unit.extend(random.word().to_be_bytes()));
        self.units.push(unit);
    }

    /// One that changes no register: one byte, an indexed load, a list's call.
    pub fn add_without_effect(&mut self, random: &mut Random) {
        match random.below(4) {
            0 => self.units.push(vec![random.pick(&[0x00, 0x44, 0x48])]),
            1 | 2 => self.add_indexed_load(random),
            _ => self
                .units
                .push(bytes_of(&[0x40], &[random.word(), random.word()])),
        }
    }

    fn add_indexed_load(&mut self, random: &mut Random) {
        let opcode = random.pick(&[0x20, 0x28, 0x30, 0x38]);
        self.units
            .push(bytes_of(&[opcode], &[random.word() << 16 ^ random.u32()]));
    }

    pub fn add_bp_load(&mut self, random: &mut Random) {
        let register = match random.below(4) {
            0 => 0xFE,
            1 => random.pick(&[0x00, 0x41, 0xFD, 0xFF]),
            _ => random.u8(),
        };
        self.bp_load(register, random.word() & 0xFF_FFFF);
    }

    pub fn bp_load(&mut self, register: u8, number: u32) {
        self.units
            .push(bytes_of(&[0x61], &[u32::from(register) << 24 | number]));
    }

    fn add_draw(&mut self, random: &mut Random) {
        let format = random.u8() & 7;
        let count = match random.below(6) {
            0 => 0,
            1 => 1,
            2 => random.between(2, 40),
            _ => random.between(2, 6),
        };
        self.draw_of(random, format, count as u16);
    }

    /// A draw, where its format as the loads leave it is good.
    pub fn draw_of(&mut self, random: &mut Random, format: u8, count: u16) {
        if let Ok(layout) = layout(&self.cp.vertex_format(format)) {
            let head = 0x80 | random.u8() & 0x38 | format;
            self.draw(random, head, count, layout.length.into());
        }
    }

    pub fn draw(&mut self, random: &mut Random, head: u8, count: u16, length: usize) {
        self.units.push(vec![head, (count >> 8) as u8, count as u8]);
        for _ in 0..count {
            self.units.push(vertex_bytes(random, length));
        }
    }

    /// A unit that is refused, so the last of its stream.
    pub fn add_refused(&mut self, random: &mut Random) {
        match random.below(7) {
            0 => self.units.push(vec![bad_opcode(random)]),
            1 => self
                .units
                .push(bytes_of(&[0x08, bad_cp_address(random)], &[random.word()])),
            2 => {
                let words = random.between(1, 16);
                let lowest = 4184 - words + 1;
                let address = if random.once_in(2) {
                    lowest
                } else {
                    random.between(lowest, 65_535)
                };
                let length = (words - 1) | random.u32() & 0xFFF0;
                self.units
                    .push(bytes_of(&[0x10], &[length << 16 | address, random.u32()]));
            }
            3 => {
                self.cp_load(0x50, random.u32() & !0x600);
                self.units
                    .push(vec![0x80 | random.u8() & 0x3F, 0, 2, 1, 2, 3]);
            }
            4 => self.all_present_with_bad_format(random, 0x5555),
            5 => self.all_present_with_bad_format(random, 0xAAAA),
            _ => self.all_present_with_bad_format(random, 0xFFFF),
        }
    }

    /// Every attribute present, one in a format that is not good.
    fn all_present_with_bad_format(&mut self, random: &mut Random, textures: u32) {
        let format = random.u8() & 7;
        let vat = bad_vat(random);
        self.cp_load(0x50, textures << 9 | 0x1FF);
        self.cp_load(0x60, textures);
        for group in 0..3 {
            self.cp_load((0x70 + 0x10 * group) | format, vat[group as usize]);
        }
        self.units
            .push(vec![0x80 | random.u8() & 0x38 | format, 0, random.u8() & 1]);
    }
}

/// Often 68, the metrics opcode until document 02's L2.
pub fn bad_opcode(random: &mut Random) -> u8 {
    if random.once_in(4) {
        return 0x68;
    }
    loop {
        let opcode = random.u8();
        let good = matches!(opcode, 0x00 | 0x44 | 0x48 | 0x08 | 0x10 | 0x40 | 0x61)
            || matches!(opcode, 0x20 | 0x28 | 0x30 | 0x38 | 0x80..=0xBF);
        if !good {
            return opcode;
        }
    }
}

pub fn bad_cp_address(random: &mut Random) -> u8 {
    match random.below(5) {
        0 => random.pick(&[
            0x00, 0x1F, 0x21, 0x2F, 0x78, 0x7F, 0x88, 0x8F, 0x98, 0x9F, 0xC0, 0xFF,
        ]),
        1 => random.u8() & 0x1F,
        2 => 0x21 + random.below(15) as u8,
        3 => random.pick(&[0x70, 0x80, 0x90]) | 8 | random.u8() & 7,
        _ => 0xC0 | random.u8(),
    }
}
