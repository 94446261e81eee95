//! The one source of chance: a seeded generator (splitmix64).

pub struct Random {
    state: u64,
}

impl Random {
    pub fn new(seed: u64) -> Random {
        Random { state: seed }
    }

    pub fn u64(&mut self) -> u64 {
        self.state = self.state.wrapping_add(0x9E37_79B9_7F4A_7C15);
        let mut mixed = self.state;
        mixed = (mixed ^ mixed >> 30).wrapping_mul(0xBF58_476D_1CE4_E5B9);
        mixed = (mixed ^ mixed >> 27).wrapping_mul(0x94D0_49BB_1331_11EB);
        mixed ^ mixed >> 31
    }

    pub fn u8(&mut self) -> u8 {
        self.u64() as u8
    }

    pub fn u16(&mut self) -> u16 {
        self.u64() as u16
    }

    pub fn u32(&mut self) -> u32 {
        self.u64() as u32
    }

    /// 0 to n minus 1.
    pub fn below(&mut self, n: u32) -> u32 {
        (self.u64() % u64::from(n)) as u32
    }

    /// Both ends included.
    pub fn between(&mut self, low: u32, high: u32) -> u32 {
        low + self.below(high - low + 1)
    }

    /// Once in n times.
    pub fn once_in(&mut self, n: u32) -> bool {
        self.below(n) == 0
    }

    pub fn pick<T: Copy>(&mut self, from: &[T]) -> T {
        from[self.below(from.len() as u32) as usize]
    }

    pub fn bytes(&mut self, count: usize) -> Vec<u8> {
        let mut bytes = vec![0; count];
        for eight in bytes.chunks_mut(8) {
            let length = eight.len();
            eight.copy_from_slice(&self.u64().to_le_bytes()[..length]);
        }
        bytes
    }

    pub fn words(&mut self, count: usize) -> Vec<u32> {
        (0..count).map(|_| self.u32()).collect()
    }

    pub fn array<const N: usize>(&mut self) -> [u32; N] {
        std::array::from_fn(|_| self.u32())
    }

    /// A word that is often at some edge.
    pub fn word(&mut self) -> u32 {
        match self.below(6) {
            0 => self.pick(&[0, 1, 0xFF, 0x100, 0xFFFF, 0x1_0000, 0xFF_FFFF, 0x100_0000]),
            1 => self.pick(&[0x3FF_FFFF, 0x400_0000, 0x7FFF_FFFF, 0x8000_0000, u32::MAX]),
            2 => 1 << self.below(32),
            3 => self.below(0x100),
            _ => self.u32(),
        }
    }

    /// A pattern of an f32 that is often at some edge: zeros, subnormals,
    /// infinities, NaNs quiet and signalling.
    pub fn float_pattern(&mut self) -> u32 {
        match self.below(4) {
            0 => self.pick(&[
                0,
                0x8000_0000,
                1,
                0x8000_0001,
                0x007F_FFFF,
                0x0080_0000,
                0x3F80_0000,
                0x7F7F_FFFF,
                0x7F80_0000,
                0xFF80_0000,
                0x7F80_0001,
                0xFF80_0001,
                0x7FC0_0000,
                0xFFC0_0000,
                0x7FBF_FFFF,
                0xFFFF_FFFF,
            ]),
            _ => self.u32(),
        }
    }
}
