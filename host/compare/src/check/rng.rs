//! Random numbers from a seed (splitmix64), so that a case can be made again from its seed and its number.

pub struct Rng {
    state: u64,
}

impl Rng {
    /// The numbers for one case of one call.
    pub fn of(seed: u64, call: &str, case: u64) -> Self {
        let name = call.bytes().fold(0xcbf2_9ce4_8422_2325, |hash: u64, byte| {
            (hash ^ u64::from(byte)).wrapping_mul(0x0100_0000_01b3)
        });
        let mut rng = Self { state: seed };
        rng.state ^= rng.bits() ^ name;
        rng.state ^= rng.bits().wrapping_add(case);
        rng
    }

    /// The next 64 bits.
    pub fn bits(&mut self) -> u64 {
        self.state = self.state.wrapping_add(0x9e37_79b9_7f4a_7c15);
        let mut z = self.state;
        z = (z ^ (z >> 30)).wrapping_mul(0xbf58_476d_1ce4_e5b9);
        z = (z ^ (z >> 27)).wrapping_mul(0x94d0_49bb_1331_11eb);
        z ^ (z >> 31)
    }

    /// A number below `end`, which is above 0.
    pub fn below(&mut self, end: usize) -> usize {
        ((u128::from(self.bits()) * end as u128) >> 64) as usize
    }

    /// A number of `low..=high`.
    pub fn between(&mut self, low: i64, high: i64) -> i64 {
        low + self.below((high - low + 1) as usize) as i64
    }

    /// True once in `of` times.
    pub fn once_in(&mut self, of: usize) -> bool {
        self.below(of) == 0
    }

    pub fn pick<T: Copy>(&mut self, list: &[T]) -> T {
        list[self.below(list.len())]
    }

    /// A float of 0 to 1.
    pub fn unit(&mut self) -> f32 {
        self.below(1 << 24) as f32 / ((1 << 24) - 1) as f32
    }

    /// A float of any bits: NaN, infinities and subnormals among them.
    pub fn any_float(&mut self) -> f32 {
        match self.below(8) {
            0 => f32::from_bits(self.pick(&ODD_FLOATS)),
            1 => f32::from_bits(self.bits() as u32 & 0x807f_ffff),
            _ => f32::from_bits(self.bits() as u32),
        }
    }

    pub fn bytes(&mut self, length: usize) -> Vec<u8> {
        let mut made = vec![0; length];
        for chunk in made.chunks_mut(8) {
            chunk.copy_from_slice(&self.bits().to_le_bytes()[..chunk.len()]);
        }
        made
    }
}

/// Zeros, ones, limits, infinities and NaNs of every kind.
const ODD_FLOATS: [u32; 16] = [
    0x0000_0000,
    0x8000_0000,
    0x0000_0001,
    0x8000_0001,
    0x007f_ffff,
    0x0080_0000,
    0x3f80_0000,
    0xbf80_0000,
    0x7f7f_ffff,
    0xff7f_ffff,
    0x7f80_0000,
    0xff80_0000,
    0x7fc0_0000,
    0xffc0_0000,
    0x7f80_0001,
    0xffff_ffff,
];
