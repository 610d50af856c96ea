//! A small generator of numbers, the same for the same seed on every machine.

#[derive(Clone)]
pub struct Random(u64);

impl Random {
    pub fn new(seed: u64) -> Random {
        Random(seed)
    }

    /// splitmix64
    pub fn wide(&mut self) -> u64 {
        self.0 = self.0.wrapping_add(0x9e37_79b9_7f4a_7c15);
        let mut x = self.0;
        x = (x ^ x >> 30).wrapping_mul(0xbf58_476d_1ce4_e5b9);
        x = (x ^ x >> 27).wrapping_mul(0x94d0_49bb_1331_11eb);
        x ^ x >> 31
    }

    pub fn word(&mut self) -> u32 {
        (self.wide() >> 32) as u32
    }

    /// A number below `limit`, which is not 0.
    pub fn below(&mut self, limit: u32) -> u32 {
        ((u64::from(self.word()) * u64::from(limit)) >> 32) as u32
    }

    /// A number from `low` to `high`, both included.
    pub fn from_to(&mut self, low: u32, high: u32) -> u32 {
        low + self.below(high - low + 1)
    }

    /// True in `percent` of a hundred cases.
    pub fn chance(&mut self, percent: u32) -> bool {
        self.below(100) < percent
    }

    pub fn pick<T: Copy>(&mut self, list: &[T]) -> T {
        list[self.below(list.len() as u32) as usize]
    }

    /// A number that is likely to lie at an edge of something.
    pub fn odd(&mut self) -> u32 {
        const EDGES: [u32; 44] = [
            0,
            1,
            2,
            3,
            4,
            5,
            6,
            7,
            8,
            9,
            12,
            15,
            16,
            17,
            24,
            31,
            32,
            33,
            48,
            63,
            64,
            65,
            100,
            127,
            128,
            129,
            255,
            256,
            288,
            512,
            1023,
            1024,
            1025,
            2048,
            32767,
            32768,
            32769,
            65535,
            65536,
            65542,
            0x7f_ffff,
            0x80_0000,
            0x8000_0000,
            u32::MAX,
        ];
        match self.below(8) {
            0 => self.word(),
            1 => 1 << self.below(32),
            2 => (1u32 << self.below(32)).wrapping_sub(1),
            _ => self.pick(&EDGES),
        }
    }
}
