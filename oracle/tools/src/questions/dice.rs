//! Random numbers.

/// The random numbers of a stream (splitmix64).
pub struct Dice(u64);

impl Dice {
    /// Those of a seed and a name. The name counts by its hash (FNV-1a).
    pub fn new(seed: u64, name: &str) -> Dice {
        let hash = |hash: u64, byte| (hash ^ u64::from(byte)).wrapping_mul(0x0000_0100_0000_01B3);
        let name = name.bytes().fold(0xCBF2_9CE4_8422_2325, hash);
        Dice(Dice(seed).any() ^ name)
    }

    /// Any number.
    pub fn any(&mut self) -> u64 {
        self.0 = self.0.wrapping_add(0x9E37_79B9_7F4A_7C15);
        let z = (self.0 ^ (self.0 >> 30)).wrapping_mul(0xBF58_476D_1CE4_E5B9);
        let z = (z ^ (z >> 27)).wrapping_mul(0x94D0_49BB_1331_11EB);
        z ^ (z >> 31)
    }

    /// A number of `0..count`.
    pub fn below(&mut self, count: usize) -> usize {
        (self.any() % count as u64) as usize
    }

    /// True once in so many times.
    pub fn one_in(&mut self, times: usize) -> bool {
        self.below(times) == 0
    }

    /// One of these.
    pub fn pick<T: Copy>(&mut self, from: &[T]) -> T {
        from[self.below(from.len())]
    }

    /// A place in a list of this length: half of the time any, and else the first or the last.
    pub fn place(&mut self, length: usize) -> usize {
        match self.below(4) {
            0 => 0,
            1 => length - 1,
            _ => self.below(length),
        }
    }

    /// So many bytes.
    pub fn bytes(&mut self, count: usize) -> Vec<u8> {
        (0..count).map(|_| self.any() as u8).collect()
    }

    /// The length of a list: mostly up to `few`, seldom up to `most`, and now and then just that.
    pub fn length(&mut self, few: usize, most: usize) -> usize {
        match self.below(64) {
            0 => most,
            1..3 => self.below(most + 1),
            3..9 => self.below(most.min(8 * few) + 1),
            _ => self.below(few + 1),
        }
    }

    /// A number of so many bytes: half of the time any, and half of the time one at which mistakes
    /// show.
    pub fn number(&mut self, bytes: usize) -> u64 {
        let ones = u64::MAX >> (64 - 8 * bytes);
        let number = match self.below(14) {
            0 => 0,
            1 => 1,
            2 => ones,
            3 => ones - 1,
            4 => ones - ones / 2,
            5 => 0x0102_0304_0506_0708,
            6 => 0x8070_6050_4030_2010,
            _ => self.any(),
        };
        number & ones
    }

    /// A number of one byte.
    pub fn byte(&mut self) -> u8 {
        self.number(1) as u8
    }
}
