//! Random values from a seed, with the edges of each sort more often than chance would have them.

use oracle::image::Time;

/// splitmix64.
pub struct Random(u64);

impl Random {
    pub fn new(seed: u64) -> Random {
        Random(seed)
    }

    pub fn bits(&mut self) -> u64 {
        self.0 = self.0.wrapping_add(0x9e37_79b9_7f4a_7c15);
        let mut z = self.0;
        z = (z ^ (z >> 30)).wrapping_mul(0xbf58_476d_1ce4_e5b9);
        z = (z ^ (z >> 27)).wrapping_mul(0x94d0_49bb_1331_11eb);
        z ^ (z >> 31)
    }

    pub fn below(&mut self, n: u64) -> u64 {
        self.bits() % n
    }

    pub fn chance(&mut self, of: u64) -> bool {
        self.below(of) == 0
    }

    pub fn pick<T: Copy>(&mut self, items: &[T]) -> T {
        items[self.below(items.len() as u64) as usize]
    }

    pub fn option<T>(&mut self, of: u64, item: impl FnOnce(&mut Self) -> T) -> Option<T> {
        self.chance(of).then(|| item(self))
    }

    /// A number of up to `bits` bits: small, at an edge of its length in bytes, at the limit, or any.
    pub fn number(&mut self, bits: u32) -> u64 {
        let most = u64::MAX >> (64 - bits);
        match self.below(8) {
            0..=3 => self.below(4),
            4 => self.below(1000),
            5 => {
                let edge = 1u64 << (7 * (1 + self.below(9)));
                edge.wrapping_sub(self.below(2)).min(most)
            }
            6 => most - self.below(2),
            _ => self.bits() & most,
        }
    }

    pub fn number32(&mut self) -> u32 {
        self.number(32) as u32
    }

    pub fn mode(&mut self) -> u32 {
        match self.below(4) {
            0 => self.number32(),
            1 => self.pick(&[0o644, 0o755, 0o777, 0o7777, 0o10000, 0o100_644, 0o120_777]),
            _ => self.below(0o1000) as u32,
        }
    }

    pub fn time(&mut self) -> Time {
        let seconds = match self.below(8) {
            0..=3 => self.below(5) as i64 - 2,
            4 => self.pick(&[63, 64, -64, -65, 8191, 8192, -8192, -8193]),
            5 => self.pick(&[i64::MIN, i64::MIN + 1, i64::MAX, i64::MAX - 1]),
            6 => self.bits() as i64,
            _ => 1_700_000_000 + self.below(1000) as i64,
        };
        let nanos = match self.below(4) {
            0 | 1 => 0,
            2 => self.pick(&[1, 127, 128, 500_000_000, 999_999_998, 999_999_999]),
            _ => self.below(1_000_000_000) as u32,
        };
        Time { seconds, nanos }
    }

    /// A time as an argument: now and then with too many nanoseconds.
    pub fn given_time(&mut self) -> Time {
        let time = self.time();
        match self.below(24) {
            0 => Time { nanos: 1_000_000_000, ..time },
            1 => Time { nanos: self.pick(&[1_000_000_001, u32::MAX]), ..time },
            _ => time,
        }
    }
}
