//! Seeded chance: xoshiro256** started by splitmix64.

#[derive(Clone, Debug)]
pub struct Dice {
    state: [u64; 4],
}

fn splitmix(seed: &mut u64) -> u64 {
    *seed = seed.wrapping_add(0x9e37_79b9_7f4a_7c15);
    let mut mixed = *seed;
    mixed = (mixed ^ (mixed >> 30)).wrapping_mul(0xbf58_476d_1ce4_e5b9);
    mixed = (mixed ^ (mixed >> 27)).wrapping_mul(0x94d0_49bb_1331_11eb);
    mixed ^ (mixed >> 31)
}

impl Dice {
    pub fn new(seed: u64) -> Dice {
        let mut seed = seed;
        Dice { state: std::array::from_fn(|_| splitmix(&mut seed)) }
    }

    /// Dice of their own, so that rolls elsewhere don't shift these.
    pub fn fork(&mut self) -> Dice {
        Dice::new(self.roll())
    }

    pub fn roll(&mut self) -> u64 {
        let state = &mut self.state;
        let result = state[1].wrapping_mul(5).rotate_left(7).wrapping_mul(9);
        let shifted = state[1] << 17;
        state[2] ^= state[0];
        state[3] ^= state[1];
        state[1] ^= state[2];
        state[0] ^= state[3];
        state[2] ^= shifted;
        state[3] = state[3].rotate_left(45);
        result
    }

    pub fn word(&mut self) -> u32 {
        (self.roll() >> 32) as u32
    }

    pub fn byte(&mut self) -> u8 {
        (self.roll() >> 56) as u8
    }

    /// A number below `count`, or 0 when `count` is 0. The slight unevenness
    /// of the remainder does no harm here.
    pub fn below(&mut self, count: u32) -> u32 {
        match count {
            0 => 0,
            _ => (self.roll() >> 32) as u32 % count,
        }
    }

    /// A number from `low` to `high`, both included.
    pub fn from_to(&mut self, low: u32, high: u32) -> u32 {
        low + self.below(high.saturating_sub(low).saturating_add(1))
    }

    /// True `part` times in `whole`.
    pub fn chance(&mut self, part: u32, whole: u32) -> bool {
        self.below(whole) < part
    }

    pub fn index(&mut self, count: usize) -> usize {
        self.below(count as u32) as usize
    }

    /// One of several; the slice must not be empty.
    pub fn pick<T: Copy>(&mut self, of: &[T]) -> T {
        of[self.index(of.len())]
    }

    /// One of several by weight; nothing when all weights are 0.
    pub fn weighted<T: Copy>(&mut self, of: &[(u32, T)]) -> Option<T> {
        let mut left = self.below(of.iter().map(|(weight, _)| weight).sum());
        for (weight, item) in of {
            if left < *weight {
                return Some(*item);
            }
            left -= weight;
        }
        None
    }

    pub fn bytes(&mut self, count: usize) -> Vec<u8> {
        (0..count).map(|_| self.byte()).collect()
    }
}
