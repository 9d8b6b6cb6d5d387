//! A small deterministic source of numbers (splitmix64), and the numbers worth trying.

pub struct Random(u64);

/// How large amounts are.
#[derive(Debug, Clone, Copy, PartialEq, Eq)]
pub enum Size {
    Small,
    /// Amounts as programmes have them, none below zero.
    Real,
    /// Any count of bits, either sign.
    Wide,
    /// The ends of 64 bits, and where floats begin to round.
    Ends,
    Mixed,
}

impl Random {
    pub fn new(seed: u64) -> Random {
        let mut random = Random(seed);
        random.number();
        random
    }

    pub fn number(&mut self) -> u64 {
        self.0 = self.0.wrapping_add(0x9e37_79b9_7f4a_7c15);
        let mut z = self.0;
        z = (z ^ (z >> 30)).wrapping_mul(0xbf58_476d_1ce4_e5b9);
        z = (z ^ (z >> 27)).wrapping_mul(0x94d0_49bb_1331_11eb);
        z ^ (z >> 31)
    }

    /// A number below `bound`, which is above 0.
    pub fn below(&mut self, bound: u64) -> u64 {
        ((u128::from(self.number()) * u128::from(bound)) >> 64) as u64
    }

    /// A number from `low` to `high`.
    pub fn within(&mut self, low: u64, high: u64) -> u64 {
        low + self.below(high - low + 1)
    }

    /// A signed number from `low` to `high`.
    pub fn signed_within(&mut self, low: i64, high: i64) -> i64 {
        low.wrapping_add(self.below(high.wrapping_sub(low) as u64 + 1) as i64)
    }

    /// True once in `times`.
    pub fn one_in(&mut self, times: u64) -> bool {
        self.below(times) == 0
    }

    pub fn pick<T: Copy>(&mut self, from: &[T]) -> T {
        from[self.below(from.len() as u64) as usize]
    }

    /// A number of any count of bits.
    pub fn wide(&mut self) -> u64 {
        let bits = self.below(65);
        if bits == 0 { 0 } else { self.number() >> (64 - bits) }
    }

    /// An amount of the given size.
    pub fn amount(&mut self, size: Size) -> i64 {
        match size {
            Size::Small => self.signed_within(-20, 20),
            Size::Real => self.signed_within(0, 5_000_000),
            Size::Wide => {
                let magnitude = (self.wide() >> 1) as i64;
                if self.one_in(2) { -magnitude } else { magnitude }
            }
            Size::Ends => self.near_an_end(),
            Size::Mixed => {
                let size = self.pick(&[Size::Small, Size::Real, Size::Wide, Size::Ends]);
                self.amount(size)
            }
        }
    }

    /// A number near an end of 64 bits, a power of two or ten, or a limit of the floats.
    fn near_an_end(&mut self) -> i64 {
        let centre = match self.below(6) {
            0 => i64::MAX,
            1 => i64::MIN,
            2 => 1i64.wrapping_shl(self.below(64) as u32),
            3 => 10i64.pow(self.below(19) as u32),
            4 => {
                self.pick(&[9_000_000_000_000_000, 1 << 53, 1 << 54, i64::MAX / 100, i64::MAX / 2])
            }
            _ => 0,
        };
        let near = centre.saturating_add(self.signed_within(-3, 3));
        if self.one_in(3) { near.wrapping_neg() } else { near }
    }
}
