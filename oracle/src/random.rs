//! Vectors to try, from a seeded generator: the same ones in every run.
use reference::random::Rng;

/// splitmix64 (Steele, Lea and Flood, 2014), as the reference has it.
pub struct Random(Rng);

impl Random {
    pub fn new(seed: u64) -> Random {
        Random(Rng::new(seed))
    }

    fn next(&mut self) -> u64 {
        self.0.draw()
    }

    /// A vector of one of three shapes: any patterns; exponents within three of each other, from anywhere in the range; or with
    /// a special number in about half the places.
    pub fn vector<const N: usize>(&mut self) -> [f32; N] {
        match self.next() % 3 {
            0 => std::array::from_fn(|_| self.any()),
            1 => {
                let field = (self.next() % 252) as u32;
                std::array::from_fn(|_| self.near(field))
            }
            _ => std::array::from_fn(|_| {
                if self.next() % 2 == 0 {
                    self.special()
                } else {
                    self.any()
                }
            }),
        }
    }

    /// Any of the 2^32 patterns, NaNs too.
    fn any(&mut self) -> f32 {
        f32::from_bits(self.next() as u32)
    }

    /// A number with one of the four exponent fields from `field` on.
    fn near(&mut self, field: u32) -> f32 {
        let (bits, above) = (self.next() as u32, (self.next() % 4) as u32);
        f32::from_bits(bits & 0x807F_FFFF | (field + above) << 23)
    }

    fn special(&mut self) -> f32 {
        let size = [
            0.0,
            1.0,
            f32::INFINITY,
            f32::MAX,
            f32::MIN_POSITIVE,
            f32::from_bits(1),           // the least number above 0
            f32::from_bits(0x1A00_0000), // 2^-75, the largest whose square rounds to 0
            f32::from_bits(0x1A00_0001), // and the one after it
        ][(self.next() % 8) as usize];
        if self.next() % 2 == 0 {
            size
        } else {
            -size
        }
    }
}
