//! `Parity` with `flip` and the product, as in homotopy-graphics.
use std::{iter::Product, ops::Mul};

/// The orientation of an element, or of a step of a curve; in memory, the engine's word for it.
#[derive(Copy, Clone, Debug, PartialEq, Eq, Hash)]
#[repr(u32)]
pub enum Parity {
    /// Sign +.
    Even = 0,
    /// Sign -.
    Odd = 1,
}

impl From<bool> for Parity {
    fn from(is_even: bool) -> Self {
        if is_even {
            Self::Even
        } else {
            Self::Odd
        }
    }
}

impl Parity {
    /// The other one.
    #[must_use]
    pub const fn flip(self) -> Self {
        match self {
            Self::Even => Self::Odd,
            Self::Odd => Self::Even,
        }
    }

    /// Whether it is even.
    #[must_use]
    pub const fn is_even(self) -> bool {
        match self {
            Self::Even => true,
            Self::Odd => false,
        }
    }
}

/// Even when both are equal.
impl Mul for Parity {
    type Output = Self;

    fn mul(self, other: Self) -> Self {
        Self::from(self == other)
    }
}

impl Product for Parity {
    fn product<I: Iterator<Item = Self>>(parities: I) -> Self {
        parities.fold(Self::Even, Mul::mul)
    }
}

#[cfg(test)]
mod tests {
    use super::Parity::{self, Even, Odd};

    #[test]
    fn flip_and_product() {
        assert_eq!((Even.flip(), Odd.flip()), (Odd, Even));
        assert_eq!((Odd * Odd, Odd * Even), (Even, Odd));
        assert_eq!([Odd, Even, Odd, Odd].into_iter().product::<Parity>(), Odd);
    }
}
