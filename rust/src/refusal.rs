//! Why something was refused.
use std::{error::Error, fmt};

/// Document 01's refusals, 1 to 10. [`number`](Self::number) gives the number, `Display` the number and a plain sentence.
///
/// Refusals 1 to 9 change nothing, and neither does 10 from reading, triangulation or normals. A refinement that ends with 10 leaves the
/// mesh after its whole passes.
#[derive(Copy, Clone, Debug, PartialEq, Eq, Hash)]
#[non_exhaustive]
pub enum Refusal {
    /// 1: the file's version byte is not 1.
    Version,
    /// 2: the file's kind byte is neither 0, cubes, nor 1, simplices.
    Kind,
    /// 3: the file ends early.
    EndsEarly,
    /// 4: the file has bytes left over.
    LeftOver,
    /// 5: a flag byte is above 15, or a parity or smooth_time byte above 1. A geometry has no such byte: it is refused in a file.
    Byte,
    /// 6: a coordinate is not a finite number from -1,024 to 1,024.
    Coordinate,
    /// 7: a vertex number is not below the vertex count.
    Vertex,
    /// 8: a curve is without vertices.
    EmptyCurve,
    /// 9: lists don't fit together. A geometry's lists are lent by this crate, so it is refused for one thing alone: a curve whose parities
    /// are not one fewer than its vertices.
    Lists,
    /// 10: a list, or the midpoint book, would have more than 1,048,576 entries.
    Full {
        /// The whole passes of the refinement, whose mesh is left; 0 where none was begun.
        passes: u8,
    },
}

impl Refusal {
    /// Document 01's number.
    #[must_use]
    pub const fn number(self) -> u8 {
        match self {
            Self::Version => 1,
            Self::Kind => 2,
            Self::EndsEarly => 3,
            Self::LeftOver => 4,
            Self::Byte => 5,
            Self::Coordinate => 6,
            Self::Vertex => 7,
            Self::EmptyCurve => 8,
            Self::Lists => 9,
            Self::Full { .. } => 10,
        }
    }

    /// What the engine's number means: 0 is no refusal.
    pub(crate) fn judged(number: u8, passes: usize) -> Result<(), Self> {
        Err(match number {
            0 => return Ok(()),
            1 => Self::Version,
            2 => Self::Kind,
            3 => Self::EndsEarly,
            4 => Self::LeftOver,
            5 => Self::Byte,
            6 => Self::Coordinate,
            7 => Self::Vertex,
            8 => Self::EmptyCurve,
            9 => Self::Lists,
            10 => Self::Full {
                // No more than the depth, which is a byte.
                passes: passes as u8,
            },
            _ => unreachable!("the engine is proved to refuse by 1 to 10"),
        })
    }
}

impl fmt::Display for Refusal {
    fn fmt(&self, f: &mut fmt::Formatter) -> fmt::Result {
        let sentence = match self {
            Self::Version => "the file's version byte is not 1",
            Self::Kind => "the file's kind byte is neither 0 (cubes) nor 1 (simplices)",
            Self::EndsEarly => "the file ends early",
            Self::LeftOver => "the file has bytes left over",
            Self::Byte => "a flag byte is above 15, or a parity or smooth_time byte above 1",
            Self::Coordinate => "a coordinate is not a finite number from -1,024 to 1,024",
            Self::Vertex => "a vertex number is not below the vertex count",
            Self::EmptyCurve => "a curve is without vertices",
            Self::Lists => {
                "lists don't fit together: a curve's parities are not one fewer than its vertices"
            }
            Self::Full { .. } => {
                "a list or the midpoint book would have more than 1,048,576 entries"
            }
        };
        write!(f, "refused by {}: {sentence}", self.number())?;
        if let Self::Full {
            passes: passes @ 1..,
        } = self
        {
            write!(f, "; the mesh after {passes} whole passes is left")?;
        }
        Ok(())
    }
}

impl Error for Refusal {}
