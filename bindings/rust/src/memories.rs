//! What stages remember beside their lines.

use crate::{FLOATS, POSITIONS};

/// What stages remember beside their lines. The default is a fresh start, with everything at zero.
///
/// A host can save memories by their [`positions`](Memories::positions) and [`floats`](Memories::floats)
/// and bring them back with [`from_parts`](Memories::from_parts). Which entry belongs to which stage is not
/// promised and may change with [`LAYOUT_VERSION`](crate::LAYOUT_VERSION): save that number too.
///
/// They compare as floats do: -0 equals 0, and a NaN equals nothing.
#[derive(Clone, Debug, PartialEq)]
pub struct Memories {
    positions: Box<[usize; POSITIONS]>,
    floats: Box<[f32; FLOATS]>,
}

impl Memories {
    /// Brings back memories that were saved. Positions that are not on a stage's line are refused by
    /// [`Chain::resumed`](crate::Chain::resumed).
    pub fn from_parts(positions: [usize; POSITIONS], floats: [f32; FLOATS]) -> Self {
        Memories { positions: Box::new(positions), floats: Box::new(floats) }
    }

    /// The remembered positions on lines.
    pub fn positions(&self) -> &[usize; POSITIONS] {
        &self.positions
    }

    /// The remembered floats.
    pub fn floats(&self) -> &[f32; FLOATS] {
        &self.floats
    }

    pub(crate) fn lent(&mut self) -> (&mut [usize], &mut [f32]) {
        (self.positions.as_mut_slice(), self.floats.as_mut_slice())
    }
}

impl Default for Memories {
    fn default() -> Self {
        Memories::from_parts([0; POSITIONS], [0.0; FLOATS])
    }
}
