//! The parts of a chain, and why a chain cannot go on with them.

use crate::{Memories, Refusal, Stage};
use std::{error, fmt};

/// All that a chain is made of: what [`Chain::into_parts`](crate::Chain::into_parts) hands out and
/// [`Chain::resumed`](crate::Chain::resumed) takes.
///
/// More may come to belong to a chain, so parts are built with [`Parts::new`].
#[derive(Clone, Debug, PartialEq)]
#[non_exhaustive]
pub struct Parts {
    /// The rate, in frames a second.
    pub rate: u32,
    /// The stages, in list order.
    pub stages: Vec<Stage>,
    /// The lines of reverbs and delays, in list order.
    pub store: Vec<f32>,
    /// What stages remember beside their lines.
    pub memories: Memories,
}

impl Parts {
    /// Puts parts together. They are checked by [`Chain::resumed`](crate::Chain::resumed).
    pub fn new(rate: u32, stages: Vec<Stage>, store: Vec<f32>, memories: Memories) -> Self {
        Parts { rate, stages, store, memories }
    }
}

/// Parts with which no chain can go on, and the reason.
#[derive(Clone, Debug, PartialEq)]
pub struct NotResumed {
    refusal: Refusal,
    parts: Parts,
}

impl NotResumed {
    pub(crate) fn new(refusal: Refusal, parts: Parts) -> Self {
        NotResumed { refusal, parts }
    }

    /// Why no chain can go on with these parts.
    pub fn refusal(&self) -> Refusal {
        self.refusal
    }

    /// Gives the parts back as they were. Nothing is copied.
    pub fn into_parts(self) -> Parts {
        self.parts
    }
}

impl fmt::Display for NotResumed {
    fn fmt(&self, f: &mut fmt::Formatter<'_>) -> fmt::Result {
        write!(f, "the chain cannot go on: {}", self.refusal)
    }
}

impl error::Error for NotResumed {}
