//! A block of samples on its way through a chain.

use crate::{Chain, PROGRESS, Refusal};

/// A block of samples on its way through a [`Chain`].
///
/// ```
/// use sedhavil::{Chain, Stage};
///
/// let unit = Stage::VolumeControl { volume: 0 };
/// let mut chain = Chain::new(48_000, &[unit, unit])?;
/// let mut samples = [0.5; 4];
/// let mut block = chain.block(&mut samples);
/// block.run(&[0, 0, 1])?; // stage 0 runs both frames, stage 1 the first
/// assert_eq!(block.progress()[..2], [2, 1]);
/// block.render()?; // and what is left
/// assert_eq!(block.progress()[..2], [2, 2]);
/// # Ok::<(), sedhavil::Refusal>(())
/// ```
#[derive(Debug)]
pub struct Block<'a> {
    chain: &'a mut Chain,
    samples: &'a mut [f32],
    progress: [usize; PROGRESS],
}

impl<'a> Block<'a> {
    pub(crate) fn new(chain: &'a mut Chain, samples: &'a mut [f32], progress: [usize; PROGRESS]) -> Self {
        Block { chain, samples, progress }
    }

    /// The samples as they stand, left and right in turn.
    pub fn samples(&self) -> &[f32] {
        self.samples
    }

    /// How many frames of this block each top stage has run. Top stages are those that no delay owns, and
    /// they are counted from 0.
    pub fn progress(&self) -> [usize; PROGRESS] {
        self.progress
    }

    /// Runs single steps. Each entry of the order names a top stage and runs it on its next frame, which
    /// the top stage before it must have run. An order need not finish the block, and a refused order
    /// runs nothing. Refusals 7 to 11 can come.
    pub fn run(&mut self, order: &[usize]) -> Result<(), Refusal> {
        self.chain.run(self.samples, &mut self.progress, order)
    }

    /// Runs every stage to the last frame, from wherever the block stands. This leaves what any order
    /// leaves that finishes the block. Refusals 7 to 10 can come.
    pub fn render(&mut self) -> Result<(), Refusal> {
        self.chain.finish(self.samples, &mut self.progress)
    }
}
