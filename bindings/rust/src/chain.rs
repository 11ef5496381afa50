//! A chain: stages, and what they hold between blocks.

use crate::{Block, Memories, NotResumed, NotSet, PROGRESS, Parts, Refusal, Stage};
use crate::{face, refusal, words};

/// Stages at a rate, with what they hold: their lines and their memories.
///
/// Only [`new`](Chain::new) and [`resumed`](Chain::resumed) allocate. What they accept stays sound, so a
/// block can only be refused for its own samples, progress or order.
#[derive(Clone, Debug)]
pub struct Chain {
    parts: Parts,
    /// Those of the stages, for the library.
    words: Vec<u64>,
}

impl Chain {
    /// Builds a chain at a fresh start, with a store of as many floats as it needs. Refusals 1 to 4 can come.
    pub fn new(rate: u32, stages: &[Stage]) -> Result<Self, Refusal> {
        let words = words::of_stages(stages);
        let store = vec![0.0; words::needed(rate, &words)?];
        let parts = Parts::new(rate, stages.to_vec(), store, Memories::default());
        Ok(Chain { parts, words })
    }

    /// Goes on with the parts of a chain, from wherever it stood. Refusals 1 to 6 can come, and the error
    /// then gives the parts back. The store may be longer than it needs to be: the floats past the needed
    /// ones never change.
    ///
    /// ```
    /// use sedhavil::{Chain, Stage};
    ///
    /// let echo = Stage::Delay { frames: 1, feedback: 0, mix: 1.0, owned: 0 };
    /// let mut chain = Chain::new(48_000, &[echo])?;
    /// chain.render(&mut [1.0, 1.0])?;
    /// let parts = chain.into_parts();
    ///
    /// let mut chain = Chain::resumed(parts)?;
    /// let mut samples = [0.0, 0.0];
    /// chain.render(&mut samples)?;
    /// assert_eq!(samples, [1.0, 1.0]);
    /// # Ok::<(), Box<dyn std::error::Error>>(())
    /// ```
    pub fn resumed(parts: Parts) -> Result<Self, NotResumed> {
        let words = words::of_stages(&parts.stages);
        let mut chain = Chain { parts, words };
        // to run no steps on no samples is refused exactly by checks 1 to 6
        match chain.run(&mut [], &mut [0; PROGRESS], &[]) {
            Ok(()) => Ok(chain),
            Err(refusal) => Err(NotResumed::new(refusal, chain.parts)),
        }
    }

    /// Takes the chain apart. Nothing is copied.
    pub fn into_parts(self) -> Parts {
        self.parts
    }

    /// The rate, in frames a second.
    pub fn rate(&self) -> u32 {
        self.parts.rate
    }

    /// The stages in list order, with their present settings.
    pub fn stages(&self) -> &[Stage] {
        &self.parts.stages
    }

    /// The lines of reverbs and delays, in list order.
    pub fn store(&self) -> &[f32] {
        &self.parts.store
    }

    /// What stages remember beside their lines.
    pub fn memories(&self) -> &Memories {
        &self.parts.memories
    }

    /// Makes a fresh start: clears the lines and the memories. Settings stay.
    pub fn reset(&mut self) {
        let Parts { rate, store, memories, .. } = &mut self.parts;
        let (positions, floats) = memories.lent();
        let answer = face::start(*rate, &self.words, positions, floats, store);
        refusal::answered(answer).expect("checks 1 to 5 were made when the chain was built");
    }

    /// Gives the stage at place `at` of the list other settings, from the next step on. Lines and memories
    /// stay, so what sounds goes on to sound.
    ///
    /// The stage must be of the same kind, and a delay keeps its `frames` and `owned`, since lines would
    /// move with these: see [`NotSet`]. A refused change changes nothing.
    ///
    /// ```
    /// use sedhavil::{Chain, NotSet, Refusal, Stage};
    ///
    /// let mut chain = Chain::new(48_000, &[Stage::VolumeControl { volume: 0 }])?;
    /// let mut samples = [0.5, 0.5];
    /// chain.render(&mut samples)?;
    /// assert_eq!(samples, [0.5, 0.5]);
    ///
    /// chain.set(0, Stage::VolumeControl { volume: 20 })?; // ten times as loud
    /// chain.render(&mut samples)?;
    /// assert_eq!(samples, [5.0, 5.0]);
    ///
    /// let refused = chain.set(0, Stage::VolumeControl { volume: 25 });
    /// assert_eq!(refused, Err(NotSet::Refused(Refusal::Setting(0))));
    /// # Ok::<(), Box<dyn std::error::Error>>(())
    /// ```
    pub fn set(&mut self, at: usize, stage: Stage) -> Result<(), NotSet> {
        let before = *self.parts.stages.get(at).ok_or(NotSet::NoStage)?;
        NotSet::unless_settings_only(before, stage)?;
        words::put(&mut self.words, at, stage);
        if let Err(refusal) = words::needed(self.parts.rate, &self.words) {
            words::put(&mut self.words, at, before);
            return Err(NotSet::Refused(refusal));
        }
        self.parts.stages[at] = stage;
        Ok(())
    }

    /// Renders a new block, left and right samples in turn: runs every stage to its last frame.
    pub fn render(&mut self, samples: &mut [f32]) -> Result<(), Refusal> {
        self.block(samples).render()
    }

    /// Begins a new block, at its first frame for every stage.
    pub fn block<'a>(&'a mut self, samples: &'a mut [f32]) -> Block<'a> {
        self.block_at(samples, [0; PROGRESS])
    }

    /// Goes on with a block that was begun, where its [`Block::progress`] left it. For anything else use
    /// [`block`](Chain::block) or [`render`](Chain::render): where the progress of a finished block is
    /// left over, a new block of that length counts as finished too, and nothing is run.
    pub fn block_at<'a>(&'a mut self, samples: &'a mut [f32], progress: [usize; PROGRESS]) -> Block<'a> {
        Block::new(self, samples, progress)
    }

    pub(crate) fn run(
        &mut self,
        samples: &mut [f32],
        progress: &mut [usize; PROGRESS],
        order: &[usize],
    ) -> Result<(), Refusal> {
        let Parts { rate, store, memories, .. } = &mut self.parts;
        let (positions, floats) = memories.lent();
        refusal::answered(face::run(*rate, &self.words, samples, positions, floats, store, progress, order))
    }

    pub(crate) fn finish(
        &mut self,
        samples: &mut [f32],
        progress: &mut [usize; PROGRESS],
    ) -> Result<(), Refusal> {
        let Parts { rate, store, memories, .. } = &mut self.parts;
        let (positions, floats) = memories.lent();
        refusal::answered(face::render(*rate, &self.words, samples, positions, floats, store, progress))
    }
}
