//! Blocks rendered whole, cut and step by step (P12), their refusals 7 to 11 (P13), and their progress.

use crate::{UNIT, bits, busy, delay, held, rendered, uneven};
use sedhavil::{Chain, FLOATS, Memories, POSITIONS, PROGRESS, Parts, Refusal, Stage};

const LOUDER: Stage = Stage::VolumeControl { volume: 20 };

/// A block that holds something everywhere, so that a change would show.
struct Case {
    chain: Chain,
    samples: Vec<f32>,
    progress: [usize; PROGRESS],
}

impl Case {
    fn new(stages: &[Stage], samples: Vec<f32>) -> Self {
        let memories = Memories::from_parts([0; POSITIONS], [0.5; FLOATS]);
        let parts = Parts::new(48_000, stages.to_vec(), vec![0.125; 100], memories);
        Case { chain: Chain::resumed(parts).unwrap(), samples, progress: [0; PROGRESS] }
    }

    fn run(&mut self, order: &[usize]) -> Result<(), Refusal> {
        let mut block = self.chain.block_at(&mut self.samples, self.progress);
        let answer = block.run(order);
        self.progress = block.progress();
        answer
    }

    /// Running by an order and, but for refusal 11, rendering are refused so, and change nothing.
    fn refused(mut self, order: &[usize], refusal: Refusal, number: u32, place: usize) {
        let before = (held(&self.chain), bits(&self.samples), self.progress);
        assert_eq!(self.run(order), Err(refusal));
        assert_eq!((refusal.number(), refusal.place()), (number, place));
        if number != 11 {
            let mut block = self.chain.block_at(&mut self.samples, self.progress);
            assert_eq!(block.render(), Err(refusal));
            assert_eq!(block.progress(), self.progress);
        }
        assert_eq!((held(&self.chain), bits(&self.samples), self.progress), before);
    }
}

#[test]
fn samples() {
    let block = |samples| Case::new(&[UNIT, delay(5, 0)], samples);
    block(vec![0.0; 3]).refused(&[0], Refusal::Samples, 7, 0);
    block(vec![0.0; 2 * 4_097]).refused(&[0], Refusal::Frames, 8, 0);
    assert_eq!(block(vec![0.0; 2 * 4_096]).run(&[0]), Ok(()));
    block(vec![0.0, 0.0, 0.0, f32::INFINITY]).refused(&[0], Refusal::Sample(3), 10, 3);

    let mut ahead = block(vec![0.25; 4]);
    ahead.progress[1] = 1;
    ahead.refused(&[0], Refusal::Progress(1), 9, 1);
    let mut past = block(vec![0.25; 4]);
    past.progress[0] = 3;
    past.refused(&[], Refusal::Progress(0), 9, 0);
}

/// P13: two stages, one frame.
#[test]
fn orders() {
    for stages in [[UNIT, UNIT], [delay(1, 0), UNIT]] {
        let block = || Case::new(&stages, vec![0.25; 2]);
        block().refused(&[1, 0], Refusal::Entry(0), 11, 0);
        block().refused(&[0, 1, 0], Refusal::Entry(2), 11, 2);
        block().refused(&[2], Refusal::Entry(0), 11, 0);
        let mut case = block();
        assert_eq!(case.run(&[0, 1]), Ok(()));
        assert_eq!(case.progress[..3], [1, 1, 0]);
    }
}

/// P12, whole, cut and step by step.
#[test]
fn echo() {
    let input = [1.0, 1.0, 0.0, 0.0, 0.0, 0.0];
    let output = [0.0, 0.0, 1.0, 1.0, 1.0, 1.0];
    let mut chain = Chain::new(48_000, &[delay(1, 0), UNIT]).unwrap();
    let mut samples = input;
    chain.render(&mut samples).unwrap();
    assert_eq!(samples, output);
    assert_eq!(chain.store(), [1.0, 1.0]);

    chain.reset();
    let mut samples = input;
    let (first, second) = samples.split_at_mut(2);
    chain.render(first).unwrap();
    chain.render(second).unwrap();
    assert_eq!(samples, output);

    chain.reset();
    let mut samples = input;
    let mut block = chain.block(&mut samples);
    assert_eq!(block.run(&[1, 0]), Err(Refusal::Entry(0)));
    block.run(&[0, 0]).unwrap();
    assert_eq!((block.samples(), &block.progress()[..2]), (&[0.0, 0.0, 1.0, 1.0, 0.0, 0.0][..], &[2, 0][..]));
    block.run(&[1, 0, 1, 1]).unwrap();
    assert_eq!(block.run(&[0]), Err(Refusal::Entry(0)));
    assert_eq!(samples, output);
}

/// Begun by an order, then finished from where it stands, be it in one block or in one that goes on.
#[test]
fn finished() {
    let mut whole = Chain::new(8_000, &busy()).unwrap();
    let expected = rendered(&mut whole, uneven(9));
    for go_on in [false, true] {
        let mut chain = Chain::new(8_000, &busy()).unwrap();
        let mut samples = uneven(9);
        let mut block = chain.block(&mut samples);
        block.run(&[0, 0, 1, 0, 1, 2, 0]).unwrap();
        assert_eq!(block.progress()[..3], [4, 2, 1]);
        if go_on {
            let progress = block.progress();
            block = chain.block_at(&mut samples, progress);
        }
        block.render().unwrap();
        assert_eq!(block.progress()[..3], [9; 3]);
        assert_eq!(bits(&samples), expected);
        assert_eq!(held(&chain), held(&whole));
    }
}

/// A new block renders after a finished one; with left-over progress it counts as finished.
#[test]
fn left_over() {
    let mut chain = Chain::new(48_000, &[LOUDER]).unwrap();
    let mut samples = [0.5; 4];
    let mut block = chain.block(&mut samples);
    block.render().unwrap();
    let progress = block.progress();
    assert_eq!((progress[0], block.samples()), (2, &[5.0; 4][..]));

    let mut samples = [0.25; 4];
    assert_eq!(chain.block_at(&mut samples, progress).render(), Ok(()));
    assert_eq!(samples, [0.25; 4]);
    assert_eq!(chain.block_at(&mut samples, progress).run(&[0]), Err(Refusal::Entry(0)));
    assert_eq!(chain.block(&mut samples).render(), Ok(()));
    assert_eq!(samples, [2.5; 4]);
    assert_eq!(chain.render(&mut samples), Ok(()));
    assert_eq!(samples, [25.0; 4]);
}

#[test]
fn empty() {
    let mut chain = Chain::new(8_000, &busy()).unwrap();
    chain.render(&mut uneven(9)).unwrap();
    let before = held(&chain);
    assert_eq!(chain.render(&mut []), Ok(()));
    assert_eq!(chain.block(&mut []).run(&[]), Ok(()));
    assert_eq!(chain.block(&mut [0.5; 2]).run(&[]), Ok(()));
    assert_eq!(chain.block(&mut []).run(&[0]), Err(Refusal::Entry(0)));
    assert_eq!(held(&chain), before);

    let mut none = Chain::new(8_000, &[]).unwrap();
    let mut samples = [0.5, f32::MIN_POSITIVE];
    assert_eq!(none.render(&mut samples), Ok(()));
    assert_eq!(samples, [0.5, f32::MIN_POSITIVE]);
    assert_eq!(none.block(&mut samples).run(&[0]), Err(Refusal::Entry(0)));
    assert_eq!(none.render(&mut [f32::NAN; 2]), Err(Refusal::Sample(0)));
}
