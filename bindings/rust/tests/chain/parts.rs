//! Chains taken apart and resumed, or refused with their parts given back, and reset.

use crate::{UNIT, bits, busy, delay, held, rendered, uneven};
use sedhavil::{Chain, FLOATS, Memories, POSITIONS, Parts, Refusal, Stage, floats_needed};

/// Parts with a store of so many floats, and nothing remembered.
fn parts(rate: u32, stages: &[Stage], store: usize) -> Parts {
    Parts::new(rate, stages.to_vec(), vec![0.125; store], Memories::default())
}

/// Taken apart between blocks, with memories as they are or saved and brought back, a chain goes on as one
/// that never was.
#[test]
fn goes_on() {
    let mut whole = Chain::new(8_000, &busy()).unwrap();
    let mut apart = whole.clone();
    let mut saved = whole.clone();
    for frames in [5, 1, 400, 7] {
        let expected = rendered(&mut whole, uneven(frames));
        assert_eq!(rendered(&mut apart, uneven(frames)), expected);
        assert_eq!(rendered(&mut saved, uneven(frames)), expected);

        apart = Chain::resumed(apart.into_parts()).unwrap();
        let Parts { rate, stages, store, memories, .. } = saved.into_parts();
        let memories = Memories::from_parts(*memories.positions(), *memories.floats());
        saved = Chain::resumed(Parts::new(rate, stages, store, memories)).unwrap();
        assert_eq!(held(&apart), held(&whole));
        assert_eq!(held(&saved), held(&whole));
    }
    assert_ne!(whole.memories(), &Memories::default());
}

/// Neither taking apart nor resuming copies, and the parts are what the chain showed.
#[test]
fn without_copying() {
    let mut chain = Chain::new(8_000, &busy()).unwrap();
    chain.render(&mut uneven(9)).unwrap();
    let before = held(&chain);
    let (stages, store) = (chain.stages().as_ptr(), chain.store().as_ptr());
    let memories = (chain.memories().positions().as_ptr(), chain.memories().floats().as_ptr());

    let parts = chain.into_parts();
    assert_eq!((parts.stages.as_ptr(), parts.store.as_ptr()), (stages, store));
    assert_eq!((parts.memories.positions().as_ptr(), parts.memories.floats().as_ptr()), memories);
    assert_eq!((parts.rate, &parts.stages), (8_000, &busy()));

    let chain = Chain::resumed(parts).unwrap();
    assert_eq!((chain.stages().as_ptr(), chain.store().as_ptr()), (stages, store));
    assert_eq!((chain.memories().positions().as_ptr(), chain.memories().floats().as_ptr()), memories);
    assert_eq!(held(&chain), before);
}

/// The parts are refused so, and come back as they were.
fn refused(parts: Parts, refusal: Refusal, number: u32, place: usize) {
    let (before, store) = (parts.clone(), parts.store.as_ptr());
    let error = Chain::resumed(parts).unwrap_err();
    assert_eq!(error.refusal(), refusal);
    assert_eq!((refusal.number(), refusal.place()), (number, place));
    assert_eq!(error.to_string(), format!("the chain cannot go on: {refusal}"));
    let parts = error.into_parts();
    assert_eq!(parts, before);
    assert_eq!(parts.store.as_ptr(), store);
}

#[test]
fn refusals() {
    refused(parts(7_999, &busy(), 9_000), Refusal::Rate, 1, 0);
    refused(parts(192_001, &busy(), 9_000), Refusal::Rate, 1, 0);
    refused(parts(8_000, &[UNIT; 17], 0), Refusal::Stages, 2, 0);
    refused(parts(8_000, &[UNIT, delay(1, 1)], 2), Refusal::Shape(1), 3, 1);
    refused(parts(8_000, &[delay(1, 0), Stage::VolumeControl { volume: 25 }], 2), Refusal::Setting(1), 4, 1);
    refused(parts(8_000, &[delay(4, 0), UNIT], 7), Refusal::Store(8), 5, 8);
    let reverb = Stage::Reverb { feedback: 0.9, damping: 0.1, stereo_width: 1.0, mix: 0.5 };
    refused(parts(44_100, &[reverb], 25_449), Refusal::Store(25_450), 5, 25_450);
    // the first that applies
    refused(parts(7_999, &[UNIT; 17], 0), Refusal::Rate, 1, 0);
    refused(parts(8_000, &[delay(0, 1)], 0), Refusal::Shape(0), 3, 0);
}

/// A delay's position is below its frames, and a volume has none.
#[test]
fn positions() {
    let at = |position| {
        let memories = Memories::from_parts([position; POSITIONS], [0.0; FLOATS]);
        Parts::new(8_000, vec![UNIT, delay(5, 0)], vec![0.125; 10], memories)
    };
    let mut chain = Chain::resumed(at(4)).unwrap();
    assert_eq!(rendered(&mut chain, vec![1.0; 2]), bits(&[0.125; 2]));
    refused(at(5), Refusal::Position(1), 6, 1);
    refused(at(usize::MAX), Refusal::Position(1), 6, 1);
}

/// A store may be longer than it needs to be, and what lies past the lines never changes.
#[test]
fn long_store() {
    let mut chain = Chain::resumed(parts(8_000, &[delay(1, 0)], 3)).unwrap();
    chain.render(&mut [1.0; 4]).unwrap();
    assert_eq!(chain.store(), [2.125, 2.125, 0.125]);
    chain.reset();
    assert_eq!(chain.store(), [0.0, 0.0, 0.125]);
}

/// A reset leaves the chain as a new one.
#[test]
fn reset() {
    let mut chain = Chain::new(8_000, &busy()).unwrap();
    let (new, first) = (held(&chain), rendered(&mut chain.clone(), uneven(400)));
    assert_eq!(rendered(&mut chain, uneven(400)), first);
    assert_ne!(rendered(&mut chain, uneven(400)), first);
    chain.reset();
    assert_eq!(held(&chain), new);
    assert_eq!(chain.memories(), &Memories::default());
    assert_eq!(Ok(chain.store().len()), floats_needed(8_000, &busy()));
    assert_eq!(rendered(&mut chain, uneven(400)), first);
}
