// A case and what must come of it, as the program `test_kira_answers` reads it: units of 16 bits, the low byte
// first. crates/test_kira_answers/src/case.rt says what stands where.
use crate::case::{Case, What};
use crate::common::bits32;
use crate::face::Held;
use crate::table::{ALL_FLOATS, ALL_POSITIONS, PLACES, Refusal};
use crate::words::WORDS;

// The most that the program has room for.
const SAMPLES: usize = 8_194;
const STORE: usize = 16_384;
const ENTRIES: usize = 256;
const ALL_WORDS: usize = 21 * WORDS;

// The largest unit stands for the largest number; those from it on have no unit.
pub const LARGEST: usize = 0xffff;

fn unit(number: usize) -> u16 {
    match number {
        usize::MAX => LARGEST as u16,
        _ => {
            assert!(number < LARGEST, "{number} is no unit");
            number as u16
        }
    }
}

fn put_long(units: &mut Vec<u16>, number: u64) {
    assert!(number <= u32::MAX as u64, "{number} is more than two units");
    units.extend([number as u16, (number >> 16) as u16]);
}

fn put_words(units: &mut Vec<u16>, words: &[u64]) {
    for (at, &word) in words.iter().enumerate() {
        if word != 0 {
            units.push(unit(at));
            units.extend((0..4).map(|i| (word >> (16 * i)) as u16));
        }
    }
}

// Numbers that differ from those before, each after its place.
fn put_numbers(units: &mut Vec<u16>, before: &[usize], after: &[usize]) {
    for (at, (before, &after)) in before.iter().zip(after).enumerate() {
        if *before != after {
            units.extend([unit(at), unit(after)]);
        }
    }
}

fn put_floats(units: &mut Vec<u16>, before: &[f32], after: &[f32]) {
    for (at, (&before, &after)) in before.iter().zip(after).enumerate() {
        if bits32(before) != bits32(after) {
            units.push(unit(at));
            put_long(units, bits32(after));
        }
    }
}

fn zeros(held: &Held) -> Held {
    Held {
        samples: vec![0.0; held.samples.len()],
        positions: vec![0; held.positions.len()],
        floats: vec![0.0; held.floats.len()],
        store: vec![0.0; held.store.len()],
        progress: vec![0; held.progress.len()],
    }
}

// A body and where its sections start.
#[derive(Default)]
struct Body {
    starts: Vec<usize>,
    units: Vec<u16>,
}

impl Body {
    fn section(&mut self, put: impl FnOnce(&mut Vec<u16>)) {
        self.starts.push(self.units.len());
        put(&mut self.units);
    }

    fn changes(&mut self, before: &Held, after: &Held) {
        self.section(|units| put_floats(units, &before.samples, &after.samples));
        self.section(|units| put_floats(units, &before.store, &after.store));
        self.section(|units| put_numbers(units, &before.positions, &after.positions));
        self.section(|units| put_floats(units, &before.floats, &after.floats));
        self.section(|units| put_numbers(units, &before.progress, &after.progress));
    }
}

// The function that a case calls first, by its number, with the order that it gets.
fn call_of(case: &Case) -> (u16, &[usize]) {
    match &case.calls[0].what {
        What::Run(order) => (0, order),
        What::Render => (1, &[]),
        What::Start => (2, &[]),
        What::FloatsNeeded => (3, &[]),
    }
}

// The lengths of what is lent, where there is room for all of it.
fn lengths(words: &[u64], held: &Held, order: &[usize]) -> Option<[usize; 7]> {
    let lengths = [
        words.len(),
        held.samples.len(),
        held.store.len(),
        held.positions.len(),
        held.floats.len(),
        held.progress.len(),
        order.len(),
    ];
    let most = [
        ALL_WORDS,
        SAMPLES,
        STORE,
        ALL_POSITIONS + 1,
        ALL_FLOATS + 1,
        PLACES + 1,
        ENTRIES,
    ];
    let fits = lengths
        .iter()
        .zip(most)
        .all(|(&length, most)| length <= most);
    fits.then_some(lengths)
}

// The first call of a case, with its answer and what it leaves, where there is room for it.
pub fn record(case: &Case, answer: Refusal, after: &Held) -> Option<Vec<u8>> {
    let (function, order) = call_of(case);
    let words = case.words();
    let lengths = lengths(&words, &case.held, order)?;
    let mut body = Body::default();
    body.section(|units| put_words(units, &words));
    body.changes(&zeros(&case.held), &case.held);
    body.section(|units| put_numbers(units, &vec![0; order.len()], order));
    body.changes(&case.held, after);
    body.section(|_| {});
    // table.rs has the floats needed as the place of an accepted call
    let is_room = matches!(case.calls[0].what, What::FloatsNeeded) && answer.number == 0;
    let (place, floats) = if is_room {
        (0, answer.place)
    } else {
        (answer.place, 0)
    };
    let mut units = vec![function];
    put_long(&mut units, case.rate as u64);
    units.extend(lengths.map(unit));
    units.push(unit(answer.number as usize));
    put_long(&mut units, place as u64);
    put_long(&mut units, floats as u64);
    units.extend(body.starts.iter().map(|&start| unit(start)));
    units.extend(body.units);
    Some(units.iter().flat_map(|unit| unit.to_le_bytes()).collect())
}
