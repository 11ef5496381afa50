// Compares whole chains, run by the library `sedhavil`, with kira's own source and document 01's table
// of refusals: bit for bit, with every NaN counted as one. `compare/run` builds and runs it; README.md
// says more.
//
//   chains [SEED [ROUNDS]]   a line for each part: how many cases, and how many of them differ
//
// Equal seeds give equal cases; each further round draws new ones. A case that differs is printed as
// small as it could be made.
mod case;
mod common;
mod directed;
mod drawn;
mod edges;
mod exact;
mod expected;
mod face;
mod fed;
mod inputs;
mod judge;
mod kira_chain;
#[allow(dead_code)]
mod linked;
mod listed;
mod panics;
mod rates;
#[allow(dead_code)]
mod regrouped;
mod shrink;
mod small;
mod smaller;
mod spoilt;
mod stage;
mod table;
mod tally;
mod words;

use case::Case;
use common::Random;
use judge::{Seen, judge};
use rates::Rates;
use std::fmt::Display;
use std::hint::black_box;
use std::process::ExitCode;
use tally::Tally;

const SEED: u64 = 0x5ed1_0100;

// Cases of a round.
const CHAINS: u64 = 20_000;
const CALLS: u64 = 1_000_000;

// That kira is fed our amplitudes, as effects.rs looks at more closely.
fn compare_fed() -> bool {
    let mut tally = Tally::new("fed to kira", "numbers");
    let kira = kira::Decibels(black_box(-57.0)).as_amplitude();
    tally.check(kira.to_bits() == 0x3ab9_24e5, || {
        format!("-57 dB: kira has {:#x}", kira.to_bits())
    });
    tally.close()
}

fn compare_cases(
    name: &str,
    unit: &'static str,
    count: u64,
    seen: &mut Seen,
    mut draw: impl FnMut() -> Case,
) -> bool {
    let mut tally = Tally::new(name, unit);
    for _ in 0..count {
        let case = draw();
        let judged = judge(&case, seen);
        tally.check(judged.is_ok(), || shrink::report(&case));
    }
    tally.close()
}

// The cases that the program `test_kira_answers` has too, with all that they hold.
fn compare_listed(seen: &mut Seen) -> bool {
    let mut listed = edges::cases(&mut Random(SEED));
    listed.extend(exact::cases());
    let (count, mut listed) = (listed.len() as u64, listed.into_iter());
    compare_cases("listed cases", "calls", count, seen, || {
        listed.next().expect("as many as were counted")
    })
}

fn compare_round(seed: u64, rates: &Rates, seen: &mut Seen) -> bool {
    println!("seed {seed:#x}");
    // from 0 only zeros would come
    let random = &mut Random(fed::scrambled(seed).max(1));
    let refused = seen.refused();
    let mut same = compare_cases("random chains", "chains", CHAINS, seen, || {
        drawn::case(random, rates)
    });
    if seen.refused() > refused {
        println!("a random chain was drawn that is refused");
        same = false;
    }
    same & compare_cases("random calls", "calls", CALLS, seen, || {
        spoilt::case(random, rates)
    })
}

// Each with its name, in a row.
fn counts<N: Display>(names: impl IntoIterator<Item = N>, counts: &[u64]) -> String {
    let each = names.into_iter().zip(counts);
    let each: Vec<String> = each
        .map(|(name, count)| format!("{name}: {count}"))
        .collect();
    each.join(", ")
}

fn print_seen(seen: &Seen) {
    println!(
        "accepted: {} calls, {} steps of top stages; compared with kira's, with all that they left: {} steps, \
         {} numbers",
        seen.answers[0], seen.steps, seen.steps_held, seen.numbers
    );
    let kinds = [
        "volume",
        "panning",
        "distortion",
        "filter",
        "EQ",
        "reverb",
        "delay",
    ];
    println!(
        "of a stage, on top or in a delay: {}",
        counts(kinds, &seen.by_kind)
    );
    println!("at depth {}", counts(0.., &seen.by_depth));
    println!(
        "refused: {} calls, by number {}, {}",
        seen.refused(),
        counts(1.., &seen.answers[1..]),
        counts(101.., &seen.flat)
    );
}

fn compare(seed: u64, rounds: u64) -> bool {
    let mut same = compare_fed();
    same &= panics::compare();
    let (rates, is_told) = Rates::compare();
    if !is_told {
        // a chain could not be laid out as kira lays it out
        return false;
    }
    let seen = &mut Seen::default();
    same &= compare_listed(seen);
    same &= small::shapes(seen);
    same &= small::orders(seen);
    for round in 0..rounds {
        same &= compare_round(seed.wrapping_add(round), &rates, seen);
    }
    print_seen(seen);
    same
}

fn number(text: &str) -> Option<u64> {
    match text.strip_prefix("0x") {
        Some(digits) => u64::from_str_radix(digits, 16).ok(),
        None => text.parse().ok(),
    }
}

fn main() -> ExitCode {
    let arguments: Vec<String> = std::env::args().skip(1).collect();
    let numbers: Option<Vec<u64>> = arguments.iter().map(|text| number(text)).collect();
    let (seed, rounds) = match numbers.as_deref() {
        Some([]) => (SEED, 1),
        Some(&[seed]) => (seed, 1),
        Some(&[seed, rounds]) => (seed, rounds),
        _ => {
            eprintln!("chains [SEED [ROUNDS]]");
            return ExitCode::from(2);
        }
    };
    let same = compare(seed, rounds);
    ExitCode::from(u8::from(!same))
}
