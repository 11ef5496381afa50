// Writes the list of answers that the program `test_kira_answers` is run on, and what it must print. What
// an accepted call leaves is what kira's own effects leave, and answers are those of table.rs and words.rs.
// Nothing in the list comes from the code that is tested, except the amplitudes that kira is fed (fed.rs).
// After the honest records come spoilt ones, which must be found to differ.
//
//   answers STDIN STDOUT   the two files; the same at every run
//
// What it shares with chains.rs it uses only in part.
#![allow(dead_code)]
mod case;
mod common;
mod control;
mod directed;
mod drawn;
mod edges;
mod exact;
mod expected;
mod face;
mod fed;
mod inputs;
mod kira_chain;
mod linked;
mod listed;
mod rates;
mod record;
mod regrouped;
mod spoilt;
mod stage;
mod table;
mod tally;
mod thin;
mod words;

use case::{Case, Listed, What};
use common::Random;
use expected::{ACCEPTED, clear, perform, told};
use face::Held;
use kira_chain::KiraChain;
use rates::Rates;
use record::record;
use std::fs;
use std::process::ExitCode;
use table::Refusal;
use thin::thin;

const SEED: u64 = 0x5ed1_0300;

// Of the words that words.rs reads.
const LAYOUT_VERSION: u32 = 1;

// Random cases beside the listed ones: accepted ones, and of each refusal.
const RANDOM: u64 = 500;
const OF_EACH: u64 = 60;

// The numbers that answers have.
const NUMBERS: [u32; 14] = [0, 1, 2, 3, 4, 5, 6, 7, 8, 9, 10, 11, 101, 102];

// A random case with a longer record is left out.
fn longest(answer: Refusal) -> usize {
    if answer.number == 0 { 1_000 } else { 300 }
}

#[derive(Default)]
struct List {
    // in the order of NUMBERS
    answers: [u64; NUMBERS.len()],
    records: Vec<u8>,
    spoilt: u64,
    spoilt_records: Vec<u8>,
}

fn at(answer: Refusal) -> usize {
    let at = NUMBERS.iter().position(|&number| number == answer.number);
    at.expect("a number that answers have")
}

fn count(cases: u64) -> [u8; 4] {
    u32::try_from(cases).expect("few cases").to_le_bytes()
}

impl List {
    fn add(&mut self, answer: Refusal, record: Vec<u8>) {
        self.answers[at(answer)] += 1;
        self.records.extend(record);
    }

    fn add_listed(&mut self, case: &Case) {
        let (answer, record) = recorded(case).expect("a case that can be recorded");
        self.add(answer, record);
    }

    fn add_spoilt(&mut self, case: &Case) {
        let (answer, after) = answered(case).expect("a case that can be recorded");
        for (answer, after) in control::spoilt(answer, &after) {
            let record = record(case, answer, &after).expect("a case that can be recorded");
            self.spoilt += 1;
            self.spoilt_records.extend(record);
        }
    }

    fn cases(&self) -> u64 {
        self.answers.iter().sum()
    }

    fn stdin(&self) -> Vec<u8> {
        let mut bytes = [count(self.cases()), count(self.spoilt)].concat();
        bytes.extend(&self.records);
        bytes.extend(&self.spoilt_records);
        bytes
    }

    fn stdout(&self) -> String {
        let mut text = format!("layout version: {LAYOUT_VERSION}\n");
        text += &format!("cases: {}\naccepted: {}\n", self.cases(), self.answers[0]);
        for (number, count) in NUMBERS.iter().zip(self.answers).skip(1) {
            text += &format!("refused {number}: {count}\n");
        }
        text += "differences: 0\n";
        text + &format!("spoilt: {0}\ndifferences: {0}\n", self.spoilt)
    }
}

// The answer to a case's first call, and what that leaves; none where kira cannot be fed.
fn answered(case: &Case) -> Option<(Refusal, Held)> {
    let call = &case.calls[0];
    let words = case.words();
    let answer = told(case, &words, &case.held, &call.what);
    let mut after = case.held.clone();
    match call.what {
        What::Run(_) | What::Render if answer == ACCEPTED => {
            if case.stages.iter().any(|s| matches!(s, Listed::Words(_))) {
                return None;
            }
            let mut kira = KiraChain::new(case.rate, &case.stages, call.at_once, &case.held);
            perform(&mut kira, case.tops().len(), call, &mut after);
        }
        What::Start if answer.number < 100 => clear(case, &words, answer, &mut after),
        _ => {}
    }
    Some((answer, after))
}

fn recorded(case: &Case) -> Option<(Refusal, Vec<u8>)> {
    let (answer, after) = answered(case)?;
    Some((answer, record(case, answer, &after)?))
}

fn add_random(random: &mut Random, rates: &Rates, list: &mut List) {
    let listed = list.answers;
    let mut wanted = [OF_EACH; NUMBERS.len()];
    wanted[0] = RANDOM;
    let is_wanted = |list: &List, at: usize| list.answers[at] - listed[at] < wanted[at];
    while (0..NUMBERS.len()).any(|at| is_wanted(list, at)) {
        let mut case = match random.below(2) {
            0 => drawn::short_case(random, rates),
            _ => spoilt::case(random, rates),
        };
        thin(random, &mut case);
        if let Some((answer, record)) = recorded(&case)
            && record.len() <= longest(answer)
            && is_wanted(list, at(answer))
        {
            list.add(answer, record);
        }
    }
}

fn main() -> ExitCode {
    let arguments: Vec<String> = std::env::args().skip(1).collect();
    let [stdin, stdout] = &arguments[..] else {
        eprintln!("answers STDIN STDOUT");
        return ExitCode::from(2);
    };
    let (rates, is_told) = Rates::compare();
    if !is_told {
        return ExitCode::FAILURE;
    }
    let random = &mut Random(SEED);
    let mut list = List::default();
    for mut case in edges::cases(random) {
        thin(random, &mut case);
        list.add_listed(&case);
    }
    exact::cases().iter().for_each(|case| list.add_listed(case));
    println!("{} cases are listed", list.cases());
    add_random(random, &rates, &mut list);
    println!("{} with random ones", list.cases());
    let control = exact::half_runs();
    control.iter().for_each(|case| list.add_spoilt(case));
    println!("{} spoilt ones", list.spoilt);
    fs::write(stdin, list.stdin()).expect("the first file");
    fs::write(stdout, list.stdout()).expect("the second file");
    ExitCode::SUCCESS
}
