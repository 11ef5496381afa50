// The rates at which a line of kira's reverb is not floor(n * R / 44100) long, found by running kira's
// own reverb at every rate that a chain may have.
use crate::table::reverb_lines;
use crate::tally::Tally;
use kira::effect::Effect;
use kira::effect::reverb::{OpenReverb, ReverbBuilder};
use kira::{Mix, Value};

pub struct Rates {
    different: Vec<u32>,
}

pub fn reverb() -> OpenReverb {
    let builder = ReverbBuilder {
        feedback: Value::Fixed(0.9),
        damping: Value::Fixed(0.1),
        stereo_width: Value::Fixed(1.0),
        mix: Value::Fixed(Mix(0.5)),
    };
    builder.open()
}

// The lengths of the lines after `init`, the left twelve first.
fn kira_lines(rate: u32) -> [usize; 24] {
    let mut reverb = reverb();
    reverb.init(rate, 1);
    let (combs, all_passes) = reverb.filters().expect("after init");
    let mut lines = [0; 24];
    for (i, (left, right)) in combs.iter_mut().enumerate() {
        (lines[i], lines[12 + i]) = (left.memory().1.len(), right.memory().1.len());
    }
    for (i, (left, right)) in all_passes.iter_mut().enumerate() {
        (lines[8 + i], lines[20 + i]) = (left.memory().0.len(), right.memory().0.len());
    }
    lines
}

// docs/DIFFERENCES.md names these of them, and these that are not.
const NAMED: [u32; 3] = [11_600, 12_300, 47_000];
const USUAL: [u32; 11] = [
    8_000, 11_025, 16_000, 22_050, 32_000, 44_100, 48_000, 88_200, 96_000, 176_400, 192_000,
];

impl Rates {
    // Every rate, with the differences that docs/DIFFERENCES.md tells.
    pub fn compare() -> (Self, bool) {
        let mut tally = Tally::new("lengths of a reverb's lines", "rates");
        let mut different = vec![];
        for rate in 8_000..=192_000 {
            let (ours, kira) = (reverb_lines(rate), kira_lines(rate));
            if ours != kira {
                different.push(rate);
            }
            let is_told = ours
                .iter()
                .zip(kira)
                .all(|(&n, kira)| n == kira || n == kira + 1);
            tally.check(is_told, || {
                format!("at {rate}: ours {ours:?}, kira's {kira:?}")
            });
        }
        let rates = Self { different };
        let is_named = NAMED.iter().all(|&rate| rates.differ(rate));
        let is_usual = USUAL.iter().any(|&rate| rates.differ(rate));
        let count = rates.different.len();
        if count != 173 || !is_named || is_usual {
            tally.differ(|| format!("not the rates that are told: {:?}", rates.different));
        }
        println!(
            "{count} rates at which kira's line is one shorter; a reverb there is not compared"
        );
        (rates, tally.close())
    }

    pub fn differ(&self, rate: u32) -> bool {
        self.different.binary_search(&rate).is_ok()
    }
}
