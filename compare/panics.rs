// Where kira panics, run: docs/DIFFERENCES.md has a table of it, and each message must stand there.
use crate::kira_chain::delay_time;
use crate::rates::reverb;
use crate::tally::Tally;
use kira::effect::Effect;
use kira::effect::delay::{DelayBuilder, OpenDelay};
use kira::info::Info;
use kira::{Decibels, Frame, Mix, Value};
use std::panic;
use std::sync::Mutex;

const DIFFERENCES: &str = include_str!("../docs/DIFFERENCES.md");

struct Told {
    what: &'static str,
    run: fn(),
    // kira's file, and the message; none where nothing panics
    panics: Option<(&'static str, &'static str)>,
}

fn run_reverb(rate: u32) {
    let mut reverb = reverb();
    reverb.init(rate, 4096);
    reverb.process(&mut [Frame::ZERO], 1.0, &Info);
}

fn delay(frames: u32) -> OpenDelay {
    let builder = DelayBuilder {
        delay_time: match frames {
            0 => std::time::Duration::ZERO,
            _ => delay_time(frames, 44_100),
        },
        feedback: Value::Fixed(Decibels(-6.0)),
        mix: Value::Fixed(Mix(0.5)),
        feedback_effects: vec![],
    };
    builder.open()
}

fn run_delay(line: u32, frames: usize) {
    let mut delay = delay(line);
    delay.init(44_100, 4096);
    delay.process(&mut vec![Frame::ZERO; frames], 1.0, &Info);
}

const COMB: &str = "effect/reverb/comb/unchanged.rs";
const ALL_PASS: &str = "effect/reverb/all_pass/unchanged.rs";
const REVERB: &str = "effect/reverb.rs";
const DELAY: &str = "effect/delay.rs";
const NO_LINE: &str = "index out of bounds: the len is 0 but the index is 0";

const TOLD: [Told; 11] = [
    Told {
        what: "a reverb at 39 Hz",
        run: || run_reverb(39),
        panics: Some((COMB, NO_LINE)),
    },
    Told {
        what: "a reverb at 40 Hz",
        run: || run_reverb(40),
        panics: Some((ALL_PASS, NO_LINE)),
    },
    Told {
        what: "a reverb at 195 Hz",
        run: || run_reverb(195),
        panics: Some((ALL_PASS, NO_LINE)),
    },
    Told {
        what: "a reverb at 196 Hz",
        run: || run_reverb(196),
        panics: None,
    },
    Told {
        what: "a reverb before init",
        run: || reverb().process(&mut [Frame::ZERO], 1.0, &Info),
        panics: Some((
            REVERB,
            "Reverb should be initialized before the first process call",
        )),
    },
    Told {
        what: "a delay before init",
        run: || delay(1).process(&mut [Frame::ZERO], 1.0, &Info),
        panics: Some((DELAY, "chunk size must be non-zero")),
    },
    Told {
        what: "a delay of no frames",
        run: || run_delay(0, 1),
        panics: Some((DELAY, "chunk size must be non-zero")),
    },
    Told {
        what: "a delay of no frames, no frames processed",
        run: || run_delay(0, 0),
        panics: Some((DELAY, "chunk size must be non-zero")),
    },
    Told {
        what: "a delay of 1 s, 4,097 frames where init was told 4,096",
        run: || run_delay(44_100, 4_097),
        panics: Some((
            DELAY,
            "range end index 4097 out of range for slice of length 4096",
        )),
    },
    Told {
        what: "a delay of 1 s, 4,096 frames",
        run: || run_delay(44_100, 4_096),
        panics: None,
    },
    Told {
        what: "a delay of 4,096 frames, 4,097 frames",
        run: || run_delay(4_096, 4_097),
        panics: None,
    },
];

// The file and the message of the last panic.
static LAST: Mutex<Option<(String, String)>> = Mutex::new(None);

fn caught(run: fn()) -> Option<(String, String)> {
    panic::set_hook(Box::new(|info| {
        let file = info.location().map_or("", |place| place.file());
        let message = info.payload_as_str().unwrap_or("");
        *LAST.lock().expect("no panic here") = Some((file.to_string(), message.to_string()));
    }));
    let result = panic::catch_unwind(run);
    let _ = panic::take_hook();
    let last = LAST.lock().expect("no panic here").take();
    result.err().and(last)
}

pub fn compare() -> bool {
    let mut tally = Tally::new("kira's panics", "calls");
    for told in &TOLD {
        let seen = caught(told.run);
        let is_told = match (&seen, told.panics) {
            (None, None) => true,
            (Some((file, message)), Some((told_file, told_message))) => {
                file.ends_with(told_file)
                    && message == told_message
                    && DIFFERENCES.contains(&format!("`{message}`"))
            }
            _ => false,
        };
        match &seen {
            Some((_, message)) => println!("{}: {message}", told.what),
            None => println!("{}: no panic", told.what),
        }
        tally.check(is_told, || {
            format!("{}: {seen:?}, told {:?}", told.what, told.panics)
        });
    }
    tally.close()
}
