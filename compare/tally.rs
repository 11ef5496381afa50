// A line that a comparison prints: what was compared, how often, and how many differed.

// Differences that are printed.
const SHOWN: u64 = 5;

pub struct Tally {
    name: String,
    unit: &'static str,
    count: u64,
    differences: u64,
}

impl Tally {
    pub fn new(name: impl Into<String>, unit: &'static str) -> Self {
        Self {
            name: name.into(),
            unit,
            count: 0,
            differences: 0,
        }
    }

    pub fn check(&mut self, same: bool, say: impl FnOnce() -> String) {
        self.count += 1;
        if !same {
            self.differ(say);
        }
    }

    // A difference in what was counted already.
    pub fn differ(&mut self, say: impl FnOnce() -> String) {
        self.differences += 1;
        if self.differences <= SHOWN {
            println!("  {}: {}", self.name, say());
        }
    }

    pub fn close(self) -> bool {
        println!(
            "{:<28}{:>12} {:<8} {:>6} differences",
            self.name, self.count, self.unit, self.differences
        );
        self.differences == 0
    }
}
