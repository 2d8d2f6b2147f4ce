//! What was compared, how often port and Rust differed, and the smallest input on which they did.
use std::time::{Duration, Instant};

/// Inputs come in units: number `number` of a section, made from the program's seed and these two alone.
#[derive(Clone, Copy)]
pub struct Unit {
    pub section: &'static str,
    pub number: u64,
}

struct Row {
    what: &'static str,
    compared: u64,
    differences: u64,
}

/// A difference: how large the input is, where it came from, and what it was.
struct Found {
    size: usize,
    unit: Unit,
    text: String,
}

pub struct Tally {
    rows: Vec<Row>,
    smallest: Option<Found>,
    begun: Instant,
    told: Instant,
}

impl Tally {
    pub fn new() -> Tally {
        let now = Instant::now();
        Tally { rows: Vec::new(), smallest: None, begun: now, told: now }
    }

    /// One comparison of `what`, of an input of this size; its text is asked for only where the two differ.
    pub fn check(&mut self, what: &'static str, same: bool, unit: Unit, size: usize, text: impl FnOnce() -> String) {
        let at = match self.rows.iter().position(|r| r.what == what) {
            Some(at) => at,
            None => {
                self.rows.push(Row { what, compared: 0, differences: 0 });
                self.rows.len() - 1
            }
        };
        self.rows[at].compared += 1;
        if !same {
            self.rows[at].differences += 1;
            if self.smallest.as_ref().map_or(true, |f| size < f.size) {
                self.smallest = Some(Found { size, unit, text: format!("{what}: {}", text()) });
            }
        }
    }

    /// A line on the way, every few seconds.
    pub fn progress(&mut self, unit: Unit, of: u64) {
        if self.told.elapsed() > Duration::from_secs(5) {
            self.told = Instant::now();
            let differences: u64 = self.rows.iter().map(|r| r.differences).sum();
            eprintln!("{:>5} s  {} {} of {of}, {differences} differences", self.begun.elapsed().as_secs(), unit.section, unit.number);
        }
    }

    /// The closing table; whether there was no difference.
    pub fn report(&self, seed: u64) -> bool {
        println!("{:<40} {:>12} {:>12}", "compared", "how many", "differences");
        for r in &self.rows {
            println!("{:<40} {:>12} {:>12}", r.what, r.compared, r.differences);
        }
        let compared: u64 = self.rows.iter().map(|r| r.compared).sum();
        let differences: u64 = self.rows.iter().map(|r| r.differences).sum();
        println!("{compared} comparisons, {differences} differences, {} s", self.begun.elapsed().as_secs());
        if let Some(f) = &self.smallest {
            println!("smallest input: {}\nagain: host/compare/run --seed {seed} --only {}:{}", f.text, f.unit.section, f.unit.number);
        }
        differences == 0
    }
}
