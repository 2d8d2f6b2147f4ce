//! The comparison: sections of units, each from the seed and its number alone, and the closing table.
use crate::tally::{Tally, Unit};
use crate::{courses, numbers, points, runs, sets, wrong, Settings};
use reinfors_core::SplitMix64;
use std::sync::atomic::Ordering::Relaxed;

/// The ticks of a unit of runs.
const TICKS: u64 = 200;

/// A section: its name, how many units it has, and what compares one.
type Section = (&'static str, u64, fn(&mut Tally, &mut SplitMix64, Unit));

fn sections(s: &Settings) -> [Section; 7] {
    [
        ("numbers", 100 + s.courses / 40, numbers::numbers),
        ("seeds", s.courses, courses::seed),
        ("points", s.courses / 4, points::points),
        ("attempts", s.courses / 4, courses::attempts),
        ("checkpoints", sets::KNOWN.len() as u64 + s.courses / 4, courses::checkpoints),
        ("runs", s.ticks.div_ceil(TICKS), |t, g, u| runs::run(t, g, u, TICKS)),
        ("beside", 50 + s.ticks / 20_000, runs::beside),
    ]
}

/// A generator for one unit, from the seed and the unit alone.
fn generator(seed: u64, unit: Unit) -> SplitMix64 {
    let name = unit.section.bytes().fold(seed, |h, c| h.wrapping_mul(0x100_0000_01B3) ^ u64::from(c));
    SplitMix64::new(name.wrapping_mul(0x9E37_79B9_7F4A_7C15) ^ unit.number)
}

/// Compares all units, or the one that is asked for, and prints the table; whether port and Rust agree everywhere.
pub fn compare(s: &Settings) -> bool {
    let mut t = Tally::new();
    if let Some((section, number)) = &s.only {
        let all = sections(s);
        let Some((section, _, compare)) = all.iter().find(|x| x.0 == section) else { wrong(&format!("no section {section:?}")) };
        let unit = Unit { section, number: *number };
        compare(&mut t, &mut generator(s.seed, unit), unit);
    } else {
        for (section, many, compare) in sections(s) {
            for number in 0..many {
                let unit = Unit { section, number };
                compare(&mut t, &mut generator(s.seed, unit), unit);
                t.progress(unit, many);
            }
        }
    }
    let fine = t.report(s.seed);
    let met = oracle::limits::HIT.each_ref().map(|h| h.load(Relaxed));
    println!("limits of an attempt that were met: third pass {}, fifth turn {}, beta beyond 16 {}", met[0], met[1], met[2]);
    fine
}
