//! Courses of seeds and of given checkpoints: the answer and every lent column, whole, also where nothing may be written.
//! The Rust refuses nothing: causes are written out here from document 01. Given points and curbs stand in points.rs.
//! Low seeds are held to the reference, all seeds to the oracle with the widened seed, and the two oracles to each other.
use crate::lent::{roomy, stated, Lent, STATED};
use crate::points::curbs;
use crate::port::{self, Laid};
use crate::seeds::{self, same_course};
use crate::sets::{random_set, KNOWN};
use crate::tally::{Tally, Unit};
use oracle::oracle::{probe, Track};
use oracle::wide::probe as widened;
use reinfors_core::SplitMix64;

/// The lengths of the whole columns: alpha, beta, x, y, tiles, offsets, index list.
pub const LONG: [usize; 7] = [2_520, 2_520, 2_520, 2_520, 20_050, 4_500, 60_000];

/// The same bits in every place.
pub fn same_floats(a: &[f64], b: &[f64]) -> bool {
    a.len() == b.len() && a.iter().zip(b).all(|(x, y)| x.to_bits() == y.to_bits())
}

pub fn same_lent(a: &Lent, b: &Lent) -> bool {
    a.floats.iter().zip(&b.floats).all(|(x, y)| same_floats(x, y)) && a.offsets == b.offsets && a.ids == b.ids
}

/// Lent lengths: mostly of the whole columns, else of just the stated lengths, one short, or the list too short.
fn lengths(g: &mut SplitMix64, need: usize, long: &[usize; 7]) -> [usize; 7] {
    let mut lent = match g.next_u64() % 4 {
        0 => stated(need),
        _ => *long,
    };
    match g.next_u64() % 12 {
        0 => lent[g.next_u64() as usize % 6] = g.next_u64() as usize % 2_500,
        1 => lent[6] = need.saturating_sub(1 + g.next_u64() as usize % 3),
        2 => lent[6] = need,
        _ => {}
    }
    lent
}

/// What document 01 answers and leaves, of a course that the Rust made, where no cause but 2 and 3 is left.
fn expected(track: &Track, long: &[usize; 7], whole: &[usize; 7]) -> (Laid, Lent) {
    let mut lent = Lent::untouched(whole);
    if !roomy(long, &STATED) {
        return (Laid { cause: 2, ..Laid::default() }, lent);
    }
    let need = probe::raw_ref(track).1.len() as u32;
    let laid = match lent.write(track, long[6]) {
        Err(_) => Laid { cause: 3, entries: need, ..Laid::default() },
        Ok(_) => {
            let first = track.points[0];
            let n = track.points.len() as u32;
            Laid { cause: 0, n, entries: need, fallback: track.fallback, beta: first.beta, x: first.x, y: first.y }
        }
    };
    (laid, lent)
}

fn same_laid(a: &Laid, b: &Laid) -> bool {
    (a.cause, a.n, a.entries, a.fallback) == (b.cause, b.n, b.entries, b.fallback) && same_floats(&[a.beta, a.x, a.y], &[b.beta, b.x, b.y])
}

/// A course that a call is held to, and its row in the closing table.
pub type Held<'a> = (&'static str, &'a Track);

/// One call that lays a course, and what it must leave, by each of these.
pub fn laid(t: &mut Tally, g: &mut SplitMix64, unit: Unit, held: &[Held], text: String, call: impl Fn(&mut Lent, &[usize; 7]) -> Laid) {
    let need = probe::raw_ref(held[0].1).1.len();
    let mut whole = LONG;
    whole[6] = whole[6].max(need + 7);
    let long = if need > 1_000_000 { whole } else { lengths(g, need, &whole) };
    let mut lent = Lent::untouched(&whole);
    let answer = call(&mut lent, &long);
    for &(what, track) in held {
        let (rust, left) = expected(track, &long, &whole);
        let same = same_laid(&answer, &rust) && same_lent(&lent, &left);
        t.check(what, same, unit, track.points.len(), || format!("{text}, lent {long:?}, answered {answer:?}, not {rust:?}"));
    }
}

/// The courses that a call with a seed is held to: the reference's where the seed is low, and the widened oracle's.
struct Courses {
    low: Option<Track>,
    all: Track,
}

impl Courses {
    /// These courses in these rows. Where there are both, they are held to each other too, so that the widening is itself compared.
    fn held(&self, t: &mut Tally, unit: Unit, rows: [&'static str; 2], text: &str) -> Vec<Held<'_>> {
        if let Some(low) = &self.low {
            t.check("the two oracles, low seeds", same_course(low, &self.all), unit, low.points.len(), || text.to_string());
        }
        self.low.iter().map(|low| (rows[0], low)).chain([(rows[1], &self.all)]).collect()
    }
}

/// A unit's seed: every second one is wide, at the ends first; the others are in a row first.
fn seed_of(g: &mut SplitMix64, unit: Unit) -> u64 {
    let k = unit.number / 2;
    match unit.number % 2 {
        0 if k < 2_000 => k,
        0 => seeds::low(g),
        _ => seeds::WIDE_ENDS.get(k as usize).copied().unwrap_or_else(|| seeds::wide(g)),
    }
}

/// A seed's course.
pub fn seed(t: &mut Tally, g: &mut SplitMix64, unit: Unit) {
    let seed = seed_of(g, unit);
    let courses = Courses { low: u32::try_from(seed).ok().map(Track::generate), all: widened::generate(seed) };
    let text = format!("seed {seed}");
    let held = courses.held(t, unit, ["lay, low seeds", "lay, widened oracle"], &text);
    laid(t, g, unit, &held, text, |lent, long| port::lay(seed, lent, long));
    curbs(t, g, unit, &courses.all.points, 0);
}

/// A seed with few attempts: with none, and mostly with one, it is the ring or the first attempt's course.
pub fn attempts(t: &mut Tally, g: &mut SplitMix64, unit: Unit) {
    let (seed, attempts) = (seeds::some(g), (unit.number % 4) as u32);
    let low = u32::try_from(seed).ok().map(|low| probe::within(low, attempts));
    let courses = Courses { low, all: widened::within(seed, attempts) };
    let text = format!("seed {seed} attempts {attempts}");
    let held = courses.held(t, unit, ["lay, so many attempts, low seeds", "lay, so many attempts, widened oracle"], &text);
    laid(t, g, unit, &held, text, |lent, long| port::lay_attempts(attempts, seed, lent, long));
}

/// One attempt with given checkpoints: the known sets, then random ones.
pub fn checkpoints(t: &mut Tally, g: &mut SplitMix64, unit: Unit) {
    let known = KNOWN.get(unit.number as usize);
    let cs = known.copied().unwrap_or_else(|| random_set(g, unit.number));
    let track = probe::on_checkpoints(cs);
    let held = [("lay, given checkpoints", &track)];
    laid(t, g, unit, &held, format!("{cs:?}"), |lent, long| port::lay_checkpoints(&cs, lent, long));
}
