//! The list that crates/lay_vectors replays, and what it must answer.
//!
//! The list is 64-bit words, the low byte first: for each record a code, the lengths of the lent columns and the
//! call's own arguments, floats by their bits. Courses are the Rust's: `generate_with_attempts` of the reference's
//! track.rs with document 01's limits, and the same with given checkpoints in the place of the drawn ones; for seeds of
//! 2^32 or more it is that of the widened oracle (../seeds.rs). The Rust
//! refuses nothing and lends nothing; which call is refused by what number, and what stands in a lent column around
//! the Rust's numbers, is written out in ../lent.rs from document 01 ("Lent", "Refusals by cause"). After each
//! call the answer holds a hash of every whole column, so a number written where none belongs shows.
use super::Stored;
use crate::checkpoints::{drawn, lowered, made_up, Set, FOUND, TAU};
use crate::lent::{between, roomy, stated, Lent, STATED};
use crate::seeds::{self, course, within, WIDE};
use oracle::limits::{HIT, TURNED};
use oracle::oracle::{probe, Track};
use reinfors_core::SplitMix64;
use std::f64::consts::PI;
use std::sync::atomic::Ordering::Relaxed;

const LAY: u64 = 1;
const ATTEMPTS: u64 = 2;
const CHECKPOINTS: u64 = 3;

/// The program's buffer, in bytes: a longer list would be cut off.
const ROOM: usize = 262_144;

/// The lengths of the program's columns: alpha, beta, x, y, tiles, offsets, index list.
const LONG: [usize; 7] = [2_600, 2_600, 2_600, 2_600, 20_100, 4_600, 30_000];

/// The list and its answers as they grow.
struct Replay {
    list: Vec<u8>,
    lines: String,
    /// How many records there are by code, and how many of these were accepted, answered by the ring, refused by 2,
    /// by 3.
    records: [[usize; 4]; 4],
    /// How many records of given checkpoints meet the third pass.
    third: usize,
}

impl Replay {
    fn call(&mut self, code: u64, lent: [usize; 7], arguments: impl IntoIterator<Item = u64>, track: &Track) {
        assert!(lent.iter().zip(LONG).all(|(&l, most)| l <= most));
        let words = [code].into_iter().chain(lent.into_iter().map(|l| l as u64)).chain(arguments);
        self.list.extend(words.flat_map(u64::to_le_bytes));
        let mut columns = Lent::untouched(&LONG);
        let outcome = if !roomy(&lent, &STATED) {
            self.lines += "refused 2\n";
            2
        } else {
            let answer = columns.write(track, lent[6]);
            let outcome = if answer.is_err() { 3 } else { track.fallback.into() };
            self.lines += &answer.unwrap_or_else(|refused| refused);
            outcome
        };
        self.records[code as usize][outcome] += 1;
        self.lines += &columns.lines();
    }
    fn lay(&mut self, seed: u64, lent: [usize; 7]) {
        self.call(LAY, lent, [seed], &course(seed));
    }
    fn attempts(&mut self, attempts: u32, seed: u64, lent: [usize; 7]) {
        self.call(ATTEMPTS, lent, [attempts.into(), seed], &within(seed, attempts));
    }
    fn checkpoints(&mut self, cs: Set, lent: [usize; 7]) {
        let words = cs.into_iter().flat_map(|(angle, x, y)| [angle, x, y]).map(f64::to_bits);
        let before = met()[0];
        self.call(CHECKPOINTS, lent, words, &probe::on_checkpoints(cs));
        self.third += usize::from(met()[0] > before);
    }
}

fn need(track: &Track) -> usize {
    probe::raw_ref(track).1.len()
}

/// How often limits were met so far, by this list and others: third pass, fifth turn, beta beyond 16; and steps of two
/// and of three turns.
fn met() -> [u64; 5] {
    [&HIT[0], &HIT[1], &HIT[2], &TURNED[1], &TURNED[2]].map(|count| count.load(Relaxed))
}

/// Seeds by the attempts that they need. Of the first 250,000 seeds 232,897 need one attempt, 15,973 two, 1,057
/// three, 67 four, 5 five and one six; none of them needs more.
const NEED: [(u32, &[u64]); 5] = [
    (2, &[3, 24, 34, 43]),
    (3, &[581, 2_224, 2_266, 2_723]),
    (4, &[2_963, 5_011, 5_671, 5_710]),
    (5, &[4_492, 101_179, 117_196, 118_886]),
    (6, &[11_628]),
];

/// Seeds of 2^32 or more by the attempts that they need: the first of each. No seed of the first 200,000 of them needs six.
const NEED_WIDE: [(u32, u64); 4] = [(2, WIDE + 34), (3, WIDE + 1), (4, WIDE + 89), (5, WIDE + 28_485)];

/// The course of a seed: the index list one too short, all columns longer than stated, and each of just the length
/// that it must have.
fn seed_thrice(r: &mut Replay, seed: u64) {
    let need = need(&course(seed));
    r.lay(seed, stated(need - 1));
    r.lay(seed, LONG);
    r.lay(seed, stated(need));
}

/// Courses of seeds: the ends of the seeds, the one whose generator starts at 0, the longest (401 points) and the
/// shortest course (207) of the first 20,000, some in a row and some at random, and those that need more attempts.
fn seeds(r: &mut Replay) {
    for seed in [0, 1, WIDE - 1, 0xCA75_EED0, 0x8000_0000, 15_969, 17_366] {
        seed_thrice(r, seed);
    }
    let g = &mut SplitMix64::new(5);
    let random: Vec<u64> = (0..24).map(|_| between(g, 0.0, 4_294_967_296.0) as u64).collect();
    for seed in (2..40).chain(random) {
        r.lay(seed, LONG);
    }
    for (attempts, seeds) in NEED {
        for &seed in seeds {
            assert_eq!(seeds::attempts(seed), (attempts, false));
            seed_thrice(r, seed);
        }
    }
}

/// Seeds with a given number of attempts: none, fewer than are needed (the ring, also where a refused walk stood in
/// the columns before), just as many, and more.
fn attempts(r: &mut Replay) {
    for seed in [0, 1, 3, WIDE - 1] {
        r.attempts(0, seed, LONG);
        r.attempts(u32::MAX, seed, LONG);
    }
    r.attempts(1, 0, LONG);
    for (needed, seeds) in NEED {
        let seed = seeds[0];
        for attempts in (0..needed + 2).chain([63, 64, 65]) {
            assert_eq!(within(seed, attempts).fallback, attempts < needed);
            r.attempts(attempts, seed, LONG);
        }
    }
}

/// A call that needs an index list of so many: with a list of just that length, one too short, none, and more; with
/// each other column one short, the list too short besides, and one empty while all others are long; with nothing at
/// all.
fn lengths(r: &mut Replay, need: usize, call: impl Fn(&mut Replay, [usize; 7])) {
    for list in [need, need - 1, 0, need + 1] {
        call(r, stated(list));
    }
    for k in 0..STATED.len() {
        let mut lent = stated(need);
        lent[k] -= 1;
        call(r, lent);
        lent[6] = need - 1;
        call(r, lent);
        lent = LONG;
        lent[k] = 0;
        call(r, lent);
        lent[k] = STATED[k];
        call(r, lent);
    }
    call(r, [0; 7]);
}

/// Too short columns for all three calls, with courses and with the ring.
fn refusals(r: &mut Replay) {
    for seed in [0, 3, WIDE - 1] {
        lengths(r, need(&course(seed)), |r, lent| r.lay(seed, lent));
    }
    for (attempts, seed) in [(0, 0), (1, 3), (2, 3)] {
        lengths(r, need(&within(seed, attempts)), |r, lent| r.attempts(attempts, seed, lent));
    }
    for cs in [drawn(0), made_up(1, 1_081), [(f64::NAN, 0.0, 0.0); 12]] {
        lengths(r, need(&probe::on_checkpoints(cs)), |r, lent| r.checkpoints(cs, lent));
    }
}

/// Given checkpoints that a seed draws: the seed's course where its first attempt is accepted.
fn drawn_sets(r: &mut Replay) {
    for seed in [0, 1, 2, 3, 24, WIDE - 1] {
        let (one, given) = (within(seed, 1), probe::on_checkpoints(drawn(seed)));
        assert_eq!((one.fallback, one.points.len(), need(&one)), (given.fallback, given.points.len(), need(&given)));
        r.checkpoints(drawn(seed), LONG);
    }
}

/// Sets on which the third pass decides: with the last angle at 0 the attempt is accepted; with it a little lower, the
/// walk passes it before its lap is done, and a third pass would go on from there to the same course or a similar one.
fn deciding_passes(r: &mut Replay) {
    for seed in [0, 1, 2, 4, 5, WIDE - 1] {
        assert!(!probe::on_checkpoints(lowered(seed, 0.0)).fallback, "{seed} is refused");
        r.checkpoints(lowered(seed, 0.0), LONG);
        for last in [-0.01, -0.05, -0.2] {
            let before = r.third;
            r.checkpoints(lowered(seed, last), LONG);
            assert!(r.third > before || last == -0.01, "{seed} {last} meets no third pass");
        }
    }
}

/// Sets that meet the third pass: at the first step, where every angle is more than a tau below the walk's, or at a
/// later one, once the walk's angle has grown; and some with angles so high that it may not.
fn third_passes(r: &mut Replay) {
    let below = f64::from_bits(TAU.to_bits() + 1);
    for angle in [f64::NAN, -f64::INFINITY, -1e300, -7.0, -below, -TAU, -6.2, -5.0, -3.2, -PI, -3.0, -1.0] {
        for (x, y) in [(0.0, 0.0), (-200.0, 10.0)] {
            let before = r.third;
            r.checkpoints([(angle, x, y); 12], LONG);
            assert!(r.third > before || angle > -3.5, "{angle} {x} {y} meets no third pass");
        }
    }
}

/// One angle for all, so that the walk makes for the first alone; coordinates that are not finite, or far, or tiny.
fn far_sets(r: &mut Replay) {
    let ends = [f64::NAN, f64::INFINITY, -f64::INFINITY, 1e308, -1e17, 5e-324, -0.0, 60.0];
    for angle in [f64::INFINITY, 1e300, 6.3, 1.0] {
        for x in ends {
            r.checkpoints([(angle, x, 60.0); 12], LONG);
            r.checkpoints([(angle, -60.0, x); 12], LONG);
        }
    }
    // some of a seed's checkpoints damaged
    for c in 0..12 {
        for (angle, x, y) in [(f64::NAN, 0.0, 0.0), (-1.0, 1e9, f64::NAN), (f64::INFINITY, -1e9, 3.0)] {
            let mut cs = drawn(2);
            cs[c] = (angle, x, y);
            r.checkpoints(cs, LONG);
        }
    }
}

fn found_sets(r: &mut Replay) {
    let (mut third, mut twice) = (0, [0; 2]);
    for (family, numbers) in FOUND.into_iter().enumerate() {
        for &number in numbers {
            let cs = made_up(family as u64, number);
            let before = met();
            let track = probe::on_checkpoints(cs);
            let now = met();
            third += usize::from(now[0] > before[0]);
            twice[track.fallback as usize] += usize::from(now[3] > before[3]);
            r.checkpoints(cs, LONG);
        }
    }
    let [accepted, refused] = twice;
    eprintln!("found sets: {third} meet the third pass; {accepted} accepted, {refused} refused turn twice in a step");
    assert!(third > 0 && twice[0] > 0 && twice[1] > 0);
}

/// A seed of 2^32 or more: it has not the course of its low half, but the one that the reference's own attempts come to from the
/// generator of the whole seed.
fn wide_seed(seed: u64) -> u64 {
    let mut rng = SplitMix64::new(0xCA75_EED0 ^ seed);
    let first = (0..64).find_map(|_| probe::attempt(&mut rng)).expect("an accepted attempt");
    assert!(seeds::same_course(&course(seed), &probe::given(first, false)));
    assert!(seed >= WIDE && !seeds::same_course(&course(seed), &course(seed % WIDE)));
    seed
}

/// Courses of seeds of 2^32 or more: the ends, the seed 7 with a bit more, the highest bit alone, and some at random.
fn wide_seeds(r: &mut Replay) {
    for seed in [WIDE, WIDE + 7, 1 << 63, u64::MAX] {
        seed_thrice(r, wide_seed(seed));
    }
    let g = &mut SplitMix64::new(64);
    for _ in 0..20 {
        r.lay(wide_seed(g.next_u64()), LONG);
    }
}

/// Seeds of 2^32 or more with none, too few, just as many and more attempts than they need.
fn wide_attempts(r: &mut Replay) {
    for (needed, seed) in NEED_WIDE {
        assert_eq!(seeds::attempts(seed), (needed, false));
        for attempts in [0, needed - 1, needed, u32::MAX] {
            assert_eq!(within(seed, attempts).fallback, attempts < needed);
            r.attempts(attempts, seed, LONG);
        }
        r.lay(seed, LONG);
    }
    r.attempts(1, u64::MAX, LONG);
}

pub fn make() -> Stored {
    let before = met();
    let mut r = Replay { list: Vec::new(), lines: String::new(), records: [[0; 4]; 4], third: 0 };
    seeds(&mut r);
    attempts(&mut r);
    // None of these seeds meets a limit, or turns beta twice in a step.
    assert_eq!(met(), before);
    refusals(&mut r);
    drawn_sets(&mut r);
    deciding_passes(&mut r);
    third_passes(&mut r);
    far_sets(&mut r);
    found_sets(&mut r);
    // The other two limits no checkpoints can meet. A search ends with alpha from -tau to tau, since a third pass
    // refuses. Beta is then turned to within 1.5 pi of alpha and steered by at most 0.31, so a step leaves it within
    // 11.31, short of 16. From there the next alpha is less than 17.6 away, which three turns bring within 1.5 pi.
    let now = met();
    let [_, fifth, beyond, two, three] = std::array::from_fn(|i| now[i] - before[i]);
    assert!(r.third > 0 && fifth == 0 && beyond == 0);
    eprintln!("{} records meet the third pass; steps of two turns {two}, of three {three}", r.third);
    // Nor do these seeds meet a limit, or turn beta twice in a step.
    wide_seeds(&mut r);
    wide_attempts(&mut r);
    assert_eq!(met(), now);
    // An unknown code ends the run: the record behind it has no answer.
    r.list.extend([0, LAY].into_iter().chain([0; 8]).flat_map(u64::to_le_bytes));
    let [_, lay, attempts, checkpoints] = r.records;
    eprintln!("accepted, ring, refused by 2, by 3: lay {lay:?}, attempts {attempts:?}, checkpoints {checkpoints:?}");
    Stored::new(r.list, ROOM, r.lines)
}
