//! Saves and restores one by one: the examples of bytes, each way in which bytes are refused beside what is taken, and causes that hold
//! together.
use super::*;
use crate::saved::{form, read, ROOM};

/// What stands in a save's output, and how long the program's is.
const UNWRITTEN: u8 = 0xa5;
pub const OUTPUT: usize = 700;

/// How many bytes of a form are shown as they are; a hash shows the rest.
const SHOWN: usize = 32;

impl Replay {
    /// The last poses and the seed become those of s.
    fn put_last(&mut self, s: &State) {
        let poses = s.poses.iter().flat_map(numbers).map(f64::to_bits);
        self.ask(PUT_LAST, poses.chain([s.seed]));
        (self.state.poses, self.state.seed) = (s.poses, s.seed);
    }
    /// The whole state becomes s.
    pub fn put_state(&mut self, s: &State) {
        self.core(s);
        self.credited(0, 40, 0);
        self.wheels(0, 160, 0);
        for k in (0..40).filter(|&k| s.credited[k] != 0) {
            self.credited(k, k + 1, s.credited[k]);
        }
        for k in (0..160).filter(|&k| s.wheels[k] != 0) {
            self.wheels(k, k + 1, s.wheels[k]);
        }
        self.put_last(s);
        assert!(self.state.same(s));
    }
    pub fn last(&mut self) {
        self.ask(LAST, []);
        self.hex(self.state.hash_last());
        self.whole(self.state.seed);
    }
    /// A save into so many bytes of the output: what it writes, or by Err the number of the cause. A line has the first bytes, all of
    /// them where `all`, another a hash of the whole output.
    pub fn save_shown(&mut self, room: usize, all: bool) -> Result<Vec<u8>, usize> {
        let said = self.model.save(room);
        let shown = said.as_ref().map_or(0, |form| if all { form.len() } else { form.len().min(SHOWN) });
        self.ask(SAVE, [room, shown].map(|w| w as u64));
        let mut out = vec![UNWRITTEN; OUTPUT];
        match &said {
            Ok(form) => {
                out[..form.len()].copy_from_slice(form);
                self.whole(form.len() as u64);
                writeln!(self.lines, "{}", digits(&form[..shown])).unwrap();
            }
            Err(cause) => self.refuse(4, *cause),
        }
        self.hex(hash(out.into_iter().map(u64::from)));
        said
    }
    pub fn save(&mut self, room: usize) -> Result<Vec<u8>, usize> {
        self.save_shown(room, false)
    }
    /// Which course the bytes are of, and a restore of them; the number of the cause, or 0. After a refused one the state stays.
    pub fn restore(&mut self, bytes: &[u8], lent: [usize; 3], n: u32) -> usize {
        let words = bytes.chunks(8).map(|c| c.iter().rev().fold(0, |w, &b| w << 8 | u64::from(b)));
        let front = lent.map(|l| l as u64).into_iter().chain([n.into(), bytes.len() as u64]);
        self.ask(RESTORE, front.chain(words));
        match read(bytes) {
            Some(s) => {
                self.whole(s.seed);
                self.whole(s.n);
            }
            None => writeln!(self.lines, "refused 11").unwrap(),
        }
        let said = self.model.restore(bytes, lent, n);
        let cause = said.as_ref().err().copied().unwrap_or(0);
        let shown = match said {
            Ok(s) => {
                writeln!(self.lines, "restored").unwrap();
                self.model.state = s.clone();
                s
            }
            Err(_) => {
                self.refuse(5, cause);
                State::zero()
            }
        };
        self.hex(hash([shown.hash(), shown.hash_last(), shown.seed]));
        cause
    }
    /// Of bytes by their digits.
    pub fn restore_digits(&mut self, text: &str, n: u32) -> usize {
        self.restore(&bytes_of(text), LONG, n)
    }
}

fn digits(bytes: &[u8]) -> String {
    bytes.iter().map(|b| format!("{b:02x}")).collect()
}

/// The bytes whose digits these are; blanks between them do not count.
fn bytes_of(text: &str) -> Vec<u8> {
    let text: String = text.split_whitespace().collect();
    (0..text.len() / 2).map(|i| u8::from_str_radix(&text[2 * i..2 * i + 2], 16).unwrap()).collect()
}

fn zeros(many: usize) -> String {
    "00".repeat(many)
}

pub const ORIGIN: TrackPoint = TrackPoint { beta: 0.0, x: 0.0, y: 0.0 };

/// The state of zeros with n = 1 and a tick limit of 1.
pub fn least() -> State {
    State { n: 1, limit: 1, ..State::zero() }
}

/// How long the form of `full` is, with a seed below 2^32.
pub const FULL: usize = 641;

/// A run whose every field is kept, but for the wide seed's.
pub fn full(n: u32) -> State {
    let mut s = State {
        n,
        tick: 7,
        limit: 1_000,
        share: 0.75,
        lap: true,
        ended: true,
        fallback: true,
        fuel: 0.125,
        seed: 0x1234_5678,
        ..State::zero()
    };
    s.ctl = [0, 1, 2, 3].map(|w| [0, 1, 2, 3, 4].map(|i| f64::from(5 * w + i) + 0.5));
    s.poses = car(&TrackPoint { beta: 0.25, ..ORIGIN }, 0.0, 0.0, 0.0);
    for t in (0..n).filter(|t| t % 3 != 1) {
        s.credited[t as usize / 64] |= 1 << (t % 64);
        s.count += 1;
    }
    s
}

/// A state is saved as these bytes, and restored from them.
pub fn example(r: &mut Replay, s: &State, text: &str) {
    r.put_state(s);
    let bytes = r.save_shown(ROOM, true).unwrap();
    assert_eq!(digits(&bytes), digits(&bytes_of(text)));
    assert_eq!(r.restore(&bytes, LONG, s.n), 0);
}

/// Short forms, over one tile at the origin, which the poses of zeros touch: nothing is credited by that.
fn short_forms(r: &mut Replay) {
    r.course(&[ORIGIN]);
    example(r, &least(), "04 02 01000000 0100");
    assert!(r.state.count == 0 && r.state.wheels[0] == 1);
    let all = State { n: 2, limit: 1_000_000, tick: 1_000_000, lap: true, ended: true, fallback: true, ..State::zero() };
    example(r, &all, "2c02 40420f00 40420f00 07 0200");
    example(r, &State { fuel: -0.0, ..least() }, "4402 01000000 0000000000000080 0100");
    example(r, &State { fuel: f64::NAN, ..least() }, "4402 01000000 000000000000f87f 0100");
    example(r, &State { share: -0.0, ..least() }, "0602 0000000000000080 01000000 0100");
    example(r, &State { n: 2_500, ..least() }, "0402 01000000 c409");
    for (k, flag) in ["01", "02", "04"].into_iter().enumerate() {
        let [lap, ended, fallback] = [k == 0, k == 1, k == 2];
        example(r, &State { lap, ended, fallback, ..least() }, &format!("2402 01000000 {flag} 0100"));
    }
    example(r, &State { seed: u32::MAX.into(), ..least() }, "0502 ffffffff 01000000 0100");
    example(r, &State { seed: 0x0100_0000, ..least() }, "0502 00000001 01000000 0100");
    // One −0.0 keeps the whole field.
    let mut s = least();
    s.ctl[2][3] = -0.0;
    example(r, &s, &format!("8402 01000000 {} 0000000000000080 {} 0100", zeros(13 * 8), zeros(6 * 8)));
    let mut s = least();
    s.poses[3].sin = -0.0;
    example(r, &s, &format!("0403 01000000 {} 0000000000000080 0100", zeros(15 * 8)));
    // Tile 0 is credited and under a wheel, above the share: no lap is judged, and none is forgotten.
    let mut s = State { count: 1, ..least() };
    s.credited[0] = 1;
    example(r, &s, &format!("1402 01000000 01 {} 0100", zeros(319)));
    assert!(!r.state.lap && r.state.count == 1);
}

/// Six tiles, of which three are credited and the same three are under the wheels.
fn six_tiles(r: &mut Replay) {
    let points: Vec<TrackPoint> = (0..6).map(|i| TrackPoint { y: f64::from(i) * 100.0 - 300.0, ..ORIGIN }).collect();
    let n = r.course(&points);
    let mut s = State { n, limit: 10, seed: 7, share: 0.5, count: 3, ..State::zero() };
    s.credited[0] = 0b1_1001;
    s.poses = [Pose { x: 0.0, y: 0.0, cos: 1.0, sin: 0.0 }; 4];
    let pose = "0000000000000000 0000000000000000 000000000000f03f 0000000000000000";
    let text = format!("1703 07000000 000000000000e03f 0a000000 19 {} {} 0600", zeros(319), pose.repeat(4));
    example(r, &s, &text);
    assert_eq!(bytes_of(&text).len(), 468);
    assert_eq!(r.state.count, 3);
    assert!((0..4).all(|w| r.state.tiles_of(w) == [0, 3, 4]), "{:?}", r.state.tiles_of(0));
    let [tiles, offsets] = STATED;
    for (n, tiles, offsets, cause) in
        [(7, 0, 0, 12), (6, tiles - 1, offsets, 2), (6, tiles, offsets - 1, 2), (6, tiles, offsets, 0), (0, tiles, offsets, 12)]
    {
        assert_eq!(r.restore(&bytes_of(&text), [tiles, offsets, LONG[2]], n), cause);
    }
    assert_eq!(r.restore(&bytes_of(&text), LONG, 2_501), 12);
}

/// Bytes that are refused by 11: cut off or longer, unknown bits and flags, standing fields of zeros, no limit, no tile count, numbers
/// out of range.
const REFUSED: [&str; 40] = [
    "",
    "04",
    "0402",
    "0000",
    "0002 0100",
    "0400 01000000",
    "0402 01000000 01",
    "0402 01000000 0100 00",
    "0406 01000000 0100",
    "0406 01000000 0100 01000000",
    "040a 01000000 0100 01000000",
    "0412 01000000 0100 01",
    "0422 01000000 0100 01",
    "0442 01000000 0100 01",
    "0482 01000000 0100 01",
    "0482 01000000 0100",
    "2402 01000000 08 0100",
    "2402 01000000 80 0100",
    "2402 01000000 ff 0100",
    "2402 01000000 00 0100",
    "0502 00000000 01000000 0100",
    "0602 0000000000000000 01000000 0100",
    "0402 00000000 0100",
    "0c02 01000000 00000000 0100",
    "4402 01000000 0000000000000000 0100",
    "0402 01000000 0000",
    "0c02 01000000 02000000 0100",
    "0c02 01000000 ffffffff 0100",
    "0c02 40420f00 41420f00 0100",
    "0402 41420f00 0100",
    "0402 ffffffff 0100",
    "0402 01000000 c509",
    "0402 01000000 ffff",
    "0602 010000000000f03f 01000000 0100",
    "0602 0100000000000080 01000000 0100",
    "0602 000000000000f87f 01000000 0100",
    "0602 010000000000f07f 01000000 0100",
    "0602 000000000000f07f 01000000 0100",
    "0602 000000000000f0bf 01000000 0100",
    "0200 000000000000e03f",
];

/// Bytes that are taken, each near some that are not, and the tile count.
const TAKEN: [(&str, u32); 14] = [
    ("0402 01000000 0100", 1),
    ("2402 01000000 07 0100", 1),
    ("2402 01000000 01 0100", 1),
    ("0c02 01000000 01000000 0100", 1),
    ("0402 40420f00 0100", 1),
    ("0c02 40420f00 40420f00 0100", 1),
    ("0402 01000000 c409", 2_500),
    ("0602 000000000000f03f 01000000 0100", 1),
    ("0602 0100000000000000 01000000 0100", 1),
    ("0602 0000000000000080 01000000 0100", 1),
    ("0502 01000000 01000000 0100", 1),
    ("0502 00000080 01000000 0100", 1),
    ("4402 01000000 010000000000f0ff 0100", 1),
    ("4402 01000000 000000000000f07f 0100", 1),
];

/// Bytes that are refused by 11, and bytes that are taken; credited tiles at the tile count and below it; long fields of zeros.
fn refused_bytes(r: &mut Replay) {
    r.course(&[ORIGIN]);
    for text in REFUSED {
        assert_eq!(r.restore_digits(text, 1), 11, "{text}");
    }
    for (text, n) in TAKEN {
        assert_eq!(r.restore_digits(text, n), 0, "{text}");
    }
    for (map, many) in [("1402", 320), ("8402", 160), ("0403", 128)] {
        assert_eq!(r.restore_digits(&format!("{map} 01000000 {} 0100", zeros(many)), 1), 11);
    }
    for (n, tile, cause) in [
        (1, 0, 0),
        (1, 1, 11),
        (1, 63, 11),
        (63, 62, 0),
        (63, 63, 11),
        (64, 63, 0),
        (64, 64, 11),
        (65, 64, 0),
        (2_500, 2_499, 0),
        (2_500, 2_500, 11),
        (2_500, 2_559, 11),
    ] {
        let mut s = State { n, ..least() };
        s.credited[tile / 64] = 1 << (tile % 64);
        assert_eq!(r.restore(&form(&s), LONG, n), cause, "{tile} of {n}");
    }
}

/// Every prefix of a save that has all fields, and one byte more; every byte of its settings and counts as another.
fn prefixes(r: &mut Replay) {
    let n = r.course(&seed(7));
    r.put_state(&full(n));
    let bytes = r.save_shown(ROOM, true).unwrap();
    assert_eq!(bytes.len(), FULL);
    for k in 0..FULL {
        assert_eq!(r.restore(&bytes[..k], LONG, n), 11);
    }
    assert_eq!(r.restore(&bytes, LONG, n), 0);
    assert_eq!(r.restore(&[&bytes[..], &[0]].concat(), LONG, n), 11);
    // Each field alone is left out, with its bit or without it.
    let ends = [2, 6, 14, 18, 22, 342, 343, 351, 511, 639, 641];
    for k in 0..10 {
        let mut map = bytes[..2].to_vec();
        let rest = [&bytes[2..ends[k]], &bytes[ends[k + 1]..]].concat();
        r.restore(&[&map[..], &rest].concat(), LONG, n);
        map[k / 8] ^= 1 << (k % 8);
        r.restore(&[&map[..], &rest].concat(), LONG, n);
        r.restore(&[&map[..], &bytes[2..]].concat(), LONG, n);
    }
}

/// Each number of the poses at the ends of its range and past them.
fn pose_numbers(r: &mut Replay) {
    let n = r.course(&seed(11));
    let base = full(n);
    for k in 0..16 {
        for (v, cause) in [
            (FAR, 0),
            (-FAR, 0),
            (-0.0, 0),
            (0.0, 0),
            (5e-324, 0),
            (step(FAR, 1), 11),
            (-step(FAR, 1), 11),
            (f64::NAN, 11),
            (f64::INFINITY, 11),
            (f64::NEG_INFINITY, 11),
        ] {
            let mut s = base.clone();
            let p = &mut s.poses[k / 4];
            *[&mut p.x, &mut p.y, &mut p.cos, &mut p.sin][k % 4] = v;
            assert_eq!(r.restore(&form(&s), LONG, n), cause, "{k} {v}");
        }
        let mut bytes = form(&base);
        let from = 511 + 8 * k;
        bytes[from..from + 8].copy_from_slice(&0xfff0_0000_0000_0001u64.to_le_bytes());
        assert_eq!(r.restore(&bytes, LONG, n), 11);
    }
}

/// Each number of the controls, and the fuel, which have no range.
fn control_numbers(r: &mut Replay) {
    let n = r.course(&seed(11));
    let State { ctl, fuel, .. } = full(n);
    let base = State { n, ctl, fuel, ..least() };
    for k in 0..21 {
        for v in [f64::NAN, f64::INFINITY, f64::NEG_INFINITY, -0.0, f64::MAX, 5e-324] {
            let mut s = base.clone();
            *(if k < 20 { &mut s.ctl[k / 5][k % 5] } else { &mut s.fuel }) = v;
            r.put_state(&s);
            let bytes = r.save(ROOM).unwrap();
            assert_eq!(r.restore(&bytes, LONG, n), 0);
        }
        // Every NaN is read as the one there is, and written as that one.
        let mut bytes = form(&base);
        let from = if k < 20 { 14 + 8 * k } else { 6 };
        bytes[from..from + 8].copy_from_slice(&0xfff7_ffff_ffff_ffffu64.to_le_bytes());
        assert_eq!(r.restore(&bytes, LONG, n), 0);
        r.save(ROOM).unwrap();
    }
}

/// States that no run has are saved as they stand. A restore refuses some, and counts the bits of the others.
fn odd_states(r: &mut Replay) {
    let n = r.course(&seed(7));
    let base = full(n);
    let mut past = base.clone();
    past.credited[n as usize / 64] |= 1 << (n % 64);
    let mut far = base.clone();
    far.poses[1].y = step(FAR, 1);
    for (s, cause) in [
        (past, 11),
        (State { tick: 1_001, ..base.clone() }, 11),
        (State { tick: 1_000, ..base.clone() }, 0),
        (State { limit: 0, ..base.clone() }, 11),
        (State { limit: 1_000_001, ..base.clone() }, 11),
        (State { share: step(1.0, 1), ..base.clone() }, 11),
        (State { share: f64::NAN, ..base.clone() }, 11),
        (far, 11),
        (State { count: 0, ..base.clone() }, 0),
        (State { count: n, ..base.clone() }, 0),
        (State { wheels: [u64::MAX; 160], ..base.clone() }, 0),
        (State { lap: false, ended: true, tick: 0, ..base.clone() }, 0),
    ] {
        r.put_state(&s);
        let bytes = r.save(OUTPUT).unwrap();
        assert_eq!(r.restore(&bytes, LONG, n), cause);
        assert!(cause > 0 || r.state.count == base.count);
        r.sheet();
    }
}

/// Every set of causes of a save, and outputs about the length asked for.
fn save_refusals(r: &mut Replay, g: &mut SplitMix64) {
    let n = r.course(&seed(3));
    for room in [0, 1, 8, ROOM - 1, ROOM, ROOM + 1, OUTPUT] {
        r.put_state(&full(n));
        assert_eq!(r.save(room).is_err(), room < ROOM);
        r.put_state(&least());
        assert_eq!(r.save(room).is_err(), room < ROOM);
    }
    for set in 0..24 {
        let causes = chosen(&[4, 5, 2], set % 8);
        let mut s = State { driven: causes.contains(&5), ended: set % 2 == 1, ..full(n) };
        if causes.contains(&4) {
            match set / 8 {
                0 => s.n = pick(g, &[0, 2_501]),
                1 => s.count = n + 1,
                _ => (s.n, s.count) = pick(g, &[(u32::MAX, 0), (0, 0), (0, u32::MAX)]),
            }
        }
        r.put_state(&s);
        let room = if causes.contains(&2) { pick(g, &[ROOM - 1, 0, 468]) } else { ROOM };
        assert_eq!(r.save(room).err(), causes.first().copied());
        r.last();
    }
    r.put_state(&State::zero());
    assert_eq!(r.save(ROOM), Err(4));
    assert_eq!(r.save(0), Err(4));
}

/// Every set of causes of a restore; and its sixteen look-ups, each damaged alone.
fn restore_refusals(r: &mut Replay, g: &mut SplitMix64) {
    let points = seed(7);
    let n = r.course(&points);
    let s = State { poses: straddling(&points), ..full(n) };
    let bytes = form(&s);
    let cells: Vec<usize> = r.cells(&s.poses).into_iter().flatten().collect();
    for set in 0..64 {
        let causes = chosen(&[11, 12, 2, 10], set % 16);
        let (mut given, mut size) = (bytes.clone(), n);
        if causes.contains(&11) {
            match set / 16 {
                0 => given.truncate(g.next_u64() as usize % FULL),
                1 => given[1] |= 1 << (2 + g.next_u64() % 6),
                2 => given[342] |= 1 << (3 + g.next_u64() % 5),
                _ => given[21] = 0xff,
            }
        }
        if causes.contains(&12) {
            size = pick(g, &[0, n - 1, n + 1, 2_500, 2_501, u32::MAX]);
        }
        let (cell, lent) = (cells[set % 16], lengths(g, causes.contains(&2)));
        let keep = r.offsets[cell];
        if causes.contains(&10) {
            r.offset(cell, u32::MAX);
        }
        assert_eq!(r.restore(&given, lent, size), causes.first().copied().unwrap_or(0));
        r.offset(cell, keep);
    }
    for cell in cells {
        let (from, to) = (r.offsets[cell], r.offsets[cell + 1]);
        r.offset(cell, to + 1);
        assert_eq!(r.restore(&bytes, LONG, n), 10);
        r.offset(cell, from);
        if from < to {
            let (at, id) = (to as usize - 1, r.ids[to as usize - 1]);
            r.id(at, n);
            assert_eq!(r.restore(&bytes, LONG, n), 10);
            r.id(at, id);
            assert_eq!(r.restore(&bytes, [STATED[0], STATED[1], at], n), 10);
        }
        assert_eq!(r.restore(&bytes, [STATED[0], STATED[1], LONG[2]], n), 0);
    }
}

/// A save with one thing changed at random.
fn spoilt_bytes(r: &mut Replay, g: &mut SplitMix64) {
    let n = r.course(&seed(23));
    for k in 0..300 {
        let mut s = full(n);
        (s.lap, s.ended, s.fallback) = (k % 2 > 0, k % 3 > 0, k % 5 > 0);
        if k % 4 > 0 {
            s.ctl = State::zero().ctl;
        }
        if k % 3 > 0 {
            s.credited = [0; 40];
        }
        let mut bytes = form(&s);
        match k % 5 {
            0 | 1 => {
                let at = g.next_u64() as usize % bytes.len();
                bytes[at] = pick(g, &[0, 1, 0x80, 0xff, g.clone().next_u64() as u8]);
            }
            2 => bytes[g.clone().next_u64() as usize % 2] ^= 1 << (g.next_u64() % 8),
            3 => drop(bytes.remove(g.next_u64() as usize % bytes.len())),
            _ => bytes.insert(g.next_u64() as usize % bytes.len(), pick(g, &[0, 1, 0xff])),
        }
        r.restore(&bytes, LONG, n);
    }
}

pub fn records(r: &mut Replay, g: &mut SplitMix64) {
    short_forms(r);
    six_tiles(r);
    refused_bytes(r);
    prefixes(r);
    pose_numbers(r);
    control_numbers(r);
    odd_states(r);
    save_refusals(r, g);
    restore_refusals(r, g);
    spoilt_bytes(r, g);
}
