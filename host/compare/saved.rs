//! A second writer and reader of the saved form, from the text of orders 1 and 3 of document 02 alone. The form begins with a map of two
//! bytes. After it stand, in bit order, the fields whose bit is set: those whose bytes are not all zero. Every number goes low byte
//! first, a float by its bits, every NaN by the same. A seed has two fields, of which one stands at most.
use crate::car::{bits, near, numbers, MOST};
use crate::model::State;
use crate::seeds::WIDE;
use oracle::Pose;

/// How long an output a save asks for: the map, and every field but the first, in whose place a wide seed has the last.
pub const ROOM: usize = 645;

/// How many bytes each field has.
const WIDTHS: [usize; 11] = [4, 8, 4, 4, 40 * 8, 1, 8, 4 * 5 * 8, 4 * 4 * 8, 2, 8];

/// The number of the last one, the wide seed's.
pub const LAST_FIELD: usize = WIDTHS.len() - 1;

fn floats(xs: impl IntoIterator<Item = f64>) -> Vec<u8> {
    xs.into_iter().flat_map(|x| bits(x).to_le_bytes()).collect()
}

/// The fields, each in its whole length.
fn fields(s: &State) -> [Vec<u8>; 11] {
    let (low, high) = parted(s.seed);
    let flags = u8::from(s.lap) | u8::from(s.ended) << 1 | u8::from(s.fallback) << 2;
    [
        low.to_le_bytes().to_vec(),
        floats([s.share]),
        s.limit.to_le_bytes().to_vec(),
        s.tick.to_le_bytes().to_vec(),
        s.credited.iter().flat_map(|w| w.to_le_bytes()).collect(),
        vec![flags],
        floats([s.fuel]),
        floats(s.ctl.into_iter().flatten()),
        floats(s.poses.iter().flat_map(numbers)),
        (s.n as u16).to_le_bytes().to_vec(),
        high.to_le_bytes().to_vec(),
    ]
}

/// The numbers of a seed's two fields: one of 2^32 or more stands in the last, any other in the first.
fn parted(seed: u64) -> (u32, u64) {
    match u32::try_from(seed) {
        Ok(low) => (low, 0),
        Err(_) => (0, seed),
    }
}

/// The seed of these two fields, none of which stands with zeros; None where both stand, or a smaller seed in the last.
fn joined(low: u32, high: u64) -> Option<u64> {
    match (low, high) {
        (_, 0) => Some(low.into()),
        (0, WIDE..) => Some(high),
        _ => None,
    }
}

/// The saved form of a state whose tile count fits two bytes.
pub fn form(s: &State) -> Vec<u8> {
    let mut out = vec![0, 0];
    for (k, field) in fields(s).into_iter().enumerate() {
        assert_eq!(field.len(), WIDTHS[k]);
        if field.iter().any(|&b| b != 0) {
            out[k / 8] |= 1 << (k % 8);
            out.extend(field);
        }
    }
    out
}

/// Where field k begins in a form, or would if it stood.
pub fn place(form: &[u8], k: usize) -> usize {
    let stands = |j: &usize| form[j / 8] >> (j % 8) & 1 == 1;
    2 + (0..k).filter(stands).map(|j| WIDTHS[j]).sum::<usize>()
}

/// The first of the causes 4, 5 and 2 of a save into an output of this length, else 0.
pub fn save_cause(s: &State, room: usize) -> usize {
    match () {
        _ if s.unfit() => 4,
        _ if s.driven => 5,
        _ if room < ROOM => 2,
        _ => 0,
    }
}

/// What is left of saved bytes while they are read.
struct Reader<'a> {
    map: u16,
    rest: &'a [u8],
}

impl Reader<'_> {
    /// The next field, of `LONG` bytes: zeros where its bit does not stand; None where it is cut off, or stands with zeros.
    fn field<const LONG: usize>(&mut self) -> Option<[u8; LONG]> {
        let stands = self.map % 2 == 1;
        self.map /= 2;
        if !stands {
            return Some([0; LONG]);
        }
        let (field, rest) = self.rest.split_first_chunk()?;
        self.rest = rest;
        (*field != [0; LONG]).then_some(*field)
    }
    fn float(&mut self) -> Option<f64> {
        self.field().map(f64::from_le_bytes)
    }
    fn whole(&mut self) -> Option<u32> {
        self.field().map(u32::from_le_bytes)
    }
    /// No unknown bit, and no byte is left.
    fn at_end(&self) -> bool {
        self.map == 0 && self.rest.is_empty()
    }
}

/// Number k of a field.
fn float_at(field: &[u8], k: usize) -> f64 {
    f64::from_le_bytes(std::array::from_fn(|i| field[8 * k + i]))
}

/// What the bytes say, with the credited count that the bits make and no wheel on a tile; None where they are refused by 11.
pub fn read(bytes: &[u8]) -> Option<State> {
    let (map, rest) = bytes.split_first_chunk()?;
    let mut r = Reader { map: u16::from_le_bytes(*map), rest };
    let (low, share, limit, tick) = (r.whole()?, r.float()?, r.whole()?, r.whole()?);
    let credited: [u8; 320] = r.field()?;
    let [flags] = r.field()?;
    let fuel = r.float()?;
    let (controls, last): ([u8; 160], [u8; 128]) = (r.field()?, r.field()?);
    let n = r.field().map(u16::from_le_bytes)?.into();
    let seed = joined(low, r.field().map(u64::from_le_bytes)?)?;
    let credited: [u64; 40] = std::array::from_fn(|k| u64::from_le_bytes(std::array::from_fn(|i| credited[8 * k + i])));
    let pose =
        |k| Pose { x: float_at(&last, k), y: float_at(&last, k + 1), cos: float_at(&last, k + 2), sin: float_at(&last, k + 3) };
    let s = State {
        n,
        count: credited.iter().map(|w| w.count_ones()).sum(),
        tick,
        limit,
        share,
        lap: flags & 1 > 0,
        ended: flags & 2 > 0,
        fallback: flags & 4 > 0,
        driven: false,
        ctl: std::array::from_fn(|w| std::array::from_fn(|i| float_at(&controls, 5 * w + i))),
        fuel,
        credited,
        wheels: [0; 160],
        poses: [0, 4, 8, 12].map(pose),
        seed,
    };
    (r.at_end() && flags < 8 && in_range(&s)).then_some(s)
}

/// Settings, tile count and poses are in their ranges, no credited tile is at or past the tile count, and the tick is not above
/// the limit. Controls and fuel have no range.
fn in_range(s: &State) -> bool {
    let credited = |t: u32| s.credited[t as usize / 64] >> (t % 64) & 1 == 1;
    (0.0..=1.0).contains(&s.share)
        && (1..=1_000_000).contains(&s.limit)
        && (1..=MOST).contains(&s.n)
        && s.poses.iter().flat_map(numbers).all(near)
        && !(s.n..2_560).any(credited)
        && s.tick <= s.limit
}
