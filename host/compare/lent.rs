//! The lent columns of a course as document 01 ("Lent", "Refusals by cause") leaves them, with their lines in the answers of
//! a list; and hashes of columns.
use oracle::oracle::{probe, Track};
use reinfors_core::{Rng, SplitMix64};

/// The lengths of document 01 (alpha, beta, x, y, tiles, offsets); the index list has none.
pub const STATED: [usize; 6] = [2_500, 2_500, 2_500, 2_500, 20_000, 4_490];

/// What stands in each place of a lent column before a call.
pub const UNTOUCHED: f64 = 1e7;
pub const UNTOUCHED_ID: u32 = 4_000_000_000;

fn mix(h: u64, w: u64) -> u64 {
    (h ^ w).wrapping_mul(0x100_0000_01B3) ^ (h >> 29)
}

pub fn hash(words: impl IntoIterator<Item = u64>) -> u64 {
    words.into_iter().fold(1, mix)
}

pub fn hash_floats(col: &[f64]) -> u64 {
    hash(col.iter().map(|x| x.to_bits()))
}

pub fn hash_ids(col: &[u32]) -> u64 {
    hash(col.iter().map(|&id| id.into()))
}

/// The values stand in front of the column, and zeros behind them up to `end`.
pub fn put<T: Default>(col: &mut [T], values: impl Iterator<Item = T>, end: usize) {
    let mut values = values.fuse();
    for place in &mut col[..end] {
        *place = values.next().unwrap_or_default();
    }
    assert!(values.next().is_none());
}

/// Whether every lent column has its stated length.
pub fn roomy(lent: &[usize], stated: &[usize]) -> bool {
    lent.iter().zip(stated).all(|(l, s)| l >= s)
}

/// The stated lengths, and the index list's.
pub fn stated(list: usize) -> [usize; 7] {
    let [a, b, c, d, e, f] = STATED;
    [a, b, c, d, e, f, list]
}

/// From lo to hi.
pub fn between(g: &mut SplitMix64, lo: f64, hi: f64) -> f64 {
    lo + (hi - lo) * g.unit()
}

/// The whole columns: alpha, beta, x, y and tiles, offsets, index list.
pub struct Lent {
    pub floats: Vec<Vec<f64>>,
    pub offsets: Vec<u32>,
    pub ids: Vec<u32>,
}

impl Lent {
    /// Before a call, of these lengths.
    pub fn untouched(long: &[usize; 7]) -> Lent {
        Lent {
            floats: long[..5].iter().map(|&n| vec![UNTOUCHED; n]).collect(),
            offsets: vec![UNTOUCHED_ID; long[5]],
            ids: vec![UNTOUCHED_ID; long[6]],
        }
    }
    /// The course, where no cause but 3 is left; that one leaves offsets and list as before. Answers the lines of the
    /// course, or by Err those of that refusal; `list` is the length of the index list that was lent.
    pub fn write(&mut self, track: &Track, list: usize) -> Result<String, String> {
        let (offsets, ids) = probe::raw_ref(track);
        let need = ids.len();
        put(&mut self.floats[0], std::iter::empty(), STATED[0]);
        put(&mut self.floats[1], track.points.iter().map(|p| p.beta), STATED[1]);
        put(&mut self.floats[2], track.points.iter().map(|p| p.x), STATED[2]);
        put(&mut self.floats[3], track.points.iter().map(|p| p.y), STATED[3]);
        put(&mut self.floats[4], track.tiles.iter().flat_map(|t| t.quad.into_iter().flatten()), STATED[4]);
        if list < need {
            return Err(format!("refused 3\n{need}\n"));
        }
        put(&mut self.offsets, offsets.iter().copied(), STATED[5]);
        put(&mut self.ids, ids.iter().copied(), need);
        let (n, first, fallback) = (track.points.len(), track.points[0], track.fallback as usize);
        let [beta, x, y] = [first.beta, first.x, first.y].map(f64::to_bits);
        Ok(format!("{n}\n{fallback}\n{need}\n{beta:016x}\n{x:016x}\n{y:016x}\n"))
    }
    /// The lines of the columns' hashes.
    pub fn lines(&self) -> String {
        let floats = self.floats.iter().map(|col| hash_floats(col));
        let hashes = floats.chain([hash_ids(&self.offsets), hash_ids(&self.ids)]);
        hashes.map(|h| format!("{h:016x}\n")).collect()
    }
}
