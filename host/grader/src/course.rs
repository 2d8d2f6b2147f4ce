//! A course: the tiles that a run is graded on, and the index by which a wheel finds them.
use crate::ffi::{self, Columns, Laid, Lent};
use crate::Refusal;

/// The lengths that the grader asks of the columns (document 01, "Tiles and index").
const POINTS: usize = 2_500;
const TILES: usize = 20_000;
const OFFSETS: usize = 4_490;

/// What the index list begins with; it grows where a course needs more. Of 200,000 seeds none needed more than 1,736.
const FIRST_LIST: usize = 2_048;

/// A point of the course's middle line. `beta` is the heading of the line across the road: the road runs along
/// (-sin beta, cos beta).
#[derive(Clone, Copy, Debug, Default, PartialEq)]
pub struct Point {
    pub beta: f64,
    pub x: f64,
    pub y: f64,
}

/// Four corners, in order round the quad.
pub type Quad = [[f64; 2]; 4];

/// A block of the curb beside a sharp turn, white or red. Nothing is graded by it.
#[derive(Clone, Copy, Debug, PartialEq)]
pub struct Curb {
    pub quad: Quad,
    pub white: bool,
}

/// A course that the grader has laid. It owns its columns, and nothing changes them.
#[derive(Clone, Debug)]
pub struct Course {
    columns: Owned,
    seed: u64,
    n: u32,
    fallback: bool,
    first: Point,
}

impl Course {
    /// The course of a seed. Every seed has one.
    ///
    /// ```
    /// let course = grader::Course::lay(0);
    /// assert_eq!((course.n(), course.entries()), (292, 1173));
    /// ```
    pub fn lay(seed: u64) -> Course {
        let mut columns = Owned::new();
        // Refused by 2 and 3 alone: the columns have their full lengths, and 3 makes the list grow.
        let laid = columns.growing(|lent| ffi::lay(seed, lent)).expect("columns of full lengths are not refused");
        Course::of(columns, seed, laid)
    }

    /// The course of given points. Refused by [`Refusal::PointCount`] and [`Refusal::Number`].
    pub fn from_points(points: &[Point]) -> Result<Course, Refusal> {
        let [beta, x, y] =
            [|p: &Point| p.beta, |p: &Point| p.x, |p: &Point| p.y].map(|f| points.iter().map(f).collect::<Vec<f64>>());
        let count = u32::try_from(points.len()).unwrap_or(u32::MAX);
        let mut columns = Owned::new();
        let laid = columns.growing(|lent| ffi::points(&beta, &x, &y, count, lent))?;
        Ok(Course::of(columns, 0, laid))
    }

    fn of(mut columns: Owned, seed: u64, laid: Laid) -> Course {
        columns.list.truncate(laid.entries as usize);
        let first = Point { beta: laid.beta, x: laid.x, y: laid.y };
        Course { columns, seed, n: laid.n, fallback: laid.fallback, first }
    }

    /// The seed that it was laid from; 0 for a course of given points.
    pub fn seed(&self) -> u64 {
        self.seed
    }

    /// How many tiles, 1 to 2,500.
    pub fn n(&self) -> u32 {
        self.n
    }

    /// No attempt gave a course for this seed, and it has the ring instead.
    pub fn fallback(&self) -> bool {
        self.fallback
    }

    /// How many entries the index list has.
    pub fn entries(&self) -> usize {
        self.columns.list.len()
    }

    /// The first point, where a host puts its car.
    pub fn first(&self) -> Point {
        self.first
    }

    /// The points, one to a tile.
    pub fn points(&self) -> Vec<Point> {
        let c = &self.columns;
        (0..self.n as usize).map(|i| Point { beta: c.beta[i], x: c.x[i], y: c.y[i] }).collect()
    }

    /// The corners of tile i, which joins point i to the point before it.
    ///
    /// # Panics
    /// Where i is n or more, as a slice does.
    pub fn tile(&self, i: u32) -> Quad {
        assert!(i < self.n, "tile {i} of a course of {}", self.n);
        quad(&self.columns.tiles, i as usize)
    }

    /// The curbs beside the course's sharp turns. Refused by [`Refusal::Number`] where a point is beyond ±1,000.
    pub fn curbs(&self) -> Result<Vec<Curb>, Refusal> {
        let c = &self.columns;
        let (mut quads, mut white) = (vec![0.0; TILES], vec![0; POINTS]);
        let found = ffi::curbs(&c.beta, &c.x, &c.y, self.n, &mut quads, &mut white);
        Refusal::check(found.cause, 0)?;
        Ok((0..found.count as usize).map(|i| Curb { quad: quad(&quads, i), white: white[i] == 1 }).collect())
    }

    /// What start, settle and restore are lent.
    pub(crate) fn columns(&self) -> Columns<'_> {
        Columns { tiles: &self.columns.tiles, offsets: &self.columns.offsets, list: &self.columns.list }
    }
}

/// Eight numbers to a quad.
fn quad(from: &[f64], i: usize) -> Quad {
    let at = &from[8 * i..8 * i + 8];
    [[at[0], at[1]], [at[2], at[3]], [at[4], at[5]], [at[6], at[7]]]
}

/// The columns that a course is written to, in the lengths that the grader asks for.
#[derive(Clone, Debug)]
pub(crate) struct Owned {
    alpha: Vec<f64>,
    beta: Vec<f64>,
    x: Vec<f64>,
    y: Vec<f64>,
    tiles: Vec<f64>,
    offsets: Vec<u32>,
    list: Vec<u32>,
}

impl Owned {
    pub(crate) fn new() -> Owned {
        let floats = || vec![0.0; POINTS];
        Owned {
            alpha: floats(),
            beta: floats(),
            x: floats(),
            y: floats(),
            tiles: vec![0.0; TILES],
            offsets: vec![0; OFFSETS],
            list: vec![0; FIRST_LIST],
        }
    }

    pub(crate) fn lent(&mut self) -> Lent<'_> {
        let Owned { alpha, beta, x, y, tiles, offsets, list } = self;
        Lent { alpha, beta, x, y, tiles, offsets, list }
    }

    pub(crate) fn grow(&mut self, needed: u32) {
        self.list.resize(needed as usize, 0);
    }

    /// Lends the columns, and once more with a longer list where cause 3 asks for it.
    fn growing(&mut self, call: impl Fn(Lent) -> Laid) -> Result<Laid, Refusal> {
        let laid = call(self.lent());
        match Refusal::check(laid.cause, laid.entries) {
            Err(Refusal::ShortList { needed }) => self.grow(needed),
            other => return other.map(|()| laid),
        }
        let laid = call(self.lent());
        Refusal::check(laid.cause, laid.entries).map(|()| laid)
    }
}

#[cfg(test)]
mod tests {
    use super::*;

    /// The longest index of all: 2,500 points from corner to corner of the field and back, so that every tile's rectangle holds every
    /// cell. Each of the 67 * 67 cells then lists the tiles 0 to 2,499.
    #[test]
    fn the_longest_index_lists_every_tile_in_every_cell() {
        let corner = |i: usize| [1000.0, -1000.0][i % 2];
        let points: Vec<Point> = (0..POINTS).map(|i| Point { beta: 0.0, x: corner(i), y: corner(i) }).collect();
        let course = Course::from_points(&points).expect("2,500 points within 1,000 are taken");
        assert_eq!((course.n(), course.entries()), (2_500, 11_222_500));
        let columns = course.columns();
        assert!(columns.offsets.iter().enumerate().all(|(cell, &at)| at as usize == POINTS * cell));
        assert!(columns.list.chunks_exact(POINTS).all(|cell| cell.iter().copied().eq(0..2_500)));
    }
}
