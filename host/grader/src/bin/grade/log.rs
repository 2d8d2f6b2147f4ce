//! A log of a run: plain text, one line a call.
use grader::{Call, Motion, Pose};
use std::fmt::Write;

/// What a log says, each call with the number of its line.
#[derive(Clone, Debug, PartialEq)]
pub struct Log {
    pub seed: u64,
    pub start: Start,
    pub calls: Vec<(usize, Call)>,
}

#[derive(Clone, Debug, PartialEq)]
pub struct Start {
    pub line: usize,
    pub lap_share: f64,
    pub tick_limit: u32,
    pub poses: [Pose; 4],
}

/// Of a log to go on with.
pub const CALLS: &str = "\
The log: one line a call, words parted by spaces; what follows # is a comment, and empty lines are passed over.

  drive ACTION  angle sin cos vx vy ..  the motions of four wheels (20 numbers): joint angle, sin, cos, velocity
  settle X Y  x y cos sin ..            the hull, and the poses of four wheels (16 numbers)

grade replay --help says more of both.
";

pub const FORM: &str = "\
The log: one line a call, words parted by spaces; what follows # is a comment, and empty lines are passed over.

  seed N                                first: the course, 0 to 18446744073709551615
  start SHARE LIMIT  x y cos sin ..     second: lap share, tick limit, the poses of four wheels (16 numbers)
  drive ACTION  angle sin cos vx vy ..  the motions of four wheels (20 numbers): joint angle, sin, cos, velocity
  settle X Y  x y cos sin ..            the hull, and the poses of four wheels (16 numbers)

Wheels: front left, front right, rear left, rear right. Actions: 0 nothing, 1 right, 2 left, 3 gas, 4 brake. Numbers are
decimal, and inf, -inf and nan are read too, so that a log can hold calls that are refused.
";

/// Reads the calls of a log that goes on with a run: it has neither seed nor start.
pub fn calls(text: &str) -> Result<Vec<(usize, Call)>, (usize, String)> {
    let only = |mut words: Words| match words.rest.last() {
        Some(&word @ ("seed" | "start")) => {
            words.wrong(format!("a log to go on with has no line `{word} ..`: the saved run tells it"))
        }
        _ => Ok((words.line, words.call()?)),
    };
    text.lines().enumerate().filter_map(|(k, line)| Words::of(k + 1, line)).map(only).collect()
}

impl Log {
    /// Reads a log. An error says the line and what was expected there.
    pub fn read(text: &str) -> Result<Log, (usize, String)> {
        let mut lines = text.lines().enumerate().filter_map(|(k, line)| Words::of(k + 1, line));
        let end = || (text.lines().count() + 1, String::from("the log ends here"));
        let late = |(line, found): (usize, String), what: &str| (line, format!("expected {what}, and {found}"));
        let mut first = lines.next().ok_or_else(|| late(end(), "seed N"))?;
        first.named("seed")?;
        let seed = first.whole("the seed")?;
        first.over()?;
        let mut second = lines.next().ok_or_else(|| late(end(), "start SHARE LIMIT and the poses of four wheels"))?;
        second.named("start")?;
        let start = Start {
            line: second.line,
            lap_share: second.number("the lap share")?,
            tick_limit: second.whole("the tick limit")?,
            poses: second.poses()?,
        };
        second.over()?;
        let calls = lines.map(|mut words| Ok((words.line, words.call()?))).collect::<Result<_, _>>()?;
        Ok(Log { seed, start, calls })
    }

    /// The log's text; it reads back to the same log but for the numbers of the lines.
    pub fn text(&self) -> String {
        let mut out = format!("# a run of the grader; grade replay --help says what stands here\nseed {}\n", self.seed);
        let s = &self.start;
        let _ = writeln!(out, "start {} {}{}", s.lap_share, s.tick_limit, poses(&s.poses));
        for (_, call) in &self.calls {
            let _ = match call {
                Call::Drive { action, motions } => {
                    writeln!(out, "drive {action}{}", all(motions.iter().flat_map(|m| [m.joint_angle, m.sin, m.cos, m.vx, m.vy])))
                }
                Call::Settle { x, y, poses: p } => writeln!(out, "settle {x} {y}{}", poses(p)),
            };
        }
        out
    }
}

fn poses(poses: &[Pose; 4]) -> String {
    all(poses.iter().flat_map(|p| [p.x, p.y, p.cos, p.sin]))
}

fn all(numbers: impl Iterator<Item = f64>) -> String {
    numbers.fold(String::new(), |out, v| format!("{out} {v}"))
}

/// The words of a line.
struct Words<'a> {
    line: usize,
    rest: Vec<&'a str>,
}

type Found<T> = Result<T, (usize, String)>;

impl<'a> Words<'a> {
    /// The line's words, last first; none where it is empty or a comment.
    fn of(line: usize, text: &'a str) -> Option<Words<'a>> {
        let said = text.split('#').next().unwrap_or("");
        let rest: Vec<&str> = said.split_whitespace().rev().collect();
        (!rest.is_empty()).then_some(Words { line, rest })
    }
    fn wrong<T>(&self, what: String) -> Found<T> {
        Err((self.line, what))
    }
    fn named(&mut self, name: &str) -> Found<()> {
        match self.rest.pop() {
            Some(word) if word == name => Ok(()),
            other => self.wrong(format!("expected a line `{name} ..`, found `{}`", other.unwrap_or(""))),
        }
    }
    fn parsed<T: std::str::FromStr>(&mut self, what: &str, kind: &str) -> Found<T> {
        match self.rest.pop() {
            None => self.wrong(format!("expected {what}, {kind}, but the line ends")),
            Some(word) => word.parse().or_else(|_| self.wrong(format!("expected {what}, {kind}, found `{word}`"))),
        }
    }
    /// Of as many bits as what it is read to has.
    fn whole<T: std::str::FromStr + Into<u64>>(&mut self, what: &str) -> Found<T> {
        self.parsed(what, &format!("a whole number of {} bits", 8 * std::mem::size_of::<T>()))
    }
    fn number(&mut self, what: &str) -> Found<f64> {
        self.parsed(what, "a number")
    }
    fn wheels<const K: usize>(&mut self, what: [&str; K]) -> Found<[[f64; K]; 4]> {
        let mut out = [[0.0; K]; 4];
        for (name, wheel) in ["front left", "front right", "rear left", "rear right"].iter().zip(&mut out) {
            for (part, v) in what.iter().zip(wheel) {
                *v = self.number(&format!("{part} of the {name} wheel"))?;
            }
        }
        Ok(out)
    }
    fn poses(&mut self) -> Found<[Pose; 4]> {
        Ok(self.wheels(["x", "y", "cos", "sin"])?.map(|[x, y, cos, sin]| Pose { x, y, cos, sin }))
    }
    fn motions(&mut self) -> Found<[Motion; 4]> {
        let wheels = self.wheels(["joint angle", "sin", "cos", "vx", "vy"])?;
        Ok(wheels.map(|[joint_angle, sin, cos, vx, vy]| Motion { joint_angle, sin, cos, vx, vy }))
    }
    fn call(&mut self) -> Found<Call> {
        let call = match self.rest.pop() {
            Some("drive") => Call::Drive { action: self.whole("the action")?, motions: self.motions()? },
            Some("settle") => {
                Call::Settle { x: self.number("the hull's x")?, y: self.number("the hull's y")?, poses: self.poses()? }
            }
            other => return self.wrong(format!("expected `drive ..` or `settle ..`, found `{}`", other.unwrap_or(""))),
        };
        self.over().map(|()| call)
    }
    fn over(&mut self) -> Found<()> {
        match self.rest.pop() {
            None => Ok(()),
            Some(word) => self.wrong(format!("expected the line to end, found `{word}`")),
        }
    }
}

#[cfg(test)]
mod tests {
    use super::*;

    const POSES: &str = "1 2 1 0 1 2 1 0 1 2 1 0 1 2 1 0";

    #[test]
    fn a_log_reads_back() {
        let text = format!(
            "# why\n\nseed 7\nstart 0.95 1000 {POSES} # poses\ndrive 3 {} {POSES}\nsettle -0.1 1e300 {POSES}\n",
            "0.30000000000000004 -0 0 0"
        );
        let log = Log::read(&text).unwrap();
        assert_eq!((log.seed, log.start.line, log.calls[0].0, log.calls[1].0), (7, 4, 5, 6));
        let again = Log::read(&log.text()).unwrap();
        assert_eq!(again.calls.iter().map(|c| c.1).collect::<Vec<_>>(), log.calls.iter().map(|c| c.1).collect::<Vec<_>>());
    }

    #[test]
    fn a_seed_has_64_bits() {
        let log = |seed: &str| Log::read(&format!("seed {seed}\nstart 0.95 1000 {POSES}\n"));
        for seed in [0, u64::from(u32::MAX), 1 << 32, u64::MAX] {
            let read = log(&seed.to_string()).unwrap();
            assert_eq!((read.seed, Log::read(&read.text()).unwrap().seed), (seed, seed));
        }
        for seed in ["18446744073709551616", "184467440737095516150"] {
            assert_eq!(log(seed), Err((1, format!("expected the seed, a whole number of 64 bits, found `{seed}`"))));
        }
    }

    #[test]
    fn a_log_to_go_on_with_has_calls_alone() {
        let text = format!("# later\n\ndrive 3 0.5 0 0 0 {POSES}\nsettle 1 2 {POSES}\n");
        let lines = |text: &str| calls(text).map(|all| all.iter().map(|c| c.0).collect::<Vec<_>>());
        assert_eq!((lines(&text), lines("")), (Ok(vec![3, 4]), Ok(vec![])));
        let told = |word: &str| format!("a log to go on with has no line `{word} ..`: the saved run tells it");
        assert_eq!(lines("\nseed 7"), Err((2, told("seed"))));
        assert_eq!(lines(&format!("{text}start 0.95 9 {POSES}")), Err((5, told("start"))));
        assert_eq!(lines("turn 1"), Err((1, "expected `drive ..` or `settle ..`, found `turn`".into())));
    }

    fn wrong(text: &str) -> String {
        let (line, what) = Log::read(text).unwrap_err();
        format!("{line}: {what}")
    }

    #[test]
    fn errors_say_line_and_what_was_expected() {
        assert_eq!(wrong(""), "1: expected seed N, and the log ends here");
        assert_eq!(wrong("\nsaid 3"), "2: expected a line `seed ..`, found `said`");
        assert_eq!(wrong("seed -1"), "1: expected the seed, a whole number of 64 bits, found `-1`");
        assert_eq!(wrong("seed 1 2"), "1: expected the line to end, found `2`");
        assert_eq!(wrong("seed 1"), "2: expected start SHARE LIMIT and the poses of four wheels, and the log ends here");
        assert_eq!(
            wrong("seed 1\nstart 0.9 4294967296"),
            "2: expected the tick limit, a whole number of 32 bits, found `4294967296`"
        );
        assert_eq!(wrong("seed 1\nstart 0.9 9 1 2"), "2: expected cos of the front left wheel, a number, but the line ends");
        assert_eq!(wrong(&format!("seed 1\nstart 0.9 9 {POSES}\nturn 1")), "3: expected `drive ..` or `settle ..`, found `turn`");
        assert_eq!(
            wrong(&format!("seed 1\nstart 0.9 9 {POSES}\nsettle 0 y {POSES}")),
            "3: expected the hull's y, a number, found `y`"
        );
    }
}
