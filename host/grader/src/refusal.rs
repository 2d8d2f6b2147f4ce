//! Why a call is refused: document 01, "Refusals by cause", and document 02, order 1.
use std::fmt;

/// The first cause that holds of those a call is refused for. A refused call changes nothing.
#[derive(Clone, Copy, Debug, PartialEq, Eq)]
pub enum Refusal {
    /// 1: a lap share that is NaN or outside 0 to 1, or a tick limit outside 1 to 1,000,000.
    Settings,
    /// 2: a lent column is too short, or n is outside 1 to 2,500.
    Short,
    /// 3: the index list is too short; `needed` entries would do.
    ShortList { needed: u32 },
    /// 4: the state is no run's, or the run has ended.
    NoRun,
    /// 5: drive and settle alternate, drive first.
    Turn,
    /// 6: the tick limit is reached.
    TickLimit,
    /// 7: an action above 4.
    Action,
    /// 8: a number that is not finite, or out of its range.
    Number,
    /// 9: no points, or more than 2,500.
    PointCount,
    /// 10: the lent index is damaged where a wheel looks it up.
    Index,
    /// 11: bytes that are no saved form, or that say what no run has.
    Saved,
    /// 12: the course has another tile count than the saved run's.
    OtherCourse,
}

impl Refusal {
    /// The cause's number in documents 01 and 02, 1 to 12.
    pub fn number(self) -> u32 {
        match self {
            Refusal::Settings => 1,
            Refusal::Short => 2,
            Refusal::ShortList { .. } => 3,
            Refusal::NoRun => 4,
            Refusal::Turn => 5,
            Refusal::TickLimit => 6,
            Refusal::Action => 7,
            Refusal::Number => 8,
            Refusal::PointCount => 9,
            Refusal::Index => 10,
            Refusal::Saved => 11,
            Refusal::OtherCourse => 12,
        }
    }

    /// Nothing for 0, else the refusal of that number; `needed` counts for 3 alone.
    pub(crate) fn check(cause: u32, needed: u32) -> Result<(), Refusal> {
        Err(match cause {
            0 => return Ok(()),
            1 => Refusal::Settings,
            2 => Refusal::Short,
            3 => Refusal::ShortList { needed },
            4 => Refusal::NoRun,
            5 => Refusal::Turn,
            6 => Refusal::TickLimit,
            7 => Refusal::Action,
            8 => Refusal::Number,
            9 => Refusal::PointCount,
            10 => Refusal::Index,
            11 => Refusal::Saved,
            12 => Refusal::OtherCourse,
            // Only where library and crate are of different versions.
            _ => panic!("the grader answered cause {cause}, which this crate does not know"),
        })
    }
}

impl fmt::Display for Refusal {
    fn fmt(&self, f: &mut fmt::Formatter) -> fmt::Result {
        match self {
            Refusal::Settings => write!(f, "the lap share must be 0 to 1 and the tick limit 1 to 1,000,000"),
            Refusal::Short => write!(f, "a lent column is too short"),
            Refusal::ShortList { needed } => write!(f, "the index list is too short: {needed} entries are needed"),
            Refusal::NoRun => write!(f, "there is no run, or it has ended"),
            Refusal::Turn => write!(f, "out of turn: drive and settle alternate, drive first"),
            Refusal::TickLimit => write!(f, "the tick limit is reached"),
            Refusal::Action => write!(f, "the action must be 0 to 4"),
            Refusal::Number => write!(f, "a number is not finite or out of its range"),
            Refusal::PointCount => write!(f, "a course has 1 to 2,500 points"),
            Refusal::Index => write!(f, "the course's index is damaged"),
            Refusal::Saved => write!(f, "the bytes are not those of a saved run"),
            Refusal::OtherCourse => write!(f, "the course has another number of tiles than the saved run"),
        }
    }
}

impl std::error::Error for Refusal {}

#[cfg(test)]
mod tests {
    use super::*;

    #[test]
    fn every_number_comes_back() {
        assert_eq!(Refusal::check(0, 7), Ok(()));
        for cause in 1..=12 {
            assert_eq!(Refusal::check(cause, 7).unwrap_err().number(), cause);
        }
        assert_eq!(Refusal::check(3, 7), Err(Refusal::ShortList { needed: 7 }));
    }
}
