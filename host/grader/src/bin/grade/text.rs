//! Answers in words.
use grader::{Answer, Call, Refusal, Settled, Sheet};

pub fn yes(flag: bool) -> &'static str {
    if flag {
        "yes"
    } else {
        "no"
    }
}

pub fn refusal(r: &Refusal) -> String {
    format!("refused by {}: {r}", r.number())
}

/// A call's name in a line of answers.
pub fn call(call: &Call) -> String {
    match call {
        Call::Drive { action, .. } => format!("drive {action}"),
        Call::Settle { .. } => "settle".into(),
    }
}

/// The answers to calls, each call with the number of its line: one line to a call.
pub fn answers(calls: &[(usize, Call)], answers: &[Answer]) -> String {
    let line = |((line, c), a): (&(usize, Call), &Answer)| format!("line {line}  {}  {}\n", call(c), answer(a));
    calls.iter().zip(answers).map(line).collect()
}

fn answer(a: &Answer) -> String {
    match a {
        Answer::Forces(f) => {
            let wheels = f.map(|w| format!("{:.3} ({:.2}, {:.2})", w.motor, w.fx, w.fy));
            format!("motor (force)  {}", wheels.join("  "))
        }
        Answer::Settled(s) => settled(s),
        Answer::Refused(r) => refusal(r),
    }
}

fn settled(s: &Settled) -> String {
    let mut line = format!("{} new", s.new_tiles);
    for (flag, word) in [(s.off, "off the playfield"), (s.lap, "lap"), (s.ended, "ended")] {
        if flag {
            line += &format!(", {word}");
        }
    }
    line
}

/// The run sheet, one figure to a line.
pub fn sheet(sheet: &Result<Sheet, Refusal>) -> String {
    match sheet {
        Err(r) => format!("no sheet, {}\n", refusal(r)),
        Ok(s) => format!(
            "tick      {}\ncredited  {}\ntiles     {}\nshare     {} of 1000\nlap       {}\nended     {}\nfallback  {}\n",
            s.tick,
            s.credited,
            s.n,
            s.share,
            yes(s.lap),
            yes(s.ended),
            yes(s.fallback)
        ),
    }
}
