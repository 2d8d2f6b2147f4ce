//! Answers for machines, each a JSON value.
use crate::text;
use grader::{Answer, Call, Refusal, Sheet};

/// A text in quotes.
pub fn quoted(text: &str) -> String {
    let mut out = String::from("\"");
    for c in text.chars() {
        match c {
            '"' | '\\' => out.extend(['\\', c]),
            c if (c as u32) < 32 => out.push_str(&format!("\\u{:04x}", c as u32)),
            c => out.push(c),
        }
    }
    out + "\""
}

/// A number that reads back to the same bits; JSON has none that is not finite.
pub fn number(v: f64) -> String {
    if v.is_finite() {
        format!("{v:?}")
    } else {
        "null".into()
    }
}

pub fn refusal(r: &Refusal) -> String {
    format!("{{\"refused\":{},\"why\":{}}}", r.number(), quoted(&r.to_string()))
}

/// The answers to calls, each call with the number of its line: an array.
pub fn answers(calls: &[(usize, Call)], answers: &[Answer]) -> String {
    let one = |((line, call), a): (&(usize, Call), &Answer)| {
        format!("{{\"line\":{line},\"call\":{},\"answer\":{}}}", quoted(&text::call(call)), answer(a))
    };
    format!("[{}]", calls.iter().zip(answers).map(one).collect::<Vec<_>>().join(","))
}

fn answer(a: &Answer) -> String {
    match a {
        Answer::Forces(f) => {
            let wheels = f.map(|w| format!("{{\"motor\":{},\"fx\":{},\"fy\":{}}}", number(w.motor), number(w.fx), number(w.fy)));
            format!("{{\"forces\":[{}]}}", wheels.join(","))
        }
        Answer::Settled(s) => {
            format!("{{\"new_tiles\":{},\"n\":{},\"off\":{},\"lap\":{},\"ended\":{}}}", s.new_tiles, s.n, s.off, s.lap, s.ended)
        }
        Answer::Refused(r) => refusal(r),
    }
}

pub fn sheet(sheet: &Result<Sheet, Refusal>) -> String {
    match sheet {
        Ok(s) => format!(
            "{{\"tick\":{},\"credited\":{},\"n\":{},\"share\":{},\"lap\":{},\"ended\":{},\"fallback\":{}}}",
            s.tick, s.credited, s.n, s.share, s.lap, s.ended, s.fallback
        ),
        Err(r) => refusal(r),
    }
}

#[cfg(test)]
mod tests {
    use super::*;

    #[test]
    fn quotes_and_control_signs_are_escaped() {
        assert_eq!(quoted("a\"b\\c\n"), "\"a\\\"b\\\\c\\u000a\"");
        assert_eq!((number(0.1), number(f64::NAN)), ("0.1".into(), "null".into()));
    }
}
