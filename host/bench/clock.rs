//! Medians, and the rows of a table.
use std::time::Instant;

/// How many rounds a row has.
#[derive(Clone, Copy)]
pub struct Rounds(pub usize);

/// The time of one call, in ns, where f makes n of them.
pub fn each(n: usize, f: impl FnOnce()) -> f64 {
    let t = Instant::now();
    f();
    t.elapsed().as_secs_f64() * 1e9 / n as f64
}

pub fn median(v: &mut [f64]) -> f64 {
    v.sort_by(f64::total_cmp);
    v[v.len() / 2]
}

/// A time with a unit that suits it.
pub fn shown(ns: f64) -> String {
    match ns {
        t if t < 1e3 => format!("{t:.1} ns"),
        t if t < 1e6 => format!("{:.2} µs", t / 1e3),
        t => format!("{:.2} ms", t / 1e6),
    }
}

pub fn head(title: &str, columns: &[&str]) {
    println!("\n{title}\n\n| {} |\n|{}", columns.join(" | "), "---|".repeat(columns.len()));
}

/// Two sides by turns, each a round that says the time of a call: the medians of Rust and port, and the median of the ratios port / Rust.
pub fn turns(rounds: Rounds, mut rust: impl FnMut() -> f64, mut port: impl FnMut() -> f64) -> [f64; 3] {
    let (mut a, mut b, mut q) = (vec![], vec![], vec![]);
    rust();
    port();
    for _ in 0..rounds.0 {
        let (x, y) = (rust(), port());
        a.push(x);
        b.push(y);
        q.push(y / x);
    }
    [median(&mut a), median(&mut b), median(&mut q)]
}

/// A row of two sides.
pub fn versus(name: &str, rounds: Rounds, rust: impl FnMut() -> f64, port: impl FnMut() -> f64) {
    let [a, b, q] = turns(rounds, rust, port);
    println!("| {name} | {} | {} | {q:.2} |", shown(a), shown(b));
}

/// The median of one side alone.
pub fn alone(rounds: Rounds, mut round: impl FnMut() -> f64) -> f64 {
    round();
    let mut v: Vec<f64> = (0..rounds.0).map(|_| round()).collect();
    median(&mut v)
}
