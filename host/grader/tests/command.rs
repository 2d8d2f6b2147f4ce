//! The command grade, run as people run it.
use std::path::PathBuf;
use std::process::{Command, Output};

fn grade(words: &[&str]) -> Output {
    Command::new(env!("CARGO_BIN_EXE_grade")).args(words).output().expect("grade runs")
}

fn said(out: &Output) -> (String, String) {
    let text = |b: &[u8]| String::from_utf8(b.to_vec()).expect("text");
    (text(&out.stdout), text(&out.stderr))
}

/// The last seed there is.
const LAST: &str = "18446744073709551615";

/// A folder of this test's own.
fn folder(name: &str) -> PathBuf {
    let folder = PathBuf::from(env!("CARGO_TARGET_TMPDIR")).join(name);
    std::fs::create_dir_all(&folder).expect("a folder");
    folder
}

#[test]
fn lay_prints_the_course() {
    let out = grade(&["lay", "0"]);
    assert!(out.status.success());
    assert!(said(&out).0.starts_with("seed      0\ntiles     292\nentries   1173\nfallback  no\nfirst     beta "));
    let out = grade(&["lay", "0", "--json"]);
    assert!(said(&out).0.starts_with("{\"seed\":0,\"n\":292,\"entries\":1173,\"fallback\":false,\"first\":{\"beta\":"));
}

#[test]
fn a_seed_is_shown_with_all_its_digits() {
    let (text, json) = (said(&grade(&["lay", LAST])).0, said(&grade(&["lay", LAST, "--json"])).0);
    assert!(text.starts_with(&format!("seed      {LAST}\ntiles     323\nentries   1336\n")), "{text}");
    assert!(json.starts_with(&format!("{{\"seed\":{LAST},\"n\":323,\"entries\":1336,")), "{json}");
    for seed in ["18446744073709551616", "184467440737095516150", "-1", "0x7", "7.0"] {
        for command in ["lay", "demo", "bench"] {
            let out = grade(&[command, seed]);
            assert_eq!((out.status.code(), said(&out).0), (Some(2), String::new()), "{command} {seed}");
            assert_eq!(said(&out).1, format!("grade: a seed is a whole number from 0 to {LAST}, not {seed}\n"));
        }
    }
}

#[test]
fn bench_times_every_call() {
    let out = grade(&["bench", LAST, "--json"]);
    assert!(out.status.success(), "{}", said(&out).1);
    let times = said(&out).0;
    let calls = ["lay", "start", "drive", "settle", "save", "restore", "replay"];
    assert!(calls.iter().all(|call| times.contains(&format!("\"{call}\":"))), "{times}");
}

#[test]
fn lay_draws_every_tile() {
    let file = folder("lay").join("course.svg");
    assert!(grade(&["lay", "0", "--svg", file.to_str().unwrap()]).status.success());
    let svg = std::fs::read_to_string(file).unwrap();
    assert_eq!(svg.matches("<polygon class=\"tile\"").count(), 292);
    assert!(
        svg.contains("class=\"red\"")
            && svg.contains("class=\"white\"")
            && svg.contains(">280</text>")
            && svg.contains(">start</text>")
    );
}

#[test]
fn a_demo_replays_to_its_sheet() {
    for seed in ["7", LAST] {
        let dir = folder(&format!("demo{seed}"));
        let out = grade(&["demo", seed, "--out", dir.to_str().unwrap()]);
        assert!(out.status.success(), "{}", said(&out).1);
        assert!(said(&out).1.contains("tick 250: "));
        let (log, again) = (dir.join("log.txt"), dir.join("again.svg"));
        let out = grade(&["replay", log.to_str().unwrap(), "--svg", again.to_str().unwrap()]);
        let read = |name: &str| std::fs::read_to_string(dir.join(name)).unwrap();
        assert!(read("log.txt").contains(&format!("\nseed {seed}\n")));
        assert!(said(&out).0.ends_with(&format!("\n\n{}", read("sheet.txt"))));
        assert_eq!(read("again.svg"), read("lap.svg"));
        assert!(read("lap.svg").contains("<polyline class=\"path\""));
    }
}

#[test]
fn replay_says_refusals_in_words() {
    let log = folder("refused").join("log.txt");
    let (poses, still) = ("220 -50 1 0 ".repeat(4), "0 0 1 0 0 ".repeat(4));
    std::fs::write(
        &log,
        format!("seed 0\nstart 0.95 9 {poses}\nsettle 220 -50 {poses}\ndrive 5 {still}\ndrive 3 {still}\nsettle nan 0 {poses}\n"),
    )
    .unwrap();
    let out = grade(&["replay", log.to_str().unwrap()]);
    assert!(out.status.success());
    let lines: Vec<String> = said(&out).0.lines().map(String::from).collect();
    assert_eq!(lines[1], "line 3  settle  refused by 5: out of turn: drive and settle alternate, drive first");
    assert_eq!(lines[2], "line 4  drive 5  refused by 7: the action must be 0 to 4");
    assert!(lines[3].starts_with("line 5  drive 3  motor (force) "));
    assert_eq!(lines[4], "line 6  settle  refused by 8: a number is not finite or out of its range");
    let json = said(&grade(&["replay", log.to_str().unwrap(), "--json"])).0;
    assert!(json.contains("{\"line\":4,\"call\":\"drive 5\",\"answer\":{\"refused\":7,\"why\":\"the action must be 0 to 4\"}}"));
}

/// A demo's log of a seed in a folder of its own, cut behind so many ticks: the whole of it, what comes before the cut, and
/// what comes after it with the number of its lines kept.
fn cut(name: &str, seed: &str, ticks: usize) -> [PathBuf; 3] {
    let dir = folder(name);
    assert!(grade(&["demo", seed, "--out", dir.to_str().unwrap()]).status.success());
    let text = std::fs::read_to_string(dir.join("log.txt")).unwrap();
    let at = text.match_indices("\nsettle").nth(ticks - 1).unwrap().0 + 1;
    let (before, after) = text.split_at(at + text[at..].find('\n').unwrap() + 1);
    assert!(before.ends_with('\n') && after.starts_with("drive"));
    std::fs::write(dir.join("before.txt"), before).unwrap();
    std::fs::write(dir.join("after.txt"), "\n".repeat(before.lines().count()) + after).unwrap();
    ["log.txt", "before.txt", "after.txt"].map(|file| dir.join(file))
}

/// The last words are given names of files.
fn with(words: &[&str], files: &[&PathBuf]) -> Output {
    let files = files.iter().map(|file| file.to_str().unwrap());
    grade(&words.iter().copied().chain(files).collect::<Vec<_>>())
}

#[test]
fn a_log_cut_in_two_is_answered_like_the_whole() {
    for (seed, tiles, ticks, most) in [("7", 272, 1, 641), ("7", 272, 300, 641), (LAST, 323, 300, 645)] {
        let [whole, before, after] = cut(&format!("cut{ticks}of{seed}"), seed, ticks);
        let file = whole.with_file_name("run.saved");
        let saved = with(&["save"], &[&before, &file]);
        assert!(saved.status.success(), "{}", said(&saved).1);
        let resumed = with(&["resume"], &[&file, &after]);
        assert!(resumed.status.success(), "{}", said(&resumed).1);

        let whole = said(&with(&["replay"], &[&whole])).0;
        let (saved, resumed) = (said(&saved).0, said(&resumed).0);
        let length = std::fs::read(&file).unwrap().len();
        assert!(saved.ends_with(&format!("\n\nThe run is saved in {}, {length} bytes.\n", file.display())) && length <= most);
        let (start, rest) = resumed.split_once('\n').unwrap();
        assert!(start.starts_with(&format!("restored  seed {seed}, tick {ticks}, ")));
        assert!(start.ends_with(&format!(" of {tiles} tiles credited")), "{start}");
        let first = saved.split("\n\n").next().unwrap();
        assert_eq!(format!("{first}\n{rest}"), whole);
        assert!(said(&with(&["replay"], &[&before])).0.lines().eq(saved.lines().take(saved.lines().count() - 2)));
    }
}

#[test]
fn a_run_is_resumed_without_a_log() {
    for seed in ["7", LAST] {
        let [_, before, after] = cut(&format!("alone{seed}"), seed, 20);
        let file = before.with_file_name("run.saved");
        let saved = said(&with(&["save", "--json"], &[&before, &file])).0;
        let sheet = saved.split_once("\"sheet\":").unwrap().1.split_once('}').unwrap().0;
        assert!(saved.starts_with(&format!("{{\"seed\":{seed},\"started\":{{\"count\":")) && sheet.starts_with("{\"tick\":20,"));
        let length = std::fs::read(&file).unwrap().len();
        assert!(saved.ends_with(&format!("\"saved\":{{\"file\":\"{}\",\"length\":{length}}}}}\n", file.display())));
        let resumed = said(&with(&["resume", "--json"], &[&file])).0;
        assert_eq!(resumed, format!("{{\"seed\":{seed},\"restored\":{sheet}}},\"answers\":[],\"sheet\":{sheet}}}}}\n"));
        let resumed = said(&with(&["resume"], &[&file])).0;
        assert!(resumed.starts_with(&format!("restored  seed {seed}, tick 20, ")));
        assert!(resumed.contains(" tiles credited\n\ntick      20\n"));
        let resumed = said(&with(&["resume", "--json"], &[&file, &after])).0;
        assert!(resumed.contains("\"answers\":[{\"line\":44,\"call\":\"drive "));
    }
}

#[test]
fn a_run_that_cannot_be_saved_is_told_and_no_file_written() {
    let dir = folder("unsaved");
    let (log, file) = (dir.join("log.txt"), dir.join("run.saved"));
    let _ = std::fs::remove_file(&file);
    let (poses, still) = ("220 -50 1 0 ".repeat(4), "0 0 1 0 0 ".repeat(4));
    for (text, why) in [
        (
            format!("seed 0\nstart 0.95 9 {poses}\ndrive 3 {still}\n"),
            "log.txt: the run cannot be saved here, refused by 5: its last drive awaits a settle",
        ),
        (format!("seed 0\nstart 2 9 {poses}\n"), "log.txt:2: there is no run to save, its start is refused by 1: the lap share"),
        ("seed 0\nstart 2 nine".into(), "log.txt:2: expected the tick limit, a whole number of 32 bits, found `nine`"),
    ] {
        std::fs::write(&log, text).unwrap();
        let out = with(&["save"], &[&log, &file]);
        assert_eq!((out.status.code(), said(&out).0, file.exists()), (Some(1), String::new(), false));
        assert!(said(&out).1.contains(why), "{}", said(&out).1);
    }
    let text = format!("seed 0\nstart 0.95 9 {poses}\n");
    std::fs::write(&log, &text).unwrap();
    assert_eq!(with(&["save"], &[&log, &dir.join(".").join("log.txt")]).status.code(), Some(2));
    assert_eq!(std::fs::read_to_string(&log).unwrap(), text);
    let out = with(&["save"], &[&log, &PathBuf::from("no-such-folder/run.saved")]);
    assert_eq!(out.status.code(), Some(1));
    assert!(said(&out).1.contains("cannot write no-such-folder/run.saved: "));
}

#[test]
fn a_file_that_is_no_saved_run_is_told() {
    let [_, before, after] = cut("damaged", "7", 5);
    let file = before.with_file_name("run.saved");
    assert!(with(&["save"], &[&before, &file]).status.success());
    let bytes = std::fs::read(&file).unwrap();
    let told = |bytes: &[u8], why: &str| {
        std::fs::write(&file, bytes).unwrap();
        let out = with(&["resume"], &[&file, &after]);
        assert_eq!((out.status.code(), said(&out).0), (Some(1), String::new()));
        assert!(said(&out).1.contains(why), "{}", said(&out).1);
    };
    let damaged = "run.saved: no saved run, or a damaged one, refused by 11: the bytes are not those of a saved run";
    told(&bytes[..bytes.len() - 1], damaged);
    told(&[&bytes[..], b"\n"].concat(), damaged);
    told(&std::fs::read(&before).unwrap(), damaged);
    told(b"", damaged);
    told(
        &[4, 2, 1, 0, 0, 0, 1, 0],
        "run.saved: its seed 0 lays 292 tiles and the run has 1: it is not of a seed's course, refused by 12: the course",
    );
    std::fs::write(&file, bytes).unwrap();
    let out = with(&["resume"], &[&file, &before]);
    assert_eq!(out.status.code(), Some(1));
    assert!(said(&out).1.contains("before.txt:2: a log to go on with has no line `seed ..`: the saved run tells it"));
    let out = with(&["resume"], &[&file.with_file_name("no-such-run")]);
    assert_eq!(out.status.code(), Some(1));
    assert!(said(&out).1.contains("cannot read ") && said(&out).1.contains("no-such-run: "));
    assert!(with(&["resume"], &[&file, &after]).status.success());
}

#[test]
fn failures_have_a_status_and_say_where() {
    let log = folder("wrong").join("log.txt");
    for (text, why) in [
        ("seed 0\n# a comment\nstart 0.95 nine\n", "log.txt:3: expected the tick limit, a whole number of 32 bits, found `nine`"),
        (
            "\nseed 184467440737095516150",
            "log.txt:2: expected the seed, a whole number of 64 bits, found `184467440737095516150`",
        ),
    ] {
        std::fs::write(&log, text).unwrap();
        let out = grade(&["replay", log.to_str().unwrap()]);
        assert_eq!((out.status.code(), said(&out).0), (Some(1), String::new()));
        assert!(said(&out).1.contains(why), "{}", said(&out).1);
    }
    for words in [
        &["fly"][..],
        &[],
        &["lay"],
        &["lay", "x"],
        &["lay", "0", "1"],
        &["lay", "0", "--out", "a"],
        &["lay", "0", "--svg"],
        &["replay"],
        &["save"],
        &["save", "log.txt"],
        &["save", "log.txt", "run.saved", "more"],
        &["save", "log.txt", "run.saved", "--svg", "a.svg"],
        &["resume"],
        &["resume", "run.saved", "log.txt", "more"],
        &["resume", "run.saved", "--out", "a"],
    ] {
        assert_eq!(grade(words).status.code(), Some(2), "{words:?}");
    }
    assert_eq!(grade(&["replay", "no-such-log"]).status.code(), Some(1));
    assert_eq!(grade(&["lay", "0", "--svg", "no-such-folder/a.svg"]).status.code(), Some(1));
    let helps =
        [&["--help"][..], &["lay", "--help"], &["replay", "-h"], &["save", "--help"], &["resume", "-h"], &["demo", "--help"]];
    for words in helps {
        assert_eq!(grade(words).status.code(), Some(0), "{words:?}");
    }
}

#[test]
fn compare_is_skipped_without_the_reference() {
    let mut command = Command::new(env!("CARGO_BIN_EXE_grade"));
    let out = command.arg("compare").env("REFERENCE", "no-such-folder").output().expect("grade runs");
    assert_eq!(out.status.code(), Some(77));
    assert!(said(&out).1.contains("compare: skipped, no folder no-such-folder"));
}
