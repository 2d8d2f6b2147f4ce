//! The crate's calls beside what document 01 says of them, and the replay beside the same calls one by one.
use grader::{numbers, replay, Answer, Call, Course, Motion, Point, Pose, Progress, Refusal, Run, Weights};

/// Four wheels at the course's point i.
fn wheels(course: &Course, i: usize) -> [Pose; 4] {
    let p = course.points()[i];
    [Pose { x: p.x, y: p.y, cos: p.beta.cos(), sin: p.beta.sin() }; 4]
}

fn still() -> [Motion; 4] {
    [Motion { cos: 1.0, ..Motion::default() }; 4]
}

fn begun(course: &Course, limit: u32) -> Run {
    Run::start(course, 0.95, limit, wheels(course, 0)).unwrap().0
}

#[test]
fn a_seed_has_its_course() {
    for (seed, n, entries) in [(0, 292, 1173), (1 << 32, 281, 1156), ((1 << 32) + 7, 308, 1342), (u64::MAX, 323, 1336)] {
        let course = Course::lay(seed);
        assert_eq!((course.seed(), course.n(), course.entries(), course.fallback()), (seed, n, entries, false));
        assert_eq!(course.points().len(), n as usize);
        assert_eq!(course.first(), course.points()[0]);
    }
}

#[test]
fn a_tile_joins_its_point_to_the_one_before() {
    let course = Course::lay(0);
    let points = course.points();
    let middle = |a: [f64; 2], b: [f64; 2]| [(a[0] + b[0]) / 2.0, (a[1] + b[1]) / 2.0];
    for (i, before) in [(0, 291), (1, 0), (291, 290)] {
        let q = course.tile(i);
        for (edge, at) in [(middle(q[0], q[1]), i as usize), (middle(q[2], q[3]), before)] {
            assert!((edge[0] - points[at].x).abs() + (edge[1] - points[at].y).abs() < 1e-9);
        }
    }
}

#[test]
#[should_panic(expected = "tile 292 of a course of 292")]
fn a_tile_past_the_last_panics() {
    Course::lay(0).tile(292);
}

#[test]
fn the_same_points_give_the_same_course() {
    let laid = Course::lay(7);
    let given = Course::from_points(&laid.points()).unwrap();
    assert_eq!((given.n(), given.entries()), (laid.n(), laid.entries()));
    assert!((0..laid.n()).all(|i| given.tile(i) == laid.tile(i)));
    assert_eq!(given.curbs(), laid.curbs());
    assert!(!laid.curbs().unwrap().is_empty());
}

#[test]
fn the_index_list_grows() {
    // Each tile covers the whole field: 67 * 67 cells.
    let corners = [Point { beta: 0.0, x: -900.0, y: -900.0 }, Point { beta: 0.0, x: 900.0, y: 900.0 }];
    assert_eq!(Course::from_points(&corners).unwrap().entries(), 2 * 67 * 67);
}

#[test]
fn points_are_refused() {
    assert_eq!(Course::from_points(&[]).unwrap_err(), Refusal::PointCount);
    assert_eq!(Course::from_points(&[Point::default(); 2501]).unwrap_err(), Refusal::PointCount);
    assert_eq!(Course::from_points(&[Point { x: f64::NAN, ..Point::default() }]).unwrap_err(), Refusal::Number);
    assert_eq!(Course::from_points(&[Point { beta: 16.5, ..Point::default() }]).unwrap_err(), Refusal::Number);
}

#[test]
fn starts_are_refused() {
    let course = Course::lay(0);
    let poses = wheels(&course, 0);
    let mut wild = poses;
    wild[3].x = f64::INFINITY;
    for (share, limit, poses, cause) in [
        (1.5, 1000, poses, Refusal::Settings),
        (f64::NAN, 1000, poses, Refusal::Settings),
        (0.95, 0, poses, Refusal::Settings),
        (0.95, 1_000_001, wild, Refusal::Settings),
        (0.95, 1000, wild, Refusal::Number),
    ] {
        assert_eq!(Run::start(&course, share, limit, poses).unwrap_err(), cause);
    }
}

#[test]
fn a_refused_call_changes_nothing() {
    let course = Course::lay(0);
    let poses = wheels(&course, 0);
    let mut run = begun(&course, 1);
    let before = run.clone();
    assert_eq!(run.settle(&course, 0.0, 0.0, poses), Err(Refusal::Turn));
    assert_eq!(run.drive(5, still()), Err(Refusal::Action));
    assert_eq!(run.drive(0, [Motion { vx: f64::NAN, ..Motion::default() }; 4]), Err(Refusal::Number));
    assert_eq!(run, before);
    run.drive(3, still()).unwrap();
    let before = run.clone();
    assert_eq!(run.drive(3, still()), Err(Refusal::Turn));
    assert_eq!(run.settle(&course, 1e7, 0.0, poses), Err(Refusal::Number));
    assert_eq!(run, before);
    run.settle(&course, 0.0, 0.0, poses).unwrap();
    assert_eq!(run.drive(3, still()), Err(Refusal::TickLimit));
    assert!(!run.sheet().unwrap().ended);
}

#[test]
fn a_drive_writes_the_car_and_a_settle_progress_and_sets() {
    let course = Course::lay(0);
    let mut run = begun(&course, 1000);
    let start = *run.state();
    run.drive(3, still()).unwrap();
    let driven = *run.state();
    assert_eq!((driven.setup, driven.credited, driven.wheels), (start.setup, start.credited, start.wheels));
    assert_eq!(driven.progress, Progress { driven: true, ..start.progress });
    assert!(driven.car.ctl[3].phase > 0.0 && driven.car.fuel_spent > 0.0);
    let new = run.settle(&course, 0.0, 0.0, wheels(&course, 150)).unwrap().new_tiles;
    let settled = *run.state();
    assert_eq!((settled.setup, settled.car), (driven.setup, driven.car));
    assert_eq!(settled.progress, Progress { tick: 1, visited_count: start.progress.visited_count + new, ..start.progress });
    assert!(new > 0 && settled.credited != driven.credited && settled.wheels != driven.wheels);
}

#[test]
fn off_the_field_ends_the_run() {
    let course = Course::lay(0);
    let mut run = begun(&course, 1000);
    run.drive(0, still()).unwrap();
    let settled = run.settle(&course, 334.0, 0.0, wheels(&course, 0)).unwrap();
    assert!(settled.off && settled.ended && !settled.lap);
    assert_eq!(settled.reward(Weights::default()), -100.0);
    assert_eq!(run.drive(0, still()), Err(Refusal::NoRun));
    assert!(run.sheet().unwrap().ended);
}

#[test]
fn credited_tiles_are_those_counted() {
    let course = Course::lay(0);
    let mut run = begun(&course, 1000);
    run.drive(0, still()).unwrap();
    let p = course.points()[150];
    run.settle(&course, p.x, p.y, wheels(&course, 150)).unwrap();
    let credited: Vec<u32> = (0..5000).filter(|&t| run.credited(t)).collect();
    assert_eq!(credited.len() as u32, run.sheet().unwrap().credited);
    assert!(credited.contains(&0) && credited.contains(&150) && credited.iter().all(|&t| t < 292));
    assert!(!run.credited(75));
}

#[test]
fn a_kept_state_goes_on() {
    let course = Course::lay(0);
    let mut run = begun(&course, 1000);
    run.drive(3, still()).unwrap();
    let mut other = Run::from_state(*run.state());
    assert_eq!(run.settle(&course, 0.0, 0.0, wheels(&course, 1)), other.settle(&course, 0.0, 0.0, wheels(&course, 1)));
    assert_eq!(run, other);
    let mut none = *run.state();
    none.setup.n = 0;
    assert_eq!(Run::from_state(none).sheet(), Err(Refusal::NoRun));
}

/// Drives, settles at every third point, and calls that are refused.
fn calls(course: &Course) -> Vec<Call> {
    let mut calls = Vec::new();
    for (k, p) in course.points().iter().enumerate().step_by(3) {
        let motions = [Motion { joint_angle: 0.1, sin: 0.6, cos: 0.8, vx: k as f64, vy: 3.0 }; 4];
        calls.push(Call::Drive { action: k as u32 % 6, motions });
        calls.push(Call::Settle { x: p.x, y: p.y, poses: wheels(course, k) });
    }
    calls
}

fn answer(run: &mut Run, course: &Course, call: &Call) -> Answer {
    match *call {
        Call::Drive { action, motions } => run.drive(action, motions).map_or_else(Answer::Refused, Answer::Forces),
        Call::Settle { x, y, poses } => run.settle(course, x, y, poses).map_or_else(Answer::Refused, Answer::Settled),
    }
}

#[test]
fn a_replay_answers_like_the_calls_one_by_one() {
    for (seed, limit) in [(0, 1000), (3, 20), (417, 1000), ((1 << 32) + 7, 1000), (u64::MAX, 1000)] {
        let course = Course::lay(seed);
        let calls = calls(&course);
        let (mut run, started) = Run::start(&course, 0.95, limit, wheels(&course, 0)).unwrap();
        let answers: Vec<Answer> = calls.iter().map(|c| answer(&mut run, &course, c)).collect();
        let replayed = replay(seed, 0.95, limit, wheels(&course, 0), &calls).unwrap();
        assert_eq!(replayed.started, Ok(started));
        assert_eq!(replayed.answers, answers);
        assert_eq!(replayed.sheet, run.sheet());
    }
}

#[test]
fn runs_on_one_course_go_on_at_once() {
    let course = Course::lay(0);
    let graded = |k: usize| {
        let mut run = begun(&course, 1000);
        let answers: Vec<Answer> = calls(&course).iter().skip(2 * k).map(|c| answer(&mut run, &course, c)).collect();
        (answers, run)
    };
    let (graded, alone) = (&graded, [0, 1, 2, 3].map(graded));
    std::thread::scope(|s| {
        let at_once = [0, 1, 2, 3].map(|k| s.spawn(move || graded(k)));
        assert_eq!(at_once.map(|t| t.join().unwrap()), alone);
    });
}

#[test]
fn after_a_refused_start_every_call_is_refused() {
    let course = Course::lay(0);
    let replayed = replay(0, 2.0, 1000, wheels(&course, 0), &calls(&course)).unwrap();
    assert_eq!(replayed.started, Err(Refusal::Settings));
    assert!(replayed.answers.iter().all(|a| *a == Answer::Refused(Refusal::NoRun)));
    assert_eq!(replayed.sheet, Err(Refusal::NoRun));
}

#[test]
fn numbers_are_document_01s() {
    assert_eq!([-400.0, 0.0, 7.0, 1000.0, f64::NAN].map(numbers::cell), [0, 33, 34, 66, 0]);
    assert_eq!((numbers::sqrt(4.0), numbers::sqrt(-1.0).is_nan()), (2.0, true));
    assert_eq!(numbers::sine(17.0), Err(Refusal::Number));
    assert_eq!((numbers::cosine(0.0), numbers::atan2(0.0, 0.0)), (Ok(1.0), Ok(0.0)));
    assert_eq!(numbers::draw(0).0, 0xe220_a839_7b1d_cdaf);
}
