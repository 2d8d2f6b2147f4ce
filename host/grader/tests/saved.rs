//! Save, restore and saved_course beside what document 02's orders 1 and 3 say of them.
use grader::{saved_course, Answer, Call, Course, Motion, Point, Pose, Refusal, Run, SavedFor};

/// The least seed of those that stand in field 10.
const WIDE: u64 = 1 << 32;

/// Four wheels at the course's point i.
fn wheels(course: &Course, i: usize) -> [Pose; 4] {
    let p = course.points()[i];
    [Pose { x: p.x, y: p.y, cos: p.beta.cos(), sin: p.beta.sin() }; 4]
}

fn begun(course: &Course) -> Run {
    Run::start(course, 0.95, 1000, wheels(course, 0)).unwrap().0
}

fn drive(run: &mut Run) {
    run.drive(3, [Motion { cos: 1.0, ..Motion::default() }; 4]).unwrap();
}

/// Drives, settles at every third point, and calls that are refused.
fn calls(course: &Course) -> Vec<Call> {
    let mut calls = Vec::new();
    for (k, p) in course.points().iter().enumerate().step_by(3) {
        let motions = [Motion { joint_angle: 0.1, sin: 0.6, cos: 0.8, vx: k as f64, vy: 3.0 }; 4];
        calls.push(Call::Drive { action: k as u32 % 6, motions });
        calls.push(Call::Settle { x: p.x, y: p.y, poses: wheels(course, k) });
    }
    calls
}

fn answer(run: &mut Run, course: &Course, call: &Call) -> Answer {
    match *call {
        Call::Drive { action, motions } => run.drive(action, motions).map_or_else(Answer::Refused, Answer::Forces),
        Call::Settle { x, y, poses } => run.settle(course, x, y, poses).map_or_else(Answer::Refused, Answer::Settled),
    }
}

/// The run after a save and a restore on its course, laid again.
fn kept(run: &Run) -> Run {
    let bytes = run.save().unwrap();
    Run::restore(&Course::lay(saved_course(&bytes).unwrap().seed), &bytes).unwrap()
}

/// Six points a hundred apart, and the run on it of the order's page: tiles 0, 3 and 4 credited, all wheels at the middle.
fn six() -> (Course, Vec<u8>) {
    let course =
        Course::from_points(&[-300, -200, -100, 0, 100, 200].map(|y| Point { y: f64::from(y), ..Point::default() })).unwrap();
    let pose: [f64; 4] = [0.0, 0.0, 1.0, 0.0];
    let mut bytes = vec![0x17, 0x03, 7, 0, 0, 0];
    bytes.extend(0.5f64.to_le_bytes());
    bytes.extend([10, 0, 0, 0, 0b11001]);
    bytes.extend([0; 319]);
    (0..4).for_each(|_| bytes.extend(pose.iter().flat_map(|v| v.to_le_bytes())));
    bytes.extend([6, 0]);
    (course, bytes)
}

/// The bytes of the least run, one tile and one tick, with what stands in field 0 and in field 10, if they stand.
fn least(low: Option<u32>, high: Option<u64>) -> Vec<u8> {
    let map = 0x0204 | u16::from(low.is_some()) | u16::from(high.is_some()) << 10;
    let mut bytes = map.to_le_bytes().to_vec();
    bytes.extend(low.into_iter().flat_map(u32::to_le_bytes));
    bytes.extend([1, 0, 0, 0, 1, 0]);
    bytes.extend(high.into_iter().flat_map(u64::to_le_bytes));
    bytes
}

#[test]
fn a_run_kept_on_the_way_goes_on_like_the_one_that_was_not() {
    for seed in [0, 7, 417, WIDE + 7] {
        let course = Course::lay(seed);
        let mut run = begun(&course);
        let mut other = kept(&run);
        for call in calls(&course) {
            assert_eq!(answer(&mut run, &course, &call), answer(&mut other, &course, &call));
            if !run.state().progress.driven {
                other = kept(&other);
            }
            assert_eq!(run, other);
        }
        assert_eq!(run.sheet(), other.sheet());
        assert!(run.sheet().unwrap().tick > 60 && run.state().car.fuel_spent > 0.0);
    }
}

#[test]
fn a_save_has_the_bytes_of_the_order() {
    let (course, bytes) = six();
    assert_eq!(bytes.len(), 468);
    let run = Run::restore(&course, &bytes).unwrap();
    let (state, sheet) = (run.state(), run.sheet().unwrap());
    assert_eq!((state.seed, state.setup.lap_share, state.setup.tick_limit), (7, 0.5, 10));
    assert_eq!((sheet.credited, sheet.n, sheet.tick, sheet.lap, sheet.ended), (3, 6, 0, false, false));
    assert_eq!((0..6).filter(|&t| run.credited(t)).collect::<Vec<_>>(), [0, 3, 4]);
    assert!(state.wheels.chunks(40).all(|wheel| wheel[0] == 0b11001 && wheel[1..].iter().all(|&w| w == 0)));
    assert_eq!(run.save(), Ok(bytes));
    let one = Course::from_points(&[Point::default()]).unwrap();
    let least = [4, 2, 1, 0, 0, 0, 1, 0];
    assert_eq!(Run::restore(&one, &least).unwrap().save().unwrap(), least);
}

#[test]
fn a_seed_stands_in_field_0_or_in_field_10() {
    assert_eq!(least(Some(7), None), [5, 2, 7, 0, 0, 0, 1, 0, 0, 0, 1, 0]);
    assert_eq!(least(None, Some(WIDE + 7)), [4, 6, 1, 0, 0, 0, 1, 0, 7, 0, 0, 0, 1, 0, 0, 0]);
    let one = Course::from_points(&[Point::default()]).unwrap();
    let low = [1, 7, u32::MAX].map(|seed| (seed.into(), least(Some(seed), None)));
    let high = [WIDE, WIDE + 7, 7 * WIDE, u64::MAX].map(|seed| (seed, least(None, Some(seed))));
    for (seed, bytes) in [(0, least(None, None))].into_iter().chain(low).chain(high) {
        assert_eq!(saved_course(&bytes), Ok(SavedFor { seed, n: 1 }));
        let run = Run::restore(&one, &bytes).unwrap();
        assert_eq!((run.state().seed, run.save()), (seed, Ok(bytes)));
    }
}

#[test]
fn seeds_in_the_wrong_field_are_refused() {
    let one = Course::from_points(&[Point::default()]).unwrap();
    let both = [(1, WIDE + 1), (0, WIDE), (7, 0), (7, 7)].map(|(low, high)| least(Some(low), Some(high)));
    let small = [0, 1, WIDE - 1].map(|seed| least(None, Some(seed)));
    for bytes in both.into_iter().chain(small).chain([least(Some(0), None)]) {
        assert_eq!(Run::restore(&one, &bytes).unwrap_err(), Refusal::Saved, "{bytes:?}");
        assert_eq!(saved_course(&bytes), Err(Refusal::Saved));
    }
}

#[test]
fn a_wide_seed_is_kept_whole() {
    for seed in [WIDE, WIDE + 7, u64::MAX] {
        let course = Course::lay(seed);
        assert!(course.seed() == seed && course.points() != Course::lay(seed % WIDE).points());
        let mut run = begun(&course);
        drive(&mut run);
        run.settle(&course, 0.0, 0.0, wheels(&course, 9)).unwrap();
        let bytes = run.save().unwrap();
        assert_eq!(saved_course(&bytes), Ok(SavedFor { seed, n: course.n() }));
        let again = Run::restore(&Course::lay(seed), &bytes).unwrap();
        assert_eq!((again.state().seed, again.save()), (seed, Ok(bytes)));
        assert_eq!(again, run);
    }
}

/// A run that has used gas and left the playfield has all fields there are beside the seed's.
#[test]
fn the_longest_saves_differ_by_the_seeds_bytes() {
    for (seed, length) in [(0, 637), (7, 641), (WIDE - 1, 641), (WIDE, 645), (u64::MAX, 645)] {
        let course = Course::lay(seed);
        let mut run = begun(&course);
        drive(&mut run);
        assert!(run.settle(&course, 334.0, 0.0, wheels(&course, 0)).unwrap().ended);
        assert_eq!(run.save().unwrap().len(), length, "seed {seed}");
    }
}

#[test]
fn a_start_keeps_the_courses_seed() {
    let laid = Course::lay(7);
    let given = Course::from_points(&laid.points()).unwrap();
    for (course, seed) in [(&laid, 7), (&given, 0)] {
        assert_eq!((course.seed(), begun(course).state().seed), (seed, seed));
        assert_eq!(saved_course(&begun(course).save().unwrap()), Ok(SavedFor { seed, n: laid.n() }));
    }
}

#[test]
fn a_settle_keeps_its_poses_and_nothing_else_does() {
    let course = Course::lay(7);
    let mut run = begun(&course);
    drive(&mut run);
    assert!(run.settle(&course, f64::NAN, 0.0, wheels(&course, 9)).is_err());
    assert_eq!(run.state().poses, wheels(&course, 0));
    run.settle(&course, 0.0, 0.0, wheels(&course, 9)).unwrap();
    assert_eq!((run.state().poses, run.state().seed), (wheels(&course, 9), 7));
}

#[test]
fn saves_are_refused() {
    let course = Course::lay(7);
    let mut run = begun(&course);
    drive(&mut run);
    let before = run.clone();
    assert_eq!(run.save(), Err(Refusal::Turn));
    assert_eq!(run, before);
    let mut none = *run.state();
    none.setup.n = 0;
    assert_eq!(Run::from_state(none).save(), Err(Refusal::NoRun));
}

#[test]
fn an_ended_run_is_saved() {
    let course = Course::lay(7);
    let mut run = begun(&course);
    drive(&mut run);
    assert!(run.settle(&course, 334.0, 0.0, wheels(&course, 0)).unwrap().ended);
    let mut other = kept(&run);
    assert_eq!((&other, other.sheet()), (&run, run.sheet()));
    assert_eq!(other.drive(0, [Motion::default(); 4]), Err(Refusal::NoRun));
}

#[test]
fn other_bytes_are_refused() {
    let (course, bytes) = six();
    let changed = |at: usize, to: u8| {
        let mut other = bytes.clone();
        other[at] = to;
        other
    };
    let longer = [&bytes[..], &[0]].concat();
    let last = bytes.len() - 2;
    let wrong = (0..bytes.len()).map(|i| bytes[..i].to_vec()).chain([
        longer,
        changed(1, 0x0b),   // an unknown field
        changed(2, 0),      // a standing field of zeros
        changed(13, 0x40),  // a share above 1
        changed(16, 0xff),  // a limit above 1,000,000
        changed(18, 0x59),  // tile 6 of 6 credited
        changed(337, 0x01), // and tile 2552
        changed(345, 0x7f), // a pose of 2^1009
        changed(last, 0),   // no tile count
    ]);
    for other in wrong {
        assert_eq!(Run::restore(&course, &other).unwrap_err(), Refusal::Saved, "{other:?}");
        assert_eq!(saved_course(&other), Err(Refusal::Saved));
    }
}

#[test]
fn ranges_reach_to_their_ends() {
    let flags = |flags: u8| vec![0x24, 2, 1, 0, 0, 0, flags, 1, 0];
    let tick = |tick: u8| vec![0x0c, 2, 1, 0, 0, 0, tick, 0, 0, 0, 1, 0];
    let limit = |low: u8| vec![4, 2, low, 0x42, 0x0f, 0, 1, 0];
    let n = |low: u8| vec![4, 2, 1, 0, 0, 0, low, 9];
    for (taken, n) in [(flags(7), 1), (tick(1), 1), (limit(0x40), 1), (n(0xc4), 2500)] {
        assert_eq!(saved_course(&taken), Ok(SavedFor { seed: 0, n }));
    }
    for refused in [flags(0), flags(8), tick(0), tick(2), limit(0x41), n(0xc5)] {
        assert_eq!(saved_course(&refused), Err(Refusal::Saved), "{refused:?}");
    }
}

#[test]
fn a_course_with_another_tile_count_is_refused() {
    let (course, bytes) = six();
    let other = Course::from_points(&course.points()[..5]).unwrap();
    assert_eq!(Run::restore(&other, &bytes).unwrap_err(), Refusal::OtherCourse);
    assert_eq!(Run::restore(&other, &bytes[1..]).unwrap_err(), Refusal::Saved);
}

#[test]
fn flags_come_back() {
    let course = Course::from_points(&[Point::default()]).unwrap();
    for flags in 1..8 {
        let bytes = [0x24, 2, 1, 0, 0, 0, flags, 1, 0];
        let run = Run::restore(&course, &bytes).unwrap();
        let sheet = run.sheet().unwrap();
        assert_eq!([sheet.lap, sheet.ended, sheet.fallback], [1, 2, 4].map(|flag| flags & flag != 0));
        assert_eq!(run.save().unwrap(), bytes);
    }
}

/// The grader cannot tell, and it is for the host to lay the same one.
#[test]
fn another_course_with_the_same_tile_count_is_taken() {
    let (course, bytes) = six();
    let far: Vec<Point> = course.points().iter().map(|p| Point { x: 200.0, ..*p }).collect();
    let run = Run::restore(&Course::from_points(&far).unwrap(), &bytes).unwrap();
    assert_eq!((run.sheet().unwrap().credited, run.state().wheels), (3, [0; 160]));
}
