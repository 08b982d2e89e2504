//! No input panics, and a declined call leaves what is lent as it was.

use carrier_planner::{calls, *};
use other::gen::Rng;
use other::generated;

#[test]
fn any_bytes() {
    let mut rng = Rng::new(10);
    for case in 0..20_000 {
        // No bytes are a sheet.
        let mut bytes: Vec<u8> = (0..rng.range(1, 60)).map(|_| rng.range(0, 255) as u8).collect();
        if rng.chance(1, 2) {
            // A header that passes, so that the directory is looked at.
            let good = [3, 2, rng.range(1, 12) as u8, 4, 9, 0, 0, 0];
            bytes.splice(..bytes.len().min(8), good);
        }
        let refusal = Sheet::new(bytes.clone()).expect_err("hardly a sheet");
        assert!(refusal.fault.is_some(), "case {case}: {refusal}");
        assert!(!refusal.to_string().is_empty());
        let (mut work, mut out) = (vec![5; 20], vec![6; 20]);
        let numbers = calls::search(&bytes, &mut work, &mut out);
        assert_eq!(numbers[..2], [refusal.cause.number(), 3]);
        assert_eq!(calls::gate_board(&bytes, &mut work, &mut out), (numbers, [0; 48]));
        assert_eq!((work, out), (vec![5; 20], vec![6; 20]));
        assert_eq!(calls::task_goals(&bytes, rng.range(0, 20)), [0, 0]);
        assert_eq!(calls::workspace(&bytes), 0);
    }
}

#[test]
fn builders_of_anything() {
    let mut rng = Rng::new(11);
    let mut accepted = 0;
    for _ in 0..5000 {
        let (width, height) = (rng.range(0, 33) as u8, rng.range(0, 33) as u8);
        let mut builder = Sheet::builder(width, height)
            .horizon(rng.range(0, 255) as u8)
            .node_limit(rng.pick(&[0, 1, 4096, 4096, 4096, 4097, 65535]));
        let far = usize::from(rng.chance(1, 10));
        let point = |rng: &mut Rng| {
            let (x, y) = (usize::from(width).max(1) + far, usize::from(height).max(1) + far);
            (rng.range(0, x - 1) as u8, rng.range(0, y - 1) as u8)
        };
        let carriers = rng.pick(&[0, 1, 1, 2, 3, 12, 13, 300]);
        for _ in 0..carriers {
            let (x, y) = point(&mut rng);
            builder = builder.carrier(x, y);
        }
        let tasks = if rng.chance(4, 5) { carriers } else { rng.range(0, 13) };
        for _ in 0..tasks {
            let count = rng.pick(&[0, 1, 1, 2, 8, 9]);
            let goals: Vec<(u8, u8)> = (0..count).map(|_| point(&mut rng)).collect();
            builder = builder.task(goals);
        }
        let (x, y) = point(&mut rng);
        let direction = rng.pick(&Direction::ALL);
        let (lane_x, lane_y) = point(&mut rng);
        match builder.lane(lane_x, lane_y, direction).block(x, y).build() {
            Ok(sheet) => {
                accepted += 1;
                assert_eq!(sheet.m(), tasks);
                let lane = sheet.place(lane_x.into(), lane_y.into()).map(|place| sheet.lane(place));
                let expected = ((x, y) != (lane_x, lane_y)).then_some(direction);
                assert!(lane.is_none_or(|lane| lane == expected));
            }
            Err(refusal) => assert!(refusal.fault.is_some(), "{refusal}"),
        }
    }
    assert!(accepted > 300, "{accepted} accepted");
    let huge = Sheet::builder(4, 4).carrier(0, 0).task(vec![(1, 1); 70_000]).build();
    assert_eq!(huge.expect_err("too many goals").cause, Cause::Directory);
    let lone = Sheet::builder(4, 4).carrier(0, 0).build().expect_err("no task");
    assert_eq!(lone.fault, Some(Fault::Counts { carriers: 1, tasks: 0 }));
}

#[test]
fn short_workspaces() {
    for seed in 0..200 {
        let sheet = Sheet::new(generated("small", seed)).expect("accepted");
        let answer = Planner::new().search(&sheet).expect("accepted");
        for words in [0, 1, sheet.workspace() - 1] {
            let mut lent = vec![77; words];
            let mut planner = Planner::within(&mut lent);
            assert_eq!(planner.search(&sheet), Err(Cause::Workspace));
            assert_eq!(planner.gate_board(&sheet), Err(Cause::Workspace));
            assert_eq!(planner.least_path(&sheet, Carrier(0), Task(0), &[]), Err(Cause::Workspace));
            assert_eq!(planner.least_path(&sheet, Carrier(usize::MAX), Task(0), &[]), Err(Cause::Number));
            assert!(lent.iter().all(|&word| word == 77));
        }
        let mut lent = vec![u32::MAX; sheet.workspace() + 3];
        let (mine, spare) = lent.split_at_mut(sheet.workspace());
        assert_eq!(Planner::within(mine).search(&sheet).as_ref(), Ok(&answer));
        assert_eq!(Planner::within(mine).gate_board(&sheet).map(GateBoard::into_answer), Ok(answer));
        assert_eq!(spare, [u32::MAX; 3]);
    }
}

#[test]
fn short_buffers_of_a_gate_board() {
    // One carrier on its gate: its line would be all zeros, and no refused call may be taken for it.
    let sheet = Sheet::builder(1, 1).horizon(0).carrier(0, 0).task([(0, 0)]).build().expect("accepted");
    let words = sheet.workspace();
    for (words, places, cause) in [(words, 0, 11), (words - 1, 1, 10), (0, 0, 10), (words + 5, 0, 11)] {
        let (mut work, mut out) = (vec![77; words], vec![78; places]);
        let (numbers, lines) = calls::gate_board(sheet.bytes(), &mut work, &mut out);
        assert_eq!(numbers[..5], [cause, 3, 0, 0, 0]);
        assert_eq!((&numbers[5..], lines), (&[255; 12][..], [0; 48]));
        assert!(work.iter().all(|&word| word == 77) && out.iter().all(|&word| word == 78));
    }
    let (mut work, mut out) = (vec![77; words], vec![78; 2]);
    let (numbers, lines) = calls::gate_board(sheet.bytes(), &mut work, &mut out);
    assert_eq!((&numbers[..6], lines, out), (&[0, 0, 0, 1, 0, 0][..], [0; 48], vec![0, 78]));
}

/// The lists of constraints: none, one that breaks the rule of fives, and one of a carrier that there is not.
const RECORDS: [&[u16]; 3] = [&[], &[7], &[0, 0, 0, 0, 0]];

/// Cause 8 for every carrier and task, and not those that come after it, for every length of what is lent.
#[test]
fn a_dark_house_has_no_word_written() {
    let plan = [&[0; 5][..], &[255; 12]].concat();
    for (words, places) in [(0, 0), (0, 3), (1, 0), (1, 1), (4095, 12), (4096, 3072), (5000, 4000)] {
        let (mut work, mut out) = (vec![77; words], vec![78; places]);
        assert_eq!(calls::search(&[], &mut work, &mut out)[..], plan);
        let (numbers, lines) = calls::gate_board(&[], &mut work, &mut out);
        assert_eq!((&numbers[..], lines), (&plan[..], [0; 48]));
        for (carrier, task) in [(0, 0), (11, 3), (usize::MAX, 0), (0, usize::MAX)] {
            for records in RECORDS {
                let numbers = calls::least_path(&[], carrier, task, &mut work, &mut out, records);
                assert_eq!(numbers, [8, 0, 0], "carrier {carrier}, task {task}, {records:?}");
            }
        }
        let stay = work.iter().all(|&word| word == 77) && out.iter().all(|&word| word == 78);
        assert!(stay, "{words} words of workspace and {places} of output");
    }
}

#[test]
fn a_dark_house_in_the_other_calls() {
    assert_eq!((calls::cause(&[]), calls::workspace(&[])), (0, 0));
    for task in [0, 1, 12, usize::MAX] {
        assert_eq!(calls::task_goals(&[], task), [0, 0]);
    }
    assert_eq!(calls::check_plan(&[], &[255; 12], &[]), [0, 1, 0]);
    for (place, task) in (0..12).flat_map(|place| [0, 11, 12, 254].map(|task| (place, task))) {
        let mut tasks = [255; 12];
        tasks[place] = task;
        assert_eq!(calls::check_plan(&[], &tasks, &[]), [0, 0, 0], "{tasks:?}");
        assert_eq!(calls::check_plan(&[], &tasks, &[0]), [11, 0, 0], "{tasks:?}");
    }
    for words in [1, 12, 256, 3072] {
        assert_eq!(calls::check_plan(&[], &[255; 12], &vec![0; words]), [11, 0, 0], "{words} words");
    }
    // These take a count and no sheet: a count of 0 stays cause 12.
    assert_eq!(calls::first_collision(0, 0, &[]), [12, 0, 0, 0, 0, 0, 0, 0]);
    assert_eq!(calls::least_assignment(0, &[]).numbers, [12, 0, 0]);
    assert_eq!(calls::assignments_in_order(0, &[], &mut [], &mut []), [12, 0]);
}

/// What is left of cause 1.
#[test]
fn one_to_seven_bytes() {
    let answer = [&[1, 3, 0, 0, 0][..], &[255; 12]].concat();
    for (length, byte) in (1..8).flat_map(|length| [0, 1, 255].map(|byte| (length, byte))) {
        let bytes = vec![byte; length];
        let refusal = Sheet::new(bytes.as_slice()).expect_err("too short");
        assert_eq!((refusal.cause, refusal.fault), (Cause::Short, Some(Fault::Length { bytes: length })));
        let (mut work, mut out) = (vec![77; 9], vec![78; 9]);
        assert_eq!(calls::search(&bytes, &mut work, &mut out)[..], answer);
        let (numbers, lines) = calls::gate_board(&bytes, &mut work, &mut out);
        assert_eq!((&numbers[..], lines), (&answer[..], [0; 48]));
        assert_eq!(calls::least_path(&bytes, 0, 0, &mut work, &mut out, &[]), [1, 0, 0]);
        assert_eq!((work, out), (vec![77; 9], vec![78; 9]));
        assert_eq!(calls::check_plan(&bytes, &[255; 12], &[]), [1, 0, 0]);
        assert_eq!((calls::workspace(&bytes), calls::task_goals(&bytes, 0)), (0, [0, 0]));
    }
    let said = "cause 1: one to seven bytes: the sheet has 1 byte, its header alone has 8";
    assert_eq!(Sheet::new([0]).expect_err("too short").to_string(), said);
}

/// As much stack as the header says is enough, on the sheets with the longest paths.
#[test]
fn a_gate_board_on_a_small_stack() {
    let sheets = [0, 1].map(|seed| Sheet::new(generated("max", seed)).expect("accepted"));
    let board = move || sheets.iter().all(|sheet| Planner::new().gate_board(sheet).is_ok());
    let thread = std::thread::Builder::new().stack_size(512 * 1024).spawn(board).expect("a thread");
    assert!(thread.join().expect("no panic"));
}

#[test]
fn wrong_numbers_and_lengths() {
    let sheet = Sheet::builder(2, 1).horizon(1).carrier(0, 0).task([(1, 0)]).build().expect("accepted");
    let mut planner = Planner::default();
    let far = Constraint::Place { carrier: Carrier(usize::MAX), place: Place(0), time: 0 };
    let late = Constraint::Move { carrier: Carrier(0), from: Place(0), to: Place(1), time: 1 };
    for bad in [far, late] {
        assert_eq!(planner.least_path(&sheet, Carrier(0), Task(0), &[bad]), Err(Cause::Constraints));
    }
    let many = vec![Constraint::Place { carrier: Carrier(0), place: Place(0), time: 1 }; 4097];
    assert_eq!(planner.least_path(&sheet, Carrier(0), Task(0), &many), Err(Cause::Constraints));
    assert_eq!(planner.least_path(&sheet, Carrier(0), Task(1), &[]), Err(Cause::Number));
    assert!(sheet.start(Carrier(usize::MAX)).is_none() && sheet.goals(Task(usize::MAX)).is_empty());
    assert!(!sheet.is_free(Place(u16::MAX)) && sheet.place(2, 0).is_none());
    let plan = planner.search(&sheet).ok().and_then(Answer::into_plan).expect("a plan");
    assert!(plan.path(Carrier(9)).is_empty() && plan.finish(Carrier(9)).is_none());
    let path = [Place(0), Place(1)];
    assert!(sheet.check(&[Task(0)], &[path]).is_ok());
    let refused = Err(NotAPlan::Refused(Cause::Output));
    assert_eq!(sheet.check(&[Task(0)], &[&path[..1]]), refused);
    assert_eq!(sheet.check(&[Task(0)], &[path, path]), refused);
    assert_eq!(sheet.check::<[Place; 2]>(&[Task(0)], &[]), refused);
    assert_eq!(sheet.check(&[Task(0); 300], &[path]), Err(NotAPlan::Count { given: 300, carriers: 1 }));
    let none = NotAPlan::NoSuchTask { carrier: Carrier(0), task: Task(255) };
    assert_eq!(sheet.check(&[Task(255)], &[path]), Err(none));
    let none = NotAPlan::NoSuchTask { carrier: Carrier(0), task: Task(usize::MAX) };
    assert_eq!(sheet.check(&[Task(usize::MAX)], &[path]), Err(none));
    assert_eq!(first_collision(0, 255, &[]), Err(Cause::Count));
    assert_eq!(first_collision(1, 255, &[]), Err(Cause::Output));
    assert_eq!(least_assignment(13, &[]), Err(Cause::Count));
    assert_eq!(least_assignment(2, &[0; 3]), Err(Cause::Count));
}

#[test]
fn causes_have_numbers_and_words() {
    let numbers: Vec<u32> = Cause::all().map(Cause::number).collect();
    assert_eq!(numbers, [1, 2, 3, 4, 5, 6, 7, 8, 9, 12, 10, 11]);
    for cause in Cause::all() {
        assert_eq!(Cause::from_number(cause.number()), Some(cause));
        assert!(cause.to_string().ends_with(cause.words()));
    }
    assert_eq!(Cause::from_number(0), None);
    assert_eq!(Cause::from_number(99).map(Cause::number), Some(99));
}

#[test]
fn lanes_of_a_builder() {
    let base = || Sheet::builder(3, 2).horizon(4).carrier(0, 0).task([(2, 0)]);
    for (direction, byte) in Direction::ALL.into_iter().zip(2..) {
        let sheet = base().block(1, 1).lane(1, 1, direction).lane(9, 9, direction).build().expect("accepted");
        assert_eq!(sheet.lane(Place(4)), Some(direction));
        assert!(sheet.is_free(Place(4)));
        assert_eq!(sheet.places().filter_map(|place| sheet.lane(place)).count(), 1);
        let mut bytes = sheet.into_bytes();
        let at = usize::from(bytes[8]) + 4;
        assert_eq!(std::mem::replace(&mut bytes[at], 6), byte);
        let refusal = Sheet::new(bytes).expect_err("a byte above 5");
        let said = format!(
            "cause 4: grid byte above 5: byte {at}, place 4 (column 1, row 1), is 6; it must be 0 to 5"
        );
        assert_eq!(refusal.to_string(), said);
    }
    let sheet = base().lane(1, 1, Direction::West).block(1, 1).build().expect("accepted");
    assert_eq!((sheet.lane(Place(4)), sheet.is_free(Place(4))), (None, false));
    assert_eq!((sheet.lane(Place(6)), sheet.lane(Place(u16::MAX))), (None, None));
}
