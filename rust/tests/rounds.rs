//! The rounds that document 01 works out, and the dark house of document 02.

use carrier_planner::{
    calls, Answer, Carrier, Cause, Constraint, GateLine, NotAPlan, Place, Planner, Sheet, SheetBuilder, Task,
};

fn listing(builder: &SheetBuilder) -> String {
    let sheet = builder.build().expect("an accepted sheet");
    Planner::new().search(&sheet).expect("an accepted sheet").to_string()
}

/// Rounds 5 and 6: two carriers, each to its neighbour's place and back.
fn change(height: u8, horizon: u8, limit: u16) -> SheetBuilder {
    Sheet::builder(2, height)
        .horizon(horizon)
        .node_limit(limit)
        .carrier(0, 0)
        .carrier(1, 0)
        .task([(1, 0), (0, 0)])
        .task([(0, 0), (1, 0)])
}

#[test]
fn rounds_1_to_4() {
    let first = Sheet::builder(1, 1).horizon(0).carrier(0, 0).task([(0, 0)]);
    assert_eq!(listing(&first), "plan 0 nodes 1\ncarrier 0 task 0 finish 0: 0\n");
    let second = Sheet::builder(2, 1).carrier(0, 0).task([(1, 0)]);
    assert_eq!(listing(&second.clone().horizon(1)), "plan 1 nodes 1\ncarrier 0 task 0 finish 1: 0 1\n");
    assert_eq!(listing(&second.horizon(0)), "none nodes 0\n");
    let third = Sheet::builder(2, 1).horizon(3).carrier(0, 0).carrier(1, 0).task([(1, 0)]).task([(0, 0)]);
    assert!(listing(&third).starts_with("plan 0 nodes 1\ncarrier 0 task 1 finish 0: 0 0 0 0\n"));
    let fourth = Sheet::builder(3, 1).horizon(1).carrier(0, 0).carrier(1, 0).task([(1, 0)]).task([(2, 0)]);
    let expected = "plan 2 nodes 1\ncarrier 0 task 0 finish 1: 0 1\ncarrier 1 task 1 finish 1: 1 2\n";
    assert_eq!(listing(&fourth), expected);
}

#[test]
fn rounds_5_and_6() {
    assert_eq!(listing(&change(1, 2, 6)), "none nodes 6\n");
    assert_eq!(listing(&change(1, 2, 5)), "spent 3 nodes 5\n");
    assert_eq!(listing(&change(1, 2, 1)), "spent 2 nodes 1\n");
    let plan = "plan 4 nodes 18\ncarrier 0 task 1 finish 3: 0 2 3 1\ncarrier 1 task 0 finish 1: 1 0 0 0\n";
    assert_eq!(listing(&change(2, 3, 18)), plan);
    assert_eq!(listing(&change(2, 3, 17)), "spent 4 nodes 17\n");
    let sheet = change(2, 3, 17).build().expect("accepted").with_node_limit(18).expect("accepted");
    let answer = Planner::new().search(&sheet).expect("accepted");
    assert!(matches!(answer, Answer::Plan { ref plan, nodes: 18 } if plan.flowtime() == 4));
    let bytes = [2, 2, 2, 3, 18, 0, 0, 0, 24, 0, 4, 0, 28, 0, 4, 0, 32, 0, 4, 0, 36, 0, 4, 0];
    let rest = [0, 0, 0, 0, 0, 0, 1, 0, 1, 0, 0, 0, 0, 0, 1, 0];
    assert_eq!(sheet.bytes(), [&bytes[..], &rest].concat());
}

/// What the call writes as lines, and the board as it is printed.
fn board(builder: &SheetBuilder) -> ([u32; 48], String) {
    let sheet = builder.build().expect("an accepted sheet");
    let (mut work, mut out) = (vec![0; sheet.workspace()], vec![0; sheet.output()]);
    let (_, lines) = calls::gate_board(sheet.bytes(), &mut work, &mut out);
    (lines, Planner::new().gate_board(&sheet).expect("an accepted sheet").to_string())
}

/// Twelve lines, of which these are the first.
fn lines(filled: &[[u32; 4]]) -> [u32; 48] {
    let mut lines = [0; 48];
    lines.iter_mut().zip(filled.concat()).for_each(|(number, value)| *number = value);
    lines
}

#[test]
fn gate_boards() {
    // The carrier of round 1 is on its gate at time 0: the line is all zeros, and is a line.
    let first = Sheet::builder(1, 1).horizon(0).carrier(0, 0).task([(0, 0)]);
    let printed = "plan 0 nodes 1\ngate 0 carrier 0 task 0 finish 0\n";
    assert_eq!(board(&first), ([0; 48], printed.to_string()));
    let sixth = change(2, 3, 18);
    let printed = "plan 4 nodes 18\ngate 0 carrier 1 task 0 finish 1\ngate 1 carrier 0 task 1 finish 3\n";
    assert_eq!(board(&sixth), (lines(&[[0, 1, 0, 1], [1, 0, 1, 3]]), printed.to_string()));
    let sheet = sixth.build().expect("accepted");
    let found = Planner::new().gate_board(&sheet).expect("accepted");
    let line = GateLine { goal: Place(1), carrier: Carrier(0), task: Task(1), finish: 3 };
    assert_eq!((found.lines().len(), found.lines().last()), (2, Some(&line)));
    // None with nodes and without, and spent: no lines.
    for (round, printed) in [
        (change(1, 2, 6), "none nodes 6\n"),
        (Sheet::builder(2, 1).horizon(0).carrier(0, 0).task([(1, 0)]), "none nodes 0\n"),
        (change(1, 2, 5), "spent 3 nodes 5\n"),
        (change(2, 3, 17), "spent 4 nodes 17\n"),
    ] {
        assert_eq!(board(&round), ([0; 48], printed.to_string()));
        let sheet = round.build().expect("accepted");
        let found = Planner::new().gate_board(&sheet).expect("accepted");
        assert!(found.lines().is_empty() && found.plan().is_none());
    }
}

/// A carrier on each place of the lowest of three rows, and in each column the gate of a task so many steps above it. Straight up
/// is the one assignment of least sum. Carriers are numbered from the right, tasks from the second column on, and later gates have
/// lesser places: only finish and then gate gives the order below.
fn columns(steps: &[u8]) -> SheetBuilder {
    let width = steps.len() as u8;
    let builder = (0..width).rev().fold(Sheet::builder(width, 3).horizon(4), |next, x| next.carrier(x, 2));
    let gates: Vec<(u8, u8)> = (0..width).zip(steps.iter().map(|steps| 2 - steps)).collect();
    gates.iter().cycle().skip(1).take(gates.len()).fold(builder, |next, &gate| next.task([gate]))
}

#[test]
fn gate_boards_in_order() {
    let (filled, printed) = board(&columns(&[2, 1, 2, 0, 1]));
    let expected = [[13, 1, 2, 0], [6, 3, 0, 1], [9, 0, 3, 1], [0, 4, 4, 2], [2, 2, 1, 2]];
    assert_eq!(filled, lines(&expected));
    assert!(printed.starts_with("plan 6 nodes 1\ngate 13 carrier 1 task 2 finish 0\n"), "{printed}");
    // Twelve tasks fill all lines.
    let (filled, _) = board(&columns(&[1; 12]));
    let expected: Vec<[u32; 4]> = (0..12).map(|x| [12 + x, 11 - x, (x + 11) % 12, 1]).collect();
    assert_eq!(filled, lines(&expected));
    // The carrier passes over its gate on the way to a stop behind it: that is not its finish.
    let (filled, _) = board(&Sheet::builder(3, 1).horizon(4).carrier(0, 0).task([(2, 0), (1, 0)]));
    assert_eq!(filled, lines(&[[1, 0, 0, 3]]));
}

#[test]
fn round_8() {
    for (m, cause) in [(12, Cause::Directory), (13, Cause::Header), (0, Cause::Header)] {
        assert_eq!(Sheet::new([2, 2, m, 3, 18, 0, 0, 0]).map_err(|refusal| refusal.cause), Err(cause));
    }
    let short = Sheet::new([0; 7]).expect_err("seven bytes");
    assert_eq!(
        short.to_string(),
        "cause 1: one to seven bytes: the sheet has 7 bytes, its header alone has 8"
    );
}

#[test]
fn a_dark_house() {
    let sheet = Sheet::dark();
    let mut planner = Planner::new();
    let answer = planner.search(&sheet).expect("accepted");
    let printed = "plan 0 nodes 0\n";
    assert_eq!((answer.to_string().as_str(), answer.nodes(), answer.bound()), (printed, 0, 0));
    let board = planner.gate_board(&sheet).expect("accepted");
    assert_eq!((board.to_string().as_str(), board.lines(), board.answer()), (printed, &[][..], &answer));
    let plan = answer.into_plan().expect("the empty plan");
    assert_eq!((plan.flowtime(), plan.tasks(), plan.paths().count()), (0, &[][..], 0));
    assert_eq!(
        (plan.path(Carrier(0)), plan.task(Carrier(0)), plan.finish(Carrier(0))),
        (&[][..], None, None)
    );
    // It needs no workspace, and a planner with one plans it too, before and after other sheets.
    assert_eq!(
        Planner::within(&mut []).search(&sheet).map(|answer| answer.into_plan()),
        Ok(Some(plan.clone()))
    );
    assert!(change(2, 3, 18).build().is_ok_and(|six| planner.search(&six).is_ok()));
    assert_eq!(planner.gate_board(&sheet), Ok(board));
    // The empty plan is its only plan.
    assert_eq!(sheet.check::<[Place; 0]>(&[], &[]), Ok(plan));
    assert_eq!(sheet.check::<[Place; 0]>(&[], &[[]]), Err(NotAPlan::Refused(Cause::Output)));
    assert_eq!(sheet.check(&[], &[[Place(0)]]), Err(NotAPlan::Refused(Cause::Output)));
    let counts = NotAPlan::Count { given: 1, carriers: 0 };
    assert_eq!(sheet.check(&[Task(0)], &[[Place(0)]]), Err(counts));
    // There is no carrier and no task: cause 8, before that of a bad constraint.
    let bad = Constraint::Place { carrier: Carrier(0), place: Place(0), time: 0 };
    for planner in [&mut planner, &mut Planner::within(&mut [])] {
        for constraints in [&[][..], &[bad]] {
            assert_eq!(planner.least_path(&sheet, Carrier(0), Task(0), constraints), Err(Cause::Number));
        }
    }
}

#[test]
fn what_stands_in_a_dark_house() {
    let sheet = Sheet::dark();
    assert_eq!((sheet.is_dark(), sheet.bytes(), sheet.as_ref()), (true, &[][..], &[][..]));
    assert_eq!((Sheet::new([]), Sheet::try_from(Vec::new())), (Ok(sheet.clone()), Ok(sheet.clone())));
    assert_eq!((sheet.width(), sheet.height(), sheet.m(), sheet.horizon()), (0, 0, 0, 0));
    assert_eq!((sheet.node_limit(), sheet.area(), sheet.workspace(), sheet.output()), (0, 0, 0, 0));
    assert_eq!((sheet.carriers().count(), sheet.tasks().count(), sheet.places().count()), (0, 0, 0));
    for number in [0, 1, 12, usize::MAX] {
        assert_eq!((sheet.start(Carrier(number)), sheet.goal_bytes(Task(number))), (None, None));
        assert!(sheet.goals(Task(number)).is_empty() && sheet.place(number, 0).is_none());
    }
    for place in [Place(0), Place(u16::MAX)] {
        assert_eq!((sheet.is_free(place), sheet.lane(place)), (false, None));
        assert_eq!(sheet.column_and_row(place), (0, usize::from(place.0)));
    }
    for limit in [0, 1, 4096, u16::MAX] {
        assert_eq!(sheet.with_node_limit(limit).as_ref(), Ok(&sheet));
    }
    assert!(!change(2, 3, 18).build().expect("accepted").is_dark());
    // A builder makes no dark house: without carriers it has cause 2.
    for builder in [Sheet::builder(0, 0), Sheet::builder(2, 2)] {
        assert_eq!(builder.build().map_err(|refusal| refusal.cause), Err(Cause::Header));
    }
}
