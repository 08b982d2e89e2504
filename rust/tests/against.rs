//! The wrapper beside the direct calls and beside the other author's planner, on every kind of generated sheet.

use carrier_planner::{calls, *};
use other::gen::Rng;
use other::{check, collide, gate_lines, generated, kinds, naive, path, program, search, sheet, RULES};

/// Sheets of every kind; few of those that take long.
fn sheets() -> impl Iterator<Item = (String, Vec<u8>)> {
    kinds().flat_map(|kind| {
        let seeds = match kind {
            "max" => 2,
            "full" => 4,
            "medium" => 15,
            "damaged" => 3000,
            _ => 120,
        };
        (0..seeds).map(move |seed| (format!("{kind} {seed}"), generated(kind, seed)))
    })
}

#[test]
fn sheets_and_causes() {
    let mut refused = 0;
    for (name, bytes) in sheets() {
        let other = sheet::read_sheet(RULES, &bytes);
        match (Sheet::new(bytes.as_slice()), other) {
            (Ok(ours), Ok(other)) => {
                let header = (ours.width(), ours.height(), ours.m(), ours.horizon(), ours.node_limit());
                assert_eq!(header, (other.w, other.h, other.m, other.horizon, other.limit), "{name}");
                assert_eq!(ours.workspace(), other.workspace_words(), "{name}");
                let grid = naive::read(RULES.changes(), &bytes).expect("an accepted sheet").grid;
                for place in 0..1100 {
                    assert_eq!(ours.is_free(Place(place)), other.is_free(place.into()), "{name} {place}");
                    let mark = grid.get(usize::from(place)).copied().unwrap_or_default();
                    let lane = Direction::ALL.into_iter().zip(2..).find(|lane| lane.1 == mark);
                    assert_eq!(ours.lane(Place(place)), lane.map(|lane| lane.0), "{name} {place}");
                }
                for number in 0..14 {
                    let start = (number < other.m).then(|| other.start(sheet::Carrier(number)));
                    assert_eq!(
                        ours.start(Carrier(number)).map(|place| usize::from(place.0)),
                        start,
                        "{name}"
                    );
                    let goals = ours.goals(Task(number)).into_iter().map(|place| usize::from(place.0));
                    let expected =
                        if number < other.m { other.goals(sheet::Task(number)) } else { Vec::new() };
                    assert_eq!(goals.collect::<Vec<_>>(), expected, "{name}");
                    let stretch = sheet::task_goals(RULES, &bytes, sheet::Task(number));
                    assert_eq!(ours.goal_bytes(Task(number)).unwrap_or_default(), stretch, "{name}");
                }
            }
            (Err(refusal), Err(cause)) => {
                refused += 1;
                assert_eq!(refusal.cause.number(), u32::from(cause.number()), "{name}");
                assert_eq!(calls::cause(&bytes), refusal.cause.number(), "{name}");
                let fault =
                    refusal.fault.as_ref().unwrap_or_else(|| panic!("{name}: {refusal} without a fault"));
                assert!(fault.byte().is_none_or(|byte| byte < bytes.len()), "{name}: {refusal}");
            }
            (ours, other) => panic!("{name}: {ours:?} for {other:?}"),
        }
    }
    assert!(refused > 1000);
}

#[test]
fn searches() {
    let mut planner = Planner::new();
    let (mut plans, mut nones, mut spents) = (0, 0, 0);
    for (name, bytes) in sheets() {
        let Ok(sheet) = Sheet::new(bytes.as_slice()) else { continue };
        let (mut work, mut out) = (vec![7; sheet.workspace()], vec![9; sheet.output()]);
        let direct = calls::search(&bytes, &mut work, &mut out);
        let answer = planner.search(&sheet).expect("an accepted sheet");
        assert_eq!(direct[0], 0, "{name}");
        assert_eq!(direct[3..5], [answer.nodes(), answer.bound()], "{name}");
        match &answer {
            Answer::Plan { plan, .. } => {
                plans += 1;
                assert_eq!(direct[1..3], [0, plan.flowtime()], "{name}");
                let tasks: Vec<u32> = plan.tasks().iter().map(|task| task.0 as u32).collect();
                assert_eq!(direct[5..5 + sheet.m()], tasks, "{name}");
                let words: Vec<u16> = plan.paths().flatten().map(|place| place.0).collect();
                assert_eq!(words, out, "{name}");
                let finishes: usize = plan.carriers().filter_map(|carrier| plan.finish(carrier)).sum();
                assert_eq!(finishes, plan.flowtime() as usize, "{name}");
                let paths: Vec<&[Place]> = plan.paths().collect();
                assert_eq!(sheet.check(plan.tasks(), &paths).as_ref(), Ok(plan), "{name}");
            }
            Answer::NoPlan { .. } => {
                nones += 1;
                assert_eq!(direct[1], 1, "{name}");
            }
            Answer::Spent { .. } => {
                spents += 1;
                assert_eq!(direct[1], 2, "{name}");
            }
        }
        let mut reference = vec![0; sheet.output()];
        let other = search::search(RULES, &bytes, &mut work, &mut reference);
        assert_eq!(other.nodes, answer.nodes(), "{name}");
        assert_eq!(program::deckround(RULES, &bytes, sheet.workspace()), answer.to_string(), "{name}");
    }
    assert!(plans > 500 && nones > 100 && spents > 50, "{plans} plans, {nones} none, {spents} spent");
}

/// What lent buffers hold before a call.
const WORK: u32 = 7;
const WORD: u16 = 9;

/// The board's call beside the search's, with the same buffers: numbers, words and workspace are the search's.
#[test]
fn gate_boards_are_of_the_search() {
    for (name, bytes) in sheets() {
        let (words, places) =
            Sheet::new(bytes.as_slice()).map_or((20, 20), |sheet| (sheet.workspace(), sheet.output()));
        // More than enough, then one too few of either: causes 10 and 11. A dark house has enough with none.
        let short = (words.saturating_sub(1), places.saturating_sub(1));
        for (words, places) in [(words + 2, places + 3), (short.0, places), (words, short.1)] {
            let lent = || (vec![WORK; words], vec![WORD; places]);
            let ((mut work, mut out), (mut board_work, mut board_out)) = (lent(), lent());
            let numbers = calls::search(&bytes, &mut work, &mut out);
            let (board_numbers, lines) = calls::gate_board(&bytes, &mut board_work, &mut board_out);
            assert_eq!(board_numbers, numbers, "{name}");
            assert!(board_out == out, "{name}: other words");
            assert!(board_work == work, "{name}: another workspace");
            if numbers[0] != 0 || bytes.is_empty() {
                let stay = work.iter().all(|&word| word == WORK) && out.iter().all(|&word| word == WORD);
                assert!(stay, "{name}: refused or dark, and written");
            }
            let filled = if numbers[1] == 0 { gate_lines(&bytes).concat() } else { Vec::new() };
            let expected = filled.into_iter().map(u32::from).chain(std::iter::repeat(0)).take(lines.len());
            assert!(expected.eq(lines), "{name}: {lines:?}");
        }
    }
}

/// The board beside the plan of the same search.
#[test]
fn gate_boards() {
    let (mut planner, mut searcher) = (Planner::new(), Planner::new());
    let (mut full, mut empty, mut ties) = (0, 0, 0);
    for (name, bytes) in sheets() {
        let Ok(sheet) = Sheet::new(bytes.as_slice()) else { continue };
        let board = planner.gate_board(&sheet).expect("an accepted sheet");
        assert_eq!(board.answer(), &searcher.search(&sheet).expect("an accepted sheet"), "{name}");
        let head = board.answer().to_string().lines().next().map(|line| format!("{line}\n"));
        let lines: String = board.lines().iter().map(|line| format!("{line}\n")).collect();
        assert_eq!(Some(board.to_string()), head.map(|head| head + &lines), "{name}");
        let numbers = board.lines().iter().map(|line| {
            let GateLine { goal, carrier, task, finish } = line;
            [goal.0, carrier.0 as u16, task.0 as u16, *finish as u16]
        });
        assert_eq!(numbers.collect::<Vec<_>>(), gate_lines(&bytes), "{name}");
        let Some(plan) = board.plan() else {
            empty += 1;
            assert!(board.lines().is_empty(), "{name}");
            continue;
        };
        full += 1;
        for line in board.lines() {
            assert_eq!(plan.task(line.carrier), Some(line.task), "{name}: {line}");
            assert_eq!(plan.finish(line.carrier), Some(line.finish as usize), "{name}: {line}");
            assert_eq!(sheet.goals(line.task).last(), Some(&line.goal), "{name}: {line}");
            assert_eq!(plan.path(line.carrier).last(), Some(&line.goal), "{name}: {line}");
        }
        let mut tasks: Vec<Task> = board.lines().iter().map(|line| line.task).collect();
        tasks.sort();
        assert!(sheet.tasks().eq(tasks), "{name}: not every task once");
        for two in board.lines().windows(2) {
            assert!((two[0].finish, two[0].goal) < (two[1].finish, two[1].goal), "{name}: {board}");
            ties += usize::from(two[0].finish == two[1].finish);
        }
        let flowtime: u32 = board.lines().iter().map(|line| line.finish).sum();
        assert_eq!(flowtime, plan.flowtime(), "{name}");
    }
    assert!(full > 500 && empty > 150 && ties > 100, "{full} plans, {empty} without, {ties} of one finish");
}

#[test]
fn least_paths() {
    let mut planner = Planner::new();
    let mut rng = Rng::new(1);
    for (name, bytes) in sheets() {
        let (Ok(sheet), Ok(other)) = (Sheet::new(bytes.as_slice()), sheet::read_sheet(RULES, &bytes)) else {
            continue;
        };
        let mut constraints = Vec::new();
        for _ in 0..4 {
            // One past the last, so that cause 8 comes too.
            let (carrier, task) = (rng.range(0, sheet.m()), rng.range(0, sheet.m()));
            let records: Vec<u16> = constraints.iter().flat_map(Constraint::record).collect();
            let (mut work, mut out) = (vec![0; other.workspace_words()], vec![0; sheet.horizon() + 1]);
            let expected = path::least_path(
                RULES,
                &bytes,
                sheet::Carrier(carrier),
                sheet::Task(task),
                &mut work,
                &mut out,
                &records,
            );
            match planner.least_path(&sheet, Carrier(carrier), Task(task), &constraints) {
                Ok(Some(found)) => {
                    assert_eq!(expected.kind, path::PathKind::Found, "{name}");
                    assert_eq!(found.finish, expected.finish as u32, "{name}");
                    assert!(found.places.iter().map(|place| place.0).eq(out), "{name}");
                    let time = rng.range(0, sheet.horizon());
                    let place = found.places[time];
                    let next = found.places.get(time + 1);
                    let (carrier, time) = (Carrier(carrier), time as u16);
                    constraints.push(match next {
                        Some(&to) if rng.chance(1, 2) => Constraint::Move { carrier, from: place, to, time },
                        _ => Constraint::Place { carrier, place, time },
                    });
                }
                Ok(None) => assert_eq!(expected.kind, path::PathKind::None, "{name}"),
                Err(cause) => {
                    let path::PathKind::Refused(other) = expected.kind else { panic!("{name}: {cause}") };
                    assert_eq!(cause.number(), u32::from(other.number()), "{name}");
                }
            }
        }
    }
}

#[test]
fn checks_of_changed_plans() {
    let mut planner = Planner::new();
    let mut rng = Rng::new(2);
    let (mut yes, mut no) = (0, 0);
    for (name, bytes) in sheets() {
        let Ok(sheet) = Sheet::new(bytes.as_slice()) else { continue };
        let Some(plan) = planner.search(&sheet).ok().and_then(Answer::into_plan) else { continue };
        // The plan of a dark house has nothing to change.
        if sheet.is_dark() {
            continue;
        }
        for _ in 0..8 {
            let mut tasks = plan.tasks().to_vec();
            let mut paths: Vec<Vec<Place>> = plan.paths().map(<[Place]>::to_vec).collect();
            let carrier = rng.range(0, sheet.m() - 1);
            if rng.chance(1, 4) {
                tasks[carrier] = Task(rng.range(0, sheet.m()));
            } else {
                let time = rng.range(0, sheet.horizon());
                let place = paths[carrier][rng.range(0, sheet.horizon())];
                paths[carrier][time] =
                    if rng.chance(1, 2) { place } else { Place(rng.range(0, 1024) as u16) };
            }
            let mut list = [255; 12];
            for (entry, task) in list.iter_mut().zip(&tasks) {
                *entry = task.0 as u8;
            }
            let words: Vec<u16> = paths.iter().flatten().map(|place| place.0).collect();
            let other = check::check_plan(RULES, &bytes, &list, &words);
            let direct = calls::check_plan(&bytes, &list, &words);
            match sheet.check(&tasks, &paths) {
                Ok(plan) => {
                    yes += 1;
                    assert_eq!(other.kind, check::CheckKind::Yes, "{name}");
                    assert_eq!([0, 1, plan.flowtime()], direct, "{name}");
                    assert_eq!(plan.flowtime(), other.flowtime, "{name}");
                }
                Err(reason) => {
                    no += 1;
                    assert_eq!(other.kind, check::CheckKind::No, "{name}");
                    assert_eq!([0, 0, 0], direct, "{name}");
                    assert_ne!(reason, NotAPlan::Other, "{name}");
                }
            }
        }
    }
    assert!(yes > 100 && no > 1000, "{yes} yes, {no} no");
}

#[test]
fn collisions() {
    let mut rng = Rng::new(3);
    let mut found = 0;
    for case in 0..5000 {
        let (m, h) = (rng.range(0, 13), rng.range(0, 6));
        let length = if rng.chance(1, 20) { rng.range(0, 30) } else { m * (h + 1) };
        let words: Vec<u16> = (0..length).map(|_| rng.range(0, 40) as u16).collect();
        let direct = calls::first_collision(m as u8, h as u8, &words);
        let other = collide::first_collision(m as u8, h as u8, &words);
        match first_collision(m as u8, h as u8, &words) {
            Ok(Some(one)) => {
                found += 1;
                let to = one.to.map_or(0, |to| u32::from(to.0));
                let kind = u32::from(one.to.is_some());
                let (i, j) = (one.first.0 as u32, one.second.0 as u32);
                assert_eq!(direct, [0, 1, kind, one.time, i, j, one.place.0.into(), to], "case {case}");
                assert_eq!((u32::from(other.t), u32::from(other.i), u32::from(other.j)), (one.time, i, j));
            }
            Ok(None) => assert_eq!(other.kind, collide::CollisionKind::None, "case {case}"),
            Err(cause) => assert_eq!(direct, [cause.number(), 0, 0, 0, 0, 0, 0, 0], "case {case}"),
        }
    }
    assert!(found > 1000);
}

#[test]
fn assignments() {
    let mut rng = Rng::new(4);
    let mut found = 0;
    for case in 0..5000 {
        let m = rng.range(0, 13);
        let length = if rng.chance(1, 20) { rng.range(0, 150) } else { m * m };
        let most = rng.pick(&[1, 3, 100, 65534]);
        let table: Vec<u16> =
            (0..length).map(|_| if rng.chance(1, 5) { BARRED } else { rng.range(0, most) as u16 }).collect();
        let other = other::assign::least_assignment(m as u8, &table);
        match least_assignment(m as u8, &table) {
            Ok(Some(one)) => {
                found += 1;
                assert_eq!(one.sum, other.sum as u32, "case {case}");
                assert_eq!(one.tasks.len(), m, "case {case}");
                for (i, task) in one.tasks.iter().enumerate() {
                    assert_eq!(task.0, usize::from(other.tasks[i]), "case {case}");
                    for j in 0..m {
                        let (price, entry) = (one.row_prices[i] + one.column_prices[j], table[i * m + j]);
                        assert!(entry == BARRED || price <= i32::from(entry), "case {case}");
                        assert!(j != task.0 || price == i32::from(entry), "case {case}");
                        assert!(one.column_prices[j] <= 0, "case {case}");
                    }
                }
            }
            Ok(None) => assert_eq!(other.kind, other::assign::AssignmentKind::None, "case {case}"),
            Err(cause) => {
                assert_eq!(cause, Cause::Count, "case {case}");
                assert_eq!(other.kind, other::assign::AssignmentKind::Refused(sheet::Cause::Count));
            }
        }
    }
    assert!(found > 2000);
}
