//! Causes, workspaces and task goals: every kind of sheet, whole, damaged and cut off.

use compare::{cause, task_goals, workspace};
use other::gen::Rng;
use other::sheet::{self, read_sheet, Task};
use other::{generated, RULES};

use crate::{kinds, Share, Tally};

pub fn run(share: &Share) -> Tally {
    let mut tally = Tally::default();
    for seed in share.seeds(1500) {
        for kind in kinds(seed) {
            let large = matches!(kind, "medium" | "full" | "max");
            if large && seed >= 300 {
                continue;
            }
            let bytes = generated(kind, seed);
            one(&mut tally, &bytes, || format!("{kind} {seed}"));
            // Any byte of it changed, or the end cut off.
            let mut rng = Rng::new(seed);
            let mut other = bytes.clone();
            let at = rng.range(0, other.len().clamp(1, 60) - 1);
            if let Some(byte) = other.get_mut(at) {
                *byte = rng.word() as u8;
            }
            one(&mut tally, &other, || format!("{kind} {seed} with another byte {at}"));
            let end = rng.range(0, bytes.len());
            one(&mut tally, &bytes[..end], || format!("{kind} {seed} up to {end}"));
        }
    }
    for seed in share.seeds(2000) {
        let mut rng = Rng::new(seed);
        let bytes: Vec<u8> = (0..rng.range(0, 80)).map(|_| rng.range(0, 40) as u8).collect();
        one(&mut tally, &bytes, || format!("random bytes {seed}"));
    }
    tally
}

fn one(tally: &mut Tally, bytes: &[u8], name: impl Fn() -> String) {
    let read = read_sheet(RULES, bytes);
    let number = read.as_ref().map_or_else(|cause| u32::from(cause.number()), |_| 0);
    let words = read.as_ref().map_or(0, |sheet| sheet.workspace_words());
    let count = read.as_ref().map_or(1, |sheet| sheet.m);
    let mut ok = cause(bytes) == number && workspace(bytes) == words;
    for task in (0..=count).chain([11, 12, 255, 65536, usize::MAX]) {
        let goals = sheet::task_goals(RULES, bytes, Task(task));
        let offset = goals.as_ptr() as usize - bytes.as_ptr() as usize;
        ok &= task_goals(bytes, task) == [offset, goals.len()];
    }
    tally.count_on(bytes, ok, format!("cause {number}"), || {
        format!("{}: cause {} for {number}", name(), cause(bytes))
    });
}
