//! Inputs that the comparison and the timing share: sheets by size, records, tables, words.

use other::gen::{Draft, Rng};
use other::sheet::{read_sheet, Carrier, Sheet};
use other::RULES;

/// How the sheets of a map are drawn.
pub struct Map {
    pub side: usize,
    /// Blocked places per hundred.
    pub blocked: usize,
    /// Lanes per hundred of the others, each in any direction.
    pub lanes: usize,
    pub carriers: usize,
    pub goals: usize,
    pub horizon: usize,
    pub limit: usize,
}

impl Map {
    /// A sheet on which the free places are all connected: blocked places are drawn, and what cannot be reached is blocked too. Where
    /// there are lanes, starts and goals are places from each of which each other can be reached.
    pub fn sheet(&self, rng: &mut Rng) -> Vec<u8> {
        loop {
            let area = self.side * self.side;
            let mut grid: Vec<u8> = (0..area).map(|_| u8::from(rng.chance(self.blocked, 100))).collect();
            let mut free = self.keep_connected(&mut grid, rng);
            if self.lanes > 0 {
                add_lanes(&mut grid, self.lanes, rng);
                free = self.mutual(&grid, free[free.len() / 2]);
            }
            if free.len() < 2 * area * (100 - self.blocked) / 300 {
                continue;
            }
            let starts = rng.sample(&free, self.carriers);
            let tasks = rng
                .sample(&free, self.carriers)
                .into_iter()
                .map(|last| (1..self.goals).map(|_| rng.pick(&free)).chain([last]).collect())
                .collect();
            let draft = Draft {
                w: self.side,
                h: self.side,
                horizon: self.horizon,
                limit: self.limit,
                grid,
                starts,
                tasks,
                ..Draft::default()
            };
            return draft.bytes_under(RULES);
        }
    }

    /// The places that can be reached from the first and from which it can be reached.
    fn mutual(&self, grid: &[u8], first: usize) -> Vec<usize> {
        let (to, from) = (self.reached(grid, first, false), self.reached(grid, first, true));
        (0..grid.len()).filter(|&place| to[place] && from[place]).collect()
    }

    /// The places that can be reached from the first, or, backward, from which it can be.
    fn reached(&self, grid: &[u8], first: usize, backward: bool) -> Vec<bool> {
        let mut reached = vec![false; grid.len()];
        let mut queue = vec![first];
        reached[first] = true;
        while let Some(place) = queue.pop() {
            for (next, way) in self.around(place) {
                let leaves =
                    if backward { may_leave(grid[next], opposite(way)) } else { may_leave(grid[place], way) };
                if leaves && grid[next] != 1 && !reached[next] {
                    reached[next] = true;
                    queue.push(next);
                }
            }
        }
        reached
    }

    /// The places next to one, each with the grid byte of a lane that leads there.
    fn around(&self, place: usize) -> impl Iterator<Item = (usize, u8)> {
        let (x, y, side) = (place % self.side, place / self.side, self.side);
        let near = [(x, y.wrapping_sub(1), 2), (x + 1, y, 3), (x, y + 1, 4), (x.wrapping_sub(1), y, 5)];
        near.into_iter()
            .filter(move |&(x, y, _)| x < side && y < side)
            .map(move |(x, y, way)| (y * side + x, way))
    }

    fn keep_connected(&self, grid: &mut [u8], rng: &mut Rng) -> Vec<usize> {
        let open: Vec<usize> = (0..grid.len()).filter(|&place| grid[place] == 0).collect();
        let mut reached = vec![false; grid.len()];
        let mut queue = vec![rng.pick(&open)];
        reached[queue[0]] = true;
        let mut head = 0;
        while head < queue.len() {
            let place = queue[head];
            head += 1;
            for (place, _) in self.around(place) {
                if grid[place] == 0 && !reached[place] {
                    reached[place] = true;
                    queue.push(place);
                }
            }
        }
        for place in 0..grid.len() {
            grid[place] = u8::from(!reached[place]);
        }
        queue.sort_unstable();
        queue
    }
}

/// Whether a place with this grid byte may be left the way of a lane with that byte.
fn may_leave(byte: u8, way: u8) -> bool {
    byte < 2 || byte == way
}

/// The lane that leads the other way.
fn opposite(way: u8) -> u8 {
    way % 4 + 2
}

/// Makes lanes of so many free places in a hundred.
fn add_lanes(grid: &mut [u8], share: usize, rng: &mut Rng) {
    for byte in grid.iter_mut().filter(|byte| **byte == 0) {
        if rng.chance(share, 100) {
            *byte = rng.range(2, 5) as u8;
        }
    }
}

/// An accepted sheet of any size: sides, carriers, goals and horizon anywhere in their ranges, small ones more often; a third with lanes.
pub fn any(limit: usize, rng: &mut Rng) -> Vec<u8> {
    let most = rng.pick(&[3, 5, 8, 14, 32]);
    let (w, h) = (rng.range(1, most), rng.range(1, most));
    let blocked = rng.pick(&[0, 0, 5, 15, 30, 50]);
    let mut grid: Vec<u8> = (0..w * h).map(|_| u8::from(rng.chance(blocked, 100))).collect();
    grid[rng.range(0, w * h - 1)] = 0;
    let free: Vec<usize> = (0..w * h).filter(|&place| grid[place] == 0).collect();
    if rng.chance(1, 3) {
        let share = rng.pick(&[5, 15, 30, 60, 100]);
        add_lanes(&mut grid, share, rng);
    }
    let most = rng.pick(&[3, 6, 12]);
    let count = rng.range(1, free.len().min(most));
    let goals = rng.pick(&[1, 2, 3, 8]);
    let most = rng.pick(&[4, 12, 40, 100, 255]);
    let horizon = rng.range(0, most);
    let starts = rng.sample(&free, count);
    let tasks = rng
        .sample(&free, count)
        .into_iter()
        .map(|last| (1..rng.range(1, goals)).map(|_| rng.pick(&free)).chain([last]).collect())
        .collect();
    Draft { w, h, horizon, limit, grid, starts, tasks, ..Draft::default() }.bytes_under(RULES)
}

/// A sheet on which many carriers finish at one time: each has a row of its own, and there a task whose goals are to and fro, mostly
/// over as many places as others'. Rows, carriers and tasks are numbered without regard to each other; a third with lanes.
pub fn equal_finishes(limit: usize, rng: &mut Rng) -> Vec<u8> {
    let most = rng.pick(&[4, 8, 32]);
    let count = rng.range(2, most.min(12));
    let (w, h) = (rng.range(2, most), rng.range(count, most));
    let (steps, goals) = ([rng.range(0, w - 1), rng.range(0, w - 1)], rng.pick(&[1, 1, 2, 3, 8]));
    let rows: Vec<usize> = (0..h).collect();
    let (mut starts, mut tasks) = (Vec::new(), Vec::new());
    for row in rng.sample(&rows, count) {
        let far = rng.pick(&steps);
        let west = row * w + rng.range(0, w - 1 - far);
        let ends = if rng.chance(1, 2) { [west, west + far] } else { [west + far, west] };
        starts.push(ends[0]);
        tasks.push((1..=rng.range(1, goals)).map(|number| ends[number % 2]).collect());
    }
    rng.shuffle(&mut tasks);
    let mut grid = vec![0; w * h];
    if rng.chance(1, 3) {
        add_lanes(&mut grid, 5, rng);
    }
    let horizon = goals * steps[0].max(steps[1]) + rng.range(0, 7);
    Draft { w, h, horizon, limit, grid, starts, tasks, ..Draft::default() }.bytes_under(RULES)
}

/// A sheet whose search has the least to do for a board of twelve lines and long paths: a carrier stands on every place, and on every
/// place a task has its only goal.
pub fn at_goals() -> Vec<u8> {
    let (w, h, horizon, limit) = (4, 3, 255, 1);
    let tasks = (0..w * h).rev().map(|place| vec![place]).collect();
    let (grid, starts) = (vec![0; w * h], (0..w * h).collect());
    Draft { w, h, horizon, limit, grid, starts, tasks, ..Draft::default() }.bytes_under(RULES)
}

/// A sheet without a plan: two carriers in a stretch of two places cannot pass each other. All others are free, so that there are
/// roots without end.
pub fn stuck(side: usize, horizon: usize, rng: &mut Rng) -> Vec<u8> {
    let mut grid = vec![0; side * side];
    for place in [2, side, side + 1] {
        grid[place] = 1;
    }
    let free: Vec<usize> = (2..grid.len()).filter(|&place| grid[place] == 0).collect();
    let starts = [0, 1].into_iter().chain(rng.sample(&free, 10)).collect();
    let last = rng.sample(&free, 10).into_iter().map(|place| vec![place]);
    let tasks = [vec![1, 0], vec![0, 1]].into_iter().chain(last).collect();
    Draft { w: side, h: side, horizon, limit: 4096, grid, starts, tasks, ..Draft::default() }
        .bytes_under(RULES)
}

/// A sheet whose search makes roots alone: two carriers in a stretch of two places must change places at every step, so that no
/// child has a path; the others stand too far apart to collide as early.
pub fn roots_alone() -> Vec<u8> {
    let side = 14;
    let mut grid = vec![0; side * side];
    for place in [2, side, side + 1] {
        grid[place] = 1;
    }
    let apart: Vec<usize> = (0..10).map(|i| (3 + 3 * (i / 4)) * side + 2 + 3 * (i % 4)).collect();
    let starts = [0, 1].into_iter().chain(apart.iter().copied()).collect();
    let to_and_fro = |first: usize| (first..first + 8).map(|goal| goal % 2).collect();
    let tasks =
        [to_and_fro(1), to_and_fro(0)].into_iter().chain(apart.iter().map(|&place| vec![place])).collect();
    let (w, h, limit) = (side, side, 4096);
    Draft { w, h, horizon: 7, limit, grid, starts, tasks, ..Draft::default() }.bytes_under(RULES)
}

/// A sheet with another node limit.
pub fn with_limit(sheet: &[u8], limit: u16) -> Vec<u8> {
    let mut bytes = sheet.to_vec();
    if let Some(two) = bytes.get_mut(4..6) {
        two.copy_from_slice(&limit.to_le_bytes());
    }
    bytes
}

/// A walk of random steps from a carrier's start.
pub fn walk(sheet: &Sheet, carrier: Carrier, rng: &mut Rng) -> Vec<u16> {
    let mut place = sheet.start(carrier);
    let mut list = vec![place as u16];
    for _ in 0..sheet.horizon {
        let next: Vec<usize> = sheet.steps(place).collect();
        place = rng.pick(&next);
        list.push(place as u16);
    }
    list
}

/// A record that the sheet's calls accept. Where a path is given, the record mostly bars a place or a step of it.
pub fn record(sheet: &Sheet, carrier: usize, along: Option<&[u16]>, rng: &mut Rng) -> [u16; 5] {
    let who = carrier as u16;
    let on_path = along.filter(|_| rng.chance(3, 4));
    let place = |rng: &mut Rng| rng.range(0, sheet.area() - 1) as u16;
    if sheet.horizon == 0 || rng.chance(1, 2) {
        let t = rng.range(0, sheet.horizon);
        let u = on_path.map_or_else(|| place(rng), |path| path[t]);
        return [0, who, u, 0, t as u16];
    }
    let t = rng.range(0, sheet.horizon - 1);
    match on_path {
        Some(path) => [1, who, path[t], path[t + 1], t as u16],
        None => {
            let u = place(rng);
            let near: Vec<usize> = sheet.steps(usize::from(u)).collect();
            let v = if near.is_empty() || rng.chance(1, 8) { place(rng) } else { rng.pick(&near) as u16 };
            [1, who, u, v, t as u16]
        }
    }
}

/// `count` records of one carrier, each against the path that is least under those before it as often as `follow` says.
pub fn records_against(
    bytes: &[u8],
    carrier: usize,
    task: usize,
    count: usize,
    follow: usize,
    rng: &mut Rng,
) -> Vec<u16> {
    let sheet = read_sheet(RULES, bytes).expect("an accepted sheet");
    let mut work = vec![0; sheet.workspace_words()];
    let mut path = vec![0; sheet.horizon + 1];
    let mut records: Vec<u16> = Vec::new();
    for k in 0..count {
        if k % follow.max(1) == 0 {
            crate::least_path(bytes, carrier, task, &mut work, &mut path, &records);
        }
        // The start at time 0 and the last goal at the last time stay open, so that there mostly is a path.
        let fresh = record(&sheet, carrier, Some(&path), rng);
        if fresh[4] > 0 && usize::from(fresh[4]) < sheet.horizon * 3 / 4 {
            records.extend(fresh);
        } else {
            records.extend([0, carrier as u16, rng.range(0, sheet.area() - 1) as u16, 0, 1 + (k % 7) as u16]);
        }
    }
    records
}

/// A table of m by m entries.
pub fn table(m: usize, most: usize, barred: usize, rng: &mut Rng) -> Vec<u16> {
    (0..m * m).map(|_| if rng.chance(barred, 100) { 65535 } else { rng.range(0, most) as u16 }).collect()
}

/// Words that mean nothing.
pub fn junk(words: &mut [u32], rng: &mut Rng) {
    for word in words {
        *word = rng.word() as u32;
    }
}
