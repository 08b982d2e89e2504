//! The exported calls as they are, on slices and lists of numbers; `include/planner.h` says what each is lent and what its numbers
//! are. A slice of Rust is never null and is aligned, an empty one too, its length is true, and a `&mut` overlaps nothing else that is
//! lent: so every call here keeps the header's rules, whatever it is given. Lists of fixed length are arrays, so they are whole.

mod exported {
    extern "C" {
        pub fn planner_cause(sheet: *const u8, sheet_len: usize) -> u32;
        pub fn planner_workspace(sheet: *const u8, sheet_len: usize) -> usize;
        pub fn planner_task_goals(sheet: *const u8, sheet_len: usize, task: usize, numbers: *mut usize);
        pub fn planner_least_path(
            sheet: *const u8,
            sheet_len: usize,
            carrier: usize,
            task: usize,
            work: *mut u32,
            work_len: usize,
            out: *mut u16,
            out_len: usize,
            records: *const u16,
            records_len: usize,
            numbers: *mut u32,
        );
        pub fn planner_least_assignment(
            m: u8,
            table: *const u16,
            table_len: usize,
            tasks: *mut u8,
            rows: *mut i32,
            columns: *mut i32,
            numbers: *mut u32,
        );
        pub fn planner_assignments_in_order(
            m: u8,
            table: *const u16,
            table_len: usize,
            work: *mut u32,
            work_len: usize,
            lists: *mut u8,
            lists_len: usize,
            numbers: *mut u32,
        );
        pub fn planner_first_collision(m: u8, h: u8, paths: *const u16, paths_len: usize, numbers: *mut u32);
        pub fn planner_check_plan(
            sheet: *const u8,
            sheet_len: usize,
            tasks: *const u8,
            paths: *const u16,
            paths_len: usize,
            numbers: *mut u32,
        );
        pub fn planner_search(
            sheet: *const u8,
            sheet_len: usize,
            work: *mut u32,
            work_len: usize,
            out: *mut u16,
            out_len: usize,
            numbers: *mut u32,
        );
        pub fn planner_gate_board(
            sheet: *const u8,
            sheet_len: usize,
            work: *mut u32,
            work_len: usize,
            out: *mut u16,
            out_len: usize,
            numbers: *mut u32,
            lines: *mut u32,
        );
    }
}

/// What the numbers and lists that a call writes hold before it: no answer's usual value, so that one left unwritten would show.
const OLD: u8 = 0xA5;

/// The first cause that lies in the sheet itself, 1 to 7; 0 for an accepted sheet.
pub fn cause(sheet: &[u8]) -> u32 {
    // SAFETY: the slice is lent whole and only read.
    unsafe { exported::planner_cause(sheet.as_ptr(), sheet.len()) }
}

/// How many words of workspace the sheet asks for; 0 for the sheet of no bytes and for a refused one, which [`cause`] tells apart.
pub fn workspace(sheet: &[u8]) -> usize {
    // SAFETY: the slice is lent whole and only read.
    unsafe { exported::planner_workspace(sheet.as_ptr(), sheet.len()) }
}

/// Offset and length of a task's goals in the sheet, in bytes; on any cause, 1 to 8, both are 0.
pub fn task_goals(sheet: &[u8], task: usize) -> [usize; 2] {
    let mut numbers = [usize::from(OLD); 2];
    // SAFETY: the slice is only read; the two numbers are a list of this function's own.
    unsafe { exported::planner_task_goals(sheet.as_ptr(), sheet.len(), task, numbers.as_mut_ptr()) };
    numbers
}

/// Cause; 1 if there is a path; its finish.
pub fn least_path(
    sheet: &[u8],
    carrier: usize,
    task: usize,
    work: &mut [u32],
    out: &mut [u16],
    records: &[u16],
) -> [u32; 3] {
    let mut numbers = [u32::from(OLD); 3];
    // SAFETY: what is written, `work`, `out` and the three numbers, is borrowed by this call alone.
    unsafe {
        exported::planner_least_path(
            sheet.as_ptr(),
            sheet.len(),
            carrier,
            task,
            work.as_mut_ptr(),
            work.len(),
            out.as_mut_ptr(),
            out.len(),
            records.as_ptr(),
            records.len(),
            numbers.as_mut_ptr(),
        )
    };
    numbers
}

/// The least assignment with its prices, as numbers.
#[derive(Clone, Copy, PartialEq, Eq, Debug)]
pub struct AssignmentNumbers {
    /// Cause; 1 if there is an assignment; its sum.
    pub numbers: [u32; 3],
    /// The task of each carrier, 255 from m on, and throughout without an assignment.
    pub tasks: [u8; 12],
    pub rows: [i32; 12],
    pub columns: [i32; 12],
}

/// The least assignment of a table of m by m entries, row by row.
pub fn least_assignment(m: u8, table: &[u16]) -> AssignmentNumbers {
    let old = i32::from(OLD);
    let mut answer = AssignmentNumbers {
        numbers: [u32::from(OLD); 3],
        tasks: [OLD; 12],
        rows: [old; 12],
        columns: [old; 12],
    };
    // SAFETY: the table is only read; the four lists are this function's own and have the lengths of the header.
    unsafe {
        exported::planner_least_assignment(
            m,
            table.as_ptr(),
            table.len(),
            answer.tasks.as_mut_ptr(),
            answer.rows.as_mut_ptr(),
            answer.columns.as_mut_ptr(),
            answer.numbers.as_mut_ptr(),
        )
    };
    answer
}

/// Cause; how many assignments are listed, twelve bytes each, in order of sum, then of list. The workspace has 512 words for each.
pub fn assignments_in_order(m: u8, table: &[u16], work: &mut [u32], lists: &mut [u8]) -> [u32; 2] {
    let mut numbers = [u32::from(OLD); 2];
    // SAFETY: what is written, `work`, `lists` and the two numbers, is borrowed by this call alone.
    unsafe {
        exported::planner_assignments_in_order(
            m,
            table.as_ptr(),
            table.len(),
            work.as_mut_ptr(),
            work.len(),
            lists.as_mut_ptr(),
            lists.len(),
            numbers.as_mut_ptr(),
        )
    };
    numbers
}

/// Cause; 1 if there is a collision; its kind (0 place, 1 move), t, i, j, u, v.
pub fn first_collision(m: u8, h: u8, paths: &[u16]) -> [u32; 8] {
    let mut numbers = [u32::from(OLD); 8];
    // SAFETY: the paths are only read; the eight numbers are this function's own.
    unsafe { exported::planner_first_collision(m, h, paths.as_ptr(), paths.len(), numbers.as_mut_ptr()) };
    numbers
}

/// Cause; 1 for a plan; its flowtime.
pub fn check_plan(sheet: &[u8], tasks: &[u8; 12], paths: &[u16]) -> [u32; 3] {
    let mut numbers = [u32::from(OLD); 3];
    // SAFETY: sheet, tasks and paths are only read, and the task list has twelve entries by its type.
    unsafe {
        exported::planner_check_plan(
            sheet.as_ptr(),
            sheet.len(),
            tasks.as_ptr(),
            paths.as_ptr(),
            paths.len(),
            numbers.as_mut_ptr(),
        )
    };
    numbers
}

/// Cause; kind (0 plan, 1 none, 2 spent, 3 refused); flowtime; nodes; bound; then the task of each of twelve carriers.
pub fn search(sheet: &[u8], work: &mut [u32], out: &mut [u16]) -> [u32; 17] {
    let mut numbers = [u32::from(OLD); 17];
    // SAFETY: what is written, `work`, `out` and the seventeen numbers, is borrowed by this call alone.
    unsafe {
        exported::planner_search(
            sheet.as_ptr(),
            sheet.len(),
            work.as_mut_ptr(),
            work.len(),
            out.as_mut_ptr(),
            out.len(),
            numbers.as_mut_ptr(),
        )
    };
    numbers
}

/// The search's seventeen numbers, and twelve lines of four: last goal, carrier, task, finish. Of a plan the first m are filled; a
/// filled line may be all zeros.
pub fn gate_board(sheet: &[u8], work: &mut [u32], out: &mut [u16]) -> ([u32; 17], [u32; 48]) {
    let (mut numbers, mut lines) = ([u32::from(OLD); 17], [u32::from(OLD); 48]);
    // SAFETY: what is written, `work`, `out`, the seventeen numbers and the lines, is borrowed by this call alone.
    unsafe {
        exported::planner_gate_board(
            sheet.as_ptr(),
            sheet.len(),
            work.as_mut_ptr(),
            work.len(),
            out.as_mut_ptr(),
            out.len(),
            numbers.as_mut_ptr(),
            lines.as_mut_ptr(),
        )
    };
    (numbers, lines)
}
