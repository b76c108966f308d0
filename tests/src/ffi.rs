//! The functions of the crate planner_c, as the crate planner_static exports them, and a safe function over each.
//! Nothing checks these declarations against crates/planner_static/src/lib.rt: keep the two in step.

/// What a call returns, before any check, where the answer has too few places.
pub const SHORT_ANSWER: u32 = 255;

#[link(name = "planner_c", kind = "static")]
extern "C" {
    fn planner_open(file: *const u8, file_len: usize, answer: *mut u32, answer_len: usize) -> u32;

    fn planner_reach(file: *const u8, file_len: usize, answer: *mut u32, answer_len: usize) -> u32;

    fn planner_count(file: *const u8, file_len: usize, answer: *mut u32, answer_len: usize) -> u32;

    fn planner_order(
        file: *const u8,
        file_len: usize,
        rows: *const u16,
        rows_len: usize,
        buffer: *mut u16,
        buffer_len: usize,
    ) -> u32;

    fn planner_cost(
        file: *const u8,
        file_len: usize,
        rows: *const u16,
        rows_len: usize,
        buffer: *mut u32,
        buffer_len: usize,
    ) -> u32;

    fn planner_charge(
        file: *const u8,
        file_len: usize,
        rows: *const u16,
        rows_len: usize,
        criterion: u32,
        buffer: *mut u32,
        buffer_len: usize,
        answer: *mut u32,
        answer_len: usize,
    ) -> u32;

    fn planner_pick(
        n: u32,
        page: *const u16,
        page_len: usize,
        t: u64,
        out: *mut u16,
        out_len: usize,
    ) -> u64;

    fn planner_page(
        file: *const u8,
        file_len: usize,
        page: *mut u16,
        page_len: usize,
        start: *const u16,
        start_len: usize,
        answer: *mut u32,
        answer_len: usize,
    ) -> u32;

    fn planner_index_build(
        file: *const u8,
        file_len: usize,
        spacing: u32,
        index: *mut u16,
        index_len: usize,
        answer: *mut u32,
        answer_len: usize,
    ) -> u32;

    fn planner_index_fetch(
        file: *const u8,
        file_len: usize,
        spacing: u32,
        index: *const u16,
        index_len: usize,
        tree: u64,
        buffer: *mut u16,
        buffer_len: usize,
        answer: *mut u32,
        answer_len: usize,
    ) -> u32;

    fn planner_front(
        file: *const u8,
        file_len: usize,
        costs: *mut u32,
        costs_len: usize,
        witnesses: *mut u16,
        witnesses_len: usize,
        answer: *mut u32,
        answer_len: usize,
    ) -> u32;

    fn planner_office(
        file: *const u8,
        file_len: usize,
        rows: *const u16,
        rows_len: usize,
        office: u32,
        h: u64,
        costs: *mut u32,
        costs_len: usize,
        witnesses: *mut u16,
        witnesses_len: usize,
        filled1: u64,
        filled2: u64,
        answer: *mut u32,
        answer_len: usize,
    ) -> u32;

    fn planner_dimacs_read(
        text: *const u8,
        text_len: usize,
        buffer: *mut u8,
        buffer_len: usize,
        answer: *mut u32,
        answer_len: usize,
    ) -> u32;

    fn planner_dimacs_write(
        file: *const u8,
        file_len: usize,
        buffer: *mut u8,
        buffer_len: usize,
        answer: *mut u32,
        answer_len: usize,
    ) -> u32;

    fn planner_survey(
        older: *const u8,
        older_len: usize,
        newer: *const u8,
        newer_len: usize,
        buffer: *mut u8,
        buffer_len: usize,
        answer: *mut u32,
        answer_len: usize,
    ) -> u32;
}

/// Open: 0 with n, m, k in the first three places of the answer, or the refusal's number.
pub fn open(file: &[u8], answer: &mut [u32]) -> u32 {
    unsafe { planner_open(file.as_ptr(), file.len(), answer.as_mut_ptr(), answer.len()) }
}

/// Reach: 0 with the word and the size in the first two places of the answer, or the refusal's number.
pub fn reach(file: &[u8], answer: &mut [u32]) -> u32 {
    unsafe { planner_reach(file.as_ptr(), file.len(), answer.as_mut_ptr(), answer.len()) }
}

/// Count: 0 with the number of trees in the first place of the answer, or the refusal's number.
pub fn count(file: &[u8], answer: &mut [u32]) -> u32 {
    unsafe { planner_count(file.as_ptr(), file.len(), answer.as_mut_ptr(), answer.len()) }
}

/// Order: 0 with the path in the buffer's first n - 1 places, or the refusal's number.
pub fn order(file: &[u8], rows: &[u16], buffer: &mut [u16]) -> u32 {
    unsafe {
        planner_order(
            file.as_ptr(),
            file.len(),
            rows.as_ptr(),
            rows.len(),
            buffer.as_mut_ptr(),
            buffer.len(),
        )
    }
}

/// Cost: 0 with the vector in the buffer's first k places, or the refusal's number.
pub fn cost(file: &[u8], rows: &[u16], buffer: &mut [u32]) -> u32 {
    unsafe {
        planner_cost(
            file.as_ptr(),
            file.len(),
            rows.as_ptr(),
            rows.len(),
            buffer.as_mut_ptr(),
            buffer.len(),
        )
    }
}

/// Connection charge: 0 with the charges in the buffer's first n - 1 places, and the quotient and the remainder in the
/// first two places of the answer, or the refusal's number.
pub fn charge(
    file: &[u8],
    rows: &[u16],
    criterion: u32,
    buffer: &mut [u32],
    answer: &mut [u32],
) -> u32 {
    unsafe {
        planner_charge(
            file.as_ptr(),
            file.len(),
            rows.as_ptr(),
            rows.len(),
            criterion,
            buffer.as_mut_ptr(),
            buffer.len(),
            answer.as_mut_ptr(),
            answer.len(),
        )
    }
}

/// Pick: the length of the part, with as much of it as fits in the first places of out.
pub fn pick(n: u32, page: &[u16], t: u64, out: &mut [u16]) -> u64 {
    unsafe { planner_pick(n, page.as_ptr(), page.len(), t, out.as_mut_ptr(), out.len()) }
}

/// Page: 0 with the count and the mark, 1 for 'more', in the first two places of the answer, or the refusal's number.
pub fn page(file: &[u8], page: &mut [u16], start: &[u16], answer: &mut [u32]) -> u32 {
    unsafe {
        planner_page(
            file.as_ptr(),
            file.len(),
            page.as_mut_ptr(),
            page.len(),
            start.as_ptr(),
            start.len(),
            answer.as_mut_ptr(),
            answer.len(),
        )
    }
}

/// Tree by number, an index built: 0 with the index in the first places and how many trees it holds in the first place of the
/// answer, or the refusal's number.
pub fn index_build(file: &[u8], spacing: u32, index: &mut [u16], answer: &mut [u32]) -> u32 {
    unsafe {
        planner_index_build(
            file.as_ptr(),
            file.len(),
            spacing,
            index.as_mut_ptr(),
            index.len(),
            answer.as_mut_ptr(),
            answer.len(),
        )
    }
}

/// Tree by number, a tree fetched: 0 with the tree in the buffer's first n - 1 places and the moves in the first place of the
/// answer, or the refusal's number.
pub fn index_fetch(
    file: &[u8],
    spacing: u32,
    index: &[u16],
    tree: u64,
    buffer: &mut [u16],
    answer: &mut [u32],
) -> u32 {
    unsafe {
        planner_index_fetch(
            file.as_ptr(),
            file.len(),
            spacing,
            index.as_ptr(),
            index.len(),
            tree,
            buffer.as_mut_ptr(),
            buffer.len(),
            answer.as_mut_ptr(),
            answer.len(),
        )
    }
}

/// Front: 0 with the count and the mark, 1 for 'whole', in the first two places of the answer, or the refusal's number.
pub fn front(file: &[u8], costs: &mut [u32], witnesses: &mut [u16], answer: &mut [u32]) -> u32 {
    unsafe {
        planner_front(
            file.as_ptr(),
            file.len(),
            costs.as_mut_ptr(),
            costs.len(),
            witnesses.as_mut_ptr(),
            witnesses.len(),
            answer.as_mut_ptr(),
            answer.len(),
        )
    }
}

/// A second office in the same table, entering for an office: 0 with 1 for 'entered' or 0 for 'met', and the half's new
/// filled count, in the first two places of the answer, or the refusal's number.
pub fn office(
    file: &[u8],
    rows: &[u16],
    office: u32,
    h: u64,
    (costs, witnesses): (&mut [u32], &mut [u16]),
    [filled1, filled2]: [u64; 2],
    answer: &mut [u32],
) -> u32 {
    unsafe {
        planner_office(
            file.as_ptr(),
            file.len(),
            rows.as_ptr(),
            rows.len(),
            office,
            h,
            costs.as_mut_ptr(),
            costs.len(),
            witnesses.as_mut_ptr(),
            witnesses.len(),
            filled1,
            filled2,
            answer.as_mut_ptr(),
            answer.len(),
        )
    }
}

/// A DIMACS edge file read: 0 with the network file in the buffer's first bytes and its length in the first place of the answer,
/// or the refusal's number.
pub fn dimacs_read(text: &[u8], buffer: &mut [u8], answer: &mut [u32]) -> u32 {
    unsafe {
        planner_dimacs_read(
            text.as_ptr(),
            text.len(),
            buffer.as_mut_ptr(),
            buffer.len(),
            answer.as_mut_ptr(),
            answer.len(),
        )
    }
}

/// A network's ends written as a DIMACS edge file: 0 with the text in the buffer's first bytes and its length in the first place of
/// the answer, or the refusal's number.
pub fn dimacs_write(file: &[u8], buffer: &mut [u8], answer: &mut [u32]) -> u32 {
    unsafe {
        planner_dimacs_write(
            file.as_ptr(),
            file.len(),
            buffer.as_mut_ptr(),
            buffer.len(),
            answer.as_mut_ptr(),
            answer.len(),
        )
    }
}

/// A newer survey over an older written as one network file: 0 with the file in the buffer's first bytes and its length in the first
/// place of the answer, or the refusal's number.
pub fn survey(older: &[u8], newer: &[u8], buffer: &mut [u8], answer: &mut [u32]) -> u32 {
    unsafe {
        planner_survey(
            older.as_ptr(),
            older.len(),
            newer.as_ptr(),
            newer.len(),
            buffer.as_mut_ptr(),
            buffer.len(),
            answer.as_mut_ptr(),
            answer.len(),
        )
    }
}
