//! The calls of the C boundary as they are, on slices: include/undrwyth.h says what each does.

use answer::{
    CHAIN_ANSWER_WORDS, CONVEX_ANSWER_WORDS, Corner, HULL_ANSWER_WORDS, ORTHOGONAL_ANSWER_WORDS,
    OUTLINE_ANSWER_WORDS, OVERLAY_ANSWER_WORDS, POLYGON_ANSWER_WORDS, ROWS_ANSWER_WORDS,
    TURNS_ANSWER_WORDS, WALK_ANSWER_WORDS, WALK_TWO_ANSWER_WORDS,
};

mod c {
    unsafe extern "C" {
        pub fn undrwyth_walk(
            start_x: i32,
            start_y: i32,
            ops: *const u8,
            n: usize,
            table: *mut u32,
            table_words: usize,
            marks: *mut u32,
            marks_words: usize,
            chain: *mut u8,
            chain_bytes: usize,
            answer: *mut u32,
        ) -> u32;
        pub fn undrwyth_walk_two(
            start0_x: i32,
            start0_y: i32,
            start1_x: i32,
            start1_y: i32,
            ops: *const u8,
            n: usize,
            table: *mut u32,
            table_words: usize,
            marks: *mut u32,
            marks_words: usize,
            chain0: *mut u8,
            chain0_bytes: usize,
            chain1: *mut u8,
            chain1_bytes: usize,
            answer: *mut u32,
        ) -> u32;
        pub fn undrwyth_hull(
            start_x: i32,
            start_y: i32,
            chain: *const u8,
            n: usize,
            out: *mut i32,
            out_numbers: usize,
            answer: *mut u32,
        ) -> u32;
        pub fn undrwyth_outline(
            start_x: i32,
            start_y: i32,
            chain: *const u8,
            n: usize,
            out: *mut u8,
            out_bytes: usize,
            answer: *mut u32,
        ) -> u32;
        pub fn undrwyth_polygon_of_room(
            start_x: i32,
            start_y: i32,
            chain: *const u8,
            n: usize,
            out: *mut u8,
            out_bytes: usize,
            answer: *mut u32,
        ) -> u32;
        pub fn undrwyth_rows(
            start_x: i32,
            start_y: i32,
            chain: *const u8,
            n: usize,
            out: *mut i32,
            out_numbers: usize,
            answer: *mut u32,
        ) -> u32;
        pub fn undrwyth_convex(
            start_x: i32,
            start_y: i32,
            chain: *const u8,
            n: usize,
            answer: *mut u32,
        ) -> u32;
        pub fn undrwyth_orthogonal_hull(
            start_x: i32,
            start_y: i32,
            chain: *const u8,
            n: usize,
            grid: u32,
            out: *mut u8,
            out_bytes: usize,
            answer: *mut u32,
        ) -> u32;
        pub fn undrwyth_overlay(
            start1_x: i32,
            start1_y: i32,
            chain1: *const u8,
            n1: usize,
            start2_x: i32,
            start2_y: i32,
            chain2: *const u8,
            n2: usize,
            first: *mut i32,
            first_numbers: usize,
            second: *mut i32,
            second_numbers: usize,
            both: *mut i32,
            both_numbers: usize,
            answer: *mut u32,
        ) -> u32;
        pub fn undrwyth_chain_of_polygon(
            file: *const u8,
            file_bytes: usize,
            chain: *mut u8,
            chain_bytes: usize,
            answer: *mut u32,
        ) -> u32;
        pub fn undrwyth_turns_of_steps(
            steps: *const u8,
            n: usize,
            out: *mut u8,
            out_bytes: usize,
            answer: *mut u32,
        ) -> u32;
        pub fn undrwyth_steps_of_turns(
            turns: *const u8,
            n: usize,
            out: *mut u8,
            out_bytes: usize,
            answer: *mut u32,
        ) -> u32;
        pub fn undrwyth_line(line: *const u8, n: usize, out: *mut u8, out_bytes: usize) -> usize;
        pub fn undrwyth_convert_line(
            line: *const u8,
            n: usize,
            out: *mut u8,
            out_bytes: usize,
        ) -> usize;
    }
}

/// A call on a start and a chain that writes numbers or bytes.
type OnChain<T> = unsafe extern "C" fn(i32, i32, *const u8, usize, *mut T, usize, *mut u32) -> u32;
/// A call on bytes that writes bytes.
type OnBytes = unsafe extern "C" fn(*const u8, usize, *mut u8, usize, *mut u32) -> u32;
/// A call on a line that writes a line.
type OnLine = unsafe extern "C" fn(*const u8, usize, *mut u8, usize) -> usize;

/// Safe if `answer` has as many words as the call's answer: each other pointer is that of a slice of the length beside it, and
/// none overlaps another.
unsafe fn on_chain<T>(
    call: OnChain<T>,
    start: impl Into<Corner>,
    chain: &[u8],
    out: &mut [T],
    answer: &mut [u32],
) -> u32 {
    let Corner { x, y } = start.into();
    let (to, length) = (out.as_mut_ptr(), out.len());
    unsafe {
        call(
            x,
            y,
            chain.as_ptr(),
            chain.len(),
            to,
            length,
            answer.as_mut_ptr(),
        )
    }
}

/// Safe as `on_chain` is.
unsafe fn on_bytes(call: OnBytes, bytes: &[u8], out: &mut [u8], answer: &mut [u32]) -> u32 {
    let (to, length) = (out.as_mut_ptr(), out.len());
    unsafe { call(bytes.as_ptr(), bytes.len(), to, length, answer.as_mut_ptr()) }
}

/// Safe, as nothing else is lent.
fn on_line(call: OnLine, line: &[u8], out: &mut [u8]) -> usize {
    unsafe { call(line.as_ptr(), line.len(), out.as_mut_ptr(), out.len()) }
}

/// `undrwyth_walk`: the refusal's number, 0 for none.
pub fn walk(
    start: impl Into<Corner>,
    ops: &[u8],
    table: &mut [u32],
    marks: &mut [u32],
    chain: &mut [u8],
    answer: &mut [u32; WALK_ANSWER_WORDS],
) -> u32 {
    let Corner { x, y } = start.into();
    // SAFETY: each pointer is that of a slice of the length beside it, none overlaps another, and answer has its words.
    unsafe {
        c::undrwyth_walk(
            x,
            y,
            ops.as_ptr(),
            ops.len(),
            table.as_mut_ptr(),
            table.len(),
            marks.as_mut_ptr(),
            marks.len(),
            chain.as_mut_ptr(),
            chain.len(),
            answer.as_mut_ptr(),
        )
    }
}

/// `undrwyth_walk_two` of party 0 and party 1, by their starts and chains: the refusal's number, 0 for none.
pub fn walk_two(
    starts: [impl Into<Corner>; 2],
    ops: &[u8],
    table: &mut [u32],
    marks: &mut [u32],
    [chain0, chain1]: [&mut [u8]; 2],
    answer: &mut [u32; WALK_TWO_ANSWER_WORDS],
) -> u32 {
    let [start0, start1] = starts.map(Into::into);
    // SAFETY: as for walk.
    unsafe {
        c::undrwyth_walk_two(
            start0.x,
            start0.y,
            start1.x,
            start1.y,
            ops.as_ptr(),
            ops.len(),
            table.as_mut_ptr(),
            table.len(),
            marks.as_mut_ptr(),
            marks.len(),
            chain0.as_mut_ptr(),
            chain0.len(),
            chain1.as_mut_ptr(),
            chain1.len(),
            answer.as_mut_ptr(),
        )
    }
}

/// `undrwyth_hull`: the refusal's number, 0 for none.
pub fn hull(
    start: impl Into<Corner>,
    chain: &[u8],
    out: &mut [i32],
    answer: &mut [u32; HULL_ANSWER_WORDS],
) -> u32 {
    // SAFETY: as for walk.
    unsafe { on_chain(c::undrwyth_hull, start, chain, out, answer) }
}

/// `undrwyth_outline`: the refusal's number, 0 for none.
pub fn outline(
    start: impl Into<Corner>,
    chain: &[u8],
    out: &mut [u8],
    answer: &mut [u32; OUTLINE_ANSWER_WORDS],
) -> u32 {
    // SAFETY: as for walk.
    unsafe { on_chain(c::undrwyth_outline, start, chain, out, answer) }
}

/// `undrwyth_polygon_of_room`: the refusal's number, 0 for none.
pub fn polygon_of_room(
    start: impl Into<Corner>,
    chain: &[u8],
    out: &mut [u8],
    answer: &mut [u32; POLYGON_ANSWER_WORDS],
) -> u32 {
    // SAFETY: as for walk.
    unsafe { on_chain(c::undrwyth_polygon_of_room, start, chain, out, answer) }
}

/// `undrwyth_rows`: the refusal's number, 0 for none.
pub fn rows(
    start: impl Into<Corner>,
    chain: &[u8],
    out: &mut [i32],
    answer: &mut [u32; ROWS_ANSWER_WORDS],
) -> u32 {
    // SAFETY: as for walk.
    unsafe { on_chain(c::undrwyth_rows, start, chain, out, answer) }
}

/// `undrwyth_convex`: the refusal's number, 0 for none.
pub fn convex(
    start: impl Into<Corner>,
    chain: &[u8],
    answer: &mut [u32; CONVEX_ANSWER_WORDS],
) -> u32 {
    let Corner { x, y } = start.into();
    // SAFETY: as for walk.
    unsafe { c::undrwyth_convex(x, y, chain.as_ptr(), chain.len(), answer.as_mut_ptr()) }
}

/// `undrwyth_orthogonal_hull`: the refusal's number, 0 for none.
pub fn orthogonal_hull(
    start: impl Into<Corner>,
    chain: &[u8],
    grid: u32,
    out: &mut [u8],
    answer: &mut [u32; ORTHOGONAL_ANSWER_WORDS],
) -> u32 {
    let Corner { x, y } = start.into();
    // SAFETY: as for walk.
    unsafe {
        c::undrwyth_orthogonal_hull(
            x,
            y,
            chain.as_ptr(),
            chain.len(),
            grid,
            out.as_mut_ptr(),
            out.len(),
            answer.as_mut_ptr(),
        )
    }
}

/// `undrwyth_overlay` of two rooms, each a start and a chain: the refusal's number, 0 for none.
pub fn overlay(
    (start1, chain1): (impl Into<Corner>, &[u8]),
    (start2, chain2): (impl Into<Corner>, &[u8]),
    [first, second, both]: [&mut [i32]; 3],
    answer: &mut [u32; OVERLAY_ANSWER_WORDS],
) -> u32 {
    let (start1, start2) = (start1.into(), start2.into());
    // SAFETY: as for walk.
    unsafe {
        c::undrwyth_overlay(
            start1.x,
            start1.y,
            chain1.as_ptr(),
            chain1.len(),
            start2.x,
            start2.y,
            chain2.as_ptr(),
            chain2.len(),
            first.as_mut_ptr(),
            first.len(),
            second.as_mut_ptr(),
            second.len(),
            both.as_mut_ptr(),
            both.len(),
            answer.as_mut_ptr(),
        )
    }
}

/// `undrwyth_chain_of_polygon`: the refusal's number, 0 for none.
pub fn chain_of_polygon(
    file: &[u8],
    chain: &mut [u8],
    answer: &mut [u32; CHAIN_ANSWER_WORDS],
) -> u32 {
    // SAFETY: as for walk.
    unsafe { on_bytes(c::undrwyth_chain_of_polygon, file, chain, answer) }
}

/// `undrwyth_turns_of_steps`: the refusal's number, 0 for none.
pub fn turns_of_steps(steps: &[u8], out: &mut [u8], answer: &mut [u32; TURNS_ANSWER_WORDS]) -> u32 {
    // SAFETY: as for walk.
    unsafe { on_bytes(c::undrwyth_turns_of_steps, steps, out, answer) }
}

/// `undrwyth_steps_of_turns`: the refusal's number, 0 for none.
pub fn steps_of_turns(turns: &[u8], out: &mut [u8], answer: &mut [u32; TURNS_ANSWER_WORDS]) -> u32 {
    // SAFETY: as for walk.
    unsafe { on_bytes(c::undrwyth_steps_of_turns, turns, out, answer) }
}

/// `undrwyth_line`: the bytes written, 0 if out is shorter than `UNDRWYTH_LINE_BYTES`.
pub fn line(line: &[u8], out: &mut [u8]) -> usize {
    on_line(c::undrwyth_line, line, out)
}

/// `undrwyth_convert_line`: the bytes written, 0 if out is shorter than the line.
pub fn convert_line(line: &[u8], out: &mut [u8]) -> usize {
    on_line(c::undrwyth_convert_line, line, out)
}
