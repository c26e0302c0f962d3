//! The calls of a loaded library, to race.

use answer::{
    CHAIN_ANSWER_WORDS, CONVEX_ANSWER_WORDS, HULL_ANSWER_WORDS, OUTLINE_ANSWER_WORDS,
    OVERLAY_ANSWER_WORDS, POLYGON_ANSWER_WORDS, ROWS_ANSWER_WORDS, WALK_ANSWER_WORDS,
};
use compare::loaded::Loaded;

use crate::calls;
use crate::race::Call;

/// The number of a refusal, if it is one.
fn answered(number: u32) -> Result<(), u32> {
    if number == 0 { Ok(()) } else { Err(number) }
}

pub fn walk<'a>(of: &'static Loaded, inputs: &'a [Vec<u8>]) -> Call<'a> {
    calls::walk(
        |start, ops, table, marks, chain| {
            answered(of.walk(start, ops, table, marks, chain, &mut [0; WALK_ANSWER_WORDS]))
        },
        inputs,
    )
}

pub fn hull<'a>(of: &'static Loaded, inputs: &'a [Vec<u8>]) -> Call<'a> {
    calls::hull(
        |start, chain, out| answered(of.hull(start, chain, out, &mut [0; HULL_ANSWER_WORDS])),
        inputs,
    )
}

pub fn outline<'a>(of: &'static Loaded, inputs: &'a [Vec<u8>]) -> Call<'a> {
    calls::outline(
        |start, chain, out| answered(of.outline(start, chain, out, &mut [0; OUTLINE_ANSWER_WORDS])),
        inputs,
    )
}

pub fn polygon<'a>(of: &'static Loaded, inputs: &'a [Vec<u8>]) -> Call<'a> {
    calls::polygon(
        |start, chain, out| {
            answered(of.polygon_of_room(start, chain, out, &mut [0; POLYGON_ANSWER_WORDS]))
        },
        inputs,
    )
}

pub fn rows<'a>(of: &'static Loaded, inputs: &'a [Vec<u8>]) -> Call<'a> {
    calls::rows(
        |start, chain, out| answered(of.rows(start, chain, out, &mut [0; ROWS_ANSWER_WORDS])),
        inputs,
    )
}

pub fn overlay<'a>(of: &'static Loaded, inputs: &'a [Vec<u8>]) -> Call<'a> {
    calls::overlay(
        |one, other, out| answered(of.overlay(one, other, out, &mut [0; OVERLAY_ANSWER_WORDS])),
        inputs,
    )
}

pub fn convex<'a>(of: &'static Loaded, inputs: &'a [Vec<u8>]) -> Call<'a> {
    calls::convex(
        |start, chain| answered(of.convex(start, chain, &mut [0; CONVEX_ANSWER_WORDS])),
        inputs,
    )
}

pub fn chain<'a>(of: &'static Loaded, files: &'a [Vec<u8>]) -> Call<'a> {
    calls::chain(
        |file, chain| answered(of.chain_of_polygon(file, chain, &mut [0; CHAIN_ANSWER_WORDS])),
        files,
    )
}

pub fn line<'a>(of: &'static Loaded, lines: &'a [Vec<u8>]) -> Call<'a> {
    calls::line(|line, out| of.line(line, out), lines)
}
