//! The programs on lines: the line program, the converter, the rows program and the table of polygons.

use std::io::{self, BufRead, Write};

use answer::{
    Facts, LINE_BYTES, LINE_RECORDS, MARK_WORDS, MOST_LINE_DIGITS, NO_MEETING, RECORD_WORDS,
    Refusal,
};

use crate::hull::hull_list;
use crate::polygon::polygon_of_room;
use crate::rows::rows;
use crate::tree::{Corner, ROOT};
use crate::turns::steps_of_turns;
use crate::walk::walk_clear;

/// Writes the answer to one line, both without a line feed, and answers its length; writes nothing if `out` is shorter than
/// the longest answer may be.
pub fn line(line: &[u8], out: &mut [u8]) -> usize {
    if out.len() < LINE_BYTES {
        return 0;
    }
    let mut answer = Vec::new();
    Judge::new().answer(line, &mut answer);
    out[..answer.len()].copy_from_slice(&answer);
    answer.len()
}

/// Answers every line of the input.
pub fn program(input: impl BufRead, output: impl Write) -> io::Result<()> {
    let mut judge = Judge::new();
    each_line(input, output, |line, out| {
        judge.answer(line, out);
        out.push(b'\n');
    })
}

/// Numbers of the spans of a frame at most: three for every two steps.
const SPAN_NUMBERS: usize = 3 * (MOST_LINE_DIGITS / 2);

/// Lists the rows of every line of the input.
pub fn rows_program(input: impl BufRead, output: impl Write) -> io::Result<()> {
    let mut judge = Judge::new();
    let mut numbers = [0; SPAN_NUMBERS];
    each_line(input, output, |line, out| {
        judge.list(line, &mut numbers, out)
    })
}

/// Bytes of the polygon of a frame at most: its header, and a point more than steps.
const POLYGON_BYTES: usize = 13 + 16 * (MOST_LINE_DIGITS + 1);

/// Writes the table of polygons: the names of the columns, and a row for each line of the input, numbered from 1 on.
pub fn sheet(input: impl BufRead, mut output: impl Write) -> io::Result<()> {
    let mut judge = Judge::new();
    let mut polygon = [0; POLYGON_BYTES];
    let mut id = 0_u64;
    output.write_all(b"id,refusal,place,verdict,steps,nodes,corners,j,k,area,wkb\n")?;
    each_line(input, output, |line, out| {
        id += 1;
        judge.enter(id, line, &mut polygon, out);
    })
}

/// Writes what `tell` appends for each line of the input; it gets the line without its line feed.
fn each_line(
    mut input: impl BufRead,
    mut output: impl Write,
    mut tell: impl FnMut(&[u8], &mut Vec<u8>),
) -> io::Result<()> {
    let (mut line, mut told) = (Vec::new(), Vec::new());
    while input.read_until(b'\n', &mut line)? > 0 {
        tell(line.strip_suffix(b"\n").unwrap_or(&line), &mut told);
        output.write_all(&told)?;
        line.clear();
        told.clear();
    }
    output.flush()
}

/// The buffers in which lines are judged. The table is all zero before each line and after it.
struct Judge {
    digits: [u8; MOST_LINE_DIGITS],
    table: [u32; RECORD_WORDS * LINE_RECORDS],
    marks: [u32; MARK_WORDS * MOST_LINE_DIGITS],
    chain: [u8; MOST_LINE_DIGITS],
}

impl Judge {
    fn new() -> Judge {
        Judge {
            digits: [0; MOST_LINE_DIGITS],
            table: [0; RECORD_WORDS * LINE_RECORDS],
            marks: [0; MARK_WORDS * MOST_LINE_DIGITS],
            chain: [0; MOST_LINE_DIGITS],
        }
    }

    /// Appends the answer to the line.
    fn answer(&mut self, line: &[u8], out: &mut Vec<u8>) {
        match self.judge(line) {
            Ok(facts) => {
                let steps = &self.chain[..facts.steps as usize];
                spell_accepted(out, facts, &hull_list(ROOT, steps));
            }
            Err(refusal) => spell_refused(out, refusal),
        }
    }

    /// Appends the spans of the line's room, one per line, or the line of its refusal.
    fn list(&mut self, line: &[u8], numbers: &mut [i32; SPAN_NUMBERS], out: &mut Vec<u8>) {
        let walked = self.judge(line);
        match walked.and_then(|facts| rows((0, 0), &self.chain[..facts.steps as usize], numbers)) {
            Ok(spans) => {
                for span in numbers[..3 * spans].chunks_exact(3) {
                    for number in span {
                        spell(out, number.cast_unsigned(), 4);
                    }
                    out.push(b'\n');
                }
            }
            Err(refusal) => {
                spell_refused(out, refusal);
                out.push(b'\n');
            }
        }
    }

    /// Appends the row of the line with this number.
    fn enter(
        &mut self,
        id: u64,
        line: &[u8],
        polygon: &mut [u8; POLYGON_BYTES],
        out: &mut Vec<u8>,
    ) {
        spell_cell(out, id);
        match self.judge(line) {
            Ok(facts) => {
                spell_facts(out, facts);
                let steps = &self.chain[..facts.steps as usize];
                if let Ok(bytes) = polygon_of_room((0, 0), steps, polygon) {
                    let digit = |half: u8| b"0123456789abcdef"[usize::from(half)];
                    let digits = polygon[..bytes].iter();
                    out.extend(digits.flat_map(|byte| [digit(byte >> 4), digit(byte & 15)]));
                }
            }
            Err(refusal) => {
                spell_cell(out, refusal.number().into());
                spell_cell(out, refusal.place().into());
                out.extend(b",,,,,,,");
            }
        }
        out.push(b'\n');
    }

    /// Walks the frame in this line, and clears the records that this took: the chain begins with its surviving steps.
    fn judge(&mut self, line: &[u8]) -> Result<Facts, Refusal> {
        let (kind, n) = read(line, &mut self.digits).ok_or(Refusal::BadLine)?;
        if kind == 1 {
            return Err(Refusal::RetiredKind);
        }
        let ops = &self.digits[..n];
        let chain = &mut self.chain[..n];
        let walked = walk_clear(
            (0, 0),
            ops,
            &mut self.table,
            &mut self.marks[..MARK_WORDS * n],
            chain,
        );
        let used = walked.map_or(0, |facts| facts.nodes as usize);
        self.table[..RECORD_WORDS * used].fill(0);
        walked
    }
}

/// Reads the kind, the count and the digits of a frame.
fn read(line: &[u8], to: &mut [u8; MOST_LINE_DIGITS]) -> Option<(usize, usize)> {
    let (kind, rest) = line.split_at_checked(2)?;
    let (count, digits) = rest.split_at_checked(4)?;
    let (kind, count) = (number(kind)?, number(count)?);
    if kind > 1 || count > MOST_LINE_DIGITS || count != digits.len() {
        return None;
    }
    for (to, &from) in to.iter_mut().zip(digits) {
        *to = digit(from)?;
    }
    Some((kind, count))
}

/// Writes the line, converted, both without a line feed, and answers its length; writes nothing if `out` is shorter.
pub fn convert_line(line: &[u8], out: &mut [u8]) -> usize {
    if out.len() < line.len() {
        return 0;
    }
    out[..line.len()].copy_from_slice(line);
    convert(&mut out[..line.len()]);
    line.len()
}

/// Converts every line of the input.
pub fn converter(mut input: impl BufRead, mut output: impl Write) -> io::Result<()> {
    let mut line = Vec::new();
    while input.read_until(b'\n', &mut line)? > 0 {
        let end = line.len() - usize::from(line.ends_with(b"\n"));
        convert(&mut line[..end]);
        output.write_all(&line)?;
        line.clear();
    }
    output.flush()
}

/// Turns a frame of kind 01 into the frame of kind 00 with its steps, and leaves any other line as it is.
fn convert(line: &mut [u8]) {
    let (mut turns, mut steps) = ([0; MOST_LINE_DIGITS], [0; MOST_LINE_DIGITS]);
    let Some((1, n)) = read(line, &mut turns) else {
        return;
    };
    if steps_of_turns(&turns[..n], &mut steps[..n]).is_ok() {
        line[1] = b'0';
        for (to, step) in line[6..].iter_mut().zip(&steps[..n]) {
            *to = b'0' + step;
        }
    }
}

fn digit(byte: u8) -> Option<u8> {
    match byte {
        b'0'..=b'9' => Some(byte - b'0'),
        b'a'..=b'f' => Some(byte - b'a' + 10),
        _ => None,
    }
}

fn number(digits: &[u8]) -> Option<usize> {
    digits
        .iter()
        .try_fold(0, |v, &byte| Some(16 * v + usize::from(digit(byte)?)))
}

/// Appends the low `n` hexadecimal digits of the value.
fn spell(out: &mut Vec<u8>, value: u32, n: u32) {
    let digit = |i: u32| b"0123456789abcdef"[(value >> (4 * i) & 15) as usize];
    out.extend((0..n).rev().map(digit));
}

fn spell_refused(out: &mut Vec<u8>, refusal: Refusal) {
    spell(out, 0x80 + refusal.number(), 2);
    spell(out, refusal.place(), 8);
}

fn spell_accepted(out: &mut Vec<u8>, facts: Facts, hull: &[Corner]) {
    let (j, k) = facts.meeting.unwrap_or((NO_MEETING, NO_MEETING));
    spell(out, facts.verdict as u32, 2);
    spell(out, facts.steps, 4);
    spell(out, facts.nodes, 8);
    spell(out, facts.corners, 4);
    spell(out, j, 4);
    spell(out, k, 4);
    spell(out, facts.area.cast_unsigned(), 8);
    spell(out, hull.len() as u32, 4);
    for corner in hull {
        spell(out, corner.x.cast_unsigned(), 4);
        spell(out, corner.y.cast_unsigned(), 4);
    }
}

/// Appends the number in decimal, and a comma.
fn spell_cell(out: &mut Vec<u8>, number: u64) {
    let mut digits = [b','; 21];
    let (mut at, mut rest) = (20, number);
    loop {
        at -= 1;
        digits[at] = b'0' + (rest % 10) as u8;
        rest /= 10;
        if rest == 0 {
            break;
        }
    }
    out.extend(&digits[at..]);
}

/// Appends the cells of an accepted walk.
fn spell_facts(out: &mut Vec<u8>, facts: Facts) {
    let (j, k) = facts.meeting.unwrap_or((NO_MEETING, NO_MEETING));
    out.extend(b"0,0,");
    for number in [
        facts.verdict as u32,
        facts.steps,
        facts.nodes,
        facts.corners,
        j,
        k,
    ] {
        spell_cell(out, number.into());
    }
    if facts.area < 0 {
        out.push(b'-');
    }
    spell_cell(out, facts.area.unsigned_abs().into());
}
