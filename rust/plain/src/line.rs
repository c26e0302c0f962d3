//! The programs on lines: the line program, the converter, the rows program and the table of polygons.

use answer::{
    Facts, LINE_BYTES, LINE_RECORDS, MARK_WORDS, MOST_LINE_DIGITS, NO_MEETING, RECORD_WORDS,
    Refusal,
};

use crate::grid::{Corner, ROOT, corners};
use crate::hull::hull_list;
use crate::polygon;
use crate::rows::{panels, spans};
use crate::turns::steps_of_turns;
use crate::walk::walk;

/// Writes the answer to one line, both without a line feed, and answers its length; writes nothing if `out` is shorter than
/// the longest answer may be.
pub fn line(line: &[u8], out: &mut [u8]) -> usize {
    if out.len() < LINE_BYTES {
        return 0;
    }
    let answer = answer(line);
    out[..answer.len()].copy_from_slice(answer.as_bytes());
    answer.len()
}

/// The whole output for the whole input: a line for each line, the last with or without its line feed.
pub fn program(input: &[u8]) -> Vec<u8> {
    let answers = lines(input).map(|line| answer(line) + "\n");
    answers.collect::<String>().into_bytes()
}

/// The whole output of the rows program for the whole input: for each line the spans of its room, one per line, or its refusal.
pub fn rows_program(input: &[u8]) -> Vec<u8> {
    let mut output = String::new();
    for line in lines(input) {
        match room_spans(line) {
            Ok(spans) => {
                for span in spans {
                    let [row, first, last] = span.map(|number| number as i16);
                    output += &format!("{row:04x}{first:04x}{last:04x}\n");
                }
            }
            Err(refusal) => output += &(refused(refusal) + "\n"),
        }
    }
    output.into_bytes()
}

/// The whole table of polygons for the whole input: the names of the columns, and a row for each line, numbered from 1 on.
pub fn sheet(input: &[u8]) -> Vec<u8> {
    let mut output = "id,refusal,place,verdict,steps,nodes,corners,j,k,area,wkb\n".to_owned();
    for (id, line) in (1..).zip(lines(input)) {
        output += &format!("{id},{}\n", entry(line));
    }
    output.into_bytes()
}

/// What the table says of one line.
fn entry(line: &[u8]) -> String {
    let (facts, chain) = match judge(line) {
        Ok(accepted) => accepted,
        Err(refusal) => {
            return format!("{},{},,,,,,,,", refusal.number(), refusal.place());
        }
    };
    let (j, k) = facts.meeting.unwrap_or((NO_MEETING, NO_MEETING));
    let mut polygon = vec![0; 29 + 16 * chain.len()];
    let bytes = polygon::polygon_of_room(ROOT, &chain, &mut polygon).unwrap_or(0);
    let digits = polygon[..bytes].iter().map(|byte| format!("{byte:02x}"));
    format!(
        "0,0,{},{},{},{},{j},{k},{},{}",
        facts.verdict as u32,
        facts.steps,
        facts.nodes,
        facts.corners,
        facts.area,
        digits.collect::<String>(),
    )
}

/// The lines of an input, the last with or without its line feed.
fn lines(input: &[u8]) -> impl Iterator<Item = &[u8]> {
    let lines = input.split_inclusive(|&byte| byte == b'\n');
    lines.map(|line| line.strip_suffix(b"\n").unwrap_or(line))
}

/// Writes the line, converted, both without a line feed, and answers its length; writes nothing if `out` is shorter.
pub fn convert_line(line: &[u8], out: &mut [u8]) -> usize {
    if out.len() < line.len() {
        return 0;
    }
    out[..line.len()].copy_from_slice(&converted(line));
    line.len()
}

/// The whole output of the converter for the whole input: each line converted, and every line feed where it was.
pub fn converter(input: &[u8]) -> Vec<u8> {
    let lines: Vec<_> = input.split(|&byte| byte == b'\n').map(converted).collect();
    lines.join(&b'\n')
}

/// The frame of kind 00 with the steps of a frame of kind 01, and any other line as it is.
fn converted(line: &[u8]) -> Vec<u8> {
    let Some((1, turns)) = frame(line) else {
        return line.to_vec();
    };
    let mut steps = vec![0; turns.len()];
    if steps_of_turns(&turns, &mut steps).is_err() {
        return line.to_vec();
    }
    let digits = steps.iter().map(|step| char::from(b'0' + step));
    let mut frame = format!("00{:04x}", steps.len());
    frame.extend(digits);
    frame.into_bytes()
}

/// The answer to one line.
fn answer(line: &[u8]) -> String {
    match judge(line) {
        Ok((facts, chain)) => accepted(facts, &hull_list(corners(ROOT, &chain))),
        Err(refusal) => refused(refusal),
    }
}

/// The line of a refusal.
fn refused(refusal: Refusal) -> String {
    format!("{:02x}{:08x}", 0x80 + refusal.number(), refusal.place())
}

/// The spans of the room that the frame in this line walks.
fn room_spans(line: &[u8]) -> Result<Vec<[i32; 3]>, Refusal> {
    let (_, chain) = judge(line)?;
    polygon::judge(ROOT, &chain)?;
    Ok(spans(&panels(ROOT, &chain)))
}

/// The facts and the surviving steps of the frame in this line.
fn judge(line: &[u8]) -> Result<(Facts, Vec<u8>), Refusal> {
    let (kind, digits) = frame(line).ok_or(Refusal::BadLine)?;
    if kind == 1 {
        return Err(Refusal::RetiredKind);
    }
    let ops = digits;
    let mut table = [0; RECORD_WORDS * LINE_RECORDS];
    let mut marks = vec![0; MARK_WORDS * ops.len()];
    let mut chain = vec![0; ops.len()];
    let facts = walk(ROOT, &ops, &mut table, &mut marks, &mut chain)?;
    chain.truncate(facts.steps as usize);
    Ok((facts, chain))
}

/// The kind and the digits of a frame.
fn frame(line: &[u8]) -> Option<(u32, Vec<u8>)> {
    let digits: Vec<u8> = line
        .iter()
        .map(|byte| match byte {
            b'0'..=b'9' => Some(byte - b'0'),
            b'a'..=b'f' => Some(byte - b'a' + 10),
            _ => None,
        })
        .collect::<Option<_>>()?;
    let (head, body) = digits.split_at_checked(6)?;
    let number = |digits: &[u8]| digits.iter().fold(0, |v, &d| 16 * v + u32::from(d));
    let (kind, count) = (number(&head[..2]), number(&head[2..]) as usize);
    (kind <= 1 && count <= MOST_LINE_DIGITS && count == body.len()).then(|| (kind, body.to_vec()))
}

/// The answer line of an accepted frame.
fn accepted(facts: Facts, hull: &[Corner]) -> String {
    let (j, k) = facts.meeting.unwrap_or((NO_MEETING, NO_MEETING));
    let mut answer = format!(
        "{:02x}{:04x}{:08x}{:04x}{j:04x}{k:04x}{:08x}{:04x}",
        facts.verdict as u32,
        facts.steps,
        facts.nodes,
        facts.corners,
        facts.area,
        hull.len(),
    );
    for &(x, y) in hull {
        answer += &format!("{:04x}{:04x}", x as i16, y as i16);
    }
    answer
}
