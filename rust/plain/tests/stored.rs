//! The stored inputs of the programs on lines and the outputs that their runs are held to.

use answer::LINE_BYTES;

const INPUT: &[u8] = include_bytes!("../../../crates/judge/stdin");
const OUTPUT: &[u8] = include_bytes!("../../../crates/judge/stdout");
const OLD: &[u8] = include_bytes!("../../../crates/convert/stdin");
const CONVERTED: &[u8] = include_bytes!("../../../crates/convert/stdout");
const RECORDS: &[u8] = include_bytes!("../../../crates/rows/stdin");
const ROWS: &[u8] = include_bytes!("../../../crates/rows/stdout");
const ENTERED: &[u8] = include_bytes!("../../../crates/polygons/stdin");
const SHEET: &[u8] = include_bytes!("../../../crates/polygons/stdout");
const SAMPLE: &[u8] = include_bytes!("../../../samples/records.txt");
const SAMPLE_SHEET: &[u8] = include_bytes!("../../../samples/sheet.csv");
/// Bytes that a program asks of one read.
const CHUNK: usize = 65_536;

/// The stored outputs are what the rules give.
#[test]
fn outputs() {
    assert!(plain::program(INPUT) == OUTPUT);
    assert!(plain::converter(OLD) == CONVERTED);
    assert!(plain::rows_program(RECORDS) == ROWS);
    assert!(plain::sheet(ENTERED) == SHEET);
    assert!(plain::sheet(SAMPLE) == SAMPLE_SHEET);
}

/// The programs read their inputs in three parts at least, and all but the converter write their outputs in several; every cut is
/// within a line.
#[test]
fn cuts() {
    assert!(OUTPUT.len() > 2 * LINE_BYTES);
    assert!(ROWS.len() > 2 * LINE_BYTES);
    assert!(SHEET.len() > 4 * CHUNK);
    for input in [INPUT, OLD, RECORDS, ENTERED] {
        assert!(input.len() > 2 * CHUNK);
        for cut in (CHUNK..input.len()).step_by(CHUNK) {
            assert!(!input[cut - 1..=cut].contains(&b'\n'));
        }
        assert!(!input.ends_with(b"\n"));
    }
}
