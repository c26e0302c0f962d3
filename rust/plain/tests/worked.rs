//! The worked walks and the settled readings of the rules.

use answer::{Facts, MARK_WORDS, RECORD_WORDS, Refusal, Verdict};

/// Room enough for all walks here but those that ask for more.
const RECORDS: usize = 400;

/// The operations that these digits are.
fn ops(digits: &str) -> Vec<u8> {
    digits.bytes().map(|digit| digit - b'0').collect()
}

/// The three buffers after a walk.
struct Walked {
    answer: Result<Facts, Refusal>,
    table: Vec<u32>,
    marks: Vec<[u32; MARK_WORDS]>,
    chain: Vec<u8>,
}

impl Walked {
    fn facts(&self) -> Facts {
        self.answer.unwrap()
    }

    fn word(&self, node: usize, word: usize) -> u32 {
        self.table[RECORD_WORDS * node + word]
    }

    /// The words of a node that are not 0, with their places.
    fn words(&self, node: usize) -> Vec<(usize, u32)> {
        (0..RECORD_WORDS)
            .map(|word| (word, self.word(node, word)))
            .filter(|&(_, value)| value != 0)
            .collect()
    }
}

/// Walks in dirty buffers.
fn walk_in(ops: &[u8], records: usize) -> Walked {
    walk_from((0, 0), ops, records)
}

/// Walks from a start in dirty buffers.
fn walk_from(start: (i32, i32), ops: &[u8], records: usize) -> Walked {
    let mut table = vec![7; RECORD_WORDS * records];
    let mut marks = vec![7; MARK_WORDS * ops.len()];
    let mut chain = vec![7; ops.len()];
    let answer = plain::walk(start, ops, &mut table, &mut marks, &mut chain);
    let (marks, _) = marks.as_chunks();
    let marks = marks.to_vec();
    Walked {
        answer,
        table,
        marks,
        chain,
    }
}

fn walk(digits: &str) -> Walked {
    walk_in(&ops(digits), RECORDS)
}

fn refusal(digits: &str) -> Refusal {
    walk(digits).answer.unwrap_err()
}

fn hull(digits: &str) -> Vec<i32> {
    let mut out = vec![0; 2 * digits.len() + 2];
    let count = plain::hull((0, 0), &ops(digits), &mut out).unwrap();
    out.truncate(2 * count);
    out
}

fn outline(digits: &str) -> Vec<u8> {
    let mut out = vec![0; 2 * digits.len()];
    let steps = plain::outline((-7, 5), &ops(digits), &mut out).unwrap();
    out.truncate(steps);
    out
}

fn line(line: &str) -> String {
    let mut out = [0; answer::LINE_BYTES];
    let length = plain::line(line.as_bytes(), &mut out);
    String::from_utf8(out[..length].to_vec()).unwrap()
}

#[test]
fn p1_no_operation() {
    let facts = walk("").facts();
    assert_eq!(facts.verdict, Verdict::Nowhere);
    assert_eq!((facts.nodes, facts.corners, facts.meeting), (1, 1, None));
    assert_eq!(hull(""), [0, 0]);
}

#[test]
fn p2_p3_rooms() {
    for (digits, area) in [("0123", 1), ("3210", -1)] {
        let facts = walk(digits).facts();
        assert_eq!(facts.verdict, Verdict::Room);
        assert_eq!((facts.meeting, facts.area), (Some((0, 4)), area));
    }
}

#[test]
fn p4_there_and_back_is_no_room() {
    for digits in ["02", "20", "13", "31", "0204"] {
        let facts = walk(digits).facts();
        assert_eq!(facts.verdict, Verdict::ThereAndBack);
        assert_eq!((facts.meeting, facts.area), (Some((0, 2)), 0));
    }
    for digits in ["0022", "0202"] {
        assert_eq!(walk(digits).facts().verdict, Verdict::ClosedMeeting);
    }
}

#[test]
fn p5_p6_p7_west_is_not_east() {
    let facts = walk("022").facts();
    assert_eq!(facts.verdict, Verdict::OpenMeeting);
    assert_eq!((facts.meeting, facts.nodes), (Some((0, 2)), 3));
    let facts = walk("01223").facts();
    assert_eq!((facts.verdict, facts.nodes), (Verdict::Open, 6));
    assert_eq!(walk("2222").facts().nodes, 5);
    assert_eq!(hull("022"), [-1, 0, 1, 0]);
}

#[test]
fn p8_a_node_that_nobody_visited() {
    let walked = walk("0011");
    assert_eq!((walked.facts().corners, walked.facts().nodes), (5, 6));
    assert_eq!(walked.marks, [[2, 1, 2], [3, 1, 2], [4, 1, 3], [6, 1, 5]]);
    assert_eq!(walked.words(4), [(0, 1), (5, 6), (13, 2), (17, 4), (19, 4)]);
    assert!(
        walked.table[6 * RECORD_WORDS..]
            .iter()
            .all(|&word| word == 0)
    );
}

#[test]
fn p8_no_room() {
    let walked = walk_in(&ops("0011"), 5);
    assert_eq!(walked.answer, Err(Refusal::NoRoom(3)));
    assert!(walked.table.iter().all(|&word| word == 0));
    assert_eq!(walked.marks, [[0; 3]; 4]);
    assert_eq!(walked.chain, [0; 4]);
    assert!(walk_in(&ops("0011"), 6).answer.is_ok());
}

#[test]
fn p9_p10_taken_back() {
    let walked = walk("004123");
    let marks = [
        [2, 1, 2],
        [3, 1, 2],
        [2, 1, 2],
        [3, 1, 3],
        [4, 1, 3],
        [4, 2, 2],
    ];
    assert_eq!(walked.marks, marks);
    assert_eq!(walked.chain, ops("012300"));
    let walked = walk("0204");
    assert_eq!(walked.marks, [[2, 1, 2], [2, 2, 2], [2, 2, 2], [2, 2, 2]]);
    assert_eq!(walked.chain, ops("0200"));
    assert_eq!(walk("024").facts().verdict, Verdict::Open);
}

#[test]
fn p11_a_crossing() {
    let steps = "001100322223";
    let facts = walk(steps).facts();
    assert_eq!(facts.verdict, Verdict::ClosedMeeting);
    assert_eq!((facts.meeting, facts.nodes), (Some((3, 9)), 11));
    assert_eq!(hull(steps), [0, 0, 2, 0, 4, 1, 4, 2, 2, 2, 0, 1]);
    let (mut turns, mut back) = (vec![7; 12], vec![7; 12]);
    plain::turns_of_steps(&ops(steps), &mut turns).unwrap();
    assert_eq!(turns, ops("001030330001"));
    plain::steps_of_turns(&turns, &mut back).unwrap();
    assert_eq!(back, ops(steps));
}

#[test]
fn outlines() {
    for (steps, around) in [
        ("", ""),
        ("0", "02"),
        ("2", "02"),
        ("111", "111333"),
        ("103", "103123"),
        ("021", "0213"),
        ("3210", "0123"),
        ("001233", "03101232"),
        ("001100322223", "001001223223"),
        ("001122331000", "0010212233"),
    ] {
        assert_eq!(outline(steps), ops(around), "{steps}");
    }
    assert_eq!(
        plain::outline((0, 0), &[0], &mut [7]),
        Err(Refusal::OutlineRoom)
    );
}

#[test]
fn p12_refusals() {
    assert_eq!(refusal("4"), Refusal::NothingToTake(0));
    assert_eq!(refusal("05"), Refusal::BadDigit(1));
}

#[test]
fn a_start_elsewhere() {
    // Four corners where four large parts of the tree meet need 59 nodes.
    let walked = walk_from((16_383, 16_383), &ops("0123"), 59);
    let facts = walked.facts();
    assert_eq!((facts.nodes, facts.corners), (59, 4));
    assert_eq!(
        (facts.verdict, facts.area, facts.last.into()),
        (Verdict::Room, 1, (16_383, 16_383))
    );
    assert_eq!(
        walk_from((16_383, 16_383), &ops("0123"), 58).answer,
        Err(Refusal::NoRoom(2))
    );
    // The ancestors of the start are numbered from the root down, and no step needed them; the root is unvisited.
    assert_eq!([18, 19, 20].map(|word| walked.word(0, word)), [0, 0, 0]);
    for node in 1..=14 {
        assert_eq!(
            [0, 19].map(|word| walked.word(node, word)),
            [node as u32, 0]
        );
    }
    assert_eq!([18, 19, 20].map(|word| walked.word(14, word)), [2, 0, 1]);
}

#[test]
fn no_room_for_the_start() {
    let start = (3, -2);
    assert_eq!(walk_from(start, &[], 2).answer, Err(Refusal::NoRoom(0)));
    assert_eq!(walk_from(start, &[], 3).facts().nodes, 3);
    assert_eq!(
        walk_from(start, &ops("0"), 2).answer,
        Err(Refusal::NoRoom(0))
    );
    assert_eq!(
        walk_from(start, &ops("044"), 2).answer,
        Err(Refusal::NothingToTake(2))
    );
    let walked = walk_from(start, &ops("0"), 2);
    assert!(walked.table.iter().all(|&word| word == 0));
    assert_eq!((walked.marks, walked.chain), (vec![[0; 3]], vec![0]));
}

#[test]
fn a_start_out_of_range() {
    for v in [16_385, -16_385, i32::MAX, i32::MIN] {
        for start in [(v, 0), (0, v)] {
            assert_eq!(
                walk_from(start, &ops("5"), 1).answer,
                Err(Refusal::StartRange)
            );
            assert_eq!(plain::hull(start, &[4], &mut []), Err(Refusal::StartRange));
        }
    }
    let mut out = [7; 4];
    assert_eq!(plain::hull((-16_384, 16_384), &[2], &mut out), Ok(2));
    assert_eq!(out, [-16_385, 16_384, -16_384, 16_384]);
}

#[test]
fn limits_of_steps() {
    let mut east = vec![0; 16_384];
    assert!(walk_in(&east, 16_385).answer.is_ok());
    east.push(0);
    assert_eq!(walk_in(&east, 16_385).answer, Err(Refusal::TooLong(16_384)));
    east[16_384] = 5;
    assert_eq!(walk_in(&east, 1).answer, Err(Refusal::BadDigit(16_384)));
}

#[test]
fn order_of_refusals() {
    // A fault at any place wins over room at an earlier one; a refused call leaves the buffers as they were.
    let walked = walk_in(&ops("000005"), 2);
    assert_eq!(walked.answer, Err(Refusal::BadDigit(5)));
    assert!(walked.table.iter().all(|&word| word == 7));
    assert_eq!(walked.chain, [7; 6]);
    assert_eq!(walked.marks, [[7; 3]; 6]);
    let many = vec![9; 32_769];
    assert_eq!(
        plain::walk((0, 0), &many, &mut [], &mut [], &mut []),
        Err(Refusal::TooMany)
    );
    assert_eq!(
        plain::walk((0, 0), &many[..1], &mut [], &mut [], &mut []),
        Err(Refusal::Table)
    );
    assert_eq!(
        plain::walk((0, 0), &many[..1], &mut [0; 25], &mut [0; 3], &mut []),
        Err(Refusal::ResultRoom)
    );
}

#[test]
fn refusals_of_hull_and_turns() {
    let mut chain = vec![0; 16_385];
    assert_eq!(
        plain::hull((0, 0), &chain, &mut []),
        Err(Refusal::TooLong(16_384))
    );
    chain[16_384] = 4;
    assert_eq!(
        plain::hull((0, 0), &chain, &mut []),
        Err(Refusal::BadDigit(16_384))
    );
    assert_eq!(
        plain::hull((0, 0), &[0; 32_769], &mut []),
        Err(Refusal::TooMany)
    );
    assert_eq!(plain::hull((0, 0), &[], &mut [0]), Err(Refusal::HullRoom));
    assert_eq!(plain::hull((0, 0), &[], &mut [5, 5, 5]), Ok(1));
    let mut out = vec![0; 32_768];
    assert_eq!(plain::turns_of_steps(&[3; 32_768], &mut out), Ok(()));
    assert_eq!(
        plain::steps_of_turns(&[9; 2], &mut out[..1]),
        Err(Refusal::ResultRoom)
    );
    assert_eq!(
        plain::steps_of_turns(&[3, 4], &mut out[..2]),
        Err(Refusal::BadDigit(1))
    );
    assert_eq!(
        plain::turns_of_steps(&[9; 32_769], &mut out),
        Err(Refusal::TooMany)
    );
}

#[test]
fn a_link_may_be_older_than_the_edge() {
    // The edge (-1,0)-(0,0) is walked at step 6; level 1 of step 3 linked it.
    let walked = walk("322100");
    assert_eq!(walked.word(0, 16), 3);
    // The node (1,1) is needed at step 4 and visited at step 6.
    let walked = walk("001123");
    let node = walked.word(0, 9) as usize - 1;
    assert_eq!([18, 19, 20].map(|word| walked.word(node, word)), [1, 4, 7]);
}

#[test]
fn every_mark_is_that_of_the_survivors() {
    for length in 0..=6 {
        for code in 0..5_u32.pow(length) {
            let ops: Vec<u8> = (0..length)
                .map(|i| (code / 5_u32.pow(i) % 5) as u8)
                .collect();
            let walked = walk_in(&ops, 30);
            let Ok(facts) = walked.answer else { continue };
            let alone = walk_in(&walked.chain[..facts.steps as usize], 30);
            assert_eq!(alone.answer, walked.answer);
            assert_eq!(alone.table, walked.table);
            let last = walked.marks.last().map_or(1, |mark| mark[0]);
            assert_eq!(last, facts.nodes);
        }
    }
}

#[test]
fn lines() {
    let room = "0200040000000400040000000400000001000400000000000100000001000100000001";
    let sample = b"0000040123\n000006004123\n0000015\n";
    let output = format!("{room}\n{room}\n8400000000\n");
    assert_eq!(plain::program(sample), output.as_bytes());
    assert_eq!(plain::program(&sample[..31]), output.as_bytes());
    assert_eq!(plain::program(b""), b"");
    assert_eq!(plain::program(b"\n"), b"8900000000\n");
    assert_eq!(line("0100040111"), "9300000000");
    assert_eq!(line("0100020114"), "8900000000");
    assert_eq!(line("0100014"), "9300000000");
    assert_eq!(line("0000010F"), "8900000000");
    assert_eq!(line("02000000"), "8900000000");
    assert_eq!(line(&format!("000401{}", "0".repeat(0x401))), "8900000000");
    assert_eq!(&line(&format!("00013f{}", "0".repeat(319)))[..2], "01");
    assert_eq!(line(&format!("000140{}", "0".repeat(320))), "870000013f");
    assert_eq!(plain::line(b"", &mut [0; answer::LINE_BYTES - 1]), 0);
}

/// Lines with turns, converted: what stays, and where line feeds stand.
#[test]
fn converted() {
    let input = b"01000c001030330001\n0100014\n\n0000040123\n0100040111\r\n01000213";
    let output = b"00000c001100322223\n0100014\n\n0000040123\n0100040111\r\n00000210";
    assert_eq!(plain::converter(input), output);
    assert_eq!(plain::converter(output), output);
    assert_eq!(plain::converter(b"\n"), b"\n");
    assert_eq!(plain::converter(b""), b"");
    assert_eq!(plain::convert_line(b"0100013", &mut [0; 6]), 0);
}

/// The records that differ before and after each operation, counted in whole tables of the walk's beginnings.
#[test]
fn changes_are_those_of_whole_tables() {
    let walks = [
        "00112233",
        "0123",
        "0242",
        "01230123",
        "00004444",
        "0101014140",
        "000111222333",
        "0123441230444",
    ];
    for start in [
        (0, 0),
        (-1, 0),
        (7, 8),
        (16_383, 16_383),
        (-16_384, 16_384),
        (-9, -4_097),
    ] {
        for ops in walks.map(ops) {
            let whole = walk_from(start, &ops, RECORDS);
            for k in 1..=ops.len() {
                let before = walk_from(start, &ops[..k - 1], RECORDS).table;
                let after = walk_from(start, &ops[..k], RECORDS).table;
                let records = |table: &[u32]| {
                    table
                        .chunks(RECORD_WORDS)
                        .map(<[u32]>::to_vec)
                        .collect::<Vec<_>>()
                };
                let differ = records(&before)
                    .iter()
                    .zip(&records(&after))
                    .filter(|(b, a)| b != a)
                    .count();
                assert_eq!(
                    whole.marks[k - 1][2] as usize,
                    differ,
                    "{ops:?} from {start:?}, operation {k}"
                );
            }
        }
    }
}

/// An operation changes 32 records at most, and the last of all steps from the farthest corner does; all together change few for
/// each step and corner.
#[test]
fn changes_at_most_thirty_two() {
    let east = vec![0; answer::MOST_STEPS];
    let walked = walk_from((16_384, 16_384), &east, 65_604);
    let changes: Vec<usize> = walked.marks.iter().map(|mark| mark[2] as usize).collect();
    assert_eq!(changes.iter().max(), Some(&32));
    assert_eq!(changes.last(), Some(&32));
    let corners = walked.facts().corners as usize;
    assert_eq!(corners, east.len() + 1);
    assert!(changes.iter().sum::<usize>() <= 3 * east.len() + 16 * corners + 256);
}
