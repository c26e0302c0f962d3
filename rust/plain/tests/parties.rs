//! Worked walks of two parties in one table, and what is promised of all of them.

use answer::{
    Corner, MARK_WORDS, PAIR_RECORD_WORDS, PairFacts, RECORD_WORDS, Refusal, Verdict, word,
};

/// Room enough for all walks here but those that ask for more.
const RECORDS: usize = 120;

/// The four buffers after a call.
struct Walked {
    answer: Result<PairFacts, Refusal>,
    table: Vec<u32>,
    marks: Vec<[u32; MARK_WORDS]>,
    chains: [Vec<u8>; 2],
}

impl Walked {
    fn facts(&self) -> PairFacts {
        self.answer.unwrap()
    }

    fn record(&self, number: usize) -> &[u32] {
        &self.table[PAIR_RECORD_WORDS * number..][..PAIR_RECORD_WORDS]
    }

    fn nodes(&self) -> Vec<u32> {
        self.marks.iter().map(|mark| mark[0]).collect()
    }

    fn changes(&self) -> Vec<u32> {
        self.marks.iter().map(|mark| mark[2]).collect()
    }

    /// Whether each word of each buffer is this number.
    fn wholly(&self, number: u8) -> bool {
        let is = |&word: &u32| word == u32::from(number);
        self.table.iter().all(is)
            && self.marks.as_flattened().iter().all(is)
            && self.chains.iter().flatten().all(|&byte| byte == number)
    }
}

/// Walks in dirty buffers.
fn walk_in(starts: [(i32, i32); 2], ops: &[u8], records: usize) -> Walked {
    let mut table = vec![7; PAIR_RECORD_WORDS * records];
    let mut marks = vec![7; MARK_WORDS * ops.len()];
    let mut chains = [vec![7; ops.len()], vec![7; ops.len()]];
    let [first, second] = &mut chains;
    let answer = plain::walk_two(starts, ops, &mut table, &mut marks, [first, second]);
    let (marks, _) = marks.as_chunks();
    let marks = marks.to_vec();
    Walked {
        answer,
        table,
        marks,
        chains,
    }
}

fn walk(starts: [(i32, i32); 2], ops: &[u8]) -> Walked {
    walk_in(starts, ops, RECORDS)
}

/// The starts of the two firms around the lobby, and their operations: see README.md.
const LOBBY: [(i32, i32); 2] = [(0, 0), (3, 1)];
const FIRMS: [u8; 14] = [
    0x00, 0x12, 0x00, 0x12, 0x11, 0x14, 0x01, 0x13, 0x02, 0x10, 0x02, 0x10, 0x03, 0x11,
];

#[test]
fn two_firms_around_a_lobby() {
    let walked = walk_in(LOBBY, &FIRMS, 8);
    let facts = walked.facts();
    assert_eq!(facts.nodes, 8);
    let alone = |q: u8| {
        let ops = own(&FIRMS, q);
        let (mut table, mut chain) = ([0; RECORD_WORDS * 9], vec![0; ops.len()]);
        let mut marks = vec![0; MARK_WORDS * ops.len()];
        plain::walk(
            LOBBY[usize::from(q)],
            &ops,
            &mut table,
            &mut marks,
            &mut chain,
        )
    };
    assert_eq!([0, 1].map(|q| alone(q).unwrap().nodes), [6, 7]);
    for (party, start) in facts.parties.into_iter().zip(LOBBY) {
        assert_eq!(
            (party.verdict, party.area, party.last.into()),
            (Verdict::Room, 2, start)
        );
        assert_eq!(
            (party.steps, party.corners, party.meeting),
            (6, 6, Some((0, 6)))
        );
    }
    assert_eq!(
        walked.marks,
        [
            [3, 1, 2],
            [4, 1, 3],
            [5, 1, 2],
            [6, 1, 4],
            [8, 1, 4],
            [6, 1, 4],
            [6, 1, 2],
            [6, 1, 2],
            [6, 1, 2],
            [6, 1, 2],
            [7, 1, 3],
            [8, 1, 3],
            [8, 2, 2],
            [8, 2, 2],
        ]
    );
    let chain = |steps: [u8; 6]| [&steps[..], &[0; 8]].concat();
    assert_eq!(
        walked.chains,
        [chain([0, 0, 1, 2, 2, 3]), chain([2, 2, 3, 0, 0, 1])]
    );
    // (2,0), whose west edge both went along.
    #[rustfmt::skip]
    assert_eq!(
        walked.record(4),
        [
            2, 0, 0, 0, 0, 0, 0, 0, 0, 0, 8, 4, 2, 0,
            0, 3, 2, 0, 1, 3, 3, 0, 1, 1, 0,
            5, 0, 4, 0, 1, 5, 5, 1, 0, 1, 0,
        ]
    );
    // The root: (0,1) came to stand in record 6, which a take-back had left free; party 1 links the root to (1,0), and never stood there.
    #[rustfmt::skip]
    assert_eq!(
        walked.record(0),
        [
            0, 0, 0, 0, 0, 0, 7, 0, 2, 6, 2, 7, 0, 0,
            1, 6, 0, 0, 2, 1, 1, 1, 1, 0, 0,
            2, 0, 0, 0, 0, 1, 0, 0, 0, 0, 0,
        ]
    );
}

#[test]
fn no_room_for_the_firms() {
    let walked = walk_in(LOBBY, &FIRMS, 7);
    assert_eq!(walked.answer, Err(Refusal::NoRoom(4)));
    assert!(walked.wholly(0));
    // Without the slip all but one of the nodes are there until the twelfth byte.
    let straight = [&FIRMS[..4], &FIRMS[6..]].concat();
    assert_eq!(walk_in(LOBBY, &straight, 8).facts().nodes, 8);
    assert_eq!(walk_in(LOBBY, &straight, 7).answer, Err(Refusal::NoRoom(9)));
}

#[test]
fn nobody_moves() {
    let walked = walk_in([(0, 0); 2], &[], 1);
    assert_eq!(walked.facts().nodes, 1);
    for party in walked.facts().parties {
        assert_eq!((party.verdict, party.corners), (Verdict::Nowhere, 1));
        assert_eq!(
            (party.meeting, party.area, party.last),
            (None, 0, (0, 0).into())
        );
    }
    // Both stand on the root and need it.
    for q in 0..2 {
        let own = |place| walked.record(0)[word::of(q, place)];
        assert_eq!([word::VISITS, word::NEED, word::FIRST].map(own), [1, 1, 1]);
    }
    assert_eq!(walked.table.iter().sum::<u32>(), 6);
}

#[test]
fn the_first_start_is_placed_first() {
    // (5,0) has the ancestors (2,0), (1,0) and the root, (-2,3) has (-1,1) and the root.
    let parents = |starts, records: usize| {
        let walked = walk(starts, &[]);
        assert_eq!(walked.facts().nodes as usize, records);
        (0..records)
            .map(|r| walked.record(r)[word::PARENT])
            .collect::<Vec<_>>()
    };
    assert_eq!(parents([(5, 0), (-2, 3)], 6), [0, 1, 2, 3, 1, 5]);
    assert_eq!(parents([(-2, 3), (5, 0)], 6), [0, 1, 2, 1, 4, 5]);
    // What the first has needed already is not placed again.
    assert_eq!(parents([(5, 0), (4, 1)], 5), [0, 1, 2, 3, 3]);
    assert_eq!(parents([(2, 0), (5, 0)], 4), [0, 1, 2, 3]);
}

#[test]
fn a_node_that_the_other_needs_stays() {
    // Both go east and party 0 takes it back: the node stays, with its words of party 1 alone.
    let walked = walk([(0, 0); 2], &[0x00, 0x10, 0x04]);
    assert_eq!(walked.nodes(), [2, 2, 2]);
    assert_eq!(walked.changes(), [2, 2, 2]);
    let record = walked.record(1);
    assert!(
        record[word::LINK_STEP..word::of(1, word::LINK_STEP)]
            .iter()
            .all(|&word| word == 0)
    );
    let own = |place| record[word::of(1, place)];
    assert_eq!(
        [word::LINK_STEP + 2, word::VISITS, word::NEED, word::FIRST].map(own),
        [1, 1, 2, 2]
    );
    assert_eq!(record[word::NEIGHBOUR + 2], 1);
    // Party 1 takes it back too: the record is free and all zero.
    let walked = walk([(0, 0); 2], &[0x00, 0x10, 0x04, 0x14]);
    assert_eq!(walked.nodes(), [2, 2, 2, 1]);
    assert!(
        walked.table[PAIR_RECORD_WORDS..]
            .iter()
            .all(|&word| word == 0)
    );
}

#[test]
fn a_new_node_takes_the_lowest_free_record() {
    // Party 0 goes east, party 1 west; party 0 takes its step back, and party 1 goes on into record 1.
    let walked = walk([(0, 0); 2], &[0x00, 0x12, 0x04, 0x12]);
    assert_eq!(walked.nodes(), [2, 3, 2, 3]);
    // (-2,0) is a child of (-1,0), which stands in record 2: a child has a lower number than its parent.
    assert_eq!(walked.record(1)[word::PARENT], 3);
    assert_eq!(walked.record(2)[word::PARENT], 1);
    assert!(
        walked.table[3 * PAIR_RECORD_WORDS..]
            .iter()
            .all(|&word| word == 0)
    );
    // (1,0) in record 2 stays as long as (2,1) is visited; then records 2 to 4 are free. Of (0,1) and (1,2), which one step needs, the
    // nearer to the root gets the lower one.
    let ops = [0x00, 0x00, 0x10, 0x04, 0x04, 0x14, 0x11];
    let walked = walk([(0, 0), (1, 1)], &ops);
    assert_eq!(walked.nodes(), [3, 4, 5, 4, 4, 2, 4]);
    assert_eq!(
        [1, 2, 3, 4].map(|r| walked.record(r)[word::PARENT]),
        [1, 1, 3, 0]
    );
    assert_eq!([6, 8, 9].map(|place| walked.record(0)[place]), [3, 0, 2]);
}

#[test]
fn a_full_table_has_room_for_what_is_there() {
    // Party 1 follows in party 0's steps.
    let ops = [0x00, 0x00, 0x01, 0x10, 0x10, 0x11, 0x12];
    assert_eq!(
        walk_in([(0, 0); 2], &ops[..6], 4).facts().parties[1].last,
        (2, 1).into()
    );
    assert_eq!(
        walk_in([(0, 0); 2], &ops, 4).answer,
        Err(Refusal::NoRoom(6))
    );
}

#[test]
fn no_room_for_the_starts() {
    let starts = [(3, -2), (0, 5)];
    for records in 1..6 {
        for ops in [&[][..], &[0x00], &[0x10]] {
            let walked = walk_in(starts, ops, records);
            assert_eq!(walked.answer, Err(Refusal::NoRoom(0)));
            assert!(walked.wholly(0));
        }
    }
    assert_eq!(walk_in(starts, &[], 6).facts().nodes, 6);
    // A fault at any place wins over a table that is too small for the starts.
    assert_eq!(
        walk_in(starts, &[0x10, 0x25], 1).answer,
        Err(Refusal::UnknownParty(1))
    );
}

#[test]
fn refused_bytes() {
    for (ops, refusal) in [
        (&[0x25][..], Refusal::UnknownParty(0)),
        (&[0xff], Refusal::UnknownParty(0)),
        (&[0x00, 0x20], Refusal::UnknownParty(1)),
        (&[0x1f], Refusal::BadDigit(0)),
        (&[0x05, 0x20], Refusal::BadDigit(0)),
        (&[0x04], Refusal::NothingToTake(0)),
        (&[0x00, 0x14], Refusal::NothingToTake(1)),
        (&[0x00, 0x10, 0x04, 0x14, 0x14], Refusal::NothingToTake(4)),
    ] {
        let walked = walk([(0, 0); 2], ops);
        assert_eq!(walked.answer, Err(refusal), "{ops:?}");
        assert!(walked.wholly(7));
    }
}

#[test]
fn limits_of_steps() {
    // Each party may have as many as one alone.
    let mut ops = [vec![0x00; 16_384], vec![0x12; 16_384]].concat();
    let facts = walk_in([(0, 0); 2], &ops, 32_769).facts();
    assert_eq!(facts.nodes, 32_769);
    assert_eq!(
        facts.parties.map(|party| party.last),
        [(16_384, 0), (-16_384, 0)].map(Corner::from)
    );
    ops[16_384] = 0x00;
    assert_eq!(
        walk_in([(0, 0); 2], &ops, 1).answer,
        Err(Refusal::TooLong(16_384))
    );
    ops.push(0x14);
    assert_eq!(
        plain::walk_two([(0, 0); 2], &ops, &mut [], &mut [], [&mut [], &mut []]),
        Err(Refusal::TooMany)
    );
}

#[test]
fn order_of_refusals() {
    let call = |starts, ops: &[u8], table, marks, chains: [usize; 2]| {
        let [mut first, mut second] = chains.map(|bytes| vec![7; bytes]);
        let (mut table, mut marks) = (vec![7; table], vec![7; marks]);
        let chains = [&mut first[..], &mut second[..]];
        plain::walk_two(starts, ops, &mut table, &mut marks, chains).unwrap_err()
    };
    let (far, near) = ((16_385, 0), (0, 0));
    for words in [0, 35, 37, 36 * 262_297] {
        assert_eq!(
            call([far; 2], &[0xff], words, 0, [0, 0]),
            Refusal::Table,
            "{words}"
        );
    }
    for (marks, chains) in [(2, [1, 1]), (3, [0, 1]), (3, [1, 2]), (4, [1, 1])] {
        assert_eq!(
            call([far; 2], &[0xff], 36, marks, chains),
            Refusal::ResultRoom
        );
    }
    for starts in [[far, near], [near, far], [far, far], [near, (0, i32::MIN)]] {
        assert_eq!(call(starts, &[0xff], 36, 3, [1, 1]), Refusal::StartRange);
    }
    assert_eq!(
        call([near; 2], &[0xff], 36, 3, [1, 1]),
        Refusal::UnknownParty(0)
    );
    assert_eq!(call([near; 2], &[0x00], 36, 3, [1, 1]), Refusal::NoRoom(0));
}

/// Pairs of walks in which nodes are shared, freed and filled again.
fn pairs() -> Vec<Vec<u8>> {
    let turns = |first: &[u8], second: &[u8]| {
        let [first, second] = [(first, 0), (second, 16)]
            .map(|(ops, party)| ops.iter().map(move |op| op + party).collect::<Vec<_>>());
        let longest = first.len().max(second.len());
        (0..longest)
            .flat_map(|i| [first.get(i), second.get(i)])
            .flatten()
            .copied()
            .collect::<Vec<_>>()
    };
    vec![
        FIRMS.to_vec(),
        turns(&[0, 0, 1, 1, 2, 2, 3, 3], &[1, 1, 0, 0, 3, 3, 2, 2]),
        turns(
            &[0, 0, 0, 0, 4, 4, 4, 4],
            &[2, 2, 4, 4, 0, 0, 0, 0, 0, 4, 4],
        ),
        turns(
            &[0, 1, 2, 3, 4, 4, 4, 4, 3, 2],
            &[0, 1, 4, 1, 4, 4, 2, 3, 0],
        ),
        turns(&[1, 1, 1, 4, 0, 4, 4, 4, 2], &[1, 1, 1, 1, 2, 4, 4, 4, 4]),
        turns(&[0, 4, 1, 4, 2, 4, 3, 4], &[3, 2, 4, 4, 1, 0, 4, 4]),
    ]
}

/// Starts that are equal, near each other, and far apart.
const STARTS: [[(i32, i32); 2]; 6] = [
    [(0, 0), (0, 0)],
    [(0, 0), (3, 1)],
    [(-1, 0), (0, -1)],
    [(7, 8), (8, 7)],
    [(16_383, 16_383), (16_384, 16_383)],
    [(-16_384, 16_384), (9, -4_097)],
];

/// Every pair of walks from all these starts.
fn each(check: impl Fn([(i32, i32); 2], &[u8])) {
    for starts in STARTS {
        for ops in pairs() {
            check(starts, &ops);
        }
    }
}

/// The records that differ before and after each operation, counted in whole tables of the beginnings.
#[test]
fn changes_are_those_of_whole_tables() {
    each(|starts, ops| {
        let changes = walk(starts, ops).changes();
        for k in 1..=ops.len() {
            let [before, after] = [k - 1, k].map(|k| walk(starts, &ops[..k]).table);
            let differ = before
                .chunks(PAIR_RECORD_WORDS)
                .zip(after.chunks(PAIR_RECORD_WORDS))
                .filter(|(before, after)| before != after)
                .count();
            assert_eq!(changes[k - 1] as usize, differ, "{ops:x?}, operation {k}");
        }
    });
}

/// The operations of party q alone.
fn own(ops: &[u8], q: u8) -> Vec<u8> {
    ops.iter()
        .filter(|&op| op / 16 == q)
        .map(|op| op % 16)
        .collect()
}

/// What a party has is what it has alone, whatever the other does.
#[test]
fn facts_are_those_of_each_alone() {
    each(|starts, ops| {
        let walked = walk(starts, ops);
        for (q, start) in starts.into_iter().enumerate() {
            let own = own(ops, q as u8);
            let (mut table, mut chain) = (vec![0; RECORD_WORDS * RECORDS], vec![0; own.len()]);
            let mut marks = vec![0; MARK_WORDS * own.len()];
            let facts = plain::walk(start, &own, &mut table, &mut marks, &mut chain).unwrap();
            assert_eq!(walked.facts().parties[q].alone(facts.nodes), facts);
            assert_eq!(walked.chains[q][..own.len()], chain);
            let shared = walked.marks.iter().zip(ops);
            let visits = shared
                .filter(|&(_, op)| usize::from(op / 16) == q)
                .map(|(mark, _)| mark[1]);
            assert!(visits.eq(marks.chunks(MARK_WORDS).map(|mark| mark[1])));
        }
    });
}

/// Beside a party that stays on the root, a walk has the records that it has alone.
#[test]
fn beside_a_party_that_stays() {
    for (starts, ops) in STARTS
        .iter()
        .flat_map(|starts| pairs().into_iter().map(move |ops| (starts, ops)))
    {
        let ops = own(&ops, 0);
        let (mut table, mut chain) = (vec![0; RECORD_WORDS * RECORDS], vec![0; ops.len()]);
        let mut marks = vec![0; MARK_WORDS * ops.len()];
        let facts = plain::walk(starts[0], &ops, &mut table, &mut marks, &mut chain).unwrap();
        for q in 0..2 {
            let mut both = [(0, 0); 2];
            both[q] = starts[0];
            let bytes: Vec<u8> = ops.iter().map(|op| op + 16 * q as u8).collect();
            let walked = walk(both, &bytes);
            assert_eq!(walked.marks.as_flattened(), marks);
            assert_eq!(walked.facts().nodes, facts.nodes);
            for node in 0..facts.nodes as usize {
                let (alone, record) = (&table[RECORD_WORDS * node..], walked.record(node));
                let own = &record[word::of(q, word::LINK_STEP)..];
                assert_eq!(alone[..word::LINK_STEP], record[..word::LINK_STEP]);
                for place in word::LINK_STEP..RECORD_WORDS {
                    let more = u32::from(place == word::NEED);
                    assert_eq!(alone[place] + more, own[place - word::LINK_STEP]);
                }
            }
        }
    }
}

/// The words of a table by the numbers of its nodes' parents, so that tables with other numbers can be compared: each record as the way down to
/// it from the root, its words of both parties, and which of its refs there are.
fn without_numbers(walked: &Walked) -> Vec<(Vec<usize>, Vec<u32>, Vec<bool>)> {
    let mut found = Vec::new();
    let mut open = vec![(0, Vec::new())];
    while let Some((number, way)) = open.pop() {
        let record = walked.record(number);
        for (place, &child) in (0..).zip(&record[word::CHILD..word::NEIGHBOUR]) {
            if child != 0 {
                open.push((child as usize - 1, [&way[..], &[place]].concat()));
            }
        }
        let refs = record[..word::LINK_STEP].iter().map(|&to| to != 0);
        let own = record[word::LINK_STEP..].to_vec();
        found.push((way, own, refs.collect()));
    }
    found.sort();
    found
}

/// Two neighbouring operations of different parties, exchanged, give the same end apart from numbers.
#[test]
fn exchanged_operations() {
    each(|starts, ops| {
        let walked = walk(starts, ops);
        for k in 1..ops.len() {
            let mut other = ops.to_vec();
            other.swap(k - 1, k);
            if ops[k - 1] / 16 != ops[k] / 16 {
                let other = walk(starts, &other);
                assert_eq!(walked.answer, other.answer);
                assert_eq!(walked.chains, other.chains);
                assert_eq!(without_numbers(&walked), without_numbers(&other));
            }
        }
    });
}

/// The surviving steps alone, one party after the other, give the same answer and the same table apart from numbers; and no moment needs
/// more than four nodes for each different corner of each party, and 128.
#[test]
fn survivors_alone() {
    each(|starts, ops| {
        let walked = walk(starts, ops);
        let steps = |q: usize| {
            let n = walked.facts().parties[q].steps as usize;
            walked.chains[q][..n]
                .iter()
                .map(move |op| op + 16 * q as u8)
        };
        for order in [[0, 1], [1, 0]] {
            let ops: Vec<u8> = order.into_iter().flat_map(steps).collect();
            let alone = walk_in(starts, &ops, RECORDS);
            assert_eq!(walked.answer, alone.answer);
            assert_eq!(without_numbers(&walked), without_numbers(&alone));
        }
        let corners: u32 = walked
            .facts()
            .parties
            .iter()
            .map(|party| party.corners)
            .sum();
        assert!(walked.facts().nodes <= 4 * corners + 128);
    });
}
