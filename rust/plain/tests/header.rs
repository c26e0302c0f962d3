//! The numbers of include/undrwyth.h are those of `answer`, under the same names.

use answer::{Refusal, Verdict, word};

const HEADER: &str = include_str!("../../../include/undrwyth.h");

/// The names that begin so, without that beginning, and their numbers.
fn numbers(beginning: &str) -> Vec<(&str, u32)> {
    let lines = HEADER.lines().filter_map(|line| {
        let mut words = line.strip_prefix("#define UNDRWYTH_")?.split_whitespace();
        let name = words.next()?.strip_prefix(beginning)?;
        Some((name, words.next()?.parse().ok()?))
    });
    lines.collect()
}

/// The name of a variant as the header has it: `TooMany` is `TOO_MANY`.
fn shouted(variant: &str) -> String {
    let name = variant.split('(').next().unwrap_or(variant);
    let mut shouted = String::new();
    for letter in name.chars() {
        if letter.is_uppercase() && !shouted.is_empty() {
            shouted.push('_');
        }
        shouted.push(letter.to_ascii_uppercase());
    }
    shouted
}

#[test]
fn refusals_and_verdicts() {
    let refusals = numbers("REFUSAL_");
    for number in 1..256 {
        let named = Refusal::of(number, 0).map(|refusal| shouted(&format!("{refusal:?}")));
        let name = refusals.iter().find(|(_, other)| *other == number);
        assert_eq!(named.as_deref(), name.map(|(name, _)| *name));
    }
    let verdicts = numbers("VERDICT_");
    for number in 0..256 {
        let named = Verdict::of(number).map(|verdict| shouted(&format!("{verdict:?}")));
        let name = verdicts.iter().find(|(_, other)| *other == number);
        assert_eq!(named.as_deref(), name.map(|(name, _)| *name));
    }
}

/// The number of this one name.
fn number(name: &str) -> usize {
    let (_, number) = numbers(name)
        .into_iter()
        .find(|(rest, _)| rest.is_empty())
        .expect("the header has the name");
    number as usize
}

#[test]
fn limits_and_lengths() {
    assert_eq!(number("MOST_INPUT_BYTES"), answer::MOST_INPUT);
    assert_eq!(number("MOST_STEPS"), answer::MOST_STEPS);
    assert_eq!(number("MOST_START"), answer::MOST_START as usize);
    assert_eq!(number("MOST_GRID"), answer::MOST_GRID as usize);
    assert_eq!(number("MOST_RECORDS"), answer::MOST_RECORDS);
    assert_eq!(number("MOST_PAIR_RECORDS"), answer::MOST_PAIR_RECORDS);
    assert_eq!(number("MOST_LINE_DIGITS"), answer::MOST_LINE_DIGITS);
    assert_eq!(number("LINE_RECORDS"), answer::LINE_RECORDS);
    assert_eq!(number("LINE_BYTES"), answer::LINE_BYTES);
    assert_eq!(number("RECORD_WORDS"), answer::RECORD_WORDS);
    assert_eq!(number("PAIR_RECORD_WORDS"), answer::PAIR_RECORD_WORDS);
    assert_eq!(number("MARK_WORDS"), answer::MARK_WORDS);
    assert_eq!(number("NO_MEETING"), answer::NO_MEETING as usize);
}

#[test]
fn words() {
    assert_eq!(number("WALK_ANSWER_WORDS"), answer::WALK_ANSWER_WORDS);
    assert_eq!(
        number("WALK_TWO_ANSWER_WORDS"),
        answer::WALK_TWO_ANSWER_WORDS
    );
    assert_eq!(number("HULL_ANSWER_WORDS"), answer::HULL_ANSWER_WORDS);
    assert_eq!(number("OUTLINE_ANSWER_WORDS"), answer::OUTLINE_ANSWER_WORDS);
    assert_eq!(number("POLYGON_ANSWER_WORDS"), answer::POLYGON_ANSWER_WORDS);
    assert_eq!(number("ROWS_ANSWER_WORDS"), answer::ROWS_ANSWER_WORDS);
    assert_eq!(number("OVERLAY_ANSWER_WORDS"), answer::OVERLAY_ANSWER_WORDS);
    assert_eq!(number("CONVEX_ANSWER_WORDS"), answer::CONVEX_ANSWER_WORDS);
    assert_eq!(
        number("ORTHOGONAL_ANSWER_WORDS"),
        answer::ORTHOGONAL_ANSWER_WORDS
    );
    assert_eq!(number("CHAIN_ANSWER_WORDS"), answer::CHAIN_ANSWER_WORDS);
    assert_eq!(number("TURNS_ANSWER_WORDS"), answer::TURNS_ANSWER_WORDS);
    assert_eq!(number("WORD_PARENT"), word::PARENT);
    assert_eq!(number("WORD_VISITS"), word::VISITS);
    assert_eq!(number("WORD_NEED"), word::NEED);
    assert_eq!(number("WORD_FIRST"), word::FIRST);
    for (way, side) in ["EAST", "NORTH", "WEST", "SOUTH"].iter().enumerate() {
        assert_eq!(
            number(&format!("WORD_NEIGHBOUR_{side}")),
            word::NEIGHBOUR + way
        );
        assert_eq!(
            number(&format!("WORD_LINK_STEP_{side}")),
            word::LINK_STEP + way
        );
        assert_eq!(number(&format!("WORD_EDGE_{side}")), word::EDGE + way);
    }
}

/// The value of a macro of one number, `NAME(q) (from + by * (q))`, for party q.
fn of_party(name: &str, q: usize) -> usize {
    let line = HEADER
        .lines()
        .find_map(|line| line.strip_prefix(&format!("#define UNDRWYTH_{name}(q) ")))
        .expect("the header has the macro");
    let (from, by) = line
        .strip_prefix('(')
        .and_then(|line| line.strip_suffix(" * (q))"))
        .and_then(|line| line.split_once(" + "))
        .expect("it has this form");
    from.parse::<usize>().unwrap() + by.parse::<usize>().unwrap() * q
}

/// The words of the answer to two parties follow each other without a gap, party 0 first; and so do a record's words of each party.
#[test]
fn words_of_parties() {
    assert_eq!(
        ["NUMBER", "PLACE", "NODES"].map(|name| number(&format!("WALK_TWO_{name}"))),
        [0, 1, 2]
    );
    let names = [
        "VERDICT", "STEPS", "CORNERS", "J", "K", "AREA", "LAST_X", "LAST_Y",
    ];
    let words = (0..2).flat_map(|q| names.map(|name| of_party(&format!("WALK_TWO_{name}"), q)));
    assert!(words.eq(3..answer::WALK_TWO_ANSWER_WORDS));
    assert!(HEADER.contains("#define UNDRWYTH_PAIR_WORD_OF(q, word) (11 * (q) + (word))\n"));
    let own = |q| (word::LINK_STEP..answer::RECORD_WORDS).map(move |place| word::of(q, place));
    assert!(
        (0..2)
            .flat_map(own)
            .eq(word::LINK_STEP..answer::PAIR_RECORD_WORDS)
    );
}
