//! Writes calls that the comparisons make, with every lent buffer before and after the proved library's call: `cases [ROUNDS]`. Another
//! build of the library, as the WebAssembly modules of dist/, is then asked the same, or another language that calls it. One call in so
//! many is written, and more of those with a long input. With ROUNDS, only that many rounds of random calls are made.
//!
//! A call is its name, its arguments, its result and the buffers after it. A text or a buffer has its length before it, 4 bytes, and an
//! argument begins with a letter: `n` a number of 4 bytes; `i` bytes; `l` how many bytes an element of a lent buffer has, and the
//! buffer; `a` the buffer of the answer. All numbers are little-endian.

use std::env;
use std::io::{self, BufWriter, Stdout, Write};
use std::sync::atomic::{AtomicU64, Ordering};
use std::sync::{LazyLock, Mutex};

use compare::inputs::Random;
use compare::{Library, PROVED, Room, suite};

/// All walks of at most this many operations are asked.
const LONGEST: u32 = 5;
/// All rooms of at most this many steps are asked whether they are convex, and for their orthogonal hulls.
const LONGEST_ROOM: usize = 12;
/// Rounds of random calls.
const ROUNDS: usize = 300;
/// One call in this many is written; if the input has as many bytes as `LONG`, one in fewer.
const ONE_IN: u64 = 23;
const LONG: usize = 1_000;
const LONG_ONE_IN: u64 = 5;

static OUTPUT: LazyLock<Mutex<BufWriter<Stdout>>> =
    LazyLock::new(|| Mutex::new(BufWriter::new(io::stdout())));

/// An element of a lent buffer.
trait Element: Copy {
    fn put(self, to: &mut Vec<u8>);
}

impl Element for u8 {
    fn put(self, to: &mut Vec<u8>) {
        to.push(self);
    }
}

impl Element for u32 {
    fn put(self, to: &mut Vec<u8>) {
        to.extend(self.to_le_bytes());
    }
}

impl Element for i32 {
    fn put(self, to: &mut Vec<u8>) {
        to.extend(self.to_le_bytes());
    }
}

/// A call, as far as it is known, if it is written.
struct Case(Option<Vec<u8>>);

impl Case {
    /// The call of this name, with an input of this many bytes.
    fn of(name: &str, input: usize) -> Case {
        static CALLS: AtomicU64 = AtomicU64::new(0);
        let one_in = if input < LONG { ONE_IN } else { LONG_ONE_IN };
        let kept = CALLS.fetch_add(1, Ordering::Relaxed).is_multiple_of(one_in);
        Case(kept.then(Vec::new)).bytes(name.as_bytes())
    }

    fn put(mut self, bytes: &[u8]) -> Case {
        if let Some(case) = &mut self.0 {
            case.extend(bytes);
        }
        self
    }

    fn bytes(self, bytes: &[u8]) -> Case {
        self.put(&(bytes.len() as u32).to_le_bytes()).put(bytes)
    }

    fn letter(self, letter: u8) -> Case {
        self.put(&[letter])
    }

    fn start(self, (x, y): (i32, i32)) -> Case {
        let case = self.letter(b'n').put(&x.to_le_bytes());
        case.letter(b'n').put(&y.to_le_bytes())
    }

    fn number(self, number: u32) -> Case {
        self.letter(b'n').put(&number.to_le_bytes())
    }

    fn input(self, bytes: &[u8]) -> Case {
        self.letter(b'i').bytes(bytes)
    }

    fn buffer<T: Element>(self, buffer: &[T]) -> Case {
        if self.0.is_none() {
            return self;
        }
        let mut bytes = Vec::new();
        buffer.iter().for_each(|element| element.put(&mut bytes));
        self.bytes(&bytes)
    }

    fn lent<T: Element>(self, buffer: &[T]) -> Case {
        self.letter(b'l')
            .letter(size_of::<T>() as u8)
            .buffer(buffer)
    }

    fn answer(self, answer: &[u32]) -> Case {
        self.letter(b'a').buffer(answer)
    }

    /// The arguments are over, and this is the result.
    fn result(self, result: u64) -> Case {
        self.letter(b'r').put(&result.to_le_bytes())
    }

    fn write(self) {
        if let Some(case) = self.0 {
            let mut output = OUTPUT.lock().expect("one thread writes");
            output.write_all(&case).expect("the calls are read");
        }
    }
}

/// The proved library, whose calls are written.
const WRITTEN: Library = Library {
    walk: |start, ops, table, marks, chain, answer| {
        let case = Case::of("walk", ops.len()).start(start).input(ops);
        let case = case.lent(table).lent(marks).lent(chain).answer(answer);
        let number = (PROVED.walk)(start, ops, table, marks, chain, answer);
        let case = case.result(number.into()).buffer(table).buffer(marks);
        case.buffer(chain).buffer(answer).write();
        number
    },
    walk_two: |starts, ops, table, marks, chains, answer| {
        let [first, second] = chains;
        let case = Case::of("walk_two", ops.len());
        let case = case.start(starts[0]).start(starts[1]).input(ops);
        let case = case.lent(table).lent(marks).lent(first).lent(second);
        let case = case.answer(answer);
        let lent = [&mut *first, &mut *second];
        let number = (PROVED.walk_two)(starts, ops, table, marks, lent, answer);
        let case = case.result(number.into()).buffer(table).buffer(marks);
        case.buffer(first).buffer(second).buffer(answer).write();
        number
    },
    hull: |start, chain, out, answer| {
        let case = Case::of("hull", chain.len()).start(start).input(chain);
        let case = case.lent(out).answer(answer);
        let number = (PROVED.hull)(start, chain, out, answer);
        case.result(number.into())
            .buffer(out)
            .buffer(answer)
            .write();
        number
    },
    outline: |start, chain, out, answer| {
        let case = Case::of("outline", chain.len()).start(start).input(chain);
        let case = case.lent(out).answer(answer);
        let number = (PROVED.outline)(start, chain, out, answer);
        case.result(number.into())
            .buffer(out)
            .buffer(answer)
            .write();
        number
    },
    polygon_of_room: |start, chain, out, answer| {
        let case = Case::of("polygon_of_room", chain.len())
            .start(start)
            .input(chain);
        let case = case.lent(out).answer(answer);
        let number = (PROVED.polygon_of_room)(start, chain, out, answer);
        case.result(number.into())
            .buffer(out)
            .buffer(answer)
            .write();
        number
    },
    rows: |start, chain, out, answer| {
        let case = Case::of("rows", chain.len()).start(start).input(chain);
        let case = case.lent(out).answer(answer);
        let number = (PROVED.rows)(start, chain, out, answer);
        case.result(number.into())
            .buffer(out)
            .buffer(answer)
            .write();
        number
    },
    convex: |start, chain, answer| {
        let case = Case::of("convex", chain.len())
            .start(start)
            .input(chain)
            .answer(answer);
        let number = (PROVED.convex)(start, chain, answer);
        case.result(number.into()).buffer(answer).write();
        number
    },
    orthogonal_hull: |start, chain, grid, out, answer| {
        let case = Case::of("orthogonal_hull", chain.len()).start(start);
        let case = case.input(chain).number(grid).lent(out).answer(answer);
        let number = (PROVED.orthogonal_hull)(start, chain, grid, out, answer);
        case.result(number.into())
            .buffer(out)
            .buffer(answer)
            .write();
        number
    },
    overlay: |one: Room, other: Room, out, answer| {
        let [first, second, both] = out;
        let case = Case::of("overlay", one.1.len() + other.1.len())
            .start(one.0)
            .input(one.1);
        let case = case.start(other.0).input(other.1);
        let case = case.lent(first).lent(second).lent(both).answer(answer);
        let lent = [&mut *first, &mut *second, &mut *both];
        let number = (PROVED.overlay)(one, other, lent, answer);
        let case = case.result(number.into()).buffer(first).buffer(second);
        case.buffer(both).buffer(answer).write();
        number
    },
    chain_of_polygon: |file, chain, answer| {
        let case = Case::of("chain_of_polygon", file.len()).input(file);
        let case = case.lent(chain).answer(answer);
        let number = (PROVED.chain_of_polygon)(file, chain, answer);
        case.result(number.into())
            .buffer(chain)
            .buffer(answer)
            .write();
        number
    },
    turns_of_steps: |steps, out, answer| {
        let case = Case::of("turns_of_steps", steps.len()).input(steps);
        let case = case.lent(out).answer(answer);
        let number = (PROVED.turns_of_steps)(steps, out, answer);
        case.result(number.into())
            .buffer(out)
            .buffer(answer)
            .write();
        number
    },
    steps_of_turns: |turns, out, answer| {
        let case = Case::of("steps_of_turns", turns.len()).input(turns);
        let case = case.lent(out).answer(answer);
        let number = (PROVED.steps_of_turns)(turns, out, answer);
        case.result(number.into())
            .buffer(out)
            .buffer(answer)
            .write();
        number
    },
    line: |line, out| {
        let case = Case::of("line", line.len()).input(line).lent(out);
        let bytes = (PROVED.line)(line, out);
        case.result(bytes as u64).buffer(out).write();
        bytes
    },
    convert_line: |line, out| {
        let case = Case::of("convert_line", line.len()).input(line).lent(out);
        let bytes = (PROVED.convert_line)(line, out);
        case.result(bytes as u64).buffer(out).write();
        bytes
    },
};

/// Every comparison but the random ones.
fn chosen() {
    suite::short_walks(&WRITTEN, LONGEST);
    suite::short_chains(&WRITTEN, LONGEST + 1);
    suite::every_byte(&WRITTEN);
    suite::sizes(&WRITTEN);
    suite::limits(&WRITTEN);
    suite::rooms(&WRITTEN);
    suite::boxes(&WRITTEN);
    suite::outlines(&WRITTEN);
    suite::convex_rooms(&WRITTEN, LONGEST_ROOM);
    suite::orthogonal_hulls(&WRITTEN, LONGEST_ROOM);
    suite::overlays(&WRITTEN, LONGEST as usize);
    suite::short_pairs(&WRITTEN, LONGEST / 2);
    suite::pair_bytes(&WRITTEN);
    suite::pair_limits(&WRITTEN);
    suite::pair_starts(&WRITTEN);
    suite::lobbies(&WRITTEN);
    suite::files(&WRITTEN);
    suite::starts(&WRITTEN, LONGEST / 3);
    suite::lines(&WRITTEN);
}

fn main() {
    let given = env::args().nth(1);
    let rounds = given.map(|rounds| rounds.parse().expect("ROUNDS is a number"));
    if rounds.is_none() {
        chosen();
    }
    let mut random = Random(1);
    for _ in 0..rounds.unwrap_or(ROUNDS) {
        suite::random_calls(&WRITTEN, &mut random);
    }
    let mut output = OUTPUT.lock().expect("one thread writes");
    output.flush().expect("the calls are read");
}
