//! Random comparisons for as long as is asked: `soak SECONDS [SEED [ROUND]]`. A line every ten seconds says how far it came.
//! A round depends on the seed and its own number alone, so that a failure can be looked at again from its round on.

use std::panic::catch_unwind;
use std::sync::atomic::Ordering;
use std::time::Instant;
use std::{env, process};

use compare::calls::COMPARED;
use compare::inputs::Random;
use compare::suite;

#[cfg(feature = "proved")]
use compare::PROVED as LIBRARY;
#[cfg(not(feature = "proved"))]
use compare::TWIN as LIBRARY;

fn main() {
    let words = env::args().skip(1);
    let numbers: Vec<u64> = words.map(|word| word.parse().expect("a number")).collect();
    let seconds = *numbers.first().expect("soak SECONDS [SEED [ROUND]]");
    let seed = numbers.get(1).copied().unwrap_or(process::id().into());
    let first = numbers.get(2).copied().unwrap_or(0);
    let (start, mut told) = (Instant::now(), 0);
    for round in first.. {
        let passed = start.elapsed().as_secs();
        if passed >= seconds || passed >= told + 10 {
            let compared = COMPARED.load(Ordering::Relaxed);
            println!(
                "{passed} s: seed {seed}, all rounds from {first} to before {round} agree, {compared} words and bytes compared"
            );
            told = passed;
        }
        if passed >= seconds {
            return;
        }
        if catch_unwind(|| suite::random_calls(&LIBRARY, &mut Random(seed << 32 | round))).is_err()
        {
            println!("round {round} of seed {seed} does not agree");
            process::exit(1);
        }
    }
}
