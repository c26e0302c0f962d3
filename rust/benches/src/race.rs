//! Contestants that take turns, and what comes of it.

use std::ffi::{c_int, c_long};
use std::sync::LazyLock;
use std::time::{Duration, Instant};

/// A race goes on for this long, and for at least this many rounds.
const LEAST_TIME: Duration = Duration::from_millis(400);
const LEAST_ROUNDS: usize = 21;

/// A call to be timed. It is short if it can be, so that few are cut by the machine's other work.
pub type Call<'a> = Box<dyn FnMut() + 'a>;

/// The seconds of each contestant's calls, one a round.
pub struct Race(Vec<(&'static str, Vec<f64>)>);

/// Seconds that this thread has had of a processor, so that the machine's other work does not count.
fn thread_seconds() -> f64 {
    const OF_THIS_THREAD: c_int = 3;
    unsafe extern "C" {
        fn clock_gettime(clock: c_int, time: *mut [c_long; 2]) -> c_int;
    }
    let mut time = [0; 2];
    // SAFETY: a time is two long numbers: seconds, and nanoseconds.
    let status = unsafe { clock_gettime(OF_THIS_THREAD, &mut time) };
    assert_eq!(status, 0, "the thread has a clock");
    time[0] as f64 + 1e-9 * time[1] as f64
}

/// Seconds since some moment.
fn seconds() -> f64 {
    static START: LazyLock<Instant> = LazyLock::new(Instant::now);
    START.elapsed().as_secs_f64()
}

/// Lets the contestants take turns, one call each a round, after a call each that is not timed. The time of this thread counts.
pub fn race(contestants: Vec<(&'static str, Call)>) -> Race {
    race_by(thread_seconds, contestants)
}

/// The same of calls that run programs: all time counts.
pub fn race_programs(contestants: Vec<(&'static str, Call)>) -> Race {
    race_by(seconds, contestants)
}

fn race_by(clock: impl Fn() -> f64, contestants: Vec<(&'static str, Call)>) -> Race {
    let (names, mut calls): (Vec<_>, Vec<_>) = contestants.into_iter().unzip();
    let mut times = vec![Vec::new(); calls.len()];
    calls.iter_mut().for_each(|call| call());
    let start = Instant::now();
    let mut round = 0;
    while round < LEAST_ROUNDS || start.elapsed() < LEAST_TIME {
        // Each round begins one contestant later than the one before.
        for place in round..round + calls.len() {
            let contestant = place % calls.len();
            let start = clock();
            calls[contestant]();
            times[contestant].push(clock() - start);
        }
        round += 1;
    }
    Race(names.into_iter().zip(times).collect())
}

fn median(values: impl Iterator<Item = f64>) -> f64 {
    let mut values: Vec<f64> = values.collect();
    values.sort_by(f64::total_cmp);
    values[values.len() / 2]
}

impl Race {
    /// Prints a row of the table: each median of seconds, which `unit` turns into the figure shown, and then the ratios.
    pub fn print(&self, name: &str, unit: impl Fn(f64) -> f64) {
        self.print_row(name, unit);
        for (contestant, ratio) in self.ratios() {
            println!("ratio {name}/{contestant} {ratio:.3}");
        }
    }

    /// For each but the first contestant the median, over the rounds, of the first's time divided by its time.
    pub fn ratios(&self) -> impl Iterator<Item = (&'static str, f64)> {
        let (_, first) = &self.0[0];
        self.0[1..].iter().map(|(contestant, times)| {
            let ratios = first.iter().zip(times).map(|(ours, theirs)| ours / theirs);
            (*contestant, median(ratios))
        })
    }

    /// The median of the seconds of the first contestant.
    pub fn seconds(&self) -> f64 {
        median(self.0[0].1.iter().copied())
    }

    /// Prints the row alone.
    pub fn print_row(&self, name: &str, unit: impl Fn(f64) -> f64) {
        print!("{name:28}");
        for (contestant, times) in &self.0 {
            print!("  {contestant} {:8.2}", unit(median(times.iter().copied())));
        }
        println!();
    }
}
