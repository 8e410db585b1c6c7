//! What the benchmarks share: the best of several runs, and a table of them.

use crate::rivals::Program;
use std::hint::black_box;
use std::time::{Duration, Instant};

mod clock;

/// A run that takes longer is not repeated.
const LONG: Duration = Duration::from_millis(500);

/// The shortest time that `runs` runs took. Before each, and not in its time, `state` is made ready.
pub fn best<T, R>(runs: usize, state: &mut T, ready: impl Fn(&mut T), run: impl Fn(&mut T) -> R) -> Duration {
    let begun = Instant::now();
    shortest(|| begun.elapsed(), runs, state, ready, run)
}

/// The same by processor time: waiting for a core does not count.
pub fn best_used<T, R>(runs: usize, state: &mut T, ready: impl Fn(&mut T), run: impl Fn(&mut T) -> R) -> Duration {
    shortest(clock::used, runs, state, ready, run)
}

fn shortest<T, R>(
    now: impl Fn() -> Duration,
    runs: usize,
    state: &mut T,
    ready: impl Fn(&mut T),
    run: impl Fn(&mut T) -> R,
) -> Duration {
    let mut shortest = Duration::MAX;
    for _ in 0..runs {
        ready(state);
        let start = now();
        black_box(run(black_box(state)));
        shortest = shortest.min(now() - start);
        if is_long(shortest) {
            break;
        }
    }
    shortest
}

/// Whether a time is known, and too long to be taken again.
pub fn is_long(time: Duration) -> bool {
    (LONG..Duration::MAX).contains(&time)
}

/// The shorter of two times, for each of several programs. Programs that take turns meet the same other
/// work on the machine.
pub fn shorter<const N: usize>(times: [Duration; N], others: [Duration; N]) -> [Duration; N] {
    std::array::from_fn(|program| times[program].min(others[program]))
}

/// Prints a measured number beside what it may be at most.
pub fn print_bar(what: &str, measured: f64, most: f64) {
    let met = if measured <= most { "met" } else { "MISSED" };
    println!("{what}: {measured:.2}, at most {most}: {met}");
}

/// One line: how many items, and the time of each program.
pub struct Line {
    pub items: usize,
    pub bytes: usize,
    /// In the order of `Program::ALL`.
    pub times: [Duration; 3],
}

impl Line {
    /// The library's time to that of another program.
    pub fn ratio(&self, to: Program) -> f64 {
        quotient(self.times[Program::Library as usize], self.times[to as usize])
    }
}

/// Prints the lines, and how each program grows from the line before.
pub fn print(heading: &str, items: &str, lines: &[Line]) {
    print_as(heading, items, lines, |time| format!("{:.1} us", nanos(time) / 1e3));
}

/// The same where a time is that of many runs: the time of one.
pub fn print_one_of(runs: usize, heading: &str, items: &str, lines: &[Line]) {
    print_as(heading, items, lines, |time| format!("{:.1} ns", nanos(time) / runs as f64));
}

fn print_as(heading: &str, items: &str, lines: &[Line], shown: impl Fn(Duration) -> String) {
    println!("{heading}");
    let [library, second, fast] = Program::ALL.map(Program::name);
    println!(
        "{items:>9}  {:>10}  {library:>13}  {second:>13}  {fast:>13}  {library}/{second}  {library}/{fast}  growth",
        "bytes"
    );
    let mut before: Option<&Line> = None;
    for line in lines {
        let [library, second, fast] = line.times.map(&shown);
        print!(
            "{:>9}  {:>10}  {library:>13}  {second:>13}  {fast:>13}  {:>14.2}  {:>12.2}",
            line.items,
            line.bytes,
            line.ratio(Program::Second),
            line.ratio(Program::Fast),
        );
        if let Some(before) = before {
            let growth =
                Program::ALL.map(|program| quotient(line.times[program as usize], before.times[program as usize]));
            let growth = growth.map(|times| format!("{times:.1}")).join(", ");
            print!("  {growth} for {:.1} times the {items}", line.items as f64 / before.items as f64);
        }
        println!();
        before = Some(line);
    }
    println!();
}

fn nanos(time: Duration) -> f64 {
    time.as_secs_f64() * 1e9
}

pub fn quotient(one: Duration, other: Duration) -> f64 {
    one.as_secs_f64() / other.as_secs_f64()
}
