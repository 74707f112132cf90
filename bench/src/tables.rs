//! Timers that are armed, armed again and taken out, and look-ups in a table of connections: the program
//! of the crate `bench_calls`, and beside it the same work on plain lists. Each run is a process of its
//! own, timed from outside; each prints a sum that tells what came in which order, and the sums are
//! compared. Prints medians and ratios.

mod lists;

use lists::{ListTable, ListTimers};
use std::process::Command;
use std::time::Instant;

const PROVED: &str = concat!(
    env!("CARGO_MANIFEST_DIR"),
    "/../crates/bench_calls/out/bench_calls"
);

/// A moment of the round, as in the proved program.
fn moment(round: u64, key: u64) -> u64 {
    (round << 24) + (key.wrapping_mul(0x9e37_79b9_7f4a_7c15) >> 40)
}

fn fire(count: u64, rounds: u64) -> u64 {
    let mut timers = ListTimers::default();
    for round in 0..=rounds {
        for key in 0..count {
            timers.arm((key, 0), moment(round, key));
        }
    }
    let mut sum = 0u64;
    loop {
        let due = timers.due(u64::MAX);
        if due.is_empty() {
            return sum;
        }
        for (key, _) in due {
            sum = sum.wrapping_mul(31).wrapping_add(key);
        }
    }
}

fn look_ups(by_token: bool, count: u64, times: u64) -> u64 {
    let mut table = ListTable::default();
    let given: Vec<(u64, u64)> = (0..count).map(|value| table.insert(value)).collect();
    let (mut sum, mut state) = (0u64, 1u64);
    for _ in 0..times {
        state = state
            .wrapping_mul(6_364_136_223_846_793_005)
            .wrapping_add(1);
        let (id, token) = given[((state >> 32).wrapping_mul(count) >> 32) as usize];
        let value = if by_token {
            table.by_token(token)
        } else {
            table.by_id(id)
        };
        sum = sum.wrapping_add(value.expect("it was inserted"));
    }
    sum
}

/// The same work on lists, in this process.
fn listed(load: &str, count: u64, times: u64) -> u64 {
    match load {
        "timers" => fire(count, times),
        "tokens" => look_ups(true, count, times),
        "ids" => look_ups(false, count, times),
        _ => panic!("no load {load}"),
    }
}

/// Seconds of one process, from its start to its end, and what it prints.
fn run(program: &str, words: &[&str]) -> (f64, String) {
    let start = Instant::now();
    let output = Command::new(program)
        .args(words)
        .output()
        .unwrap_or_else(|error| panic!("{program}: {error}"));
    let time = start.elapsed().as_secs_f64();
    assert!(output.status.success(), "{program} {words:?}");
    (time, String::from_utf8_lossy(&output.stdout).into_owned())
}

fn median(mut times: Vec<f64>) -> f64 {
    times.sort_by(f64::total_cmp);
    times[times.len() / 2]
}

/// Runs both in turn, and prints the nanoseconds of one of `calls` calls, over the whole process.
fn compare(own: &str, load: &str, (count, times): (u64, u64), calls: u64, turns: usize) {
    let (count, times) = (count.to_string(), times.to_string());
    let words = [load, count.as_str(), times.as_str()];
    let (mut ours, mut theirs) = (Vec::new(), Vec::new());
    for _ in 0..turns {
        let (time, sum) = run(PROVED, &[&["tables"][..], &words].concat());
        ours.push(time);
        let (time, listed) = run(own, &[&["listed"][..], &words].concat());
        theirs.push(time);
        assert_eq!(sum, listed, "{words:?}");
    }
    let (ours, theirs) = (median(ours), median(theirs));
    let each = 1e9 / calls as f64;
    println!(
        "{load} {count} {times}: proved {:.1} ns a call ({ours:.3} s), lists {:.1} ns ({theirs:.3} s), {:.1} times",
        ours * each,
        theirs * each,
        theirs / ours
    );
}

fn main() {
    let words: Vec<String> = std::env::args().collect();
    if let [_, _listed, load, count, times] = words.as_slice() {
        let number = |word: &str| word.parse::<u64>().expect("a number");
        println!("{}", listed(load, number(count), number(times)));
        return;
    }
    let own = words[0].as_str();
    compare(own, "tokens", (4096, 1_000_000), 1_000_000, 5);
    compare(own, "ids", (4096, 1_000_000), 1_000_000, 5);
    // Arms, arms again, and each taken out once. The list is quadratic, so the larger one runs once.
    compare(own, "timers", (1_000, 10), 12_000, 5);
    compare(own, "timers", (10_000, 10), 120_000, 3);
    compare(own, "timers", (100_000, 10), 1_200_000, 1);
}
