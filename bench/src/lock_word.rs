//! Nanoseconds a round on one lock word at 1, 2 and 4 threads: the proved word (the program of the crate
//! `bench_calls`), and beside it plain Rust and, where `go_word/build.sh` has built it, Go's own word.
//! Each run is a process of its own, timed from outside, in turn with its peers; each prints its rounds,
//! its word and its half, which are compared. In each turn the words lie elsewhere in their pages. Prints
//! medians, and the ratio of the proved word's to each. The variable `EARLIER` names another build of the
//! proved program, which runs beside it.

mod plain_word;

use plain_word::PlainWord;
use std::hint::black_box;
use std::path::Path;
use std::process::Command;
use std::sync::Mutex;
use std::thread;
use std::time::Instant;

const PROVED: &str = concat!(
    env!("CARGO_MANIFEST_DIR"),
    "/../crates/bench_calls/out/bench_calls"
);
const GO: &str = concat!(env!("CARGO_MANIFEST_DIR"), "/target/go_word");
/// Bytes taken on the heap ahead of the word, a turn each: what a step costs can depend on the place of
/// the word in its page.
const LEADS: [usize; 9] = [0, 24, 72, 136, 264, 392, 520, 1032, 1992];

/// What the threads of one process do.
#[derive(Clone, Copy)]
struct Job {
    threads: u64,
    rounds: u64,
    lead: usize,
}

impl Job {
    fn of(words: &[String]) -> Job {
        let number = |at: usize| words[at].parse::<u64>().expect("a number");
        Job {
            threads: number(0),
            rounds: number(1),
            lead: number(2) as usize,
        }
    }

    fn words(&self) -> [String; 3] {
        [self.threads, self.rounds, self.lead as u64].map(|number| number.to_string())
    }
}

/// Makes the rounds of each thread.
fn crew(threads: u64, rounds: u64, round: impl Fn() + Sync) {
    thread::scope(|scope| {
        for _ in 0..threads {
            scope.spawn(|| (0..rounds).for_each(|_| round()));
        }
    });
}

/// What a run prints: all rounds made, no field of the word set, and the sum of the half.
fn line(rounds: u64, (word, half): (u64, u64)) -> String {
    format!("{rounds} rounds, word {word}, half {half}\n")
}

/// A run of plain Rust in this process.
fn plain(load: &str, job: Job) {
    let Job {
        threads,
        rounds,
        lead,
    } = job;
    let _ahead = black_box(Vec::<u8>::with_capacity(lead));
    let mut word = Box::new(PlainWord::default());
    let left = match load {
        "references" => {
            crew(threads, rounds, || word.reference_round());
            word.left()
        }
        "spin" => {
            crew(threads, rounds, || word.read_round());
            word.left()
        }
        "mutex" => {
            let half = Box::new(Mutex::new(0u64));
            crew(threads, rounds, || {
                *half.lock().expect("no thread panics") += 1
            });
            (0, half.into_inner().expect("no thread panics"))
        }
        _ => panic!("no load {load}"),
    };
    print!("{}", line(threads * rounds, left));
}

/// Nanoseconds a round of one process, from its start to its end.
fn nanoseconds(program: &str, words: &[&str], job: Job, want: &str) -> f64 {
    let mut command = Command::new(program);
    command.args(words).args(job.words());
    let start = Instant::now();
    let output = command
        .output()
        .unwrap_or_else(|error| panic!("{program}: {error}"));
    let time = start.elapsed().as_nanos() as f64;
    assert_eq!(
        String::from_utf8_lossy(&output.stdout),
        want,
        "{program} {words:?}"
    );
    time / (job.threads * job.rounds) as f64
}

/// The median and the greatest.
fn spread<const N: usize>(mut times: [f64; N]) -> (f64, f64) {
    times.sort_by(f64::total_cmp);
    (times[N / 2], times[N - 1])
}

/// What runs: its name, its program, and the words before the job's.
type Contender<'a> = (&'a str, &'a str, &'a [&'a str]);

/// Runs the contenders in turn, and prints for each the median over the places of its word and the worst
/// place, and the ratio of the first median to it. A place counts by the least of its turns. `half` is
/// what a round adds to the half.
fn compare(
    title: &str,
    contenders: &[Contender],
    (threads, rounds, turns): (u64, u64, usize),
    half: u64,
) {
    let want = line(threads * rounds, (0, threads * rounds * half));
    let mut times = vec![[f64::INFINITY; LEADS.len()]; contenders.len()];
    for _ in 0..turns {
        for (place, &lead) in LEADS.iter().enumerate() {
            let job = Job {
                threads,
                rounds,
                lead,
            };
            for ((_, program, words), times) in contenders.iter().zip(&mut times) {
                times[place] = times[place].min(nanoseconds(program, words, job, &want));
            }
        }
    }
    let spreads: Vec<(f64, f64)> = times.into_iter().map(spread).collect();
    print!("{title}, threads {threads}:");
    for ((name, _, _), (median, worst)) in contenders.iter().zip(&spreads) {
        let ratio = spreads[0].0 / median;
        print!(" {name} {median:.1} ns (worst {worst:.1}; ratio {ratio:.2}),");
    }
    println!();
}

fn main() {
    let words: Vec<String> = std::env::args().collect();
    if let [_, plain_word, load, numbers @ ..] = words.as_slice() {
        assert_eq!(plain_word, "plain");
        return plain(load, Job::of(numbers));
    }
    let own = words[0].as_str();
    let mut references: Vec<Contender> = vec![
        ("proved", PROVED, &["lock_word", "references"]),
        ("plain atomics", own, &["plain", "references"]),
    ];
    let mut locks: Vec<Contender> = vec![
        ("proved", PROVED, &["lock_word", "reads"]),
        ("spin", own, &["plain", "spin"]),
        ("std's mutex", own, &["plain", "mutex"]),
    ];
    let earlier = std::env::var("EARLIER");
    if let Ok(program) = &earlier {
        references.push(("earlier build", program, &["lock_word", "references"]));
        locks.push(("earlier build", program, &["lock_word", "reads"]));
    }
    if Path::new(GO).exists() {
        references.push(("Go's", GO, &["references"]));
        locks.push(("Go's", GO, &["reads"]));
    }
    // One thread's runs are short and many, so that those in which the machine was busy don't count;
    // more threads need long ones, in which they meet.
    for work in [(1, 4_000_000, 5), (2, 4_000_000, 1), (4, 2_000_000, 1)] {
        compare("take and drop", &references, work, 0);
    }
    for work in [(1, 4_000_000, 5), (2, 2_000_000, 1), (4, 1_000_000, 1)] {
        compare("lock and unlock", &locks, work, 1);
    }
}
