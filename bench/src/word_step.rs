//! Nanoseconds a step on the packed word: the proved `word_step`, and beside it the same steps as a
//! Rust programmer writes them by hand, on the same codes, in turn. Prints the medians and their ratio.

use std::hint::black_box;
use std::time::Instant;

unsafe extern "C" {
    // `codes` crosses as a pointer and a length.
    fn bench_exports_word_steps(codes: *const u8, len: usize, first: u64) -> u64;
}

fn proved(codes: &[u8], first: u64) -> u64 {
    // SAFETY: the pointer and the length are those of one slice that is borrowed for the call.
    unsafe { bench_exports_word_steps(codes.as_ptr(), codes.len(), first) }
}

const CLOSED: u64 = 1;
const DRAIN: u64 = 1 << 63;
const REFERENCE: u64 = 8;
const REFERENCES: u64 = 0x7ff_fff8;
const WAITERS: u64 = 0x3_ffff;

fn step(word: u64, code: u8) -> Option<u64> {
    let (lock, shift) = if code < 4 { (2, 27) } else { (4, 45) };
    match code {
        0 | 2 | 4 if word & (CLOSED | DRAIN) != 0 => None,
        0 if word & REFERENCES == REFERENCES => None,
        0 => Some(word + REFERENCE),
        1 if word & REFERENCES == 0 => None,
        1 => Some(word - REFERENCE),
        2 | 4 if word & lock == 0 && word & REFERENCES == REFERENCES => None,
        2 | 4 if word & lock == 0 => Some(word + REFERENCE + lock),
        2 | 4 if word >> shift & WAITERS == WAITERS => None,
        2 | 4 => Some(word + (1 << shift)),
        3 | 5 if word & lock == 0 || word & REFERENCES == 0 => None,
        3 | 5 if word >> shift & WAITERS == 0 => Some(word - REFERENCE - lock),
        3 | 5 => Some(word - REFERENCE - lock - (1 << shift)),
        _ if word & CLOSED != 0 || word & REFERENCES == REFERENCES => None,
        _ => Some((word & (DRAIN | 0x7ff_ffff)) + REFERENCE + CLOSED),
    }
}

fn by_hand(codes: &[u8], first: u64) -> u64 {
    let mut word = first;
    let mut refusals = 0u64;
    for code in codes {
        match step(word, *code) {
            Some(next) => word = next,
            None => refusals += 1,
        }
    }
    word.wrapping_add(refusals << 32)
}

fn nanoseconds(run: fn(&[u8], u64) -> u64, codes: &[u8]) -> (f64, u64) {
    let start = Instant::now();
    let sum = run(black_box(codes), black_box(0));
    (start.elapsed().as_nanos() as f64 / codes.len() as f64, sum)
}

fn median(mut times: Vec<f64>) -> f64 {
    times.sort_by(f64::total_cmp);
    times[times.len() / 2]
}

fn main() {
    // A linear congruence picks steps that mix locks, queues and references; close is left out, since
    // all that follows it would be refusals.
    let mut state = 1u32;
    let codes: Vec<u8> = (0..4_000_000)
        .map(|_| {
            state = state.wrapping_mul(1_664_525).wrapping_add(1_013_904_223);
            (state >> 24) as u8 % 6
        })
        .collect();
    let (mut ours, mut theirs) = (Vec::new(), Vec::new());
    for _ in 0..15 {
        let (time, sum) = nanoseconds(proved, &codes);
        let (plain_time, plain_sum) = nanoseconds(by_hand, &codes);
        assert_eq!(sum, plain_sum, "both make the same steps");
        ours.push(time);
        theirs.push(plain_time);
    }
    let (ours, theirs) = (median(ours), median(theirs));
    println!(
        "proved {ours:.2} ns a step, by hand {theirs:.2} ns, ratio {:.2}",
        ours / theirs
    );
}
