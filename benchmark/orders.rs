//! How long an order event takes in the proved bench, at a lock of 16: opened, with all controllers stopped, and refused by question 13, with all running
//! and undecided. A schedule of 4,096 events, all but the first few of them orders, is rendered; the same schedule up to there is taken off.

use std::hint::black_box;
use std::time::Instant;

mod proved {
    #[link(name = "bench_output", kind = "static")]
    unsafe extern "C" {
        // the slice and the buffer pass as pointer and length
        fn bench_render(schedule: *const u8, length: usize, out: *mut u8, room: usize) -> usize;
    }

    /// The text that the bench program prints for a schedule, written into `out`.
    pub fn report(schedule: &[u8], out: &mut [u8]) -> usize {
        unsafe { bench_render(schedule.as_ptr(), schedule.len(), out.as_mut_ptr(), out.len()) }
    }
}

const ROUNDS: u32 = 200;
const MOST_EVENTS: usize = 4_096;
const CONTROLLERS: u8 = 16;

fn main() {
    let mut opened = vec![event(0, CONTROLLERS, CONTROLLERS - 1, 0), event(1, 0, 0, 1)];
    opened.extend((1..=CONTROLLERS).map(|id| event(6, id, 0, 0)));
    let refused = opened[..2].to_vec();
    println!("opened order   {:>8.1} ns", order_time(opened, 0));
    println!("refused by 13  {:>8.1} ns", order_time(refused, 13));
}

/// 4C 45; kind; a; b; c; value
fn event(kind: u8, a: u8, b: u8, value: u32) -> [u8; 10] {
    let [v, w, x, y] = value.to_be_bytes();
    [0x4C, 0x45, kind, a, b, 0, v, w, x, y]
}

/// Nanoseconds for each order after these events, all of which are answered so.
fn order_time(start: Vec<[u8; 10]>, answer: u8) -> f64 {
    let orders = MOST_EVENTS - start.len();
    let few = start.concat();
    let mut schedule = start;
    schedule.extend((0..orders as u32).map(|k| event(1, 0, 0, k + 2)));
    let all = schedule.concat();
    let mut out = vec![0u8; 100_000];
    let length = proved::report(&all, &mut out);
    let text = String::from_utf8_lossy(&out[..length]).into_owned();
    let answered = |line: &&str| line.ends_with(&format!(" {answer}")) && !line.starts_with(['C', 'T']);
    assert!(text.lines().filter(answered).count() >= orders, "the orders are answered {answer}");
    let (mut long, mut short) = (f64::MAX, f64::MAX);
    for _ in 0..ROUNDS {
        long = long.min(seconds(|| black_box(proved::report(black_box(&all), &mut out))));
        short = short.min(seconds(|| black_box(proved::report(black_box(&few), &mut out))));
    }
    (long - short) / orders as f64 * 1e9
}

fn seconds(work: impl FnOnce() -> usize) -> f64 {
    let start = Instant::now();
    work();
    start.elapsed().as_secs_f64()
}
