//! The proved bench beside two others on the same schedules, in one process: the reference implementation, written for clarity, and the
//! fast one beside this file, written for speed. What the three print is compared before anything is timed.
//! benchmark SCHEDULES: a file of schedules, each after its length in four bytes.

mod fast;
mod schedules;

use reference::text::bench_report;
use std::hint::black_box;
use std::time::Instant;

mod proved {
    #[link(name = "bench_output", kind = "static")]
    unsafe extern "C" {
        // the slice and the buffer pass as pointer and length
        fn bench_render(schedule: *const u8, length: usize, out: *mut u8, room: usize) -> usize;
    }

    /// The text that the bench program prints for a schedule, written into `out`.
    pub fn report(schedule: &[u8], out: &mut [u8]) -> usize {
        unsafe { bench_render(schedule.as_ptr(), schedule.len(), out.as_mut_ptr(), out.len()) }
    }
}

/// A schedule is timed as often as it takes to play so many events, at least so many times; its best time counts.
const EVENTS_TIMED: usize = 4_000_000;
const LEAST_ROUNDS: usize = 30;

/// Schedules whose times are added up.
struct Set<'a> {
    name: &'a str,
    schedules: Vec<&'a [u8]>,
}

fn main() {
    let path = std::env::args().nth(1).expect("usage: benchmark SCHEDULES");
    let file = std::fs::read(path).expect("the file of schedules is read");
    let clean_16 = schedules::clean_orders(16, 15);
    let clean_32 = schedules::clean_orders(32, 31);
    let clean_4 = schedules::clean_orders(4, 2);
    let repeated = schedules::repeated_deliveries();
    let refused = schedules::refused();
    let one = |name, schedule| Set { name, schedules: vec![schedule] };
    let (narrow, wide) = split(&file).into_iter().partition(|schedule| controllers(schedule) <= 16);
    let sets = [
        Set { name: "generated mix, up to 16 controllers", schedules: narrow },
        Set { name: "generated mix, 17 to 32 controllers", schedules: wide },
        one("clean orders, n = 32, f = 31", &clean_32),
        one("clean orders, n = 16, f = 15", &clean_16),
        one("clean orders, n = 4, f = 2", &clean_4),
        one("repeated deliveries", &repeated),
        one("all refused", &refused),
    ];
    let mut out = vec![0u8; 100_000];
    let mut other = vec![0u8; 100_000];
    for schedule in sets.iter().flat_map(|set| &set.schedules) {
        let length = proved::report(schedule, &mut out);
        let expected = bench_report(schedule);
        assert!(out[..length] == *expected.as_bytes(), "the proved bench and the reference print the same");
        let length = fast::report(schedule, &mut other);
        assert!(other[..length] == *expected.as_bytes(), "the fast one and the reference print the same");
    }
    println!("| nanoseconds an event | events | proved | fast | ratio | clear | ratio |");
    println!("|---|---|---|---|---|---|---|");
    for set in &sets {
        let events: usize = set.schedules.iter().map(|schedule| schedule.len().div_ceil(10)).sum();
        let rounds = LEAST_ROUNDS.max(EVENTS_TIMED / events);
        let mut times = vec![[f64::MAX; 3]; set.schedules.len()];
        for _ in 0..rounds {
            for (schedule, best) in set.schedules.iter().zip(&mut times) {
                best[0] = best[0].min(seconds(|| proved::report(black_box(schedule), &mut out)));
                best[1] = best[1].min(seconds(|| fast::report(black_box(schedule), &mut out)));
                best[2] = best[2].min(seconds(|| bench_report(black_box(schedule)).len()));
            }
        }
        let [proved, fast, clear] = [0, 1, 2].map(|k| times.iter().map(|best| best[k]).sum::<f64>() * 1e9 / events as f64);
        println!("| {} | {events} | {proved:.1} | {fast:.1} | {:.2} | {clear:.1} | {:.2} |", set.name, fast / proved, clear / proved);
    }
}

fn seconds(report: impl FnOnce() -> usize) -> f64 {
    let start = Instant::now();
    black_box(report());
    start.elapsed().as_secs_f64()
}

/// How many controllers the schedule's lock has.
fn controllers(schedule: &[u8]) -> usize {
    bench_report(schedule).lines().filter(|line| line.starts_with('C')).count()
}

/// The schedules of a file that the program runs (at most 40,960 bytes each).
fn split(file: &[u8]) -> Vec<&[u8]> {
    let mut schedules = Vec::new();
    let mut rest = file;
    while let Some((length, after)) = rest.split_first_chunk::<4>() {
        let (schedule, after) = after.split_at(u32::from_be_bytes(*length) as usize);
        if schedule.len() <= 40_960 {
            schedules.push(schedule);
        }
        rest = after;
    }
    schedules
}
