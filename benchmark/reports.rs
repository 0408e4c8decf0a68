//! The proved report over many schedules beside the reference implementation: 1,000 schedules of 4,000 drawn events, best of ten rounds.
//! What both print is compared before anything is timed.

use reference::survey::output;
use std::hint::black_box;
use std::time::Instant;

mod proved {
    #[link(name = "survey_output", kind = "static")]
    unsafe extern "C" {
        // the record and the buffer pass as pointer and length
        fn report_render(record: *const u8, length: usize, out: *mut u8, room: usize) -> usize;
    }

    /// The text that the report program prints for a record, written into `out`.
    pub fn report(record: &[u8], out: &mut [u8]) -> usize {
        unsafe { report_render(record.as_ptr(), record.len(), out.as_mut_ptr(), out.len()) }
    }
}

const ROUNDS: usize = 10;

fn main() {
    let mut out = [0u8; 121];
    println!("| 1,000 schedules of 4,000 drawn events | proved, s | clear, s | ratio |");
    println!("|---|---|---|---|");
    for (n, f) in [(2, 1), (5, 2), (16, 15), (32, 31)] {
        // n, f, count 4,000, s = 1, k = 1,000
        let record = [n, f, 0x0F, 0xA0, 0, 0, 0, 1, 0x03, 0xE8];
        let length = proved::report(&record, &mut out);
        assert!(out[..length] == *output(&record).as_bytes(), "both print the same");
        let proved = best(|| proved::report(black_box(&record), &mut out));
        let clear = best(|| output(black_box(&record)).len());
        println!("| n = {n}, f = {f} | {proved:.3} | {clear:.3} | {:.2} |", clear / proved);
    }
}

fn best(mut report: impl FnMut() -> usize) -> f64 {
    let seconds = (0..ROUNDS).map(|_| {
        let start = Instant::now();
        black_box(report());
        start.elapsed().as_secs_f64()
    });
    seconds.fold(f64::MAX, f64::min)
}
