//! Calls the proved bench from Rust: each schedule named on the command line gives what stands beside it and the count of gates still open
//! that its C lines show, and a buffer that is too short is left as it was. The gate builds and runs this:
//!
//!     bin/archive bench_output
//!     rustc --edition 2021 -L native=target/staticlib -o target/from_rust examples/from_rust.rs
//!     target/from_rust examples/*.events

use std::path::{Path, PathBuf};

mod proved {
    #[link(name = "bench_output", kind = "static")]
    unsafe extern "C" {
        // the slice and the buffer pass as pointer and length
        fn bench_render(schedule: *const u8, length: usize, out: *mut u8, room: usize) -> usize;
        fn bench_open_gates(schedule: *const u8, length: usize) -> u8;
    }

    /// Writes what the bench program prints for a schedule to the front of `out` and answers its length; 0 if it does not fit.
    pub fn render(schedule: &[u8], out: &mut [u8]) -> usize {
        // Both pointers are valid for their lengths, and the function is proved to stay within them.
        unsafe { bench_render(schedule.as_ptr(), schedule.len(), out.as_mut_ptr(), out.len()) }
    }

    /// How many running controllers lack an outcome after a schedule, for a panel; 255 if the schedule is too long to be run.
    pub fn open_gates(schedule: &[u8]) -> u8 {
        unsafe { bench_open_gates(schedule.as_ptr(), schedule.len()) }
    }
}

const UNTOUCHED: u8 = 0xA5;

fn main() {
    let schedules: Vec<PathBuf> = std::env::args_os().skip(1).map(PathBuf::from).collect();
    assert!(!schedules.is_empty(), "usage: from_rust SCHEDULE...");
    for path in &schedules {
        let schedule = read(path);
        let expected = read(&path.with_extension("expected"));
        fits(&schedule, &expected, expected.len());
        fits(&schedule, &expected, 100_000);
        let mut short = vec![UNTOUCHED; expected.len() - 1];
        assert_eq!(proved::render(&schedule, &mut short), 0, "{}: it does not fit", path.display());
        assert!(short.iter().all(|byte| *byte == UNTOUCHED), "{}: nothing is written", path.display());
        assert_eq!(proved::open_gates(&schedule), open_lines(&expected), "{}: gates still open", path.display());
    }
    assert_eq!(proved::open_gates(&[0; 40_961]), 255, "too long to be run");
    println!("{} schedules rendered by a call from Rust, with buffers that fit and one that is too short; gates still open as their C lines say", schedules.len());
}

/// How many C lines show a running controller (stage 0 to 3) without an outcome.
fn open_lines(report: &[u8]) -> u8 {
    let report = String::from_utf8_lossy(report);
    let is_open = |line: &&str| {
        let fields: Vec<&str> = line.split(' ').collect();
        fields[0] == "C" && fields[2] < "4" && fields[3] == "-"
    };
    report.lines().filter(is_open).count() as u8
}

/// A buffer of `room` bytes gets the whole text, and the rest of it stays as it was.
fn fits(schedule: &[u8], expected: &[u8], room: usize) {
    let mut out = vec![UNTOUCHED; room];
    assert_eq!(proved::render(schedule, &mut out), expected.len());
    assert_eq!(&out[..expected.len()], expected);
    assert!(out[expected.len()..].iter().all(|byte| *byte == UNTOUCHED));
}

fn read(path: &Path) -> Vec<u8> {
    std::fs::read(path).unwrap_or_else(|error| panic!("{}: {error}", path.display()))
}
