//! Document 02, U13: refusals in their sequence, and what a report says of schedules that are known.

use reference::bench::run;
use reference::generator::Wanted;
use reference::group::Group;
use reference::survey::{output, Record};
use reference::text::bench_report;

fn record(n: u8, f: u8, count: u16, first: u32, schedules: u16) -> Record {
    let group = Group { n, f };
    Record {
        group,
        count,
        first,
        schedules,
    }
}

fn refusal(n: u8, f: u8, count: u16, first: u32, schedules: u16) -> Option<u8> {
    record(n, f, count, first, schedules).report().err()
}

/// "1, not 10 bytes; 27, ..; after question 4 and before 23."
#[test]
fn refusals() {
    assert_eq!(output(&[2; 9]), "- 1\n");
    assert_eq!(output(&[2; 11]), "- 1\n");
    assert_eq!(refusal(33, 1, 4_001, 0, 0), Some(4));
    assert_eq!(refusal(2, 2, 0, 1, 1), Some(4));
    assert_eq!(refusal(2, 1, 4_001, 1, 0), Some(27));
    assert_eq!(refusal(2, 1, 4_001, 1, 1_001), Some(27));
    assert_eq!(refusal(2, 1, 0, 0, 1), Some(27));
    assert_eq!(refusal(2, 1, 0, u32::MAX, 2), Some(27));
    assert_eq!(refusal(2, 1, 4_001, u32::MAX, 1), Some(23));
    assert_eq!(refusal(2, 1, 0, u32::MAX, 1), None);
    assert_eq!(refusal(2, 1, 0, u32::MAX - 999, 1_000), None);
}

/// With nothing drawn there are the votes alone, fn of them, and nobody has ended.
#[test]
fn votes_alone() {
    let text = record(5, 2, 0, 7, 3).report().unwrap().text();
    assert_eq!(text, "0 0 3\n30 0 0 0\n10 7\n30 3\n");
}

/// By the bench's own C and T lines.
#[test]
fn as_the_bench_prints() {
    let group = Group { n: 3, f: 1 };
    let wanted = record(3, 1, 200, 1, 60);
    let report = wanted.report().unwrap();
    for one in &report.0 {
        let start = one.number;
        let file = Wanted { group, count: 200, start }.file().unwrap();
        let text = bench_report(&file);
        let lines = text.lines().filter(|line| line.starts_with('C'));
        let left: Vec<&str> = lines.filter(|line| line.split(' ').nth(2) != Some("8")).collect();
        let all = |letter| !left.is_empty() && left.iter().all(|line| line.split(' ').nth(3) == Some(letter));
        let ended = one.ended.map(|outcome| format!("{outcome:?}"));
        assert_eq!(ended == Some("Move".to_string()), all("M"));
        assert_eq!(ended == Some("Stay".to_string()), all("S"));
        let [a, b, c, d] = one.sent;
        assert!(text.ends_with(&format!("T {a} {b} {c} {d}\n")));
        assert_eq!(run(&file).0.len(), 205);
    }
}
