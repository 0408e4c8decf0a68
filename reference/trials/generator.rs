//! Document 02, U6: draws, files and refusals.

use reference::generator::{output, Wanted, Xorshift};
use reference::group::Group;
use reference::records::event::Event;

fn wanted(n: u8, f: u8, count: u16, start: u32) -> Wanted {
    let group = Group { n, f };
    Wanted {
        group,
        count,
        start,
    }
}

/// "from 1 the first draw is 270,369"
#[test]
fn first_draws() {
    let mut draws = Xorshift::new(1);
    let first: Vec<u32> = (0..4).map(|_| draws.draw()).collect();
    assert_eq!(first, [270_369, 67_634_689, 2_647_435_461, 307_599_695]);
}

/// By hand: 270,369 mod 10 is 9; 67,634,689 mod 3 is 1, a save; 2,647,435,461 mod 3 is 0, controller 1.
#[test]
fn first_event() {
    let events = wanted(3, 1, 1, 1).events().unwrap();
    assert_eq!(events.len(), 6);
    assert_eq!(events[0].fields().c, 0);
    assert_eq!(events[5], Event::Save { id: 1 });
}

#[test]
fn reads_back() {
    for start in 1..100 {
        let file = wanted(32, 31, 300, start).file().unwrap();
        assert_eq!(file.len(), 10 * (2 + 32 + 300));
        assert!(file.chunks(10).all(|record| Event::read(record).is_ok()));
    }
}

/// 4, then 23; another length gets 1.
#[test]
fn refusals() {
    assert_eq!(wanted(2, 2, 4_001, 0).file(), Err(4));
    assert_eq!(wanted(2, 1, 0, 0).file(), Err(23));
    assert_eq!(wanted(2, 1, 4_001, 1).file(), Err(23));
    assert_eq!(wanted(2, 1, 4_000, 1).file().map(|file| file.len()), Ok(40_040));
    assert_eq!(output(&[0; 7]), b"- 1\n");
    assert_eq!(output(&[0; 9]), b"- 1\n");
}
