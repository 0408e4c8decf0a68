//! Document 02, U2: sheets of lockages worked out by hand.

use reference::dues::{dues, dues_line, Lockage, Totals};

fn sheet(rows: &[(u16, u8, u8)]) -> Vec<u8> {
    let lockage = |&(length, outcome, returned): &(u16, u8, u8)| Lockage {
        length,
        outcome,
        returned,
    };
    rows.iter().flat_map(|row| lockage(row).bytes()).collect()
}

#[test]
fn each_band_at_its_limit_and_just_above() {
    let rows = [
        (1, 186, 124),
        (500, 186, 124),
        (501, 276, 184),
        (800, 276, 184),
        (801, 414, 276),
        (1_200, 414, 276),
        (1_201, 566, 377),
        (1_600, 566, 377),
        (1_601, 739, 492),
        (2_000, 739, 492),
        (2_001, 953, 634),
        (2_500, 953, 634),
    ];
    for (length, upper, lower) in rows {
        assert_eq!(dues(&sheet(&[(length, 2, 0)])), Ok(Totals { upper, lower }));
    }
}

#[test]
fn a_return_pays_half_rounded_up() {
    let rows = [
        (500, 93, 62),
        (800, 138, 92),
        (1_200, 207, 138),
        (1_600, 284, 188),
        (2_000, 370, 246),
        (2_500, 477, 317),
    ];
    for (length, upper, lower) in rows {
        assert_eq!(dues(&sheet(&[(length, 2, 1)])), Ok(Totals { upper, lower }));
    }
}

#[test]
fn rounded_charge_by_charge() {
    let two = sheet(&[(2_500, 2, 0), (2_500, 2, 0)]);
    assert_eq!(dues_line(&two), "1906 1268\n");
}

#[test]
fn an_empty_sheet_and_orders_that_did_not_move() {
    assert_eq!(dues_line(&[]), "0 0\n");
    assert_eq!(dues_line(&sheet(&[(500, 1, 0), (2_500, 0, 1)])), "0 0\n");
}

#[test]
fn question_by_question_over_the_whole_sheet() {
    let mut short = sheet(&[(0, 3, 0)]);
    short.push(1);
    assert_eq!(dues_line(&short), "- 1\n");
    assert_eq!(dues_line(&sheet(&[(0, 2, 0), (500, 3, 0)])), "- 3\n");
    assert_eq!(dues_line(&sheet(&[(2_501, 2, 0), (500, 2, 2)])), "- 3\n");
    assert_eq!(dues_line(&sheet(&[(0, 1, 0)])), "- 22\n");
    assert_eq!(dues_line(&sheet(&[(2_501, 2, 0)])), "- 22\n");
}

#[test]
fn a_thousand_lockages_and_one_more() {
    let rows = vec![(500, 2, 0); 1_001];
    assert_eq!(dues_line(&sheet(&rows[..1_000])), "186000 124000\n");
    assert_eq!(dues_line(&sheet(&rows)), "- 22\n");
    // 3 is asked before 22
    let mut unlisted = rows;
    unlisted[1_000] = (500, 3, 0);
    assert_eq!(dues_line(&sheet(&unlisted)), "- 3\n");
}
