//! What a set of sheets meets.

use super::{dues, lockages, Lockage, MAX_LOCKAGES};

/// Sheets that are longer count as long ones.
const LONG: usize = 65_536;
const LIMITS: [u16; 6] = [500, 800, 1_200, 1_600, 2_000, 2_500];

#[derive(Clone, Debug, Default)]
pub struct Tally {
    totals: u64,
    empty: u64,
    most: u64,
    refused: [u64; 3],
    long: [u64; 3],
    one_with_three: u64,
    three_with_22: u64,
    three_too_many: u64,
    one_too_many: u64,
    unpaid_length: u64,
    full: [u64; 6],
    half: [u64; 6],
    at_limit: [u64; 6],
    above_limit: [u64; 6],
    unpaid: u64,
}

impl Tally {
    pub fn add(&mut self, sheet: &[u8]) {
        let rows = lockages(sheet);
        let long = u64::from(sheet.len() > LONG);
        match dues(sheet) {
            Ok(_) => self.add_totals(&rows),
            Err(1) => {
                self.refused[0] += 1;
                self.long[0] += long;
                self.one_with_three += u64::from(rows.iter().any(|row| row.outcome > 2));
            }
            Err(3) => {
                self.refused[1] += 1;
                self.long[1] += long;
                self.three_with_22 += u64::from(rows.iter().any(|row| row.length == 0));
                self.three_too_many += u64::from(rows.len() > MAX_LOCKAGES);
            }
            Err(_) => {
                self.long[2] += long;
                self.add_22(&rows);
            }
        }
    }

    fn add_22(&mut self, rows: &[Lockage]) {
        self.refused[2] += 1;
        self.one_too_many += u64::from(rows.len() == MAX_LOCKAGES + 1);
        let bad = |row: &&Lockage| row.length == 0 || row.length > 2_500;
        let unpaid = rows.iter().filter(bad).all(|row| row.outcome != 2);
        self.unpaid_length += u64::from(rows.len() <= MAX_LOCKAGES && unpaid);
    }

    fn add_totals(&mut self, rows: &[Lockage]) {
        self.totals += 1;
        self.empty += u64::from(rows.is_empty());
        self.most += u64::from(rows.len() == MAX_LOCKAGES);
        for row in rows {
            if row.outcome != 2 {
                self.unpaid += 1;
                continue;
            }
            let kind = if row.returned == 1 {
                &mut self.half
            } else {
                &mut self.full
            };
            kind[row.band()] += 1;
            for (band, limit) in LIMITS.into_iter().enumerate() {
                self.at_limit[band] += u64::from(row.length == limit);
                self.above_limit[band] += u64::from(row.length == limit + 1);
            }
        }
    }

    /// Each row's name and count.
    pub fn rows(&self) -> Vec<(String, u64)> {
        let mut rows = vec![
            ("sheets with totals".to_string(), self.totals),
            ("empty sheets".to_string(), self.empty),
            (
                "sheets of 1,000 lockages with totals".to_string(),
                self.most,
            ),
            ("refused with 1".to_string(), self.refused[0]),
            ("refused with 3".to_string(), self.refused[1]),
            ("refused with 22".to_string(), self.refused[2]),
            (
                "refused with 1, and an unlisted outcome on it".to_string(),
                self.one_with_three,
            ),
            (
                "refused with 3, and a length of 0 on it".to_string(),
                self.three_with_22,
            ),
            (
                "refused with 3, of more than 1,000 lockages".to_string(),
                self.three_too_many,
            ),
            (
                "refused with 22 for 1,001 lockages".to_string(),
                self.one_too_many,
            ),
            (
                "refused with 22 for lockages that pay nothing".to_string(),
                self.unpaid_length,
            ),
            (
                "longer than 65,536 bytes, refused with 1".to_string(),
                self.long[0],
            ),
            (
                "longer than 65,536 bytes, refused with 3".to_string(),
                self.long[1],
            ),
            (
                "longer than 65,536 bytes, refused with 22".to_string(),
                self.long[2],
            ),
            ("lockages that pay nothing".to_string(), self.unpaid),
        ];
        for (band, limit) in LIMITS.into_iter().enumerate() {
            rows.push((format!("to {limit}, full"), self.full[band]));
            rows.push((format!("to {limit}, half"), self.half[band]));
            rows.push((format!("of exactly {limit}"), self.at_limit[band]));
            if limit < 2_500 {
                rows.push((format!("of {limit} and one more"), self.above_limit[band]));
            }
        }
        rows
    }
}
