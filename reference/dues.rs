//! Document 02, U2: dues for a lockage, and a sheet of lockages shared between two owners.

pub mod tally;

/// "4 bytes each with nothing between"
pub const LOCKAGE_LENGTH: usize = 4;
/// "A sheet of up to 1,000 lockages"
pub const MAX_LOCKAGES: usize = 1_000;

/// "length (2), outcome as on a card, 1 for such a return or 0"
#[derive(Clone, Copy, Debug, PartialEq, Eq)]
pub struct Lockage {
    pub length: u16,
    pub outcome: u8,
    pub returned: u8,
}

#[derive(Clone, Copy, Debug, Default, PartialEq, Eq)]
pub struct Totals {
    pub upper: u64,
    pub lower: u64,
}

impl Lockage {
    pub fn bytes(self) -> [u8; LOCKAGE_LENGTH] {
        let [high, low] = self.length.to_be_bytes();
        [high, low, self.outcome, self.returned]
    }

    fn read(bytes: &[u8]) -> Lockage {
        Lockage {
            length: u16::from_be_bytes([bytes[0], bytes[1]]),
            outcome: bytes[2],
            returned: bytes[3],
        }
    }

    fn is_listed(self) -> bool {
        matches!(self.outcome, 0..=2) && matches!(self.returned, 0 | 1)
    }

    fn is_in_range(self) -> bool {
        (1..=2_500).contains(&self.length)
    }

    /// Which of the six bands of the tariff the boat falls under, from 0.
    pub fn band(self) -> usize {
        match self.length {
            0..=500 => 0,
            501..=800 => 1,
            801..=1_200 => 2,
            1_201..=1_600 => 3,
            1_601..=2_000 => 4,
            _ => 5,
        }
    }

    /// In pence. "Stay and unfinished orders pay nothing."
    pub fn charge(self) -> u64 {
        if self.outcome != 2 {
            return 0;
        }
        let full = [310, 460, 690, 943, 1_231, 1_587][self.band()];
        // "A return on the same day pays half, half pennies up."
        if self.returned == 1 {
            full / 2 + full % 2
        } else {
            full
        }
    }
}

/// The lockages of a sheet, as far as they are whole.
pub fn lockages(sheet: &[u8]) -> Vec<Lockage> {
    sheet
        .chunks_exact(LOCKAGE_LENGTH)
        .map(Lockage::read)
        .collect()
}

/// Each owner's total, or the number with which the whole sheet is refused.
pub fn dues(sheet: &[u8]) -> Result<Totals, u8> {
    let lockages = lockages(sheet);
    if lockages.len() * LOCKAGE_LENGTH != sheet.len() {
        return Err(1);
    }
    if lockages.iter().any(|lockage| !lockage.is_listed()) {
        return Err(3);
    }
    if lockages.len() > MAX_LOCKAGES || lockages.iter().any(|lockage| !lockage.is_in_range()) {
        return Err(22);
    }
    let mut totals = Totals::default();
    for lockage in lockages {
        // "three fifths to the upper pound's owner, rounded up to the penny, and the rest to the lower"
        let charge = lockage.charge();
        let lower = charge * 2 / 5;
        totals.lower += lower;
        totals.upper += charge - lower;
    }
    Ok(totals)
}

/// What the program prints.
pub fn dues_line(sheet: &[u8]) -> String {
    match dues(sheet) {
        Ok(Totals { upper, lower }) => format!("{upper} {lower}\n"),
        Err(number) => format!("- {number}\n"),
    }
}
