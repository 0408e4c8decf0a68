//! Document 02, U6: event records drawn from a starting number.

use crate::group::Group;
use crate::questions::{ask, group_in_range};
use crate::records::event::Event;
use crate::records::message::MessageKind;
use crate::vote_set::Verdict;

/// "a wanted count of drawn events, 4,000 at most"
pub const MAX_DRAWN: u16 = 4_000;

/// "Marsaglia's 32-bit xorshift, shifts 13 left, 17 right, 5 left"
pub struct Xorshift(u32);

impl Xorshift {
    pub fn new(start: u32) -> Xorshift {
        Xorshift(start)
    }

    pub fn draw(&mut self) -> u32 {
        self.0 ^= self.0 << 13;
        self.0 ^= self.0 >> 17;
        self.0 ^= self.0 << 5;
        self.0
    }

    fn below(&mut self, end: u32) -> u32 {
        self.draw() % end
    }
}

/// What the generator program is given: "n, f, count (2), start (4)".
#[derive(Clone, Copy, PartialEq, Eq, Debug)]
pub struct Wanted {
    pub group: Group,
    pub count: u16,
    pub start: u32,
}

impl Wanted {
    pub fn to_bytes(self) -> [u8; 8] {
        let [high, low] = self.count.to_be_bytes();
        let [a, b, c, d] = self.start.to_be_bytes();
        [self.group.n, self.group.f, high, low, a, b, c, d]
    }

    pub fn from_bytes(bytes: &[u8]) -> Option<Wanted> {
        let &[n, f, high, low, a, b, c, d] = bytes else {
            return None;
        };
        Some(Wanted {
            group: Group { n, f },
            count: u16::from_be_bytes([high, low]),
            start: u32::from_be_bytes([a, b, c, d]),
        })
    }

    /// "Refused: 23, a starting number of 0 or a count above 4,000; after question 4."
    pub fn events(self) -> Result<Vec<Event>, u8> {
        let Wanted {
            group,
            count,
            start,
        } = self;
        group_in_range(group)?;
        ask(23, start != 0 && count <= MAX_DRAWN)?;
        let ballots = false;
        let mut events = vec![Event::Lock { group, ballots }, Event::Order { number: 1 }];
        events.extend(group.ids().map(|id| Event::Vote {
            id,
            willing: true,
            target: 0,
        }));
        let mut draws = Xorshift::new(start);
        events.extend((0..count).map(|_| drawn(group.n, &mut draws)));
        Ok(events)
    }

    pub fn file(self) -> Result<Vec<u8>, u8> {
        let events = self.events()?;
        let mut file = vec![0; events.len() * Event::LENGTH];
        for (event, record) in events.iter().zip(file.chunks_mut(Event::LENGTH)) {
            event.write(record);
        }
        Ok(file)
    }
}

/// "Per event a draw mod 10 chooses .. Then the used fields in the order a, b, c, each from a draw"
fn drawn(n: u8, draws: &mut Xorshift) -> Event {
    let controller = |draws: &mut Xorshift| 1 + draws.below(u32::from(n)) as u8;
    match draws.below(10) {
        0..=5 => {
            let from = controller(draws);
            let to = controller(draws);
            let kind = MessageKind::ALL[draws.below(4) as usize];
            Event::Deliver { from, to, kind }
        }
        6 | 7 => Event::Timeout {
            id: controller(draws),
        },
        8 => {
            let id = controller(draws);
            let verdict = [Verdict::Stay, Verdict::Move][draws.below(2) as usize];
            Event::Decision { id, verdict }
        }
        _ => match draws.below(3) {
            0 => Event::Stop {
                id: controller(draws),
            },
            1 => Event::Save {
                id: controller(draws),
            },
            _ => Event::Restore {
                id: controller(draws),
            },
        },
    }
}

/// What the generator program writes: the file, or "- " and the number; input of another length gets 1.
pub fn output(input: &[u8]) -> Vec<u8> {
    let file = Wanted::from_bytes(input).ok_or(1).and_then(Wanted::file);
    file.unwrap_or_else(|number| format!("- {number}\n").into_bytes())
}
