//! The controller of a lock's gate in a cabinet, for Rust: the calls of `cabinet.h` on a state that this module owns. Nothing is allocated. What to call when,
//! what to send again and what a restart may do is said in `cabinet.h`. Take it in by `#[path = "PREFIX/include/cabinet.rs"] mod cabinet;` (with
//! `#[allow(dead_code)]` where not every call is used) and build with `rustc -L native=PREFIX/lib`.

/// The number of the question that was answered "no" (docs/QUESTIONS.md).
pub type Refusal = u8;

/// The card is another controller's, or of another n or f.
pub const OTHER_CARD: Refusal = 30;

pub const CARD: usize = 14;
pub const LONGEST: usize = 24;
const WORDS: usize = 114;
const SHOWN: usize = 7;

mod proved {
    #[link(name = "cabinet", kind = "static")]
    unsafe extern "C" {
        pub fn cabinet_begin(state: *mut u32, words: usize, n: u8, f: u8, number: u8, own: u8, position: u32) -> u8;
        pub fn cabinet_order(state: *mut u32, words: usize, number: u32) -> u8;
        pub fn cabinet_vote(state: *mut u32, words: usize, willing: u8, target: u32) -> u8;
        pub fn cabinet_receive(state: *mut u32, words: usize, telegram: *const u8, length: usize) -> u8;
        pub fn cabinet_timeout(state: *mut u32, words: usize) -> u8;
        pub fn cabinet_decide(state: *mut u32, words: usize, to_move: u8) -> u8;
        pub fn cabinet_stop(state: *mut u32, words: usize) -> u8;
        pub fn cabinet_save(state: *const u32, words: usize, card: *mut u8, room: usize) -> u8;
        pub fn cabinet_wake(state: *mut u32, words: usize, card: *const u8, length: usize) -> u8;
        pub fn cabinet_open(state: *mut u32, words: usize, ballot: u8) -> u8;
        pub fn cabinet_telegram(state: *const u32, words: usize, k: u8, out: *mut u8, room: usize) -> u8;
        pub fn cabinet_telegram_length(state: *const u32, words: usize, k: u8) -> u8;
        pub fn cabinet_show(state: *const u32, words: usize, shown: *mut u32, room: usize) -> u8;
    }
}

#[derive(Clone, Copy, PartialEq, Eq, Debug)]
pub enum Outcome {
    Stay,
    Move,
}

/// What a display shows. The stage is 0 to 3; 8 stopped, 9 standing by.
#[derive(Clone, Copy, PartialEq, Eq, Debug)]
pub struct Display {
    pub order: u32,
    pub stage: u8,
    pub outcome: Option<Outcome>,
    pub position: i32,
    pub put: Option<Outcome>,
    pub settled: Option<Outcome>,
    pub highest: u8,
}

/// A telegram as it goes over the line.
#[derive(Clone, Copy, PartialEq, Eq, Debug)]
pub struct Telegram {
    bytes: [u8; LONGEST],
    length: usize,
}

impl Telegram {
    pub fn bytes(&self) -> &[u8] {
        &self.bytes[..self.length]
    }

    pub fn receiver(&self) -> u8 {
        self.bytes[6]
    }
}

#[derive(Clone, PartialEq, Eq)]
pub struct Cabinet {
    state: [u32; WORDS],
}

fn answer(number: u8) -> Result<(), Refusal> {
    if number == 0 { Ok(()) } else { Err(number) }
}

fn outcome(number: u32) -> Option<Outcome> {
    match number {
        0 => None,
        1 => Some(Outcome::Stay),
        _ => Some(Outcome::Move),
    }
}

// Every pointer below is valid for the length beside it, no two overlap, and the calls are proved to stay within them.
impl Cabinet {
    pub fn begin(n: u8, f: u8, number: u8, without_arbiter: bool, position: i32) -> Result<Self, Refusal> {
        let mut state = [0; WORDS];
        answer(unsafe { proved::cabinet_begin(state.as_mut_ptr(), WORDS, n, f, number, without_arbiter as u8, position as u32) })?;
        Ok(Cabinet { state })
    }

    pub fn order(&mut self, number: u32) -> Result<(), Refusal> {
        answer(unsafe { proved::cabinet_order(self.state.as_mut_ptr(), WORDS, number) })
    }

    pub fn vote(&mut self, willing: bool, target: i32) -> Result<(), Refusal> {
        answer(unsafe { proved::cabinet_vote(self.state.as_mut_ptr(), WORDS, willing as u8, target as u32) })
    }

    pub fn receive(&mut self, telegram: &[u8]) -> Result<(), Refusal> {
        answer(unsafe { proved::cabinet_receive(self.state.as_mut_ptr(), WORDS, telegram.as_ptr(), telegram.len()) })
    }

    pub fn timeout(&mut self) -> Result<(), Refusal> {
        answer(unsafe { proved::cabinet_timeout(self.state.as_mut_ptr(), WORDS) })
    }

    pub fn decide(&mut self, word: Outcome) -> Result<(), Refusal> {
        answer(unsafe { proved::cabinet_decide(self.state.as_mut_ptr(), WORDS, (word == Outcome::Move) as u8) })
    }

    pub fn stop(&mut self) -> Result<(), Refusal> {
        answer(unsafe { proved::cabinet_stop(self.state.as_mut_ptr(), WORDS) })
    }

    pub fn save(&self) -> Result<[u8; CARD], Refusal> {
        let mut card = [0; CARD];
        answer(unsafe { proved::cabinet_save(self.state.as_ptr(), WORDS, card.as_mut_ptr(), CARD) })?;
        Ok(card)
    }

    /// It comes back from its card, and stands by. Where the card is refused, do not go on: begun as new it could vote a second time.
    pub fn wake(&mut self, card: &[u8]) -> Result<(), Refusal> {
        answer(unsafe { proved::cabinet_wake(self.state.as_mut_ptr(), WORDS, card.as_ptr(), card.len()) })
    }

    pub fn open(&mut self, ballot: u8) -> Result<(), Refusal> {
        answer(unsafe { proved::cabinet_open(self.state.as_mut_ptr(), WORDS, ballot) })
    }

    /// All telegrams that it has sent in its order, to be sent, and sent again.
    pub fn telegrams(&self) -> impl Iterator<Item = Telegram> + '_ {
        (0..=u8::MAX).map_while(|k| {
            let length = unsafe { proved::cabinet_telegram_length(self.state.as_ptr(), WORDS, k) } as usize;
            let mut bytes = [0; LONGEST];
            let refused = length == 0 || unsafe { proved::cabinet_telegram(self.state.as_ptr(), WORDS, k, bytes.as_mut_ptr(), length) } != 0;
            if refused { None } else { Some(Telegram { bytes, length }) }
        })
    }

    pub fn show(&self) -> Display {
        let mut shown = [0; SHOWN];
        let number = unsafe { proved::cabinet_show(self.state.as_ptr(), WORDS, shown.as_mut_ptr(), SHOWN) };
        assert_eq!(number, 0, "a state that nobody but these calls changes");
        Display {
            order: shown[0],
            stage: shown[1] as u8,
            outcome: outcome(shown[2]),
            position: shown[3] as i32,
            put: outcome(shown[4]),
            settled: outcome(shown[5]),
            highest: shown[6] as u8,
        }
    }
}
