//! The bench program in Rust written for speed: one pass over the schedule, the bench changed in place, no allocation, digits by hand.
//! It is written from document 01 with requests U4 and U12 of document 02, apart from the reference implementation, which is written for clarity.

const LIMIT: usize = 32;
const LONGEST_SCHEDULE: usize = 40_960;

/// No line of an answer, of a controller, of the telegrams is longer.
const ANSWER_LINE: usize = 8;
const CONTROLLER_LINE: usize = 20;
const TELEGRAM_LINE: usize = 24;

/// A buffer of so many bytes holds every report.
pub const LONGEST_REPORT: usize = (LONGEST_SCHEDULE / 10) * ANSWER_LINE + LIMIT * CONTROLLER_LINE + TELEGRAM_LINE;

/// A sheet.
#[derive(Clone, Copy, Default)]
struct Votes {
    known: u32,
    willing: u32,
}

/// A sheet, and to whom it was sent.
#[derive(Clone, Copy, Default)]
struct Outgoing {
    to: u32,
    votes: Votes,
}

#[derive(Clone, Copy, PartialEq)]
enum Condition {
    Running,
    Stopped,
    Standby,
}

#[derive(Clone, Copy, PartialEq)]
enum Word {
    None,
    Stay,
    Move,
}

/// What a restore uses of a card.
#[derive(Clone, Copy)]
struct Card {
    outcome: Word,
    /// 0: there is no card
    order: u32,
}

/// The kinds of telegram as places in what was sent.
const VOTE: usize = 0;
const ACK: usize = 1;
const HELP: usize = 2;
const HELPED: usize = 3;

struct Controller {
    condition: Condition,
    phase: u8,
    outcome: Word,
    waiting: bool,
    votes: Votes,
    acks_from: u32,
    helped_from: u32,
    /// whose help calls it has taken: before stage 3 they are kept, from then on answered
    callers: u32,
    helped: Votes,
    help: Votes,
    target: i32,
    position: i32,
    sent: [Outgoing; 4],
    card: Card,
    /// by sender; those of `acks_from` count
    acks: [Votes; LIMIT],
}

struct Bench {
    n: u8,
    f: u8,
    /// 1 to n, and 1 to f
    everyone: u32,
    backups: u32,
    order: u32,
    move_put: bool,
    stay_put: bool,
    decision: Word,
    controllers: [Controller; LIMIT],
}

/// The whole output of the bench program for a schedule, at the front of a buffer of at least `LONGEST_REPORT` bytes; its length.
pub fn report(schedule: &[u8], out: &mut [u8]) -> usize {
    assert!(out.len() >= LONGEST_REPORT);
    if schedule.len() > LONGEST_SCHEDULE {
        out[..4].copy_from_slice(b"- 1\n");
        return 4;
    }
    let mut bench = Bench::new();
    let mut at = 0;
    let mut index = 0;
    let records = schedule.chunks_exact(10);
    let short = !records.remainder().is_empty();
    for record in records {
        let answer = bench.step(record.try_into().expect("ten bytes"));
        at = put_answer(out, at, index, answer);
        index += 1;
    }
    if short {
        at = put_answer(out, at, index, 1);
    }
    bench.put_state(out, at)
}

impl Votes {
    #[inline]
    fn join(&mut self, other: Votes) {
        self.known |= other.known;
        self.willing |= other.willing;
    }

    fn word(self, everyone: u32) -> Word {
        if self.known & self.willing & everyone == everyone {
            Word::Move
        } else {
            Word::Stay
        }
    }
}

#[inline]
fn bit(k: u8) -> u32 {
    1 << (k - 1)
}

/// 1 to k.
fn all_to(k: u8) -> u32 {
    ((1u64 << k) - 1) as u32
}

impl Controller {
    const NEW: Controller = Controller {
        condition: Condition::Running,
        phase: 0,
        outcome: Word::None,
        waiting: false,
        votes: Votes { known: 0, willing: 0 },
        acks_from: 0,
        helped_from: 0,
        callers: 0,
        helped: Votes { known: 0, willing: 0 },
        help: Votes { known: 0, willing: 0 },
        target: 0,
        position: 0,
        sent: [Outgoing { to: 0, votes: Votes { known: 0, willing: 0 } }; 4],
        card: Card { outcome: Word::None, order: 0 },
        acks: [Votes { known: 0, willing: 0 }; LIMIT],
    };

    /// All but position, cards and what was sent.
    fn clear(&mut self) {
        self.phase = 0;
        self.outcome = Word::None;
        self.waiting = false;
        self.votes = Votes::default();
        self.acks_from = 0;
        self.helped_from = 0;
        self.callers = 0;
        self.helped = Votes::default();
        self.help = Votes::default();
        self.target = 0;
    }

    fn conclude(&mut self, word: Word) {
        self.waiting = false;
        if self.outcome == Word::None {
            self.outcome = word;
            if word == Word::Move && self.condition == Condition::Running {
                self.position = self.target;
            }
        }
    }

    fn keep_ack(&mut self, from: u8, votes: Votes) {
        self.acks[(from - 1) as usize & (LIMIT - 1)] = votes;
        self.acks_from |= bit(from);
    }

    fn keep_helped(&mut self, from: u8, votes: Votes) {
        self.helped.join(votes);
        self.helped_from |= bit(from);
    }

    fn joined_acks(&self) -> Votes {
        let mut joined = Votes::default();
        let mut left = self.acks_from;
        while left != 0 {
            joined.join(self.acks[left.trailing_zeros() as usize & (LIMIT - 1)]);
            left &= left - 1;
        }
        joined
    }

    /// Are the acknowledgements of these held, and do all of them know these?
    fn acks_know(&self, senders: u32, these: u32) -> bool {
        if self.acks_from & senders != senders {
            return false;
        }
        let mut left = senders;
        while left != 0 {
            if self.acks[left.trailing_zeros() as usize & (LIMIT - 1)].known & these != these {
                return false;
            }
            left &= left - 1;
        }
        true
    }
}

impl Bench {
    fn new() -> Bench {
        Bench {
            n: 0,
            f: 0,
            everyone: 0,
            backups: 0,
            order: 0,
            move_put: false,
            stay_put: false,
            decision: Word::None,
            controllers: [Controller::NEW; LIMIT],
        }
    }

    #[inline]
    fn at(&mut self, id: u8) -> &mut Controller {
        &mut self.controllers[(id - 1) as usize & (LIMIT - 1)]
    }

    #[inline]
    fn is_member(&self, id: u8) -> bool {
        1 <= id && id <= self.n
    }

    /// To whom a kind may travel from a controller.
    #[inline]
    fn receivers(&self, kind: usize, from: u8) -> u32 {
        let all = match kind {
            VOTE if from <= self.f => self.backups << 1 | 1,
            VOTE => self.backups,
            ACK if from <= self.f => self.everyone,
            ACK if from == self.f + 1 => self.backups,
            ACK => 0,
            _ if from <= self.f => 0,
            _ => self.everyone & !self.backups,
        };
        all & !bit(from)
    }

    fn put_word(&mut self, word: Word) {
        self.move_put |= word == Word::Move;
        self.stay_put |= word == Word::Stay;
    }

    /// The answer to a record.
    #[inline]
    fn step(&mut self, record: &[u8; 10]) -> u8 {
        let &[m0, m1, kind, a, b, c, v0, v1, v2, v3] = record;
        if [m0, m1] != [0x4C, 0x45] {
            return 2;
        }
        let value = u32::from_be_bytes([v0, v1, v2, v3]);
        match kind {
            0 if c == 0 && value == 0 => self.lock(a, b),
            1 if a == 0 && b == 0 && c == 0 => self.open(value),
            2 if b <= 1 && c == 0 => self.vote(a, b == 1, value as i32),
            3 if 1 <= c && c <= 4 && value == 0 => self.deliver(a, b, (c - 1) as usize),
            5 if b <= 1 && c == 0 && value == 0 => self.decide(a, if b == 1 { Word::Move } else { Word::Stay }),
            4 if b == 0 && c == 0 && value == 0 => self.timeout(a),
            6 if b == 0 && c == 0 && value == 0 => self.stop(a),
            7 if b == 0 && c == 0 && value == 0 => self.save(a),
            8 if b == 0 && c == 0 && value == 0 => self.restore(a),
            _ => 3,
        }
    }

    fn lock(&mut self, n: u8, f: u8) -> u8 {
        if !(2 <= n && usize::from(n) <= LIMIT && 1 <= f && f < n) {
            return 4;
        }
        if self.n != 0 {
            return 6;
        }
        self.n = n;
        self.f = f;
        self.everyone = all_to(n);
        self.backups = all_to(f);
        0
    }

    fn open(&mut self, order: u32) -> u8 {
        if self.n == 0 {
            return 5;
        }
        if order < 1 {
            return 8;
        }
        if order <= self.order {
            return 12;
        }
        let controllers = &mut self.controllers[..self.n as usize];
        let ended = |c: &Controller| c.condition != Condition::Running || c.outcome != Word::None;
        if self.order != 0 && !controllers.iter().all(ended) {
            return 13;
        }
        for c in controllers {
            c.clear();
            c.sent = [Outgoing::default(); 4];
            if c.condition == Condition::Standby {
                c.condition = Condition::Running;
            }
        }
        self.order = order;
        self.move_put = false;
        self.stay_put = false;
        self.decision = Word::None;
        0
    }

    fn vote(&mut self, id: u8, willing: bool, target: i32) -> u8 {
        if self.n == 0 {
            return 5;
        }
        if !self.is_member(id) {
            return 7;
        }
        if !(-20_000..=20_000).contains(&target) {
            return 11;
        }
        if self.order == 0 {
            return 14;
        }
        let to = self.receivers(VOTE, id);
        let phase = if id <= self.f + 1 { 1 } else { 2 };
        let c = self.at(id);
        if c.condition != Condition::Running {
            return 15;
        }
        if c.phase != 0 {
            return 16;
        }
        let known = bit(id);
        let votes = Votes { known, willing: if willing { known } else { 0 } };
        c.votes.join(votes);
        c.target = target;
        c.phase = phase;
        c.sent[VOTE] = Outgoing { to, votes };
        0
    }

    #[inline]
    fn deliver(&mut self, from: u8, to: u8, kind: usize) -> u8 {
        if self.n == 0 {
            return 5;
        }
        if !self.is_member(from) || !self.is_member(to) || from == to {
            return 7;
        }
        if self.receivers(kind, from) & bit(to) == 0 {
            return 10;
        }
        if self.order == 0 {
            return 14;
        }
        let Outgoing { to: receivers, votes } = self.at(from).sent[kind & 3];
        let (n, f, everyone) = (self.n, self.f, self.everyone);
        let c = self.at(to);
        if c.condition != Condition::Running {
            return 15;
        }
        if receivers & bit(to) == 0 {
            return 17;
        }
        match kind {
            VOTE => {
                if c.phase <= 1 {
                    c.votes.join(votes);
                }
            }
            ACK => {
                if c.acks_from & bit(from) == 0 && (c.phase <= 2 || c.waiting) {
                    c.keep_ack(from, votes);
                    let word = settle(c, n, f, everyone);
                    self.put_word(word);
                }
            }
            HELP => {
                if c.callers & bit(from) == 0 {
                    c.callers |= bit(from);
                    if c.phase == 3 {
                        c.sent[HELPED].to |= bit(from);
                    }
                }
            }
            _ => {
                if c.waiting && c.helped_from & bit(from) == 0 {
                    c.keep_helped(from, votes);
                    let word = settle(c, n, f, everyone);
                    self.put_word(word);
                }
            }
        }
        0
    }

    fn timeout(&mut self, id: u8) -> u8 {
        if self.n == 0 {
            return 5;
        }
        if !self.is_member(id) {
            return 7;
        }
        if self.order == 0 {
            return 14;
        }
        let c = self.at(id);
        if c.condition != Condition::Running {
            return 15;
        }
        match c.phase {
            1 => self.first_timeout(id),
            2 => self.second_timeout(id),
            _ => return 16,
        }
        0
    }

    fn first_timeout(&mut self, id: u8) {
        let to = self.receivers(ACK, id);
        let is_backup = id <= self.f;
        let c = self.at(id);
        let votes = c.votes;
        if is_backup {
            c.keep_ack(id, votes);
        }
        c.phase = 2;
        c.sent[ACK] = Outgoing { to, votes };
    }

    fn second_timeout(&mut self, id: u8) {
        let (n, f, everyone, backups) = (self.n, self.f, self.everyone, self.backups);
        let calls = self.receivers(HELP, id);
        let c = self.at(id);
        let joined = c.joined_acks();
        c.help = c.votes;
        c.help.join(joined);
        c.phase = 3;
        c.sent[HELPED] = Outgoing { to: c.callers, votes: c.help };
        let word = joined.word(everyone);
        let decides = c.acks_know(backups, everyone) && (f < id || c.acks_know(bit(f + 1), backups));
        if decides {
            c.conclude(word);
        } else if c.acks_from != 0 {
            self.put_word(word);
        } else {
            c.waiting = true;
            c.keep_helped(id, c.help);
            c.sent[HELP] = Outgoing { to: calls, votes: Votes::default() };
            let word = settle(c, n, f, everyone);
            self.put_word(word);
        }
    }

    fn decide(&mut self, id: u8, word: Word) -> u8 {
        if self.n == 0 {
            return 5;
        }
        if !self.is_member(id) {
            return 7;
        }
        if self.order == 0 {
            return 14;
        }
        let put = if word == Word::Move { self.move_put } else { self.stay_put };
        let may = put && (self.decision == Word::None || self.decision == word);
        let c = self.at(id);
        if c.condition == Condition::Stopped {
            return 15;
        }
        if c.condition == Condition::Running && c.phase != 3 {
            return 16;
        }
        if !may {
            return 18;
        }
        c.conclude(word);
        self.decision = word;
        0
    }

    fn stop(&mut self, id: u8) -> u8 {
        let refused = self.absent(id);
        if refused == 0 {
            let c = self.at(id);
            c.clear();
            c.condition = Condition::Stopped;
        }
        refused
    }

    fn save(&mut self, id: u8) -> u8 {
        let refused = self.absent(id);
        if refused == 0 {
            let order = self.order;
            let c = self.at(id);
            c.card = Card { outcome: c.outcome, order };
        }
        refused
    }

    /// The questions of stop and save.
    fn absent(&mut self, id: u8) -> u8 {
        if self.n == 0 {
            return 5;
        }
        if !self.is_member(id) {
            return 7;
        }
        if self.order == 0 {
            return 14;
        }
        if self.at(id).condition == Condition::Stopped {
            return 15;
        }
        0
    }

    fn restore(&mut self, id: u8) -> u8 {
        if self.n == 0 {
            return 5;
        }
        if !self.is_member(id) {
            return 7;
        }
        let order = self.order;
        if order == 0 {
            return 14;
        }
        let c = self.at(id);
        if c.condition != Condition::Stopped {
            return 15;
        }
        if c.card.order == 0 {
            return 19;
        }
        c.condition = Condition::Standby;
        c.outcome = if c.card.order == order { c.card.outcome } else { Word::None };
        0
    }

    /// The C lines and the T line.
    fn put_state(&self, out: &mut [u8], at: usize) -> usize {
        let mut at = at;
        let mut counts = [0; 4];
        for (k, c) in self.controllers[..self.n as usize].iter().enumerate() {
            let stage = match c.condition {
                Condition::Running => c.phase,
                Condition::Stopped => 8,
                Condition::Standby => 9,
            };
            let letter = match c.outcome {
                Word::None => b'-',
                Word::Stay => b'S',
                Word::Move => b'M',
            };
            at = put(out, at, b"C ");
            at = put_number(out, at, k as u32 + 1);
            at = put(out, at, &[b' ', b'0' + stage, b' ', letter, b' ']);
            if c.position < 0 {
                at = put(out, at, b"-");
            }
            at = put_number(out, at, c.position.unsigned_abs());
            at = put(out, at, b"\n");
            for (count, sent) in counts.iter_mut().zip(c.sent) {
                *count += sent.to.count_ones();
            }
        }
        at = put(out, at, b"T");
        for count in counts {
            at = put(out, at, b" ");
            at = put_number(out, at, count);
        }
        put(out, at, b"\n")
    }
}

/// A waiting controller with enough of both counts puts a word, and waits no more.
#[inline]
fn settle(c: &mut Controller, n: u8, f: u8, everyone: u32) -> Word {
    if !c.waiting {
        return Word::None;
    }
    let cnt = c.acks_from.count_ones();
    if cnt + c.helped_from.count_ones() + (f as u32) < n as u32 {
        return Word::None;
    }
    c.waiting = false;
    let votes = if cnt > 0 { c.joined_acks() } else { c.helped };
    votes.word(everyone)
}

fn put(out: &mut [u8], at: usize, text: &[u8]) -> usize {
    out[at..at + text.len()].copy_from_slice(text);
    at + text.len()
}

fn put_number(out: &mut [u8], at: usize, v: u32) -> usize {
    let mut digits = [0; 10];
    let mut first = 10;
    let mut v = v;
    loop {
        first -= 1;
        digits[first] = b'0' + (v % 10) as u8;
        v /= 10;
        if v == 0 {
            return put(out, at, &digits[first..]);
        }
    }
}

/// An index below 10,000 and an answer below 100, in one line of at most eight bytes.
#[inline]
fn put_answer(out: &mut [u8], at: usize, index: u32, answer: u8) -> usize {
    let line: &mut [u8; ANSWER_LINE] = (&mut out[at..at + ANSWER_LINE]).try_into().expect("eight bytes");
    let digit = |v: u32| b'0' + v as u8;
    let after = if index < 10 {
        line[0] = digit(index);
        1
    } else if index < 100 {
        line[0] = digit(index / 10);
        line[1] = digit(index % 10);
        2
    } else if index < 1000 {
        line[0] = digit(index / 100);
        line[1] = digit(index / 10 % 10);
        line[2] = digit(index % 10);
        3
    } else {
        line[0] = digit(index / 1000);
        line[1] = digit(index / 100 % 10);
        line[2] = digit(index / 10 % 10);
        line[3] = digit(index % 10);
        4
    };
    line[after] = b' ';
    if answer < 10 {
        line[after + 1] = digit(answer as u32);
        line[after + 2] = b'\n';
        at + after + 3
    } else {
        line[after + 1] = digit(answer as u32 / 10);
        line[after + 2] = digit(answer as u32 % 10);
        line[after + 3] = b'\n';
        at + after + 4
    }
}
