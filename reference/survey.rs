//! Document 02, U13: a report over many schedules.

use crate::bench::lock::Lock;
use crate::bench::{run, Bench};
use crate::controller::Controller;
use crate::generator::Wanted;
use crate::group::Group;
use crate::questions::{ask, group_in_range};
use crate::text::sent_by_kind;
use crate::vote_set::Verdict;

/// "k from 1 to 1,000"
pub const MAX_SCHEDULES: u16 = 1_000;

/// "one record on standard input: n, f, a count of drawn events (2), s (4), k (2)"
#[derive(Clone, Copy, PartialEq, Eq, Debug)]
pub struct Record {
    pub group: Group,
    pub count: u16,
    pub first: u32,
    pub schedules: u16,
}

impl Record {
    pub fn to_bytes(self) -> Vec<u8> {
        let mut bytes = vec![self.group.n, self.group.f];
        bytes.extend(self.count.to_be_bytes());
        bytes.extend(self.first.to_be_bytes());
        bytes.extend(self.schedules.to_be_bytes());
        bytes
    }

    pub fn from_bytes(bytes: &[u8]) -> Option<Record> {
        let &[n, f, c, d, s, t, u, v, k, l] = bytes else {
            return None;
        };
        Some(Record {
            group: Group { n, f },
            count: u16::from_be_bytes([c, d]),
            first: u32::from_be_bytes([s, t, u, v]),
            schedules: u16::from_be_bytes([k, l]),
        })
    }

    /// "27, k out of range, s of 0, or s + k − 1 above 4,294,967,295; after question 4 and before 23."
    pub fn report(self) -> Result<Report, u8> {
        group_in_range(self.group)?;
        ask(27, (1..=MAX_SCHEDULES).contains(&self.schedules))?;
        ask(27, self.first != 0)?;
        let last = self.first.checked_add(u32::from(self.schedules) - 1);
        let last = last.ok_or(27)?;
        let numbers = self.first..=last;
        let schedules: Result<_, _> = numbers.map(|number| self.schedule(number)).collect();
        Ok(Report(schedules?))
    }

    /// The generator's own questions are asked here, so that its 23 comes last.
    fn schedule(self, number: u32) -> Result<Schedule, u8> {
        let Record { group, count, .. } = self;
        let file = Wanted {
            group,
            count,
            start: number,
        }
        .file()?;
        let (_, bench) = run(&file);
        Ok(Schedule::new(number, &bench))
    }
}

/// What is told of one schedule.
#[derive(Clone, PartialEq, Eq, Debug)]
pub struct Schedule {
    pub number: u32,
    /// The outcome that every controller not stopped holds; none for "the rest".
    pub ended: Option<Verdict>,
    /// Is any controller left unstopped?
    pub is_anyone_left: bool,
    /// Would it count as another ending if those standing by were taken as stopped?
    pub hangs_on_standby: bool,
    pub sent: [u64; 4],
}

impl Schedule {
    fn new(number: u32, bench: &Bench) -> Schedule {
        let controllers = bench.lock().map_or(&[][..], Lock::controllers);
        let left: Vec<&Controller> = controllers.iter().filter(|c| !c.is_stopped()).collect();
        let running: Vec<&Controller> = left.iter().copied().filter(|c| c.is_running()).collect();
        Schedule {
            number,
            ended: common_outcome(&left),
            is_anyone_left: !left.is_empty(),
            hangs_on_standby: common_outcome(&left) != common_outcome(&running),
            sent: sent_by_kind(bench),
        }
    }

    /// "all kinds together"
    pub fn total(&self) -> u64 {
        self.sent.iter().sum()
    }
}

/// The outcome of all of these, if there are any and they have one in common.
fn common_outcome(controllers: &[&Controller]) -> Option<Verdict> {
    let first = controllers.first()?.outcome()?;
    let all = controllers.iter().all(|c| c.outcome() == Some(first));
    all.then_some(first)
}

/// The schedules of a report, in rising number.
#[derive(Clone, PartialEq, Eq, Debug)]
pub struct Report(pub Vec<Schedule>);

impl Report {
    /// "schedules in which every controller not stopped ended Move, likewise Stay, and the rest"
    pub fn ended(&self, outcome: Option<Verdict>) -> usize {
        self.0.iter().filter(|one| one.ended == outcome).count()
    }

    /// "the most of all kinds together in one schedule"
    pub fn most(&self) -> u64 {
        self.0.iter().map(Schedule::total).max().unwrap_or(0)
    }

    /// The numbers that reached it.
    pub fn reaching(&self) -> Vec<u32> {
        let most = self.most();
        let those = self.0.iter().filter(|one| one.total() == most);
        those.map(|one| one.number).collect()
    }

    /// "prints four lines, numbers parted by a space"
    pub fn text(&self) -> String {
        let moved = self.ended(Some(Verdict::Move));
        let stayed = self.ended(Some(Verdict::Stay));
        let rest = self.ended(None);
        let [votes, acks, helps, helpeds] =
            [0, 1, 2, 3].map(|kind| self.0.iter().map(|one| one.sent[kind]).sum::<u64>());
        let most = self.most();
        let smallest = self.reaching().into_iter().min().unwrap_or(0);
        let sum: u64 = self.0.iter().map(Schedule::total).sum();
        let k = self.0.len();
        format!(
            "{moved} {stayed} {rest}\n{votes} {acks} {helps} {helpeds}\n{most} {smallest}\n{sum} {k}\n"
        )
    }
}

/// The whole output of the report program: "A refusal prints just "- " and its number: 1, not 10 bytes".
pub fn output(input: &[u8]) -> String {
    let report = Record::from_bytes(input).ok_or(1).and_then(Record::report);
    match report {
        Ok(report) => report.text(),
        Err(number) => format!("- {number}\n"),
    }
}
