//! A month in one call: up to 31 day tables in joined rows, each answered as if given by itself, and the sums.

use crate::refusal::{Name, Refusal};
use crate::solve::{answered, has_room, try_solve, work_need, Answer};
use crate::table::{check, check_unbounded, Table};

/// The greatest number of days.
pub const MOST_DAYS: usize = 31;

/// How many marks each day has.
pub const DAY_MARKS: usize = 512;

/// How many numbers each day's answer has.
pub const DAY_NUMBERS: usize = 9;

/// A month: a row each of starts, n, s, t and stamps, and the four joined arc rows.
#[derive(Clone, Copy)]
pub struct Month<'a> {
    pub starts: &'a [u32],
    pub nodes: &'a [u32],
    pub sources: &'a [u32],
    pub sinks: &'a [u32],
    pub stamps: &'a [u32],
    pub tails: &'a [u32],
    pub heads: &'a [u32],
    pub capacities: &'a [u32],
    pub minimums: &'a [u32],
}

/// What comes back of the whole: a refusal, or how many tables were solved, their values together, and the first solved
/// day of least value, from 1, or 0.
#[derive(Clone, Copy, PartialEq, Eq, Debug, Default)]
pub struct Sums {
    pub refusal: u32,
    pub place: u32,
    pub solved: u32,
    pub total: u64,
    pub day: u32,
}

impl<'a> Month<'a> {
    /// The number of days.
    pub fn days(&self) -> usize {
        self.starts.len()
    }

    /// The length of the arc rows.
    pub fn arcs(&self) -> usize {
        self.tails.len()
    }

    /// Whether the rows of days, and those of arcs, have one length each.
    pub fn rows_agree(&self) -> bool {
        let days = [self.nodes, self.sources, self.sinks, self.stamps];
        let arcs = [self.heads, self.capacities, self.minimums];
        days.iter().all(|row| row.len() == self.days()) && arcs.iter().all(|row| row.len() == self.arcs())
    }

    /// Whether the starts neither fall nor pass the rows' end.
    pub fn starts_are_good(&self) -> bool {
        let rising = self.starts.windows(2).all(|pair| pair[0] <= pair[1]);
        rising && self.starts.iter().all(|start| *start as usize <= self.arcs())
    }

    /// Where a day's arcs begin and end.
    pub fn places(&self, day: usize) -> (usize, usize) {
        let end = self.starts.get(day + 1).map_or(self.arcs(), |start| *start as usize);
        (self.starts[day] as usize, end)
    }

    /// The table of a day.
    pub fn table(&self, day: usize) -> Table<'a> {
        let (start, end) = self.places(day);
        Table {
            n: self.nodes[day],
            s: self.sources[day],
            t: self.sinks[day],
            tails: &self.tails[start..end],
            heads: &self.heads[start..end],
            capacities: &self.capacities[start..end],
            minimums: &self.minimums[start..end],
        }
    }
}

/// Checks the whole call: MANY, ROWS, STARTS, then ROOM.
pub fn check_month(month: &Month, flow: usize, side: usize, answers: usize) -> Result<(), Refusal> {
    let days = month.days();
    if days > MOST_DAYS {
        return Err(Name::Many.at(0));
    }
    if !month.rows_agree() {
        return Err(Name::Rows.at(0));
    }
    if !month.starts_are_good() {
        return Err(Name::Starts.at(0));
    }
    if flow < month.arcs() || side < DAY_MARKS * days || answers < DAY_NUMBERS * days {
        return Err(Name::Room.at(0));
    }
    Ok(())
}

/// Solves a day's table into its own parts of the rows, or gives a refusal and leaves them unchanged.
fn solve_day(
    table: &Table,
    stamp: u32,
    flow: &mut [u32],
    side: &mut [u8],
    work: &mut [u32],
) -> Result<Answer, Refusal> {
    check(table, has_room(table, flow, side, work))?;
    check_unbounded(table)?;
    try_solve(table, stamp, flow, side, work)
}

/// A day's nine numbers.
fn numbers_of(answer: &Answer) -> [u64; DAY_NUMBERS] {
    [
        u64::from(answer.refusal),
        u64::from(answer.place),
        u64::from(answer.stamp),
        answer.value as u64,
        answer.scale,
        u64::from(answer.phases),
        answer.saturating,
        answer.nonsaturating,
        answer.relabels,
    ]
}

/// Solves each day of a month whose whole is fine.
fn solve_days(month: &Month, flow: &mut [u32], side: &mut [u8], work: &mut [u32], answers: &mut [u64]) -> Vec<Answer> {
    let mut own_work = work.to_vec();
    let mut zeros = 0;
    let mut days = Vec::new();
    for day in 0..month.days() {
        let table = month.table(day);
        let (start, end) = month.places(day);
        let marks = &mut side[DAY_MARKS * day..DAY_MARKS * (day + 1)];
        let tried = solve_day(&table, month.stamps[day], &mut flow[start..end], marks, &mut own_work);
        if tried.is_ok() {
            zeros = zeros.max(work_need(&table) as usize);
        }
        let answer = answered(tried);
        answers[DAY_NUMBERS * day..DAY_NUMBERS * (day + 1)].copy_from_slice(&numbers_of(&answer));
        days.push(answer);
    }
    work[..zeros].fill(0);
    days
}

/// The sums over the days' answers.
pub fn sums_of(days: &[Answer]) -> Sums {
    let solved = || days.iter().filter(|day| day.refusal == 0);
    let least = solved().map(|day| day.value).min();
    let is_least = |day: &Answer| day.refusal == 0 && Some(day.value) == least;
    Sums {
        solved: solved().count() as u32,
        total: solved().map(|day| day.value as u64).sum(),
        day: days.iter().position(is_least).map_or(0, |day| day as u32 + 1),
        ..Sums::default()
    }
}

/// Solves a month, or gives a refusal of the whole call and leaves every row unchanged.
pub fn solve_month(month: &Month, flow: &mut [u32], side: &mut [u8], work: &mut [u32], answers: &mut [u64]) -> Sums {
    match check_month(month, flow.len(), side.len(), answers.len()) {
        Ok(()) => sums_of(&solve_days(month, flow, side, work, answers)),
        Err(refusal) => Sums {
            refusal: refusal.name.number(),
            place: refusal.place,
            ..Sums::default()
        },
    }
}
