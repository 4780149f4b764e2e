//! Solving a table into lent rows.

use crate::bounded::greatest_flow;
use crate::refusal::{Name, Refusal};
use crate::run::{run, Outcome};
use crate::table::{check, Table};

/// What comes back from a solved table, or a refusal with all other fields 0.
#[derive(Clone, Copy, PartialEq, Eq, Debug, Default)]
pub struct Answer {
    pub refusal: u32,
    pub place: u32,
    pub stamp: u32,
    pub value: i64,
    pub scale: u64,
    pub phases: u32,
    pub saturating: u64,
    pub nonsaturating: u64,
    pub relabels: u64,
}

/// How many numbers of the work row a table needs: 4n + 2m + 1.
pub fn work_need(table: &Table) -> u64 {
    4 * u64::from(table.n) + 2 * table.arcs() as u64 + 1
}

/// Whether the flow, side and work rows are as long as document 01 says.
pub fn has_room(table: &Table, flow: &[u32], side: &[u8], work: &[u32]) -> bool {
    flow.len() >= table.arcs() && side.len() as u64 >= u64::from(table.n) && work.len() as u64 >= work_need(table)
}

/// The value, the net flow out of s.
pub fn value(table: &Table, flow: &[u32]) -> i64 {
    let mut value = 0;
    for (place, amount) in flow.iter().enumerate() {
        if table.tails[place] == table.s {
            value += i64::from(*amount);
        }
        if table.heads[place] == table.s {
            value -= i64::from(*amount);
        }
    }
    value
}

/// What solving an accepted table ends with: the run's end or, with minimums, a greatest flow and 0 elsewhere; none if
/// no flow keeps the minimums.
fn outcome(table: &Table) -> Option<Outcome> {
    if !table.is_bounded() {
        return Some(run(table));
    }
    Some(Outcome {
        flow: greatest_flow(table)?,
        ..Outcome::default()
    })
}

/// Solves a table into the lent rows, or gives a refusal and leaves every row unchanged.
pub fn try_solve(
    table: &Table,
    stamp: u32,
    flow: &mut [u32],
    side: &mut [u8],
    work: &mut [u32],
) -> Result<Answer, Refusal> {
    check(table, has_room(table, flow, side, work))?;
    let outcome = outcome(table).ok_or(Name::Impossible.at(0))?;
    let marks = crate::side::side(table, &outcome.flow);
    flow[..table.arcs()].copy_from_slice(&outcome.flow);
    side[..table.n as usize].copy_from_slice(&marks);
    work[..work_need(table) as usize].fill(0);
    Ok(Answer {
        refusal: 0,
        place: 0,
        stamp,
        value: value(table, &outcome.flow),
        scale: outcome.scale,
        phases: outcome.phases,
        saturating: outcome.counts.saturating,
        nonsaturating: outcome.counts.nonsaturating,
        relabels: outcome.counts.relabels,
    })
}

/// The answer itself, or that of a refusal: its number and place, and all other fields 0.
pub fn answered(tried: Result<Answer, Refusal>) -> Answer {
    tried.unwrap_or_else(|refusal| Answer {
        refusal: refusal.name.number(),
        place: refusal.place,
        ..Answer::default()
    })
}

/// Solves a table into the lent rows and answers a refusal by its number and place.
pub fn solve(table: &Table, stamp: u32, flow: &mut [u32], side: &mut [u8], work: &mut [u32]) -> Answer {
    answered(try_solve(table, stamp, flow, side, work))
}
