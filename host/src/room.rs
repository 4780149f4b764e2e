//! Whether a week has room for so many quarter hours: the run, stopped as soon as they are at the sink.

use crate::refusal::Refusal;
use crate::run::{Counts, Lists, Run};
use crate::table::{check, check_unbounded, Table};

/// What comes back: a refusal with all other fields 0, or whether there is room and how the run was when it stopped.
#[derive(Clone, Copy, PartialEq, Eq, Debug, Default)]
pub struct Room {
    pub refusal: u32,
    pub place: u32,
    pub stamp: u32,
    pub yes: u32,
    pub value: u64,
    pub scale: u64,
    pub phases: u32,
    pub saturating: u64,
    pub nonsaturating: u64,
    pub relabels: u64,
}

/// How many numbers of the work row the question needs: 4n + 3m + 1.
pub fn room_work_need(table: &Table) -> u64 {
    4 * u64::from(table.n) + 3 * table.arcs() as u64 + 1
}

/// The net flow into the sink, which never falls.
fn into_sink(table: &Table, lists: &Lists, flow: &[u32]) -> u64 {
    let sink = table.t as usize;
    let net = |place: usize| match table.heads[place] as usize == sink {
        true => i64::from(flow[place]),
        false => -i64::from(flow[place]),
    };
    let sum: i64 = lists.of(sink).iter().map(|place| net(*place as usize)).sum();
    u64::try_from(sum).expect("no flow leaves the sink")
}

/// Where a run stopped.
pub struct Stop {
    pub yes: bool,
    pub value: u64,
    pub scale: u64,
    pub phases: u32,
    pub counts: Counts,
}

/// The number of phases of a full run at a scale.
fn phases_of(scale: u64) -> u32 {
    match scale {
        0 => 0,
        _ => 1 + scale.trailing_zeros(),
    }
}

/// Runs an accepted table without minimums until the net flow into the sink reaches q, or to its end.
pub fn run_until(table: &Table, q: u64) -> Stop {
    let lists = Lists::new(table);
    let mut run = Run::start(table);
    let scale = run.scale();
    let mut delta = scale;
    while delta > 0 && into_sink(table, &lists, &run.flow) < q {
        if !run.step(delta) {
            delta /= 2;
        }
    }
    let value = into_sink(table, &lists, &run.flow);
    Stop {
        yes: value >= q,
        value,
        scale,
        phases: phases_of(scale),
        counts: run.counts,
    }
}

/// Answers the question, or gives a refusal and leaves the work row unchanged.
fn try_ask(table: &Table, stamp: u32, q: u64, work: &mut [u32]) -> Result<Room, Refusal> {
    check(table, work.len() as u64 >= room_work_need(table))?;
    check_unbounded(table)?;
    let stop = run_until(table, q);
    work[..room_work_need(table) as usize].fill(0);
    Ok(Room {
        refusal: 0,
        place: 0,
        stamp,
        yes: u32::from(stop.yes),
        value: stop.value,
        scale: stop.scale,
        phases: stop.phases,
        saturating: stop.counts.saturating,
        nonsaturating: stop.counts.nonsaturating,
        relabels: stop.counts.relabels,
    })
}

/// Whether there is room for q, answering a refusal by its number and place.
pub fn has_room_for(table: &Table, stamp: u32, q: u64, work: &mut [u32]) -> Room {
    try_ask(table, stamp, q, work).unwrap_or_else(|refusal| Room {
        refusal: refusal.name.number(),
        place: refusal.place,
        ..Room::default()
    })
}
