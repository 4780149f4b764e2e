//! Which opening would help: the source side, the nodes that reach the sink, and the places from one to the other.

use crate::opening::distances_to_sink;
use crate::refusal::{Name, Refusal};
use crate::run::Lists;
use crate::side::side;
use crate::solve::{answered, has_room, try_solve, Answer};
use crate::table::{check, check_unbounded, Table};

/// What would help: nodes and places, each rising.
#[derive(Clone, PartialEq, Eq, Debug)]
pub struct Help {
    pub sources: Vec<u32>,
    pub sinks: Vec<u32>,
    pub places: Vec<u32>,
}

/// What would help with a maximum flow of an accepted table without minimums.
pub fn help(table: &Table, flow: &[u32]) -> Help {
    let marks = side(table, flow);
    let distances = distances_to_sink(table, &Lists::new(table), flow);
    let is_source = |node: u32| marks[node as usize - 1] == 1;
    let is_sink = |node: u32| distances[node as usize].is_some();
    let helps = |place: &usize| is_source(table.tails[*place]) && is_sink(table.heads[*place]);
    Help {
        sources: (1..=table.n).filter(|node| is_source(*node)).collect(),
        sinks: (1..=table.n).filter(|node| is_sink(*node)).collect(),
        places: (0..table.arcs()).filter(helps).map(|place| place as u32).collect(),
    }
}

/// The three lent lists.
pub struct HelpLists<'a> {
    pub sources: &'a mut [u32],
    pub sinks: &'a mut [u32],
    pub places: &'a mut [u32],
}

/// Writes numbers to the front of a list.
fn put(list: &mut [u32], numbers: &[u32]) {
    list[..numbers.len()].copy_from_slice(numbers);
}

/// Solves a table and fills the lists, or gives a refusal and leaves every row unchanged.
fn try_find(
    table: &Table,
    stamp: u32,
    flow: &mut [u32],
    side: &mut [u8],
    work: &mut [u32],
    lists: HelpLists,
) -> Result<(Answer, Help), Refusal> {
    check(table, has_room(table, flow, side, work))?;
    check_unbounded(table)?;
    let (mut own_flow, mut own_side, mut own_work) = (flow.to_vec(), side.to_vec(), work.to_vec());
    let answer = try_solve(table, stamp, &mut own_flow, &mut own_side, &mut own_work)?;
    let help = help(table, &own_flow[..table.arcs()]);
    let holds = |list: &[u32], numbers: &[u32]| list.len() >= numbers.len();
    let all_hold =
        holds(lists.sources, &help.sources) && holds(lists.sinks, &help.sinks) && holds(lists.places, &help.places);
    if !all_hold {
        return Err(Name::Room.at(0));
    }
    put(lists.sources, &help.sources);
    put(lists.sinks, &help.sinks);
    put(lists.places, &help.places);
    flow.copy_from_slice(&own_flow);
    side.copy_from_slice(&own_side);
    work.copy_from_slice(&own_work);
    Ok((answer, help))
}

/// Solves a table and fills the lists: solving's answer, and how many numbers of each list were filled.
pub fn find_openings(
    table: &Table,
    stamp: u32,
    flow: &mut [u32],
    side: &mut [u8],
    work: &mut [u32],
    lists: HelpLists,
) -> (Answer, [u32; 3]) {
    match try_find(table, stamp, flow, side, work, lists) {
        Ok((answer, help)) => {
            let filled = [help.sources, help.sinks, help.places].map(|list| list.len() as u32);
            (answer, filled)
        }
        Err(refusal) => (answered(Err(refusal)), [0; 3]),
    }
}

/// The filled part of the shorter list, the first if equal, an empty part of it if a length passes its list.
pub fn shorter<'a>(first: &'a [u32], second: &'a [u32], in_first: u32, in_second: u32) -> &'a [u32] {
    let (Some(one), Some(other)) = (first.get(..in_first as usize), second.get(..in_second as usize)) else {
        return &first[..0];
    };
    if other.len() < one.len() {
        other
    } else {
        one
    }
}

/// Copies the part to the front of a lent row: the refusal's number, and how many numbers were filled.
pub fn copy_shorter(first: &[u32], second: &[u32], in_first: u32, in_second: u32, part: &mut [u32]) -> (u32, u32) {
    let shorter = shorter(first, second, in_first, in_second);
    if part.len() < shorter.len() {
        return (Name::Room.number(), 0);
    }
    put(part, shorter);
    (0, shorter.len() as u32)
}
