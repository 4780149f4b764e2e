//! Opening a place of a solved table: on from its flow to a maximum flow of the table with more capacity there.

use crate::refusal::{Name, Refusal};
use crate::run::{away, Lists};
use crate::side::side;
use crate::solve::{answered, has_room, value, work_need, Answer};
use crate::table::{check, check_unbounded, Table, MOST_CAPACITY};
use std::collections::VecDeque;

/// The place that is opened and its new capacity.
#[derive(Clone, Copy)]
pub struct Opening {
    pub place: u32,
    pub capacity: u32,
}

/// A chain from the source to the sink: its places as walked, and the amount that fills it.
#[derive(Clone, PartialEq, Eq, Debug)]
pub struct Chain {
    pub amount: u32,
    pub places: Vec<usize>,
}

/// Why a row of flows is no maximum flow.
#[derive(Clone, Copy, PartialEq, Eq, Debug)]
pub enum NotMaximum {
    AboveCapacity,
    NotConserved,
    SinkReachable,
}

/// Whether as much leaves as enters each node other than the source and the sink.
pub fn is_conserved(table: &Table, flow: &[u32]) -> bool {
    let mut net = vec![0_i64; table.n as usize + 1];
    for (place, amount) in flow.iter().enumerate() {
        net[table.tails[place] as usize] -= i64::from(*amount);
        net[table.heads[place] as usize] += i64::from(*amount);
    }
    let is_free = |node: usize| node == table.s as usize || node == table.t as usize;
    (1..net.len()).all(|node| is_free(node) || net[node] == 0)
}

/// Why the flows are no maximum flow of the table, if they are none.
pub fn why_not_maximum(table: &Table, flow: &[u32]) -> Option<NotMaximum> {
    if flow
        .iter()
        .zip(table.capacities)
        .any(|(amount, capacity)| amount > capacity)
    {
        Some(NotMaximum::AboveCapacity)
    } else if !is_conserved(table, flow) {
        Some(NotMaximum::NotConserved)
    } else if side(table, flow)[table.t as usize - 1] == 1 {
        Some(NotMaximum::SinkReachable)
    } else {
        None
    }
}

/// How many residual arcs lead from each node to the sink at least, by node number; none where it can't be reached.
pub fn distances_to_sink(table: &Table, lists: &Lists, flow: &[u32]) -> Vec<Option<u32>> {
    let mut distances = vec![None; table.n as usize + 1];
    let mut waiting = VecDeque::from([(table.t as usize, 0)]);
    distances[table.t as usize] = Some(0);
    while let Some((node, distance)) = waiting.pop_front() {
        for place in lists.of(node) {
            let place = *place as usize;
            let before = away(table, flow, node, place).far_end;
            if distances[before].is_none() && away(table, flow, before, place).residual > 0 {
                distances[before] = Some(distance + 1);
                waiting.push_back((before, distance + 1));
            }
        }
    }
    distances
}

/// The places away from a node, by place, on which a chain of fewest residual arcs can go on.
pub fn next_places(table: &Table, lists: &Lists, flow: &[u32], distances: &[Option<u32>], node: usize) -> Vec<usize> {
    let leads_on = |place: &usize| {
        let arc = away(table, flow, node, *place);
        let beyond = distances[arc.far_end].map(|distance| distance + 1);
        arc.residual > 0 && beyond.is_some() && beyond == distances[node]
    };
    let places = lists.of(node).iter().map(|place| *place as usize);
    places.filter(leads_on).collect()
}

/// The chain of fewest residual arcs whose places, read from the source, are lower at the first difference.
pub fn next_chain(table: &Table, lists: &Lists, flow: &[u32]) -> Option<Chain> {
    let distances = distances_to_sink(table, lists, flow);
    distances[table.s as usize]?;
    let mut node = table.s as usize;
    let mut chain = Chain {
        amount: u32::MAX,
        places: Vec::new(),
    };
    while node != table.t as usize {
        let place = *next_places(table, lists, flow, &distances, node).first()?;
        let arc = away(table, flow, node, place);
        chain.amount = chain.amount.min(arc.residual);
        chain.places.push(place);
        node = arc.far_end;
    }
    Some(chain)
}

/// Fills a chain by its amount.
pub fn fill(table: &Table, flow: &mut [u32], chain: &Chain) {
    let mut node = table.s as usize;
    for place in &chain.places {
        let arc = away(table, flow, node, *place);
        if table.tails[*place] as usize == node {
            flow[*place] += chain.amount;
        } else {
            flow[*place] -= chain.amount;
        }
        node = arc.far_end;
    }
}

/// Fills chain after chain until the sink can't be reached, and tells the chains.
pub fn fill_chains(table: &Table, flow: &mut [u32]) -> Vec<Chain> {
    let lists = Lists::new(table);
    let mut chains = Vec::new();
    while let Some(chain) = next_chain(table, &lists, flow) {
        fill(table, flow, &chain);
        chains.push(chain);
    }
    chains
}

/// Checks the place and the new capacity of an accepted table.
fn check_opening(table: &Table, opening: Opening) -> Result<(), Refusal> {
    let Some(old) = table.capacities.get(opening.place as usize) else {
        return Err(Name::Place.at(opening.place));
    };
    if opening.capacity > MOST_CAPACITY {
        return Err(Name::Capacity.at(opening.place));
    }
    if opening.capacity < *old {
        return Err(Name::Lower.at(0));
    }
    Ok(())
}

/// Goes on from the old table's flow, or gives a refusal and leaves every row unchanged.
fn try_open(
    table: &Table,
    stamp: u32,
    opening: Opening,
    flow: &mut [u32],
    side_row: &mut [u8],
    work: &mut [u32],
) -> Result<Answer, Refusal> {
    check(table, has_room(table, flow, side_row, work))?;
    check_unbounded(table)?;
    check_opening(table, opening)?;
    let flow = &mut flow[..table.arcs()];
    if why_not_maximum(table, flow).is_some() {
        return Err(Name::NotMax.at(0));
    }
    let mut capacities = table.capacities.to_vec();
    capacities[opening.place as usize] = opening.capacity;
    let opened = Table {
        capacities: &capacities,
        ..*table
    };
    fill_chains(&opened, flow);
    side_row[..table.n as usize].copy_from_slice(&side(&opened, flow));
    work[..work_need(table) as usize].fill(0);
    Ok(Answer {
        stamp: stamp.wrapping_add(1),
        value: value(&opened, flow),
        ..Answer::default()
    })
}

/// Goes on from the old table's flow and answers a refusal by its number and place.
pub fn open(
    table: &Table,
    stamp: u32,
    opening: Opening,
    flow: &mut [u32],
    side_row: &mut [u8],
    work: &mut [u32],
) -> Answer {
    answered(try_open(table, stamp, opening, flow, side_row, work))
}
