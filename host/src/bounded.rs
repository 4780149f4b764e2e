//! Greatest flows of a table with minimums: first a flow that keeps them, then on along chains.

use crate::opening::{fill_chains, is_conserved};
use crate::run::{away, Lists};
use crate::side::side;
use crate::solve::value;
use crate::table::Table;

/// The amount that enters each node less what leaves it, by node number; the source stands for the sink too.
fn surpluses(table: &Table, flow: &[u32]) -> Vec<i64> {
    let mut surplus = vec![0; table.n as usize + 1];
    for (place, amount) in flow.iter().enumerate() {
        surplus[joined(table, table.heads[place] as usize)] += i64::from(*amount);
        surplus[joined(table, table.tails[place] as usize)] -= i64::from(*amount);
    }
    surplus
}

/// The node that stands for a node: the source for the sink, since flow may go round between them without limit.
fn joined(table: &Table, node: usize) -> usize {
    if node == table.t as usize {
        table.s as usize
    } else {
        node
    }
}

/// The nodes that a node stands for.
fn nodes_of(table: &Table, node: usize) -> Vec<usize> {
    if node == table.s as usize {
        vec![node, table.t as usize]
    } else {
        vec![node]
    }
}

/// A walk over residual arcs: each place with the node that it was walked away from.
type Walk = Vec<(usize, usize)>;

/// The walk back from a node, over the places by which each was reached, in the order that it was walked.
fn walk_to(table: &Table, reached_by: &[Option<(usize, usize)>], end: usize) -> Walk {
    let mut walk = Vec::new();
    let mut node = end;
    while let Some((place, before)) = reached_by[node] {
        walk.push((place, before));
        node = joined(table, before);
    }
    walk.reverse();
    walk
}

/// A shortest walk over residual arcs from a node with a surplus to one with a lack, if there is one.
fn walk_to_lack(table: &Table, lists: &Lists, flow: &[u32], surplus: &[i64], start: usize) -> Option<(Walk, usize)> {
    let mut reached_by = vec![None; surplus.len()];
    let mut waiting = std::collections::VecDeque::from([start]);
    while let Some(node) = waiting.pop_front() {
        if surplus[node] < 0 {
            return Some((walk_to(table, &reached_by, node), node));
        }
        for here in nodes_of(table, node) {
            for place in lists.of(here) {
                let arc = away(table, flow, here, *place as usize);
                let next = joined(table, arc.far_end);
                if arc.residual > 0 && next != start && reached_by[next].is_none() {
                    reached_by[next] = Some((*place as usize, here));
                    waiting.push_back(next);
                }
            }
        }
    }
    None
}

/// Moves an amount along a walk.
fn move_along(table: &Table, flow: &mut [u32], walk: &Walk, amount: u32) {
    for (place, from) in walk {
        if table.tails[*place] as usize == *from {
            flow[*place] += amount;
        } else {
            flow[*place] -= amount;
        }
    }
}

/// The least residual on a walk.
fn least_residual(table: &Table, flow: &[u32], walk: &Walk) -> u32 {
    let residuals = walk
        .iter()
        .map(|(place, from)| away(table, flow, *from, *place).residual);
    residuals.min().unwrap_or(0)
}

/// Some flow that keeps every arc between its minimum and its capacity, if there is one: the minimums, and each surplus
/// moved to where something lacks.
pub fn some_kept_flow(table: &Table) -> Option<Vec<u32>> {
    let lists = Lists::new(table);
    let mut flow = table.minimums.to_vec();
    let mut surplus = surpluses(table, &flow);
    while let Some(start) = surplus.iter().position(|amount| *amount > 0) {
        let (walk, end) = walk_to_lack(table, &lists, &flow, &surplus, start)?;
        let least = i64::from(least_residual(table, &flow, &walk));
        let amount = least.min(surplus[start]).min(-surplus[end]);
        move_along(table, &mut flow, &walk, amount as u32);
        surplus[start] -= amount;
        surplus[end] += amount;
    }
    Some(flow)
}

/// A flow of greatest value among those that keep every arc between its minimum and its capacity, if there is one.
pub fn greatest_flow(table: &Table) -> Option<Vec<u32>> {
    let mut flow = some_kept_flow(table)?;
    fill_chains(table, &mut flow);
    Some(flow)
}

/// Whether flows keep every arc between its minimum and its capacity.
fn keeps_bounds(table: &Table, flow: &[u32]) -> bool {
    let kept = |place: usize| table.minimums[place] <= flow[place] && flow[place] <= table.capacities[place];
    flow.len() == table.arcs() && (0..table.arcs()).all(kept)
}

/// Whether flows are a greatest flow of an accepted table by the definition: within the bounds, conserved, of this
/// value, and with exactly these marks for what the source reaches over residual arcs.
pub fn is_greatest(table: &Table, flow: &[u32], greatest: i64, marks: &[u8]) -> bool {
    keeps_bounds(table, flow)
        && is_conserved(table, flow)
        && value(table, flow) == greatest
        && side(table, flow) == marks
}
