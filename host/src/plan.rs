//! Checking another product's plan: a solution text in any order, and marks, against their table.

use crate::refusal::{Name, Refusal};
use crate::table::{check, check_unbounded, Table};
use crate::text::{fields, lines, number, LONGEST_TEXT};
use std::collections::BTreeMap;

/// What checking a plan returns: a refusal, or whether the week is full.
#[derive(Clone, Copy, PartialEq, Eq, Debug, Default)]
pub struct Checked {
    pub refusal: u32,
    pub place: u32,
    pub full: u32,
}

/// A plan: the number of its s line, and the sums of its f lines by tail and head.
#[derive(Clone, PartialEq, Eq, Debug)]
pub struct Plan {
    pub value: u32,
    pub sums: BTreeMap<(u32, u32), u64>,
}

/// Why a plan is no full week.
#[derive(Clone, Copy, PartialEq, Eq, Debug)]
pub enum Why {
    Capacity,
    Conservation,
    Value,
    SourceUnmarked,
    SinkMarked,
    Cut,
}

/// Reads an s line.
fn value_line(line: &[u8]) -> Option<u32> {
    match fields(line)?[..] {
        [b"s", value] => number(value),
        _ => None,
    }
}

/// Reads an f line.
fn flow_line(line: &[u8]) -> Option<(u32, u32, u32)> {
    match fields(line)?[..] {
        [b"f", tail, head, amount] => Some((number(tail)?, number(head)?, number(amount)?)),
        _ => None,
    }
}

/// Reads the next line other than a comment: the s line first, then f lines.
fn take_line(plan: &mut Option<Plan>, line: &[u8]) -> Option<()> {
    match plan {
        None => {
            let (value, sums) = (value_line(line)?, BTreeMap::new());
            *plan = Some(Plan { value, sums });
        }
        Some(plan) => {
            let (tail, head, amount) = flow_line(line)?;
            *plan.sums.entry((tail, head)).or_insert(0) += u64::from(amount);
        }
    }
    Some(())
}

/// Reads a plan's text in line order.
pub fn read_plan(text: &[u8]) -> Result<Plan, Refusal> {
    let mut plan = None;
    let mut line_number = 1;
    for line in lines(text) {
        if line.first() != Some(&b'c') {
            take_line(&mut plan, line).ok_or(Name::Solution.at(line_number))?;
        }
        line_number += 1;
    }
    plan.ok_or(Name::Solution.at(line_number))
}

/// The capacities of all arcs together, by tail and head.
fn pair_capacities(table: &Table) -> BTreeMap<(u32, u32), u64> {
    let mut capacities = BTreeMap::new();
    for place in 0..table.arcs() {
        let pair = (table.tails[place], table.heads[place]);
        *capacities.entry(pair).or_insert(0) += u64::from(table.capacities[place]);
    }
    capacities
}

/// What leaves a node by the sums less what enters it.
fn net_out_of(plan: &Plan, node: u32) -> i128 {
    let net = |((tail, head), sum): (&(u32, u32), &u64)| match (*tail == node, *head == node) {
        (true, false) => i128::from(*sum),
        (false, true) => -i128::from(*sum),
        _ => 0,
    };
    plan.sums.iter().map(net).sum()
}

/// The capacity of the marked cut, where marked means 1.
fn cut_capacity(table: &Table, side: &[u8]) -> u64 {
    let is_marked = |node: u32| side[node as usize - 1] == 1;
    let crosses = |place: &usize| is_marked(table.tails[*place]) && !is_marked(table.heads[*place]);
    let crossing = (0..table.arcs()).filter(crosses);
    crossing.map(|place| u64::from(table.capacities[place])).sum()
}

/// All that keeps a plan from being a full week.
pub fn why_not_full(table: &Table, plan: &Plan, side: &[u8]) -> Vec<Why> {
    let capacities = pair_capacities(table);
    let within = |(pair, sum): (&(u32, u32), &u64)| *sum <= capacities.get(pair).copied().unwrap_or(0);
    let inner = (1..=table.n).filter(|node| *node != table.s && *node != table.t);
    let conserved = inner.into_iter().all(|node| net_out_of(plan, node) == 0);
    let mark = |node: u32| side[node as usize - 1];
    let conditions = [
        (plan.sums.iter().all(within), Why::Capacity),
        (conserved, Why::Conservation),
        (net_out_of(plan, table.s) == i128::from(plan.value), Why::Value),
        (mark(table.s) == 1, Why::SourceUnmarked),
        (mark(table.t) != 1, Why::SinkMarked),
        (cut_capacity(table, side) == u64::from(plan.value), Why::Cut),
    ];
    let unmet = conditions.into_iter().filter(|(is_met, _)| !is_met);
    unmet.map(|(_, why)| why).collect()
}

/// Checks a plan, or gives a refusal.
fn try_check(table: &Table, text: &[u8], side: &[u8]) -> Result<bool, Refusal> {
    if text.len() > LONGEST_TEXT {
        return Err(Name::Long.at(0));
    }
    check(table, true)?;
    check_unbounded(table)?;
    if (side.len() as u64) < u64::from(table.n) {
        return Err(Name::Room.at(0));
    }
    let plan = read_plan(text)?;
    Ok(why_not_full(table, &plan, side).is_empty())
}

/// Checks a plan and answers a refusal by its number and place.
pub fn check_plan(table: &Table, text: &[u8], side: &[u8]) -> Checked {
    match try_check(table, text, side) {
        Ok(full) => Checked {
            full: u32::from(full),
            ..Checked::default()
        },
        Err(refusal) => Checked {
            refusal: refusal.name.number(),
            place: refusal.place,
            full: 0,
        },
    }
}
