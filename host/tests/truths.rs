//! General truths on random tables, and each step of a run compared with a second derivation.

mod shared;

use judge::compare::random::Random;
use judge::compare::tables::OwnTable;
use judge::reading::read_place;
use judge::run::{run, Counts, Run};
use judge::side::side;
use shared::{random_table_of, reading, small_random_table, solved};

/// Sums the net flow out of a node.
fn net_flow_out(table: &OwnTable, flow: &[u32], node: u32) -> i64 {
    let mut net = 0;
    for (place, amount) in flow.iter().enumerate() {
        if table.tails[place] == node {
            net += i64::from(*amount);
        }
        if table.heads[place] == node {
            net -= i64::from(*amount);
        }
    }
    net
}

/// Tells whether the arc at a place leads from a marked to an unmarked node.
fn crosses(table: &OwnTable, marks: &[u8], place: usize) -> bool {
    let mark = |node: u32| marks[node as usize - 1];
    mark(table.tails[place]) == 1 && mark(table.heads[place]) == 0
}

/// Sums the capacity of the cut of some marks.
fn cut_capacity(table: &OwnTable, marks: &[u8]) -> u64 {
    let crossing = (0..table.arcs()).filter(|place| crosses(table, marks, *place));
    crossing.map(|place| u64::from(table.capacities[place])).sum()
}

/// Checks what holds of every solved table: its flow, its cut, its counts and its reading by place.
fn assert_truths(table: &OwnTable) {
    let found = solved(table);
    let answer = found.answer;
    let value = answer.value;
    for node in 1..=table.n {
        let expected = match node {
            _ if node == table.s => value,
            _ if node == table.t => -value,
            _ => 0,
        };
        assert_eq!(net_flow_out(table, &found.flow, node), expected);
    }
    assert_eq!(found.side[table.s as usize - 1], 1);
    assert_eq!(found.side[table.t as usize - 1], 0);
    assert_eq!(cut_capacity(table, &found.side) as i64, answer.value);
    assert_eq!(found.side, side(&table.lent(), &found.flow));
    let (n, m) = (u64::from(table.n), table.arcs() as u64);
    assert!(answer.saturating <= 2 * n * m);
    assert!(answer.relabels <= 2 * n * n);
    assert!(answer.nonsaturating <= 4 * n * n * u64::from(answer.phases));
    if answer.scale == 0 {
        assert_eq!(answer.phases, 0);
    } else {
        assert!(answer.scale.is_power_of_two());
        assert_eq!(answer.phases, 1 + answer.scale.trailing_zeros());
    }
    for (place, amount) in found.flow.iter().enumerate() {
        let capacity = table.capacities[place];
        assert!(*amount <= capacity);
        let crossing = u32::from(crosses(table, &found.side, place));
        let read = read_place(&table.lent(), 3, 3, &found.flow, &found.side, place as u32);
        assert_eq!(read, reading(*amount, capacity, crossing));
    }
}

/// Checks that the side is what the source sides of all least cuts have in common.
fn assert_least_side(table: &OwnTable) {
    let mut least = u64::MAX;
    let mut common = Vec::new();
    for subset in 0..1_u32 << table.n {
        let marks: Vec<u8> = (0..table.n).map(|bit| (subset >> bit & 1) as u8).collect();
        if marks[table.s as usize - 1] == 0 || marks[table.t as usize - 1] == 1 {
            continue;
        }
        let capacity = cut_capacity(table, &marks);
        if capacity < least {
            least = capacity;
            common = marks;
        } else if capacity == least {
            for (mark, other) in common.iter_mut().zip(&marks) {
                *mark = (*mark).min(*other);
            }
        }
    }
    let found = solved(table);
    assert_eq!(found.answer.value, least as i64);
    assert_eq!(found.side, common);
}

/// Checks that labels are valid, so that over every residual arc the label falls by at most one.
fn assert_labels(table: &OwnTable, state: &Run) {
    for place in 0..table.arcs() {
        let tail_label = state.label[table.tails[place] as usize];
        let head_label = state.label[table.heads[place] as usize];
        if state.flow[place] < table.capacities[place] {
            assert!(tail_label <= head_label + 1);
        }
        if state.flow[place] > 0 {
            assert!(head_label <= tail_label + 1);
        }
    }
    assert!(state.label.iter().all(|label| *label < 2 * table.n));
    assert_eq!(state.label[table.s as usize], table.n);
    assert_eq!(state.label[table.t as usize], 0);
}

/// Checks that each excess is inflow less outflow, and at or below Delta.
fn assert_excesses(table: &OwnTable, state: &Run, delta: u64) {
    for node in 1..=table.n {
        let excess = state.excess[node as usize];
        assert!(excess <= delta);
        if node == table.s || node == table.t {
            assert_eq!(excess, 0);
        } else {
            assert_eq!(excess as i64, -net_flow_out(table, &state.flow, node));
        }
    }
}

/// Finds the node that a step at Delta takes as the least pair of label and number.
fn taken_node(table: &OwnTable, state: &Run, delta: u64) -> Option<u32> {
    let nodes = (1..=table.n).filter(|node| 2 * state.excess[*node as usize] > delta);
    let least = nodes.map(|node| (state.label[node as usize], node)).min();
    least.map(|(_, node)| node)
}

/// A step starts from flows, excesses, labels and counts.
struct Before {
    flow: Vec<u32>,
    excess: Vec<u64>,
    label: Vec<u32>,
    counts: Counts,
}

impl Before {
    /// Copies the state of a run.
    fn of(state: &Run) -> Before {
        Before {
            flow: state.flow.clone(),
            excess: state.excess.clone(),
            label: state.label.clone(),
            counts: state.counts,
        }
    }

    /// Lists place, far end and residual of each residual arc away from a node, by place.
    fn residual_arcs(&self, table: &OwnTable, node: u32) -> Vec<(usize, u32, u32)> {
        let mut arcs = Vec::new();
        for place in 0..table.arcs() {
            let amount = self.flow[place];
            if table.tails[place] == node {
                arcs.push((place, table.heads[place], table.capacities[place] - amount));
            } else if table.heads[place] == node {
                arcs.push((place, table.tails[place], amount));
            }
        }
        arcs.retain(|arc| arc.2 > 0);
        arcs
    }
}

/// Checks that a step from a node was exactly the push or the relabel of document 01.
fn assert_step(table: &OwnTable, before: Before, node: u32, state: &Run, delta: u64) {
    let arcs = before.residual_arcs(table, node);
    let label_of = |far_end: u32| before.label[far_end as usize];
    let (mut flow, mut label, mut counts) = (before.flow.clone(), before.label.clone(), before.counts);
    let eligible = arcs.iter().find(|arc| label_of(arc.1) + 1 == label_of(node));
    if let Some((place, far_end, residual)) = eligible {
        let room = delta - before.excess[*far_end as usize];
        let excess = before.excess[node as usize];
        let amount = excess.min(room).min(u64::from(*residual)) as u32;
        assert!(amount > 0);
        if table.tails[*place] == node {
            flow[*place] += amount;
        } else {
            flow[*place] -= amount;
        }
        if amount == *residual {
            counts.saturating += 1;
        } else {
            counts.nonsaturating += 1;
            assert!(2 * u64::from(amount) >= delta);
        }
    } else {
        let least = arcs.iter().map(|arc| label_of(arc.1)).min();
        label[node as usize] = 1 + least.expect("a residual path to s");
        counts.relabels += 1;
        assert!(label[node as usize] > label_of(node));
    }
    assert_eq!(state.flow, flow);
    assert_eq!(state.label, label);
    assert_eq!(state.counts, counts);
}

/// Runs a table step by step, checks the facts of document 01 at each, and compares the end.
fn assert_steps(table: &OwnTable) {
    let lent = table.lent();
    let mut state = Run::start(&lent);
    let scale = state.scale();
    let mut delta = scale;
    let mut phases = 0;
    assert_labels(table, &state);
    while delta > 0 {
        phases += 1;
        loop {
            assert_excesses(table, &state, delta);
            let node = taken_node(table, &state, delta);
            let before = Before::of(&state);
            assert_eq!(state.step(delta), node.is_some());
            let Some(node) = node else {
                break;
            };
            assert_step(table, before, node, &state, delta);
            assert_labels(table, &state);
        }
        delta /= 2;
    }
    assert!(state.excess.iter().all(|excess| *excess == 0));
    let outcome = run(&lent);
    assert_eq!(outcome.flow, state.flow);
    assert_eq!(outcome.scale, scale);
    assert_eq!(outcome.phases, phases);
    assert_eq!(outcome.counts, state.counts);
}

/// Small random tables keep the general truths, the least side and each step.
#[test]
fn truths_of_small_random_tables() {
    for index in 0..4_000 {
        let table = small_random_table(1, index, 6);
        assert_truths(&table);
        assert_least_side(&table);
        assert_steps(&table);
    }
}

/// Larger random tables keep the general truths and each step.
#[test]
fn truths_of_larger_random_tables() {
    for index in 0..300 {
        let table = small_random_table(2, index, 40);
        assert_truths(&table);
        assert_steps(&table);
    }
}

/// Random tables of the largest size keep the general truths.
#[test]
fn truths_of_full_random_tables() {
    for largest in [1, 1_000, 1_000_000] {
        let mut random = Random::of_case(3, u64::from(largest));
        assert_truths(&random_table_of(&mut random, 512, 4_096, largest));
    }
}
