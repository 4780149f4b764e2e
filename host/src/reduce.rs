//! Throwing out what can't matter: the smaller table of live nodes, solved, and its flow put back.

use crate::refusal::Refusal;
use crate::run::run;
use crate::side::side;
use crate::solve::{answered, has_room, value, work_need, Answer};
use crate::table::{check, check_unbounded, Table};

/// The small table: its rows, its source and sink, and where its nodes and arcs came from.
#[derive(Clone, PartialEq, Eq, Debug, Default)]
pub struct Small {
    pub source: u32,
    pub sink: u32,
    pub tails: Vec<u32>,
    pub heads: Vec<u32>,
    pub capacities: Vec<u32>,
    pub nodes_from: Vec<u32>,
    pub arcs_from: Vec<u32>,
}

/// The nodes, by number, that can be reached from a node over arcs of capacity above 0, along them or against them.
fn reached(table: &Table, start: u32, against: bool) -> Vec<bool> {
    let (from, to) = if against {
        (table.heads, table.tails)
    } else {
        (table.tails, table.heads)
    };
    let mut reached = vec![false; table.n as usize + 1];
    let mut waiting = vec![start];
    reached[start as usize] = true;
    while let Some(node) = waiting.pop() {
        for place in 0..table.arcs() {
            let next = to[place];
            if from[place] == node && table.capacities[place] > 0 && !reached[next as usize] {
                reached[next as usize] = true;
                waiting.push(next);
            }
        }
    }
    reached
}

/// Whether each node, by number, is live: the source reaches it and it reaches the sink.
pub fn live_nodes(table: &Table) -> Vec<bool> {
    let from_source = reached(table, table.s, false);
    let to_sink = reached(table, table.t, true);
    from_source
        .iter()
        .zip(&to_sink)
        .map(|(one, other)| *one && *other)
        .collect()
}

/// Makes the small table of an accepted table.
pub fn small_of(table: &Table) -> Small {
    let live = live_nodes(table);
    let is_live = |node: u32| live[node as usize];
    let is_kept = |node: &u32| is_live(*node) || *node == table.s || *node == table.t;
    let nodes_from: Vec<u32> = (1..=table.n).filter(is_kept).collect();
    let new_number = |old: u32| 1 + nodes_from.iter().position(|from| *from == old).expect("a kept node") as u32;
    let mut small = Small {
        source: new_number(table.s),
        sink: new_number(table.t),
        ..Small::default()
    };
    for place in 0..table.arcs() {
        let (tail, head, capacity) = (table.tails[place], table.heads[place], table.capacities[place]);
        if capacity > 0 && is_live(tail) && is_live(head) {
            small.tails.push(new_number(tail));
            small.heads.push(new_number(head));
            small.capacities.push(capacity);
            small.arcs_from.push(place as u32);
        }
    }
    Small { nodes_from, ..small }
}

/// The rows of the small table and of origins, lent.
pub struct SmallRows<'a> {
    pub tails: &'a mut [u32],
    pub heads: &'a mut [u32],
    pub capacities: &'a mut [u32],
    pub nodes_from: &'a mut [u32],
    pub arcs_from: &'a mut [u32],
}

impl SmallRows<'_> {
    /// Whether the rows are as long as the old table's.
    fn has_room(&self, table: &Table) -> bool {
        let m = table.arcs();
        let of_arcs = [&*self.tails, self.heads, self.capacities, self.arcs_from];
        of_arcs.iter().all(|row| row.len() >= m) && self.nodes_from.len() as u64 >= u64::from(table.n)
    }

    /// Writes the small table to the front of the rows.
    fn put(&mut self, small: &Small) {
        let put = |row: &mut [u32], numbers: &[u32]| row[..numbers.len()].copy_from_slice(numbers);
        put(self.tails, &small.tails);
        put(self.heads, &small.heads);
        put(self.capacities, &small.capacities);
        put(self.nodes_from, &small.nodes_from);
        put(self.arcs_from, &small.arcs_from);
    }
}

/// What comes back beside solving's answer: nodes, arcs, source, sink and stamp of the small table.
pub type Sizes = [u32; 5];

/// Makes the small table, solves it and puts its flow back, or gives a refusal and leaves every row unchanged.
fn try_reduce(
    table: &Table,
    stamp: u32,
    flow: &mut [u32],
    side_row: &mut [u8],
    work: &mut [u32],
    rows: &mut SmallRows,
) -> Result<(Answer, Sizes), Refusal> {
    check(table, has_room(table, flow, side_row, work) && rows.has_room(table))?;
    check_unbounded(table)?;
    let small = small_of(table);
    let minimums = vec![0; small.tails.len()];
    let small_table = Table {
        n: small.nodes_from.len() as u32,
        s: small.source,
        t: small.sink,
        tails: &small.tails,
        heads: &small.heads,
        capacities: &small.capacities,
        minimums: &minimums,
    };
    let outcome = run(&small_table);
    let flow = &mut flow[..table.arcs()];
    flow.fill(0);
    for (from, amount) in small.arcs_from.iter().zip(&outcome.flow) {
        flow[*from as usize] = *amount;
    }
    side_row[..table.n as usize].copy_from_slice(&side(table, flow));
    work[..work_need(table) as usize].fill(0);
    rows.put(&small);
    let answer = Answer {
        stamp,
        value: value(table, flow),
        scale: outcome.scale,
        phases: outcome.phases,
        saturating: outcome.counts.saturating,
        nonsaturating: outcome.counts.nonsaturating,
        relabels: outcome.counts.relabels,
        ..Answer::default()
    };
    let arcs = small.tails.len() as u32;
    Ok((
        answer,
        [small_table.n, arcs, small.source, small.sink, stamp.wrapping_add(1)],
    ))
}

/// Makes the small table, solves it and puts its flow back: solving's answer, and the sizes of the small table.
pub fn reduce(
    table: &Table,
    stamp: u32,
    flow: &mut [u32],
    side_row: &mut [u8],
    work: &mut [u32],
    rows: &mut SmallRows,
) -> (Answer, Sizes) {
    match try_reduce(table, stamp, flow, side_row, work, rows) {
        Ok(reduced) => reduced,
        Err(refusal) => (answered(Err(refusal)), [0; 5]),
    }
}
