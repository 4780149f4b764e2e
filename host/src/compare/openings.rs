//! Random openings of a place of a solved table.
use super::caller::{Call, Kind, Numbers};
use super::calls::{called, lent_length, odd_mark, odd_number, part_rows};
use super::random::Random;
use super::tables::{put_fault, random_table, Fault, OwnTable, FAULTS};
use super::walks::{add_ring, fill_some_chain, put_any_minimums, put_kept_minimums};
use crate::opening::{
    distances_to_sink, fill, fill_chains, is_conserved, next_chain, next_places, why_not_maximum, Chain, NotMaximum,
};
use crate::refusal::Name;
use crate::run::{away, run, Lists};
use crate::side::side;
use crate::solve::{has_room, work_need};
use crate::table::{check, Table, MOST_CAPACITY};

/// A maximum flow of a table: the run's, or one by chains in another order; sometimes with rings.
fn some_maximum_flow(random: &mut Random, table: &Table) -> Vec<u32> {
    let mut flow = vec![0; table.arcs()];
    if random.once_in(2) {
        flow = run(table).flow;
    } else {
        (0..random.between(0, 20)).for_each(|_| fill_some_chain(random, table, &mut flow));
        fill_chains(table, &mut flow);
    }
    if random.once_in(2) {
        (0..random.between(1, 5)).for_each(|_| add_ring(random, table, &mut flow));
    }
    flow
}

/// A flow that lacks the last chain to a maximum flow, or the row of zeros.
fn one_chain_short(random: &mut Random, table: &Table) -> Vec<u32> {
    let lists = Lists::new(table);
    let zeros = vec![0; table.arcs()];
    let mut flow = zeros.clone();
    let mut before = zeros.clone();
    while let Some(chain) = next_chain(table, &lists, &flow) {
        before.copy_from_slice(&flow);
        fill(table, &mut flow, &chain);
    }
    if random.once_in(3) {
        zeros
    } else {
        before
    }
}

/// Adds so much along arcs from the source to the sink that one of them is above its capacity.
fn overfill(table: &Table, flow: &mut [u32]) {
    let lists = Lists::new(table);
    let ones = vec![1; table.arcs()];
    let unlimited = Table {
        capacities: &ones,
        ..*table
    };
    let zeros = vec![0; table.arcs()];
    if let Some(chain) = next_chain(&unlimited, &lists, &zeros) {
        let free = chain.places.iter().map(|place| table.capacities[*place] - flow[*place]);
        let amount = free.min().unwrap_or(0) + 1;
        chain.places.iter().for_each(|place| flow[*place] += amount);
    }
}

/// Changes one flow, within its capacity or not.
fn change_one(random: &mut Random, table: &Table, flow: &mut [u32]) {
    if flow.is_empty() {
        return;
    }
    let place = random.place(flow.len());
    let capacity = table.capacities[place];
    let within = random.between(0, capacity);
    flow[place] = random.one_of(&[
        flow[place].wrapping_sub(1),
        flow[place] + 1,
        within,
        capacity + 1,
        u32::MAX,
    ]);
}

/// The flow row of an opening: mostly a maximum flow, else damaged in one of the ways that are refused.
fn given_flow(random: &mut Random, table: &Table) -> Vec<u32> {
    let mut flow = some_maximum_flow(random, table);
    match random.between(0, 19) {
        0 => flow = one_chain_short(random, table),
        1 => overfill(table, &mut flow),
        2 | 3 => change_one(random, table, &mut flow),
        4 => flow = (0..table.arcs()).map(|_| odd_number(random)).collect(),
        _ => {}
    }
    flow
}

/// The places that help: from the source side to a node that reaches the sink.
fn helpful_places(table: &Table, flow: &[u32]) -> Vec<usize> {
    let marks = side(table, flow);
    let distances = distances_to_sink(table, &Lists::new(table), flow);
    let helps = |place: &usize| {
        marks[table.tails[*place] as usize - 1] == 1 && distances[table.heads[*place] as usize].is_some()
    };
    (0..table.arcs()).filter(helps).collect()
}

/// The place to open: often one that helps, mostly one of the table.
fn opened_place(random: &mut Random, table: &Table) -> u32 {
    let m = table.arcs() as u32;
    let helpful = helpful_places(table, &run(table).flow);
    match random.between(0, 15) {
        0 => random.one_of(&[m, m, m + 1, 4096, u32::MAX]),
        1..=12 if !helpful.is_empty() => random.one_of(&helpful) as u32,
        _ => random.between(0, m.max(1) - 1),
    }
}

/// The new capacity: mostly more than the old, sometimes the same, less, or above the limit.
fn new_capacity(random: &mut Random, old: u32) -> u32 {
    match random.between(0, 15) {
        0 => random.one_of(&[MOST_CAPACITY + 1, MOST_CAPACITY + 2, u32::MAX]),
        1 => random.one_of(&[old.saturating_sub(1), 0, old / 2]),
        2 => old,
        3 => MOST_CAPACITY,
        4..=6 => (old + 1).min(MOST_CAPACITY),
        7..=9 => (old + random.between(1, 9)).min(MOST_CAPACITY),
        _ => random.between(old, MOST_CAPACITY),
    }
}

/// Puts a fault into the old table of an opening that is otherwise fine, or parts its rows.
fn put_table_fault(random: &mut Random, table: &mut OwnTable) {
    let fault = random.one_of(&FAULTS);
    if random.once_in(5) {
        part_rows(random, table);
    } else if fault != Fault::ManyArcs || random.once_in(5) {
        put_fault(random, table, fault);
    }
}

/// A table to open: seldom one of few arcs.
fn opened_table(random: &mut Random) -> OwnTable {
    loop {
        let table = random_table(random);
        if table.arcs() >= 8 || random.once_in(6) {
            return table;
        }
    }
}

/// Opening `index` of a seed.
pub fn random_opening(seed: u64, index: u64) -> Call {
    let random = &mut Random::of_case(seed ^ 0x6f70_656e, index);
    let mut table = opened_table(random);
    let lent = table.lent();
    let mut flow = given_flow(random, &lent);
    let place = opened_place(random, &lent);
    let old = table.capacities.get(place as usize).copied();
    let capacity = new_capacity(random, old.unwrap_or(9));
    match random.between(0, 39) {
        0 | 1 => put_any_minimums(random, &mut table),
        2 | 3 => put_kept_minimums(random, &mut table),
        _ => {}
    }
    if random.once_in(8) {
        put_table_fault(random, &mut table);
    }
    let (n, m) = (u64::from(table.n), table.arcs() as u64);
    let lengths = [m, n, 4 * n + 2 * m + 1].map(|need| lent_length(random, need));
    flow.resize_with(lengths[0], || odd_number(random));
    Call {
        stamp: odd_number(random),
        place,
        capacity,
        flow,
        side: (0..lengths[1]).map(|_| odd_mark(random)).collect(),
        work: (0..lengths[2]).map(|_| odd_number(random)).collect(),
        ..Call::of(Kind::Open, table)
    }
}

/// All that is wrong with the opening of an accepted table, in the order of refusals.
fn faults(call: &Call, table: &Table) -> Vec<String> {
    let old = table.capacities.get(call.place as usize);
    let mut faults = Vec::new();
    if table.is_bounded() {
        faults.push(Name::Bounded.word().to_string());
    }
    if old.is_none() {
        faults.push(Name::Place.word().to_string());
    }
    if call.capacity > MOST_CAPACITY {
        faults.push(Name::Capacity.word().to_string());
    }
    if old.is_some_and(|old| call.capacity < *old) {
        faults.push(Name::Lower.word().to_string());
    }
    if !table.is_bounded() && why_not_maximum(table, &call.flow[..table.arcs()]).is_some() {
        faults.push(Name::NotMax.word().to_string());
    }
    faults
}

/// Why the flows were no maximum flow.
fn not_maximum(table: &Table, flow: &[u32]) -> Option<String> {
    let told = match why_not_maximum(table, flow)? {
        NotMaximum::AboveCapacity if is_conserved(table, flow) => "capacity alone",
        NotMaximum::AboveCapacity => "capacity",
        NotMaximum::NotConserved => "conservation",
        NotMaximum::SinkReachable => "reachability",
    };
    Some(format!("NOTMAX by {told}"))
}

/// Whether a chain was the lower of some with equally few residual arcs, and whether it takes flow back.
fn of_chain(table: &Table, lists: &Lists, flow: &[u32], chain: &Chain) -> (bool, bool) {
    let distances = distances_to_sink(table, lists, flow);
    let mut node = table.s as usize;
    let (mut among_equals, mut takes_back) = (false, false);
    for place in &chain.places {
        among_equals |= next_places(table, lists, flow, &distances, node).len() > 1;
        takes_back |= table.heads[*place] as usize == node;
        node = away(table, flow, node, *place).far_end;
    }
    (among_equals, takes_back)
}

/// What the chains of an accepted opening bring.
fn brought_by_chains(call: &Call, table: &Table) -> Vec<String> {
    let mut capacities = table.capacities.to_vec();
    capacities[call.place as usize] = call.capacity;
    let opened = Table {
        capacities: &capacities,
        ..*table
    };
    let lists = Lists::new(&opened);
    let mut flow = call.flow[..table.arcs()].to_vec();
    let mut things = Vec::new();
    let mut count = 0;
    while let Some(chain) = next_chain(&opened, &lists, &flow) {
        let (among_equals, takes_back) = of_chain(&opened, &lists, &flow, &chain);
        things.extend(among_equals.then(|| "a chain among equals".to_string()));
        things.extend(takes_back.then(|| "a chain that takes flow back".to_string()));
        fill(&opened, &mut flow, &chain);
        count += 1;
    }
    let helps = ["no chain", "one chain", "two chains", "more chains"][3.min(count)];
    things.push(helps.to_string());
    things
}

/// What an accepted opening brings.
fn brought_by_answer(call: &Call, table: &Table) -> Vec<String> {
    let mut things = brought_by_chains(call, table);
    let flow = &call.flow[..table.arcs()];
    let is_the_runs = flow == run(table).flow;
    things.push(
        if is_the_runs {
            "the run's flow"
        } else {
            "another maximum flow"
        }
        .to_string(),
    );
    if call.capacity == table.capacities[call.place as usize] {
        things.push("equal capacity".to_string());
    }
    if call.stamp == u32::MAX {
        things.push("stamp round 2^32".to_string());
    }
    if call.work.len() as u64 == work_need(table) {
        things.push("work row exact".to_string());
    }
    if flow.len() < call.flow.len() && call.side.len() > table.n as usize && call.work.len() as u64 > work_need(table) {
        things.push("all rows longer".to_string());
    }
    things
}

/// Whether the work row alone is short, by one number.
fn lacks_one_of_work(call: &Call, table: &Table) -> bool {
    let mut work = call.work.clone();
    let short = !has_room(table, &call.flow, &call.side, &work);
    work.push(0);
    short && has_room(table, &call.flow, &call.side, &work)
}

/// What an opening brings: how it ended, what was wrong with it, and what its chains were.
pub fn brought(call: &Call, numbers: &Numbers) -> Vec<String> {
    let table = call.table.lent();
    let mut things = vec![called(call.kind, numbers[0])];
    if check(&table, true).is_err() {
        return things;
    }
    if !has_room(&table, &call.flow, &call.side, &call.work) {
        things.extend(lacks_one_of_work(call, &table).then(|| "work row one short".to_string()));
        return things;
    }
    let faults = faults(call, &table);
    if faults.len() > 1 {
        things.push(faults.join(" and "));
    }
    if numbers[0] == u64::from(Name::NotMax.number()) {
        things.extend(not_maximum(&table, &call.flow[..table.arcs()]));
    }
    if numbers[0] == 0 {
        things.extend(brought_by_answer(call, &table));
    }
    things
}

/// What every comparison of openings must have seen: an answer and each refusal, faults together, each way to be no
/// maximum flow, and each kind of opening.
pub fn wanted() -> Vec<String> {
    let refusals = (0..=8).chain([12, 19, 21, 22, 23]);
    let mut wanted: Vec<String> = refusals.map(|number| called(Kind::Open, number)).collect();
    let things = "BOUNDED and PLACE,BOUNDED and CAPACITY,BOUNDED and LOWER,PLACE and CAPACITY,PLACE and NOTMAX,CAPACITY and NOTMAX,LOWER and NOTMAX,\
        NOTMAX by capacity alone,NOTMAX by capacity,NOTMAX by conservation,NOTMAX by reachability,\
        no chain,one chain,two chains,more chains,a chain among equals,a chain that takes flow back,\
        the run's flow,another maximum flow,equal capacity,stamp round 2^32,work row exact,work row one short,\
        all rows longer";
    wanted.extend(things.split(',').map(str::to_string));
    wanted
}
