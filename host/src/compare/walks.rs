//! Random walks over residual arcs, and tables whose minimums some flow keeps.
use super::random::Random;
use super::tables::OwnTable;
use crate::run::{away, Lists};
use crate::table::Table;

/// The least residual on a walk from a node, and where the walk ends.
fn walked(table: &Table, flow: &[u32], start: usize, places: &[usize]) -> (u32, usize) {
    let mut least = u32::MAX;
    let mut node = start;
    for place in places {
        let arc = away(table, flow, node, *place);
        least = least.min(arc.residual);
        node = arc.far_end;
    }
    (least, node)
}

/// Moves an amount along a walk from a node.
fn move_along(table: &Table, flow: &mut [u32], start: usize, places: &[usize], amount: u32) {
    let mut node = start;
    for place in places {
        let arc = away(table, flow, node, *place);
        if table.tails[*place] as usize == node {
            flow[*place] += amount;
        } else {
            flow[*place] -= amount;
        }
        node = arc.far_end;
    }
}

/// Some place away from a node with residual, other than the place that was walked before.
fn some_residual(random: &mut Random, table: &Table, lists: &Lists, flow: &[u32], walk: &Walk) -> Option<usize> {
    let node = *walk.nodes.last()?;
    let places = lists.of(node).iter().map(|place| *place as usize);
    let is_new = |place: &usize| walk.places.last() != Some(place);
    let residual: Vec<usize> = places
        .filter(|place| is_new(place) && away(table, flow, node, *place).residual > 0)
        .collect();
    (!residual.is_empty()).then(|| random.one_of(&residual))
}

/// A walk over residual arcs: its nodes, and the places between them.
struct Walk {
    nodes: Vec<usize>,
    places: Vec<usize>,
}

/// Walks at random from a node until a node comes again or nothing leads on; tells where that node came first.
fn random_walk(random: &mut Random, table: &Table, flow: &[u32], start: usize) -> (Walk, Option<usize>) {
    let lists = Lists::new(table);
    let mut walk = Walk {
        nodes: vec![start],
        places: Vec::new(),
    };
    while let Some(place) = some_residual(random, table, &lists, flow, &walk) {
        let next = away(table, flow, walk.nodes[walk.nodes.len() - 1], place).far_end;
        walk.places.push(place);
        let earlier = walk.nodes.iter().position(|node| *node == next);
        if earlier.is_some() {
            return (walk, earlier);
        }
        walk.nodes.push(next);
    }
    (walk, None)
}

/// Moves some flow round a ring of residual arcs, if a walk finds one.
pub fn add_ring(random: &mut Random, table: &Table, flow: &mut [u32]) {
    let start = random.between(1, table.n) as usize;
    let (walk, earlier) = random_walk(random, table, flow, start);
    if let Some(first) = earlier {
        let ring = &walk.places[first..];
        let (least, _) = walked(table, flow, walk.nodes[first], ring);
        let some = random.between(1, least);
        let amount = random.one_of(&[1, some, least]);
        move_along(table, flow, walk.nodes[first], ring, amount);
    }
}

/// Fills the first part of a random walk from the source that meets the sink, if it does.
pub fn fill_some_chain(random: &mut Random, table: &Table, flow: &mut [u32]) {
    let source = table.s as usize;
    let (walk, _) = random_walk(random, table, flow, source);
    if let Some(end) = walk.nodes.iter().position(|node| *node == table.t as usize) {
        let chain = &walk.places[..end];
        let (least, _) = walked(table, flow, source, chain);
        move_along(table, flow, source, chain, least);
    }
}

/// Some flow within the capacities, of any value: chains from the source to the sink, chains back, and rings.
fn some_flow(random: &mut Random, table: &Table) -> Vec<u32> {
    let back = Table {
        s: table.t,
        t: table.s,
        ..*table
    };
    let mut flow = vec![0; table.arcs()];
    let (onwards, backwards, rings) = random.one_of(&[(6, 0, 2), (4, 4, 4), (0, 6, 2), (2, 0, 6), (9, 2, 2)]);
    (0..rings).for_each(|_| add_ring(random, table, &mut flow));
    (0..onwards).for_each(|_| fill_some_chain(random, table, &mut flow));
    (0..backwards).for_each(|_| fill_some_chain(random, &back, &mut flow));
    flow
}

/// Puts minimums into an accepted table without any, such that some flow keeps them.
pub fn put_kept_minimums(random: &mut Random, table: &mut OwnTable) {
    let flow = some_flow(random, &table.lent());
    let often = random.between(1, 3);
    for (minimum, amount) in table.minimums.iter_mut().zip(flow) {
        if amount > 0 && random.once_in(often) {
            let some = random.between(1, amount);
            *minimum = random.one_of(&[1, some, amount, amount]);
        }
    }
}

/// Puts minimums into an accepted table without looking at whether some flow keeps them.
pub fn put_any_minimums(random: &mut Random, table: &mut OwnTable) {
    let often = random.one_of(&[1, 2, 5, 20]);
    for place in 0..table.arcs() {
        if random.once_in(often) {
            let capacity = table.capacities[place];
            let some = random.between(0, capacity);
            table.minimums[place] = random.one_of(&[capacity.min(1), some, capacity]);
        }
    }
}
