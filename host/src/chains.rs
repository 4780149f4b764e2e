//! Who sits where: the chains and rings that a solved table's flow consists of.

use crate::refusal::{Name, Refusal};
use crate::solve::{answered, has_room, try_solve, Answer};
use crate::table::{check, check_unbounded, Table};

/// What a piece of a flow is.
#[derive(Clone, Copy, PartialEq, Eq, Debug)]
pub enum Shape {
    Chain = 1,
    Ring,
}

/// A piece of a flow: a chain from source to sink, or a ring; its amount, and its places as walked.
#[derive(Clone, PartialEq, Eq, Debug)]
pub struct Piece {
    pub shape: Shape,
    pub amount: u32,
    pub places: Vec<usize>,
}

/// The lowest place that leaves a node with flow left.
fn lowest_place(table: &Table, left: &[u32], node: u32) -> Option<usize> {
    (0..table.arcs()).find(|place| table.tails[*place] == node && left[*place] > 0)
}

/// Where the next walk starts: the source while anything leaves it, else the tail of the lowest place with flow left.
fn next_start(table: &Table, left: &[u32]) -> Option<u32> {
    if lowest_place(table, left, table.s).is_some() {
        return Some(table.s);
    }
    let lowest = left.iter().position(|amount| *amount > 0)?;
    Some(table.tails[lowest])
}

/// The next walk: its places and what they are, from the source to the sink or round from the node that was met.
fn walk(table: &Table, left: &[u32], start: u32) -> (Shape, Vec<usize>) {
    let mut nodes = vec![start];
    let mut places = Vec::new();
    let mut node = start;
    loop {
        let place = lowest_place(table, left, node).expect("as much leaves a node as enters it");
        places.push(place);
        node = table.heads[place];
        if node == table.t {
            assert_eq!(start, table.s, "only walks from the source meet the sink");
            return (Shape::Chain, places);
        }
        if let Some(met) = nodes.iter().position(|earlier| *earlier == node) {
            return (Shape::Ring, places.split_off(met));
        }
        nodes.push(node);
    }
}

/// The pieces of a flow, one after the other, each taken away by its least amount.
pub fn pieces(table: &Table, flow: &[u32]) -> Vec<Piece> {
    let mut left = flow.to_vec();
    let mut pieces = Vec::new();
    while let Some(start) = next_start(table, &left) {
        let (shape, places) = walk(table, &left, start);
        let amount = places
            .iter()
            .map(|place| left[*place])
            .min()
            .expect("a walk has places");
        places.iter().for_each(|place| left[*place] -= amount);
        pieces.push(Piece { shape, amount, places });
    }
    pieces
}

/// The numbers of a list: for each piece its shape, its amount, how many places, and these.
pub fn list_of(pieces: &[Piece]) -> Vec<u32> {
    let mut list = Vec::new();
    for piece in pieces {
        list.extend([piece.shape as u32, piece.amount, piece.places.len() as u32]);
        list.extend(piece.places.iter().map(|place| *place as u32));
    }
    list
}

/// Solves a table and lists its pieces, or gives a refusal and leaves every row unchanged.
fn try_list(
    table: &Table,
    stamp: u32,
    flow: &mut [u32],
    side: &mut [u8],
    work: &mut [u32],
    list: &mut [u32],
) -> Result<(Answer, usize), Refusal> {
    check(table, has_room(table, flow, side, work))?;
    check_unbounded(table)?;
    let (mut own_flow, mut own_side, mut own_work) = (flow.to_vec(), side.to_vec(), work.to_vec());
    let answer = try_solve(table, stamp, &mut own_flow, &mut own_side, &mut own_work)?;
    let listed = list_of(&pieces(table, &own_flow[..table.arcs()]));
    if listed.len() > list.len() {
        return Err(Name::Room.at(0));
    }
    list[..listed.len()].copy_from_slice(&listed);
    flow.copy_from_slice(&own_flow);
    side.copy_from_slice(&own_side);
    work.copy_from_slice(&own_work);
    Ok((answer, listed.len()))
}

/// Solves a table and lists its pieces: solving's answer, and how many numbers of the list were filled.
pub fn list_chains(
    table: &Table,
    stamp: u32,
    flow: &mut [u32],
    side: &mut [u8],
    work: &mut [u32],
    list: &mut [u32],
) -> (Answer, u32) {
    match try_list(table, stamp, flow, side, work, list) {
        Ok((answer, filled)) => (answer, filled as u32),
        Err(refusal) => (answered(Err(refusal)), 0),
    }
}
