//! The booking server's calls: solving and reading by place on numbers and byte rows, all little-endian.

use crate::reading::{try_read_place, Reading};
use crate::refusal::Refusal;
use crate::solve::{try_solve, work_need, Answer};
use crate::table::{check, Table};

/// How many bytes an arc takes: tail, head and capacity.
pub const ARC_BYTES: usize = 12;

/// How many bytes the result of solving takes.
pub const ANSWER_BYTES: usize = 56;

/// How many bytes the result of reading by place takes.
pub const READING_BYTES: usize = 24;

/// The numbers of 32 bits in a row of bytes.
fn numbers_in(bytes: &[u8]) -> Vec<u32> {
    let four = |part: &[u8]| u32::from_le_bytes([part[0], part[1], part[2], part[3]]);
    bytes.chunks_exact(4).map(four).collect()
}

/// The arc rows that a row of bytes stands for.
struct Arcs {
    tails: Vec<u32>,
    heads: Vec<u32>,
    capacities: Vec<u32>,
    minimums: Vec<u32>,
}

impl Arcs {
    /// Takes the arcs of a row of bytes; a part of an arc makes the rows differ in length.
    fn of(bytes: &[u8]) -> Arcs {
        let arcs = bytes.chunks_exact(ARC_BYTES);
        let has_part = !arcs.remainder().is_empty();
        let numbers: Vec<Vec<u32>> = arcs.map(numbers_in).collect();
        let row = |field: usize| numbers.iter().map(|arc| arc[field]).collect::<Vec<u32>>();
        let mut arcs = Arcs {
            tails: row(0),
            heads: row(1),
            capacities: row(2),
            minimums: vec![0; numbers.len()],
        };
        if has_part {
            arcs.tails.push(0);
        }
        arcs
    }

    /// The table of these arcs.
    fn table(&self, [n, s, t]: [u32; 3]) -> Table<'_> {
        Table {
            n,
            s,
            t,
            tails: &self.tails,
            heads: &self.heads,
            capacities: &self.capacities,
            minimums: &self.minimums,
        }
    }
}

/// Whether rows of bytes have room for the flows, the marks and a result.
fn has_room(table: &Table, flow: &[u8], side: &[u8], result: &[u8], result_bytes: usize) -> bool {
    flow.len() / 4 >= table.arcs() && side.len() as u64 >= u64::from(table.n) && result.len() >= result_bytes
}

/// Writes numbers of 64 bits to the front of a row of bytes.
fn put_longs(row: &mut [u8], numbers: &[u64]) {
    for (place, number) in numbers.iter().enumerate() {
        row[8 * place..8 * place + 8].copy_from_slice(&number.to_le_bytes());
    }
}

/// Writes numbers of 32 bits to the front of a row of bytes.
fn put_numbers(row: &mut [u8], numbers: &[u32]) {
    for (place, number) in numbers.iter().enumerate() {
        row[4 * place..4 * place + 4].copy_from_slice(&number.to_le_bytes());
    }
}

/// An answer's seven numbers in the order of the result row.
fn result_of(answer: &Answer) -> [u64; 7] {
    [
        u64::from(answer.stamp),
        answer.value as u64,
        answer.scale,
        u64::from(answer.phases),
        answer.saturating,
        answer.nonsaturating,
        answer.relabels,
    ]
}

/// Solves a table of arc bytes, or gives a refusal and leaves every row unchanged.
fn try_server_solve(
    table: &Table,
    stamp: u32,
    flow: &mut [u8],
    side: &mut [u8],
    result: &mut [u8],
) -> Result<(), Refusal> {
    check(table, has_room(table, flow, side, result, ANSWER_BYTES))?;
    let mut flows = vec![0; table.arcs()];
    let mut work = vec![0; work_need(table) as usize];
    let answer = try_solve(table, stamp, &mut flows, side, &mut work)?;
    put_numbers(flow, &flows);
    put_longs(result, &result_of(&answer));
    Ok(())
}

/// Reads by place an answer of bytes, or gives a refusal and leaves the result row unchanged.
fn try_server_place(
    table: &Table,
    stamps: [u32; 2],
    flow: &[u8],
    side: &[u8],
    place: u32,
    result: &mut [u8],
) -> Result<(), Refusal> {
    check(table, has_room(table, flow, side, result, READING_BYTES))?;
    let Reading {
        flow,
        capacity,
        crossing,
        ..
    } = try_read_place(table, stamps[0], stamps[1], &numbers_in(flow), side, place)?;
    put_longs(result, &[flow, capacity, crossing].map(u64::from));
    Ok(())
}

/// The returned number: 0, or the refusal's number times 2^32 plus its place.
fn returned(tried: Result<(), Refusal>) -> u64 {
    match tried {
        Ok(()) => 0,
        Err(refusal) => (u64::from(refusal.name.number()) << 32) + u64::from(refusal.place),
    }
}

/// Solves for the server: n, s and t, the stamp, the arc bytes and the lent rows of bytes.
pub fn server_solve(
    ends: [u32; 3],
    stamp: u32,
    arcs: &[u8],
    flow: &mut [u8],
    side: &mut [u8],
    result: &mut [u8],
) -> u64 {
    let arcs = Arcs::of(arcs);
    returned(try_server_solve(&arcs.table(ends), stamp, flow, side, result))
}

/// Reads by place for the server: n, s and t, the table's and the answer's stamp, and the rows of bytes.
pub fn server_place(
    ends: [u32; 3],
    stamps: [u32; 2],
    arcs: &[u8],
    flow: &[u8],
    side: &[u8],
    place: u32,
    result: &mut [u8],
) -> u64 {
    let arcs = Arcs::of(arcs);
    returned(try_server_place(&arcs.table(ends), stamps, flow, side, place, result))
}
