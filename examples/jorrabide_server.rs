//! Jorrabide's calls for a booking server as safe functions, over the static library that `host/staticlib server` writes.
//! include/jorrabide_server.h says what the byte rows hold.

#[rustfmt::skip]
extern "C" {
    fn jorrabide_server_solve(
        n: u32, s: u32, t: u32, stamp: u32,
        arcs: *const u8, arcs_length: usize,
        flow: *mut u8, flow_length: usize,
        side: *mut u8, side_length: usize,
        result: *mut u8, result_length: usize,
    ) -> u64;
    fn jorrabide_server_place(
        n: u32, s: u32, t: u32, stamp: u32,
        arcs: *const u8, arcs_length: usize,
        answer_stamp: u32,
        flow: *const u8, flow_length: usize,
        side: *const u8, side_length: usize,
        place: u32,
        result: *mut u8, result_length: usize,
    ) -> u64;
}

/// Why a call was refused, and where.
#[derive(Clone, Copy, Debug, PartialEq, Eq)]
pub struct Refusal {
    pub number: u32,
    pub place: u32,
}

/// A table: its numbers, and its arcs as bytes.
#[derive(Clone, Debug, Default)]
pub struct Table {
    pub n: u32,
    pub s: u32,
    pub t: u32,
    pub stamp: u32,
    arcs: Vec<u8>,
}

/// The rows of an answer hold the most arcs and nodes that a table may have, so that they can be lent for the table as it is later on, and an
/// answer of an earlier state is refused for its age and not for its length.
const FLOW_BYTES: usize = 4 * 4096;
const NODES: usize = 512;

/// A solved table's answer.
#[derive(Clone, Debug)]
pub struct Answer {
    pub stamp: u32,
    pub value: u64,
    pub scale: u64,
    pub phases: u64,
    pub saturating: u64,
    pub nonsaturating: u64,
    pub relabels: u64,
    arcs: usize,
    flow: Vec<u8>,
    side: Vec<u8>,
}

/// What stands at a place.
#[derive(Clone, Copy, Debug, PartialEq, Eq)]
pub struct Reading {
    pub flow: u64,
    pub capacity: u64,
    pub crossing: bool,
}

/// The number returned: nothing refused, or a refusal's number in its upper half and its place in its lower.
fn told(returned: u64) -> Result<(), Refusal> {
    match returned {
        0 => Ok(()),
        _ => Err(Refusal {
            number: (returned >> 32) as u32,
            place: returned as u32,
        }),
    }
}

/// The k-th number of a result row.
fn number(result: &[u8], k: usize) -> u64 {
    u64::from_le_bytes(std::array::from_fn(|i| result[8 * k + i]))
}

impl Table {
    /// A table without arcs.
    pub fn new(n: u32, s: u32, t: u32, stamp: u32) -> Self {
        Table {
            n,
            s,
            t,
            stamp,
            arcs: Vec::new(),
        }
    }

    /// Adds an arc at the next place; the stamp rises by one.
    pub fn add(&mut self, tail: u32, head: u32, capacity: u32) {
        for x in [tail, head, capacity] {
            self.arcs.extend_from_slice(&x.to_le_bytes());
        }
        self.stamp = self.stamp.wrapping_add(1);
    }

    /// Gives the arc at a place another capacity; the stamp rises by one.
    pub fn change(&mut self, place: usize, capacity: u32) {
        self.arcs[12 * place + 8..][..4].copy_from_slice(&capacity.to_le_bytes());
        self.stamp = self.stamp.wrapping_add(1);
    }

    /// Solves the table.
    #[rustfmt::skip]
    pub fn solve(&self) -> Result<Answer, Refusal> {
        let mut flow = vec![0; FLOW_BYTES];
        let mut side = vec![0; NODES];
        let mut result = [0; 56];
        told(unsafe {
            jorrabide_server_solve(
                self.n, self.s, self.t, self.stamp,
                self.arcs.as_ptr(), self.arcs.len(),
                flow.as_mut_ptr(), flow.len(),
                side.as_mut_ptr(), side.len(),
                result.as_mut_ptr(), result.len(),
            )
        })?;
        Ok(Answer {
            stamp: number(&result, 0) as u32,
            value: number(&result, 1),
            scale: number(&result, 2),
            phases: number(&result, 3),
            saturating: number(&result, 4),
            nonsaturating: number(&result, 5),
            relabels: number(&result, 6),
            arcs: self.arcs.len() / 12,
            flow,
            side,
        })
    }

    /// Reads an answer at a place of the table as it is now.
    #[rustfmt::skip]
    pub fn read_place(&self, answer: &Answer, place: u32) -> Result<Reading, Refusal> {
        let mut result = [0; 24];
        told(unsafe {
            jorrabide_server_place(
                self.n, self.s, self.t, self.stamp,
                self.arcs.as_ptr(), self.arcs.len(),
                answer.stamp,
                answer.flow.as_ptr(), answer.flow.len(),
                answer.side.as_ptr(), answer.side.len(),
                place,
                result.as_mut_ptr(), result.len(),
            )
        })?;
        Ok(Reading { flow: number(&result, 0), capacity: number(&result, 1), crossing: number(&result, 2) == 1 })
    }
}

impl Answer {
    /// The flow of each arc, by place.
    pub fn flow(&self) -> Vec<u32> {
        self.flow
            .chunks_exact(4)
            .take(self.arcs)
            .map(|x| u32::from_le_bytes([x[0], x[1], x[2], x[3]]))
            .collect()
    }

    /// The nodes on the source side, rising.
    pub fn side(&self) -> Vec<u32> {
        (1..)
            .zip(&self.side)
            .filter(|(_, mark)| **mark == 1)
            .map(|(node, _)| node)
            .collect()
    }
}
