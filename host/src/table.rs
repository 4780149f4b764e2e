//! The table and its checks.

use crate::refusal::{Name, Refusal};

/// The least number of nodes.
pub const LEAST_NODES: u32 = 2;

/// The greatest number of nodes.
pub const MOST_NODES: u32 = 512;

/// The greatest number of arcs.
pub const MOST_ARCS: usize = 4_096;

/// The greatest capacity of an arc.
pub const MOST_CAPACITY: u32 = 1_000_000;

/// A table has n nodes, a source s, a sink t and four rows with one place for each arc.
#[derive(Clone, Copy)]
pub struct Table<'a> {
    pub n: u32,
    pub s: u32,
    pub t: u32,
    pub tails: &'a [u32],
    pub heads: &'a [u32],
    pub capacities: &'a [u32],
    pub minimums: &'a [u32],
}

impl Table<'_> {
    /// The number of arcs, m: the length of the rows.
    pub fn arcs(&self) -> usize {
        self.tails.len()
    }

    /// Whether a number is the number of a node.
    pub fn is_node(&self, number: u32) -> bool {
        1 <= number && number <= self.n
    }

    /// Whether the four arc rows have one length.
    fn rows_agree(&self) -> bool {
        let others = [self.heads, self.capacities, self.minimums];
        others.iter().all(|row| row.len() == self.tails.len())
    }

    /// Whether some arc has a minimum above 0.
    pub fn is_bounded(&self) -> bool {
        self.minimums.iter().any(|minimum| *minimum > 0)
    }

    /// Whether the source and the sink are different nodes.
    fn ends_are_good(&self) -> bool {
        self.is_node(self.s) && self.is_node(self.t) && self.s != self.t
    }

    /// The name of the fault of the arc at a place, if it has one.
    fn fault(&self, place: usize) -> Option<Name> {
        let tail = self.tails[place];
        let head = self.heads[place];
        if !self.is_node(tail) || !self.is_node(head) {
            Some(Name::Node)
        } else if tail == head {
            Some(Name::Loop)
        } else if self.capacities[place] > MOST_CAPACITY {
            Some(Name::Capacity)
        } else if self.minimums[place] > self.capacities[place] {
            Some(Name::Minimum)
        } else {
            None
        }
    }
}

/// Checks a table in the order of document 01, where the caller says whether there is room.
pub fn check(table: &Table, has_room: bool) -> Result<(), Refusal> {
    if table.n < LEAST_NODES || table.n > MOST_NODES {
        return Err(Name::Nodes.at(0));
    }
    if !table.rows_agree() {
        return Err(Name::Rows.at(0));
    }
    if table.arcs() > MOST_ARCS {
        return Err(Name::Arcs.at(0));
    }
    if !table.ends_are_good() {
        return Err(Name::Ends.at(0));
    }
    if !has_room {
        return Err(Name::Room.at(0));
    }
    for place in 0..table.arcs() {
        if let Some(name) = table.fault(place) {
            return Err(name.at(place as u32));
        }
    }
    Ok(())
}

/// Refuses an accepted table with a minimum above 0.
pub fn check_unbounded(table: &Table) -> Result<(), Refusal> {
    if table.is_bounded() {
        Err(Name::Bounded.at(0))
    } else {
        Ok(())
    }
}
