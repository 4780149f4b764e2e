//! Random tables: accepted ones, and faults to put into them.
use super::random::Random;
use crate::table::Table;

/// A table that owns its rows.
#[derive(Clone)]
pub struct OwnTable {
    pub n: u32,
    pub s: u32,
    pub t: u32,
    pub tails: Vec<u32>,
    pub heads: Vec<u32>,
    pub capacities: Vec<u32>,
    pub minimums: Vec<u32>,
}

impl OwnTable {
    /// A table without arcs.
    pub fn without_arcs(n: u32, s: u32, t: u32) -> OwnTable {
        OwnTable {
            n,
            s,
            t,
            tails: Vec::new(),
            heads: Vec::new(),
            capacities: Vec::new(),
            minimums: Vec::new(),
        }
    }

    /// Makes a table of arcs that are given as tail, head and capacity.
    pub fn with_arcs(n: u32, s: u32, t: u32, arcs: &[(u32, u32, u32)]) -> OwnTable {
        let mut table = OwnTable::without_arcs(n, s, t);
        for (tail, head, capacity) in arcs {
            table.add(*tail, *head, *capacity);
        }
        table
    }

    /// The table, lent.
    pub fn lent(&self) -> Table<'_> {
        Table {
            n: self.n,
            s: self.s,
            t: self.t,
            tails: &self.tails,
            heads: &self.heads,
            capacities: &self.capacities,
            minimums: &self.minimums,
        }
    }

    /// The table's text, without comments: minimums only where they are above 0.
    pub fn text(&self) -> String {
        let mut text = format!("p max {} {}\nn {} s\nn {} t\n", self.n, self.arcs(), self.s, self.t);
        for k in 0..self.arcs() {
            let minimum = match self.minimums[k] {
                0 => String::new(),
                minimum => format!(" {minimum}"),
            };
            let (tail, head, capacity) = (self.tails[k], self.heads[k], self.capacities[k]);
            text.push_str(&format!("a {tail} {head} {capacity}{minimum}\n"));
        }
        text
    }

    /// The four arc rows.
    pub fn rows(&self) -> [&Vec<u32>; 4] {
        [&self.tails, &self.heads, &self.capacities, &self.minimums]
    }

    /// How many arcs stand in all four rows.
    pub fn arcs(&self) -> usize {
        self.rows().map(Vec::len).into_iter().min().unwrap_or(0)
    }

    /// Adds an arc in the next place.
    pub fn add(&mut self, tail: u32, head: u32, capacity: u32) {
        self.add_bounded(tail, head, capacity, 0);
    }

    /// Adds an arc with a minimum in the next place.
    pub fn add_bounded(&mut self, tail: u32, head: u32, capacity: u32, minimum: u32) {
        self.tails.push(tail);
        self.heads.push(head);
        self.capacities.push(capacity);
        self.minimums.push(minimum);
    }

    /// Makes a table of arcs that are given as tail, head, capacity and minimum.
    pub fn with_bounded_arcs(n: u32, s: u32, t: u32, arcs: &[(u32, u32, u32, u32)]) -> OwnTable {
        let mut table = OwnTable::without_arcs(n, s, t);
        for (tail, head, capacity, minimum) in arcs {
            table.add_bounded(*tail, *head, *capacity, *minimum);
        }
        table
    }
}

/// A capacity of at most `largest`: often all of it, sometimes 0.
fn random_capacity(random: &mut Random, largest: u32) -> u32 {
    match random.between(0, 9) {
        0 => 0,
        1 | 2 => largest,
        _ => random.between(0, largest),
    }
}

/// A node other than `not`.
fn random_node_except(random: &mut Random, n: u32, not: u32) -> u32 {
    let node = random.between(1, n - 1);
    if node < not {
        node
    } else {
        node + 1
    }
}

/// Arcs between any two nodes.
fn add_anywhere(random: &mut Random, table: &mut OwnTable, m: u32, largest: u32) {
    for _ in 0..m {
        let tail = random.between(1, table.n);
        let head = random_node_except(random, table.n, tail);
        let capacity = random_capacity(random, largest);
        table.add(tail, head, capacity);
    }
}

/// Arcs to a near node of a higher number, as from groups to sessions to chairs; few lead back.
fn add_onwards(random: &mut Random, table: &mut OwnTable, m: u32, largest: u32) {
    for _ in 0..m {
        let tail = random.between(1, table.n - 1);
        let head = random.between(tail + 1, table.n.min(tail + 4));
        let capacity = random_capacity(random, largest);
        if random.once_in(12) {
            table.add(head, tail, capacity);
        } else {
            table.add(tail, head, capacity);
        }
    }
}

/// Arcs between few pairs, many of them parallel or opposite.
fn add_parallel(random: &mut Random, table: &mut OwnTable, m: u32, largest: u32) {
    let mut tail = table.s;
    let mut head = random_node_except(random, table.n, tail);
    for _ in 0..m {
        match random.between(0, 3) {
            0 => std::mem::swap(&mut tail, &mut head),
            1 => {
                tail = head;
                head = random_node_except(random, table.n, tail);
            }
            _ => {}
        }
        let capacity = random_capacity(random, largest);
        table.add(tail, head, capacity);
    }
}

/// How many nodes and arcs: mostly few, so that thousands are done in seconds; a few are large.
fn random_sizes(random: &mut Random) -> (u32, u32) {
    match random.between(0, 199) {
        0 => (random.between(2, 512), random.between(0, 1500)),
        1..=9 => (random.between(2, 80), random.between(0, 250)),
        10..=59 => (random.between(2, 20), random.between(0, 60)),
        _ => (random.between(2, 7), random.between(0, 14)),
    }
}

/// A table that no check refuses.
pub fn random_table(random: &mut Random) -> OwnTable {
    let (n, m) = random_sizes(random);
    let s = if random.once_in(2) { 1 } else { random.between(1, n) };
    let t = if s != n && random.once_in(2) {
        n
    } else {
        random_node_except(random, n, s)
    };
    let largest = random.one_of(&[1, 2, 5, 30, 1000, 1_000_000]);
    let mut table = OwnTable::without_arcs(n, s, t);
    match random.between(0, 3) {
        0 => add_anywhere(random, &mut table, m, largest),
        1 => add_parallel(random, &mut table, m, largest),
        _ => add_onwards(random, &mut table, m, largest),
    }
    table
}

/// A fault that a check of the table names, or a number just within its bound.
#[derive(Clone, Copy, PartialEq, Eq, Debug)]
pub enum Fault {
    Nodes,
    ManyArcs,
    Ends,
    Node,
    Loop,
    Capacity,
    Minimum,
}

/// All faults of a table.
pub const FAULTS: [Fault; 7] = [
    Fault::Nodes,
    Fault::ManyArcs,
    Fault::Ends,
    Fault::Node,
    Fault::Loop,
    Fault::Capacity,
    Fault::Minimum,
];

/// Puts a fault into a table, or moves a number to its bound.
pub fn put_fault(random: &mut Random, table: &mut OwnTable, fault: Fault) {
    match fault {
        Fault::Nodes => table.n = random.one_of(&[0, 1, 2, 3, 511, 512, 513, 514, u32::MAX]),
        Fault::ManyArcs => fill_with_arcs(random, table),
        Fault::Ends => put_end(random, table),
        Fault::Node | Fault::Loop | Fault::Capacity | Fault::Minimum => put_arc_fault(random, table, fault),
    }
}

/// Adds arcs up to 4,095, 4,096 or 4,097.
fn fill_with_arcs(random: &mut Random, table: &mut OwnTable) {
    let m = random.one_of(&[4095, 4096, 4097, 4097]);
    let capacity = random.one_of(&[0, 1, 9]);
    let (s, t) = (table.s, table.t);
    while table.arcs() < m {
        table.add(s, t, capacity);
    }
}

/// Sets the source or the sink to a number at or past a bound, or to the other end.
fn put_end(random: &mut Random, table: &mut OwnTable) {
    let number = random.one_of(&[0, 1, table.n, table.n.wrapping_add(1), table.s, table.t, u32::MAX]);
    if random.once_in(2) {
        table.s = number;
    } else {
        table.t = number;
    }
}

/// Puts a fault at an arc, if there is one, and sometimes another one at the same arc.
fn put_arc_fault(random: &mut Random, table: &mut OwnTable, fault: Fault) {
    if table.arcs() == 0 {
        return;
    }
    let place = random.place(table.arcs());
    put_fault_at(random, table, place, fault);
    if random.once_in(3) {
        let other = random.one_of(&[Fault::Node, Fault::Loop, Fault::Capacity, Fault::Minimum]);
        put_fault_at(random, table, place, other);
    }
}

/// Puts a fault at the arc of a place.
fn put_fault_at(random: &mut Random, table: &mut OwnTable, place: usize, fault: Fault) {
    let n = table.n;
    match fault {
        Fault::Capacity => {
            let bounds = [999_999, 1_000_000, 1_000_001, 1_000_002, u32::MAX];
            table.capacities[place] = random.one_of(&bounds);
        }
        Fault::Minimum => {
            let capacity = table.capacities[place];
            let bounds = [
                capacity,
                capacity.saturating_add(1),
                capacity.saturating_add(1),
                u32::MAX,
            ];
            table.minimums[place] = random.one_of(&bounds);
        }
        Fault::Loop => table.heads[place] = table.tails[place],
        _ => {
            let node = random.one_of(&[0, 1, n, n.wrapping_add(1), n.wrapping_add(2), u32::MAX]);
            let row = if random.once_in(2) {
                &mut table.tails
            } else {
                &mut table.heads
            };
            row[place] = node;
        }
    }
}
