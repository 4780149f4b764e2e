//! The families of seeded tables, built from docs/FAMILIES.md.

use crate::compare::caller::{Call, Kind};
use crate::compare::tables::OwnTable;
use crate::solve::work_need;

/// The families, in the order of their numbers.
#[derive(Clone, Copy, PartialEq, Eq, Debug)]
pub enum Family {
    Fits,
    Overasked,
    Hub,
    Uniform,
    Parallel,
    Disconnected,
    Grid,
    Chains,
    Seesaw,
}

/// All families.
pub const FAMILIES: [Family; 9] = [
    Family::Fits,
    Family::Overasked,
    Family::Hub,
    Family::Uniform,
    Family::Parallel,
    Family::Disconnected,
    Family::Grid,
    Family::Chains,
    Family::Seesaw,
];

/// The three draws of a place.
#[derive(Clone, Copy)]
struct Draws {
    a: u32,
    b: u32,
    c: u32,
}

/// A tail, a head and a capacity.
type Arc = (u32, u32, u32);

/// Makes the next state and gives its draw.
fn draw(state: &mut u32) -> u32 {
    *state = state.wrapping_mul(1_664_525).wrapping_add(1_013_904_223);
    *state / 256
}

/// A layered table's arc: groups, sessions and chairs between the source and the sink.
fn layered(n: u32, k: u32, draws: Draws, asked: u32, open: u32, firm: u32) -> Arc {
    let q = (n - 2) / 3;
    let (group, session, chair) = (2, 2 + q, 2 + 2 * q);
    let (j, x, y) = (k % q, draws.a % q, draws.b % q);
    match k / q {
        0 => (1, group + j, asked),
        1 => (group + j, session + j, firm),
        2 => (session + j, chair + j, firm),
        3 => (chair + j, n, open),
        _ if k % 2 == 1 => (session + x, chair + y, 1 + draws.c % 30),
        _ => (group + x, session + y, 1 + draws.c % 30),
    }
}

/// An arc that touches node 2.
fn hub(n: u32, k: u32, draws: Draws) -> Arc {
    let capacity = 1 + draws.c % 50;
    let other = 3 + draws.b % (n - 2);
    match (k % 2, draws.a % 4) {
        (1, _) => (2, other, capacity),
        (_, 0) => (1, 2, capacity),
        _ => (other, 2, capacity),
    }
}

/// An arc between any two nodes.
fn uniform(n: u32, draws: Draws) -> Arc {
    let tail = 1 + draws.a % n;
    let further = 1 + draws.b % (n - 1);
    let head = 1 + (tail - 1 + further) % n;
    (tail, head, draws.c % 1_000_001)
}

/// One of eight arcs between neighbours, this way or the other.
fn parallel(n: u32, k: u32, draws: Draws) -> Arc {
    let i = 1 + (k / 8) % (n - 1);
    let capacity = draws.c % 1_000;
    match draws.b % 2 {
        0 => (i, i + 1, capacity),
        _ => (i + 1, i, capacity),
    }
}

/// An arc within the source's half or within the sink's.
fn disconnected(n: u32, draws: Draws) -> Arc {
    let half = n / 2;
    let (first, size) = match draws.a % 2 {
        0 => (0, half),
        _ => (half, n - half),
    };
    let x = (draws.a / 2) % size;
    let y = (x + 1 + draws.b % (size - 1)) % size;
    (first + 1 + x, first + 1 + y, 1 + draws.c % 100)
}

/// An arc of a grid with rows of 16, or between it and the source or the sink.
fn grid(n: u32, k: u32, draws: Draws) -> Arc {
    let g = k % (n - 2);
    let here = 2 + g;
    let inner = |node: u32| if node < n { node } else { n };
    let (tail, head) = match (k / (n - 2)) % 5 {
        0 => (here, inner(here + 1)),
        1 => (here, inner(here + 16)),
        2 => (1, here),
        3 => (here, if g > 0 { here - 1 } else { n }),
        _ => (here, if g >= 16 { here - 16 } else { n }),
    };
    (tail, head, 1 + draws.c % 100)
}

/// An arc of one of four chains.
fn chains(n: u32, k: u32, draws: Draws) -> Arc {
    let j = k % (n + 2);
    let capacity = 1 + draws.c % 1_000;
    if j < 4 {
        (1, 2 + j, capacity)
    } else {
        let i = j - 2;
        (i, (i + 4).min(n), capacity)
    }
}

/// An arc of the seesaw: one wide arc into node 2, narrow ones to node 3, and last a wide one.
fn seesaw(m: u32, k: u32) -> Arc {
    if k == 0 {
        (1, 2, 1_000_000)
    } else if k == m - 1 {
        (2, 3, 1_000_000)
    } else {
        (2, 3, 1)
    }
}

impl Family {
    /// The family's name.
    pub fn word(self) -> String {
        format!("{self:?}").to_lowercase()
    }

    /// The arc at place k.
    fn arc(self, n: u32, m: u32, k: u32, draws: Draws) -> Arc {
        match self {
            Family::Fits => layered(n, k, draws, 1 + draws.c % 20, 1_000, 1_000),
            Family::Overasked => layered(n, k, draws, 100 + draws.c % 200, 1 + draws.c % 20, 50),
            Family::Hub => hub(n, k, draws),
            Family::Uniform => uniform(n, draws),
            Family::Parallel => parallel(n, k, draws),
            Family::Disconnected => disconnected(n, draws),
            Family::Grid => grid(n, k, draws),
            Family::Chains => chains(n, k, draws),
            Family::Seesaw => seesaw(m, k),
        }
    }

    /// The family's table of n nodes and m arcs.
    pub fn table(self, n: u32, m: u32) -> OwnTable {
        let mut table = OwnTable::without_arcs(n, 1, n);
        let mut state = 2026 + 1 + self as u32;
        for k in 0..m {
            let draws = Draws {
                a: draw(&mut state),
                b: draw(&mut state),
                c: draw(&mut state),
            };
            let (tail, head, capacity) = self.arc(n, m, k, draws);
            table.add(tail, head, capacity);
        }
        table
    }
}

/// The call of solving a family's table, in rows of sevens that are longer than they must be.
fn solving(family: Family, n: u32, m: u32) -> Call {
    let table = family.table(n, m);
    let work = work_need(&table.lent()) as usize;
    Call {
        stamp: n,
        flow: vec![7; m as usize + 1],
        side: vec![7; n as usize + 1],
        work: vec![7; work + 1],
        ..Call::of(Kind::Solve, table)
    }
}

/// The calls of solving all families' tables, small or at full size, each with its name and sizes.
pub fn calls(full: bool) -> Vec<(String, Call)> {
    let sizes: &[(u32, u32)] = if full { &[(512, 4096)] } else { &[(8, 24), (64, 512)] };
    let mut calls = Vec::new();
    for (n, m) in sizes {
        for family in FAMILIES {
            calls.push((format!("{} {n} {m}", family.word()), solving(family, *n, *m)));
        }
    }
    calls
}
