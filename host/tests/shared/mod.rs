//! Helpers that more than one test file uses.

// Each test file is built with a copy of its own and uses only a part of it.
#![allow(dead_code)]

use judge::compare::random::Random;
use judge::compare::tables::OwnTable;
use judge::reading::Reading;
use judge::refusal::{Name, Refusal};
use judge::solve::{solve, Answer};
use judge::text::{read, Given};

/// The arcs of the listing are given as tail, head and capacity.
pub const LISTING_ARCS: [(u32, u32, u32); 4] = [(1, 2, 4), (1, 3, 2), (2, 3, 4), (3, 4, 1)];

/// The desk program is given this text in the listing.
pub const LISTING_TEXT: &str = "p max 4 4\nn 1 s\nn 4 t\na 1 2 4\na 1 3 2\na 2 3 4\na 3 4 1\n";

/// The solved tables of the tests have this stamp.
pub const STAMP: u32 = 5;

/// Makes a table of some arcs with s = 1 and t = n.
pub fn table_of(n: u32, arcs: &[(u32, u32, u32)]) -> OwnTable {
    OwnTable::with_arcs(n, 1, n, arcs)
}

/// Counts the numbers of the work row that solving a table needs.
pub fn work_need(table: &OwnTable) -> usize {
    4 * table.n as usize + 2 * table.arcs() + 1
}

/// A solved table has an answer, flows and marks.
pub struct Solved {
    pub answer: Answer,
    pub flow: Vec<u32>,
    pub side: Vec<u8>,
}

/// Solves a table into longer rows of sevens and checks the work row and all later places.
pub fn solved(table: &OwnTable) -> Solved {
    let (n, m, need) = (table.n as usize, table.arcs(), work_need(table));
    let mut flow = vec![7; m + 3];
    let mut side = vec![7; n + 3];
    let mut work = vec![7; need + 3];
    let answer = solve(&table.lent(), STAMP, &mut flow, &mut side, &mut work);
    assert_eq!((answer.refusal, answer.place, answer.stamp), (0, 0, STAMP));
    assert_eq!(flow.split_off(m), [7, 7, 7]);
    assert_eq!(side.split_off(n), [7, 7, 7]);
    assert_eq!(work.split_off(need), [7, 7, 7]);
    assert!(work.iter().all(|number| *number == 0));
    Solved { answer, flow, side }
}

/// Makes the answer with a value, a scale, phases and the three counts.
pub fn answer(value: i64, scale: u64, phases: u32, counts: [u64; 3]) -> Answer {
    let [saturating, nonsaturating, relabels] = counts;
    Answer {
        refusal: 0,
        place: 0,
        stamp: STAMP,
        value,
        scale,
        phases,
        saturating,
        nonsaturating,
        relabels,
    }
}

/// Checks that a table is solved with exactly these numbers, flows and marks.
pub fn assert_solved(table: &OwnTable, answer: Answer, flow: &[u32], side: &[u8]) {
    let found = solved(table);
    assert_eq!(found.answer, answer);
    assert_eq!(found.flow, flow);
    assert_eq!(found.side, side);
}

/// Makes the reading with a flow, a capacity and whether the arc crosses the cut.
pub fn reading(flow: u32, capacity: u32, crossing: u32) -> Reading {
    Reading {
        refusal: 0,
        place: 0,
        flow,
        capacity,
        crossing,
    }
}

/// Reads a text into four arc rows of sevens with the given lengths.
pub fn read_in(text: &[u8], lengths: [usize; 4]) -> (Result<Given, Refusal>, [Vec<u32>; 4]) {
    let [mut tails, mut heads, mut capacities, mut minimums] = lengths.map(|length| vec![7; length]);
    let found = read(text, &mut tails, &mut heads, &mut capacities, &mut minimums);
    (found, [tails, heads, capacities, minimums])
}

/// Gives the first 200 bytes of a text to print.
pub fn shown(text: &[u8]) -> String {
    format!("{:?}", String::from_utf8_lossy(&text[..text.len().min(200)]))
}

/// Checks that a text is refused and that arc rows of the given lengths are unchanged.
pub fn assert_text_refused_in(text: &[u8], lengths: [usize; 4], name: Name, place: u32) {
    let (found, rows) = read_in(text, lengths);
    assert_eq!(found, Err(Refusal { name, place }), "{}", shown(text));
    assert!(rows.iter().flatten().all(|number| *number == 7));
}

/// Checks that a text is refused although every arc row has room.
pub fn assert_text_refused(text: &[u8], name: Name, place: u32) {
    assert_text_refused_in(text, [4_100, 4_101, 4_102, 4_103], name, place);
}

/// Takes two different nodes of 1 to n at random.
fn two_random_nodes(random: &mut Random, n: u32) -> (u32, u32) {
    let one = random.between(1, n);
    let other = random.between(1, n - 1);
    (one, if other < one { other } else { other + 1 })
}

/// Makes a random table with n nodes, m arcs and capacities up to a largest one.
pub fn random_table_of(random: &mut Random, n: u32, m: u32, largest: u32) -> OwnTable {
    let (s, t) = two_random_nodes(random, n);
    let mut table = OwnTable::without_arcs(n, s, t);
    for _ in 0..m {
        let (tail, head) = two_random_nodes(random, n);
        table.add(tail, head, random.between(0, largest));
    }
    table
}

/// Makes a random table of few nodes, with capacities of several sizes.
pub fn small_random_table(seed: u64, index: u64, most_nodes: u32) -> OwnTable {
    let mut random = Random::of_case(seed, index);
    let n = random.between(2, most_nodes);
    let m = random.between(0, 4 * n);
    let largest = random.one_of(&[1, 2, 5, 20, 1_000, 1_000_000]);
    random_table_of(&mut random, n, m, largest)
}
