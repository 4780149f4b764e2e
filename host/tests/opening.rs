//! Opening a place: the example worked through, the order of refusals, and truths on random tables.

mod shared;

use judge::compare::caller::NUMBERS;
use judge::compare::openings::{brought, random_opening};
use judge::compare::random::Random;
use judge::compare::tables::OwnTable;
use judge::opening::{fill_chains, open, why_not_maximum, Chain, NotMaximum, Opening};
use judge::refusal::Name;
use judge::solve::Answer;
use shared::{small_random_table, solved, table_of, work_need, LISTING_ARCS, STAMP};

/// Makes the answer of an opening.
fn opened(stamp: u32, value: i64) -> Answer {
    Answer {
        stamp,
        value,
        ..Answer::default()
    }
}

/// The lent rows of an opening.
#[derive(Clone, PartialEq, Eq, Debug)]
struct Rows {
    flow: Vec<u32>,
    side: Vec<u8>,
    work: Vec<u32>,
}

impl Rows {
    /// Makes rows that are longer than they must be by `more`, sevens after the flow.
    fn of(table: &OwnTable, flow: &[u32], more: usize) -> Rows {
        let mut flow = flow.to_vec();
        flow.resize(table.arcs() + more, 7);
        Rows {
            flow,
            side: vec![7; table.n as usize + more],
            work: vec![7; work_need(table) + more],
        }
    }

    /// Opens a place with these rows.
    fn open(&mut self, table: &OwnTable, stamp: u32, place: u32, capacity: u32) -> Answer {
        let opening = Opening { place, capacity };
        open(
            &table.lent(),
            stamp,
            opening,
            &mut self.flow,
            &mut self.side,
            &mut self.work,
        )
    }
}

/// Checks a refusal that leaves every row unchanged.
fn assert_refused(table: &OwnTable, rows: &Rows, opening: (u32, u32), name: Name, at: u32) {
    let mut after = rows.clone();
    let refused = Answer {
        refusal: name.number(),
        place: at,
        ..Answer::default()
    };
    assert_eq!(after.open(table, STAMP, opening.0, opening.1), refused);
    assert_eq!(after, *rows);
}

/// Makes the table with another capacity at a place.
fn with_capacity(table: &OwnTable, place: usize, capacity: u32) -> OwnTable {
    let mut table = table.clone();
    table.capacities[place] = capacity;
    table
}

/// The listing opens at place 3: two chains, the shorter one first.
#[test]
fn the_listing_opens_at_its_last_place() {
    let listing = table_of(4, &LISTING_ARCS);
    let mut flow = vec![1, 0, 1, 1];
    let chains = fill_chains(&with_capacity(&listing, 3, 6).lent(), &mut flow);
    let chain = |amount, places: &[usize]| Chain {
        amount,
        places: places.to_vec(),
    };
    assert_eq!(chains, [chain(2, &[1, 3]), chain(3, &[0, 2, 3])]);
    let mut rows = Rows::of(&listing, &[1, 0, 1, 1], 2);
    assert_eq!(rows.open(&listing, 5, 3, 6), opened(6, 6));
    assert_eq!(rows.flow, [4, 2, 4, 6, 7, 7]);
    assert_eq!(rows.side, [1, 0, 0, 0, 7, 7]);
    let mut work = vec![0; 25];
    work.extend([7, 7]);
    assert_eq!(rows.work, work);
}

/// An equal capacity is allowed, and the stamp still rises, round 2^32.
#[test]
fn an_equal_capacity_raises_the_stamp() {
    let listing = table_of(4, &LISTING_ARCS);
    for (stamp, raised) in [(0, 1), (4_294_967_294, 4_294_967_295), (4_294_967_295, 0)] {
        let mut rows = Rows::of(&listing, &[1, 0, 1, 1], 0);
        assert_eq!(rows.open(&listing, stamp, 3, 1), opened(raised, 1));
        assert_eq!(rows.flow, [1, 0, 1, 1]);
        assert_eq!(rows.side, [1, 1, 1, 0]);
    }
}

/// Opening gives the next refusal in order as one fault after the other is mended.
#[test]
fn opening_refuses_in_the_order_of_the_request() {
    let mut table = OwnTable::with_arcs(513, 1, 1, &[(1, 2, 4), (2, 2, 1_000_001)]);
    table.heads.push(1);
    table.minimums[0] = 1;
    let short = Rows::of(&table_of(3, &[]), &[], 0);
    let asked = (2, 1_000_001);
    assert_refused(&table, &short, asked, Name::Nodes, 0);
    table.n = 3;
    assert_refused(&table, &short, asked, Name::Rows, 0);
    table.heads.pop();
    assert_refused(&table, &short, asked, Name::Ends, 0);
    table.t = 3;
    assert_refused(&table, &short, asked, Name::Room, 0);
    let rows = Rows::of(&table, &[9, 9], 1);
    assert_refused(&table, &rows, asked, Name::Loop, 1);
    table.heads[1] = 3;
    assert_refused(&table, &rows, asked, Name::Capacity, 1);
    table.capacities[1] = 3;
    assert_refused(&table, &rows, asked, Name::Bounded, 0);
    table.minimums[0] = 5;
    assert_refused(&table, &rows, asked, Name::Minimum, 0);
    table.minimums[0] = 0;
    assert_refused(&table, &rows, asked, Name::Place, 2);
    assert_refused(&table, &rows, (4_294_967_295, 0), Name::Place, 4_294_967_295);
    assert_refused(&table, &rows, (1, 1_000_001), Name::Capacity, 1);
    assert_refused(&table, &rows, (0, 4_294_967_295), Name::Capacity, 0);
    assert_refused(&table, &rows, (1, 2), Name::Lower, 0);
    assert_refused(&table, &rows, (1, 3), Name::NotMax, 0);
    let mut rows = Rows::of(&table, &[3, 3], 1);
    assert_eq!(rows.open(&table, STAMP, 1, 1_000_000), opened(STAMP + 1, 4));
    assert_eq!(rows.flow, [4, 4, 7]);
}

/// Each lent row is run exact and one number short.
#[test]
fn room_for_an_opening() {
    let listing = table_of(4, &LISTING_ARCS);
    let exact = Rows::of(&listing, &[1, 0, 1, 1], 0);
    assert_eq!(exact.clone().open(&listing, STAMP, 3, 2), opened(STAMP + 1, 2));
    for row in 0..3 {
        let mut rows = exact.clone();
        match row {
            0 => rows.flow.truncate(3),
            1 => rows.side.truncate(3),
            _ => rows.work.truncate(24),
        }
        assert_refused(&listing, &rows, (3, 2), Name::Room, 0);
    }
}

/// A row is no maximum flow above a capacity, where it isn't conserved, and where the sink can be reached.
#[test]
fn rows_that_are_no_maximum_flow() {
    let table = table_of(3, &[(1, 2, 4), (2, 3, 3), (3, 2, 2), (2, 1, 2)]);
    let cases: [(&[u32], NotMaximum); 6] = [
        (&[4, 4, 0, 0], NotMaximum::AboveCapacity),
        (&[4_294_967_295, 4_294_967_295, 0, 0], NotMaximum::AboveCapacity),
        (&[4, 3, 0, 0], NotMaximum::NotConserved),
        (&[3, 3, 1, 0], NotMaximum::NotConserved),
        (&[2, 2, 0, 0], NotMaximum::SinkReachable),
        (&[0, 0, 0, 0], NotMaximum::SinkReachable),
    ];
    for (flow, why) in cases {
        assert_eq!(why_not_maximum(&table.lent(), flow), Some(why));
        assert_refused(&table, &Rows::of(&table, flow, 1), (0, 9), Name::NotMax, 0);
    }
    for flow in [[3, 3, 0, 0], [4, 3, 0, 1], [4, 3, 2, 3]] {
        let is_maximum = flow[3] <= 2;
        assert_eq!(why_not_maximum(&table.lent(), &flow).is_none(), is_maximum);
    }
    let through_the_sink = table_of(3, &[(1, 2, 4), (2, 3, 3), (3, 2, 2), (2, 1, 5)]);
    assert_eq!(
        why_not_maximum(&through_the_sink.lent(), &[4, 3, 2, 3]),
        Some(NotMaximum::SinkReachable)
    );
}

/// Lists every chain over residual arcs that visits no node twice.
fn all_chains(table: &OwnTable, flow: &[u32], node: u32, walk: &mut Vec<usize>, seen: &mut Vec<u32>) -> Vec<Chain> {
    if node == table.t {
        let (amount, places) = (u32::MAX, walk.clone());
        return vec![Chain { amount, places }];
    }
    let mut chains = Vec::new();
    for place in 0..table.arcs() {
        let (tail, head) = (table.tails[place], table.heads[place]);
        let (next, residual) = match node {
            _ if node == tail => (head, table.capacities[place] - flow[place]),
            _ if node == head => (tail, flow[place]),
            _ => continue,
        };
        if residual == 0 || seen.contains(&next) {
            continue;
        }
        walk.push(place);
        seen.push(next);
        for chain in all_chains(table, flow, next, walk, seen) {
            let amount = chain.amount.min(residual);
            chains.push(Chain { amount, ..chain });
        }
        seen.pop();
        walk.pop();
    }
    chains
}

/// Fills a chain arc by arc.
fn fill_by_hand(table: &OwnTable, flow: &mut [u32], chain: &Chain) {
    let mut node = table.s;
    for place in &chain.places {
        if table.tails[*place] == node {
            flow[*place] += chain.amount;
            node = table.heads[*place];
        } else {
            flow[*place] -= chain.amount;
            node = table.tails[*place];
        }
    }
}

/// Checks each chain against all chains there are: none has fewer arcs, and of those with as few none has lower places.
fn assert_chains(table: &OwnTable, mut flow: Vec<u32>) {
    let mut filled = flow.clone();
    for chain in fill_chains(&table.lent(), &mut filled) {
        let all = all_chains(table, &flow, table.s, &mut Vec::new(), &mut vec![table.s]);
        let least = all
            .into_iter()
            .min_by_key(|chain| (chain.places.len(), chain.places.clone()));
        assert_eq!(Some(&chain), least.as_ref());
        fill_by_hand(table, &mut flow, &chain);
    }
    assert!(all_chains(table, &flow, table.s, &mut Vec::new(), &mut vec![table.s]).is_empty());
    assert_eq!(flow, filled);
}

/// Checks that opening a place from a maximum flow gives value and side of the new table solved afresh.
fn assert_as_afresh(table: &OwnTable, flow: &[u32], place: usize, capacity: u32) {
    let new = with_capacity(table, place, capacity);
    let afresh = solved(&new);
    let mut rows = Rows::of(table, flow, 1);
    let answer = rows.open(table, 9, place as u32, capacity);
    assert_eq!(answer, opened(10, afresh.answer.value));
    assert_eq!(rows.side[..table.n as usize], afresh.side);
    assert_eq!(why_not_maximum(&new.lent(), &rows.flow[..table.arcs()]), None);
    assert_eq!(
        (rows.flow.pop(), rows.side.pop(), rows.work.pop()),
        (Some(7), Some(7), Some(7))
    );
    assert!(rows.work.iter().all(|number| *number == 0));
}

/// Small random tables, opened anywhere from the run's flow, take the chains of the request.
#[test]
fn chains_of_small_random_tables() {
    for index in 0..1_500 {
        let table = small_random_table(21, index, 6);
        let mut random = Random::of_case(22, index);
        if table.arcs() == 0 || table.arcs() > 14 {
            continue;
        }
        let flow = solved(&table).flow;
        for _ in 0..3 {
            let place = random.place(table.arcs());
            let capacity = random.between(table.capacities[place], 1_000_000);
            assert_as_afresh(&table, &flow, place, capacity);
            assert_chains(&with_capacity(&table, place, capacity), flow.clone());
        }
        assert_chains(&table, vec![0; table.arcs()]);
    }
}

/// The openings of the comparison, other maximum flows among them, give value and side as solving afresh does.
#[test]
fn openings_of_the_comparison() {
    let mut others = 0;
    for index in 0..4_000 {
        let call = random_opening(5, index);
        let (table, m) = (&call.table, call.table.arcs());
        let mut rows = Rows {
            flow: call.flow.clone(),
            side: call.side.clone(),
            work: call.work.clone(),
        };
        let answer = rows.open(table, call.stamp, call.place, call.capacity);
        if answer.refusal == 0 {
            assert_as_afresh(table, &call.flow[..m], call.place as usize, call.capacity);
            let things = brought(&call, &[0; NUMBERS]);
            others += u32::from(things.contains(&"another maximum flow".to_string()));
        }
    }
    assert!(others > 500);
}
