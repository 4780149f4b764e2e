//! Throwing out what can't matter: examples, refusals, and truths on random tables.

mod shared;

use judge::compare::tables::OwnTable;
use judge::opening::why_not_maximum;
use judge::reduce::{reduce, small_of, Small, SmallRows};
use judge::side::side;
use judge::solve::Answer;
use shared::{answer, small_random_table, solved, table_of, work_need, LISTING_ARCS, STAMP};

/// All rows after a reduction.
#[derive(PartialEq, Eq, Debug)]
struct Rows {
    flow: Vec<u32>,
    side: Vec<u8>,
    work: Vec<u32>,
    small: [Vec<u32>; 5],
}

/// Reduces with a stamp in rows of sevens, the five small rows of these lengths.
fn reduced(table: &OwnTable, stamp: u32, lengths: [usize; 5]) -> (Answer, [u32; 5], Rows) {
    let mut rows = Rows {
        flow: vec![7; table.arcs() + 1],
        side: vec![7; table.n as usize + 1],
        work: vec![7; work_need(table) + 1],
        small: lengths.map(|length| vec![7; length]),
    };
    let [tails, heads, capacities, nodes_from, arcs_from] = &mut rows.small;
    let small = &mut SmallRows {
        tails,
        heads,
        capacities,
        nodes_from,
        arcs_from,
    };
    let (flow, side, work) = (&mut rows.flow, &mut rows.side, &mut rows.work);
    let (answer, sizes) = reduce(&table.lent(), stamp, flow, side, work, small);
    (answer, sizes, rows)
}

/// The lengths that the five rows must have.
fn needs(table: &OwnTable) -> [usize; 5] {
    let m = table.arcs();
    [m, m, m, table.n as usize, m]
}

/// Checks that reducing is refused and changes nothing.
fn assert_refused(table: &OwnTable, lengths: [usize; 5], refusal: u32, place: u32) {
    let (answer, sizes, rows) = reduced(table, STAMP, lengths);
    let refused = Answer {
        refusal,
        place,
        ..Answer::default()
    };
    assert_eq!((answer, sizes), (refused, [0; 5]));
    assert!(rows
        .flow
        .iter()
        .chain(&rows.work)
        .chain(rows.small.iter().flatten())
        .all(|number| *number == 7));
    assert!(rows.side.iter().all(|mark| *mark == 7));
}

/// A table with an arc of capacity 0 and a group that leads nowhere.
#[test]
fn what_leads_nowhere_is_thrown_out() {
    let arcs = [
        (1, 2, 3),
        (1, 3, 5),
        (2, 5, 2),
        (1, 5, 0),
        (4, 5, 9),
        (5, 2, 1),
        (2, 1, 4),
    ];
    let table = table_of(5, &arcs);
    let (found, sizes, rows) = reduced(&table, u32::MAX, needs(&table).map(|need| need + 1));
    assert_eq!(sizes, [3, 4, 1, 3, 0]);
    assert_eq!(rows.small[0], [1, 2, 3, 2, 7, 7, 7, 7]);
    assert_eq!(rows.small[1], [2, 3, 2, 1, 7, 7, 7, 7]);
    assert_eq!(rows.small[2], [3, 2, 1, 4, 7, 7, 7, 7]);
    assert_eq!(rows.small[3], [1, 2, 5, 7, 7, 7]);
    assert_eq!(rows.small[4], [0, 2, 5, 6, 7, 7, 7, 7]);
    assert_eq!((found.value, found.stamp, found.scale), (2, u32::MAX, 4));
    assert_eq!((rows.flow[1], rows.flow[3], rows.flow[4], rows.flow[7]), (0, 0, 0, 7));
    assert_eq!(rows.side, [1, 1, 1, 0, 0, 7]);
    assert!(rows.work[..work_need(&table)].iter().all(|number| *number == 0));
}

/// Without a way from source to sink they stand alone, the lower number first.
#[test]
fn without_a_way_the_ends_stand_alone() {
    let table = OwnTable::with_arcs(4, 3, 2, &[(2, 3, 5), (3, 4, 1), (1, 2, 1)]);
    let (found, sizes, rows) = reduced(&table, STAMP, needs(&table));
    assert_eq!((found, sizes), (answer(0, 0, 0, [0; 3]), [2, 0, 2, 1, STAMP + 1]));
    assert_eq!(rows.small[3], [2, 3, 7, 7]);
    assert_eq!(rows.flow, [0, 0, 0, 7]);
    assert_eq!(rows.side, [0, 0, 1, 1, 7]);
}

/// ROOM stands in its place for each row, and BOUNDED after the table's checks.
#[test]
fn reducing_refuses_in_order() {
    let mut listing = table_of(4, &LISTING_ARCS);
    let exact = needs(&listing);
    assert_eq!(reduced(&listing, STAMP, exact).0, answer(1, 4, 3, [3, 6, 6]));
    for row in 0..5 {
        let mut lengths = exact;
        lengths[row] -= 1;
        assert_refused(&listing, lengths, 5, 0);
    }
    listing.minimums[0] = 1;
    assert_refused(&listing, exact, 21, 0);
    listing.heads[3] = 3;
    assert_refused(&listing, exact, 7, 3);
    assert_refused(&listing, [0; 5], 5, 0);
    listing.t = 9;
    assert_refused(&listing, [0; 5], 4, 0);
}

/// The flow put back is a maximum flow of the old table, and its side is marked afresh.
#[test]
fn truths_of_random_reductions() {
    for index in 0..2_000 {
        let mut table = small_random_table(91, index, 8);
        for place in (0..table.arcs()).filter(|place| (place * 7 + index as usize) % 3 == 0) {
            table.capacities[place] = 0;
        }
        let old = solved(&table);
        let (found, sizes, rows) = reduced(&table, STAMP, needs(&table));
        let flow = &rows.flow[..table.arcs()];
        assert_eq!(found.value, old.answer.value);
        assert_eq!(why_not_maximum(&table.lent(), flow), None);
        assert_eq!(rows.side[..table.n as usize], side(&table.lent(), flow));
        assert_eq!(rows.side[..table.n as usize], old.side);
        let small = small_of(&table.lent());
        assert_small(&table, &small);
        assert_eq!(
            sizes[..2],
            [small.nodes_from.len() as u32, small.arcs_from.len() as u32]
        );
    }
}

/// Checks that the small table's rows are those of its origins, in order.
fn assert_small(table: &OwnTable, small: &Small) {
    assert!(small.nodes_from.windows(2).all(|pair| pair[0] < pair[1]));
    assert!(small.arcs_from.windows(2).all(|pair| pair[0] < pair[1]));
    let old = |node: u32| small.nodes_from[node as usize - 1];
    assert_eq!((old(small.source), old(small.sink)), (table.s, table.t));
    for (place, from) in small.arcs_from.iter().enumerate() {
        let from = *from as usize;
        assert_eq!(
            (old(small.tails[place]), old(small.heads[place])),
            (table.tails[from], table.heads[from])
        );
        assert_eq!(small.capacities[place], table.capacities[from]);
        assert!(small.capacities[place] > 0);
    }
}
