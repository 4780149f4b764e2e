//! The examples of document 01 worked through, its cases to run, the order of refusals, reading by place and the names.

mod shared;

use judge::compare::tables::OwnTable;
use judge::desk::desk;
use judge::reading::{read_place, Reading};
use judge::refusal::{Name, Refusal};
use judge::solve::{solve, Answer};
use judge::table::check;
use shared::{
    answer, assert_solved, assert_text_refused, reading, solved, table_of, work_need, LISTING_ARCS, LISTING_TEXT, STAMP,
};

/// The desk program prints these lines for the listing.
const LISTING_PRINTED: &str = "nodes=4\narcs=4\nvalue=1\nscale=4\nphases=3\nsaturating=3\n\
     nonsaturating=6\nrelabels=6\nside=1 2 3\nflow=1 0 1 1\n";

/// Solves with rows of sevens of the given lengths and checks a refusal that changes nothing.
fn assert_refused_in(table: &OwnTable, lengths: [usize; 3], name: Name, place: u32) {
    let mut flow = vec![7; lengths[0]];
    let mut side = vec![7; lengths[1]];
    let mut work = vec![7; lengths[2]];
    let found = solve(&table.lent(), STAMP, &mut flow, &mut side, &mut work);
    let refused = Answer {
        refusal: name.number(),
        place,
        ..Answer::default()
    };
    assert_eq!(found, refused);
    assert!(flow.iter().chain(&work).all(|number| *number == 7));
    assert!(side.iter().all(|mark| *mark == 7));
}

/// Checks that solving refuses a table although every row has room.
fn assert_refused(table: &OwnTable, name: Name, place: u32) {
    assert_refused_in(table, [5_000, 600, 20_000], name, place);
}

/// P1 has two nodes and no arcs.
#[test]
fn p1_two_nodes_and_no_arcs() {
    assert_solved(&table_of(2, &[]), answer(0, 0, 0, [0, 0, 0]), &[], &[1, 0]);
}

/// P2 has one arc from the source to the sink.
#[test]
fn p2_one_arc_from_source_to_sink() {
    let table = table_of(2, &[(1, 2, 5)]);
    assert_solved(&table, answer(5, 0, 0, [0, 0, 0]), &[5], &[1, 0]);
}

/// P3 has two arcs in a line.
#[test]
fn p3_two_arcs_in_a_line() {
    let table = table_of(3, &[(1, 2, 4), (2, 3, 3)]);
    assert_solved(&table, answer(3, 4, 3, [1, 1, 1]), &[3, 3], &[1, 1, 0]);
}

/// P4 has parallel arcs, so D comes from an excess and not from one capacity.
#[test]
fn p4_parallel_arcs() {
    let table = table_of(3, &[(1, 2, 3), (1, 2, 3), (2, 3, 6)]);
    assert_solved(&table, answer(6, 8, 4, [1, 0, 0]), &[3, 3, 6], &[1, 0, 0]);
}

/// P5 has opposite arcs, and each arc has its own flow.
#[test]
fn p5_opposite_arcs() {
    let table = table_of(3, &[(1, 2, 2), (2, 3, 2), (2, 1, 5), (3, 2, 5)]);
    assert_solved(&table, answer(2, 2, 2, [1, 0, 0]), &[2, 2, 0, 0], &[1, 0, 0]);
}

/// P6 is the listing of the desk program.
#[test]
fn p6_the_listing() {
    let table = table_of(4, &LISTING_ARCS);
    assert_solved(&table, answer(1, 4, 3, [3, 6, 6]), &[1, 0, 1, 1], &[1, 1, 1, 0]);
    assert_eq!(desk(LISTING_TEXT.as_bytes()), LISTING_PRINTED.as_bytes());
}

/// Reads place 0 of P2 with the stamps of the table and of the answer.
fn read_with_stamps(stamp: u32, answer_stamp: u32) -> Reading {
    let table = table_of(2, &[(1, 2, 5)]);
    read_place(&table.lent(), stamp, answer_stamp, &[5], &[1, 0], 0)
}

/// Makes the refusal of a reading.
fn unread(name: Name, place: u32) -> Reading {
    Reading {
        refusal: name.number(),
        place,
        ..Reading::default()
    }
}

/// P7 takes the difference of the stamps round 2^32: one rebuild ago.
#[test]
fn p7_stamps_are_taken_round() {
    assert_eq!(read_with_stamps(0, 4_294_967_295), unread(Name::Stale, 1));
}

/// P8 has the bounds between same, STALE, UNORDERED and AHEAD, and the distance of STALE and of AHEAD.
#[test]
fn p8_the_borders_of_the_stamps() {
    let half = 2_147_483_648;
    for (stamp, answer_stamp, name, distance) in [
        (half, 0, Name::Unordered, 0),
        (half + 1, 0, Name::Ahead, half - 1),
        (half - 1, 0, Name::Stale, half - 1),
        (1, 0, Name::Stale, 1),
        (8, 5, Name::Stale, 3),
        (1, 4_294_967_294, Name::Stale, 3),
        (0, 1, Name::Ahead, 1),
        (5, 8, Name::Ahead, 3),
        (4_294_967_294, 1, Name::Ahead, 3),
        (4_294_967_295, 0, Name::Ahead, 1),
        (5, half + 5, Name::Unordered, 0),
        (0, half, Name::Unordered, 0),
    ] {
        assert_eq!(read_with_stamps(stamp, answer_stamp), unread(name, distance));
    }
    for stamp in [0, 1, half, 4_294_967_295] {
        assert_eq!(read_with_stamps(stamp, stamp), reading(5, 5, 1));
    }
}

/// P9 has LOOP before CAPACITY and NODE before LOOP.
#[test]
fn p9_the_order_of_the_faults_of_an_arc() {
    assert_refused(&table_of(2, &[(1, 1, 1_000_001)]), Name::Loop, 0);
    assert_refused(&table_of(2, &[(3, 3, 1)]), Name::Node, 0);
}

/// P10 is the empty text.
#[test]
fn p10_the_empty_text() {
    assert_text_refused(b"", Name::Line, 1);
    assert_eq!(desk(b""), b"refusal=LINE\nplace=1\n");
}

/// Each name of refusal has its number and its word.
#[test]
fn names_have_their_numbers_and_words() {
    let names = [
        (Name::Nodes, "NODES"),
        (Name::Rows, "ROWS"),
        (Name::Arcs, "ARCS"),
        (Name::Ends, "ENDS"),
        (Name::Room, "ROOM"),
        (Name::Node, "NODE"),
        (Name::Loop, "LOOP"),
        (Name::Capacity, "CAPACITY"),
        (Name::Stale, "STALE"),
        (Name::Unordered, "UNORDERED"),
        (Name::Ahead, "AHEAD"),
        (Name::Place, "PLACE"),
        (Name::Line, "LINE"),
        (Name::Count, "COUNT"),
        (Name::Long, "LONG"),
    ];
    let later = [
        (16, (Name::Solution, "SOLUTION")),
        (17, (Name::Many, "MANY")),
        (18, (Name::Starts, "STARTS")),
        (19, (Name::Minimum, "MINIMUM")),
        (20, (Name::Impossible, "IMPOSSIBLE")),
        (21, (Name::Bounded, "BOUNDED")),
        (22, (Name::Lower, "LOWER")),
        (23, (Name::NotMax, "NOTMAX")),
    ];
    for (number, (name, word)) in (1..).zip(names).chain(later) {
        assert_eq!(name.number(), number);
        assert_eq!(name.word(), word);
    }
}

/// The number of nodes is run at 0, 1, 2, 512, 513 and the largest number.
#[test]
fn run_the_numbers_of_nodes() {
    for n in [0, 1, 513, 4_294_967_295] {
        assert_refused(&table_of(n, &[]), Name::Nodes, 0);
    }
    for n in [2, 512] {
        let mut side = vec![0; n as usize];
        side[0] = 1;
        assert_solved(&table_of(n, &[]), answer(0, 0, 0, [0, 0, 0]), &[], &side);
    }
    let table = table_of(512, &[(1, 511, 3), (511, 512, 2)]);
    assert_eq!(solved(&table).answer.value, 2);
}

/// The number of arcs is run at 4,096 and 4,097.
#[test]
fn run_the_numbers_of_arcs() {
    let table = table_of(2, &[(1, 2, 1); 4_096]);
    assert_solved(&table, answer(4_096, 0, 0, [0, 0, 0]), &[1; 4_096], &[1, 0]);
    assert_refused(&table_of(2, &[(1, 2, 1); 4_097]), Name::Arcs, 0);
}

/// The capacity is run at 0, 1,000,000, 1,000,001 and the largest number.
#[test]
fn run_the_capacities() {
    let table = table_of(2, &[(1, 2, 0), (1, 2, 1_000_000)]);
    assert_solved(&table, answer(1_000_000, 0, 0, [0, 0, 0]), &[0, 1_000_000], &[1, 0]);
    for capacity in [1_000_001, 4_294_967_295] {
        assert_refused(&table_of(2, &[(1, 2, 0), (1, 2, capacity)]), Name::Capacity, 1);
    }
}

/// Two nodes with 4,096 arcs of 1,000,000 have the largest value, and no excess is left at the start.
#[test]
fn run_the_greatest_value() {
    let table = table_of(2, &[(1, 2, 1_000_000); 4_096]);
    let expected = answer(4_096_000_000, 0, 0, [0, 0, 0]);
    assert_solved(&table, expected, &[1_000_000; 4_096], &[1, 0]);
}

/// Lent rows are run exact and one number short.
#[test]
fn run_the_lengths_of_the_lent_rows() {
    let listing = table_of(4, &LISTING_ARCS);
    let need = work_need(&listing);
    assert_eq!(need, 25);
    let (mut flow, mut side, mut work) = ([7; 4], [7; 4], [7; 25]);
    let found = solve(&listing.lent(), STAMP, &mut flow, &mut side, &mut work);
    assert_eq!(found, answer(1, 4, 3, [3, 6, 6]));
    assert_eq!(work, [0; 25]);
    for lengths in [[4, 4, need - 1], [3, 4, need], [4, 3, need], [0, 0, 0]] {
        assert_refused_in(&listing, lengths, Name::Room, 0);
    }
    assert_refused_in(&table_of(2, &[]), [0, 2, 8], Name::Room, 0);
    let full = table_of(512, &[(1, 2, 1); 4_096]);
    assert_eq!(work_need(&full), 10_241);
    assert_refused_in(&full, [4_096, 512, 10_240], Name::Room, 0);
    assert_eq!(solved(&full).answer.value, 0);
}

/// Solving gives the next refusal in order as one fault after the other is mended.
#[test]
fn solving_refuses_in_the_order_of_the_paper() {
    let mut table = OwnTable::with_arcs(513, 0, 0, &[(1, 2, 1), (0, 0, 1_000_001)]);
    table.heads.push(1);
    assert_refused_in(&table, [0, 0, 0], Name::Nodes, 0);
    table.n = 3;
    assert_refused_in(&table, [0, 0, 0], Name::Rows, 0);
    table.heads.pop();
    let mut many = table.clone();
    while many.arcs() < 4_097 {
        many.add(0, 0, 0);
    }
    assert_refused_in(&many, [0, 0, 0], Name::Arcs, 0);
    for (s, t) in [(0, 1), (1, 0), (4, 1), (1, 4), (2, 2), (4_294_967_295, 1)] {
        (table.s, table.t) = (s, t);
        assert_refused_in(&table, [0, 0, 0], Name::Ends, 0);
    }
    (table.s, table.t) = (3, 1);
    assert_refused_in(&table, [0, 0, 0], Name::Room, 0);
    for (tail, head, name) in [
        (0, 0, Name::Node),
        (2, 0, Name::Node),
        (2, 4, Name::Node),
        (2, 2, Name::Loop),
        (2, 3, Name::Capacity),
    ] {
        (table.tails[1], table.heads[1]) = (tail, head);
        assert_refused(&table, name, 1);
    }
    table.heads[0] = 9;
    assert_refused(&table, Name::Node, 0);
    table.heads[0] = 2;
    table.capacities[1] = 1_000_000;
    assert_eq!(solved(&table).answer.refusal, 0);
}

/// Rows that differ in length are refused by ROWS.
#[test]
fn rows_of_any_four_lengths() {
    for [tails, heads, capacities, minimums] in [
        [1, 0, 0, 0],
        [0, 1, 0, 0],
        [0, 0, 1, 0],
        [0, 0, 0, 1],
        [1, 1, 0, 1],
        [1, 1, 1, 0],
        [0, 5_000, 9_000, 0],
    ] {
        let table = OwnTable {
            tails: vec![1; tails],
            heads: vec![2; heads],
            capacities: vec![3; capacities],
            minimums: vec![0; minimums],
            ..table_of(2, &[])
        };
        assert_refused(&table, Name::Rows, 0);
        let (name, place) = (Name::Rows, 0);
        assert_eq!(check(&table.lent(), true), Err(Refusal { name, place }));
    }
}

/// Reading refuses by the table, by ROOM, by the arcs, by the stamps and then by PLACE.
#[test]
fn reading_refuses_in_the_order_of_the_paper() {
    let mut table = table_of(3, &[(1, 2, 4), (2, 3, 3)]);
    for place in [2, 3, 4_294_967_295] {
        let found = read_place(&table.lent(), 1, 1, &[3, 3], &[1, 1, 0], place);
        assert_eq!(found, unread(Name::Place, place));
    }
    let stale = |table: &OwnTable, flow: &[u32], side: &[u8]| read_place(&table.lent(), 1, 0, flow, side, 9);
    assert_eq!(stale(&table, &[3, 3], &[1, 1, 0]), unread(Name::Stale, 1));
    assert_eq!(stale(&table, &[3], &[1, 1, 0]), unread(Name::Room, 0));
    assert_eq!(stale(&table, &[3, 3], &[1, 1]), unread(Name::Room, 0));
    table.capacities[1] = 1_000_001;
    assert_eq!(stale(&table, &[3, 3], &[1, 1, 0]), unread(Name::Capacity, 1));
    table.t = 1;
    assert_eq!(stale(&table, &[], &[]), unread(Name::Ends, 0));
    table.n = 4_294_967_295;
    assert_eq!(stale(&table, &[], &[]), unread(Name::Nodes, 0));
}

/// Reading gives flow, capacity and crossing at a place, where a mark of 2 is not 1.
#[test]
fn reading_gives_flow_capacity_and_crossing() {
    let table = table_of(3, &[(1, 2, 4), (2, 3, 3), (3, 2, 9)]);
    let cases: [(&[u8], u32, Reading); 7] = [
        (&[1, 1, 0], 0, reading(3, 4, 0)),
        (&[1, 1, 0], 1, reading(2, 3, 1)),
        (&[1, 1, 0], 2, reading(1, 9, 0)),
        (&[1, 2, 0], 0, reading(3, 4, 1)),
        (&[1, 2, 0], 1, reading(2, 3, 0)),
        (&[0, 255, 1, 7], 2, reading(1, 9, 1)),
        (&[0, 255, 1, 7], 0, reading(3, 4, 0)),
    ];
    for (side, place, expected) in cases {
        let found = read_place(&table.lent(), 8, 8, &[3, 2, 1, 7], side, place);
        assert_eq!(found, expected);
    }
}
