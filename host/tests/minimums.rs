//! Minimums: examples, the order of refusals, and truths on random tables.

mod shared;

use judge::bounded::{is_greatest, some_kept_flow};
use judge::compare::random::Random;
use judge::compare::tables::OwnTable;
use judge::compare::walks::{put_any_minimums, put_kept_minimums};
use judge::desk::{desk, is_printed};
use judge::reading::read_place;
use judge::refusal::Name;
use judge::solve::{solve, Answer};
use shared::{answer, assert_text_refused, read_in, reading, small_random_table, solved, work_need, STAMP};

/// Solves with rows of sevens and checks a refusal that changes nothing.
fn assert_refused(table: &OwnTable, name: Name, place: u32) {
    let (mut flow, mut side, mut work) = ([7; 99], [7; 99], [7; 999]);
    let found = solve(&table.lent(), STAMP, &mut flow, &mut side, &mut work);
    let refused = Answer {
        refusal: name.number(),
        place,
        ..Answer::default()
    };
    assert_eq!(found, refused);
    assert_eq!((flow, side, work), ([7; 99], [7; 99], [7; 999]));
}

/// Checks the value and the side of a table with minimums, whose scale, phases and counts are 0.
fn assert_value_and_side(table: &OwnTable, value: i64, side: &[u8]) {
    let found = solved(table);
    assert_eq!(found.answer, answer(value, 0, 0, [0, 0, 0]));
    assert_eq!(found.side, side);
    assert!(is_greatest(&table.lent(), &found.flow, value, side));
}

/// The listing with minimums and an arc back from the sink has a value below 0.
#[test]
fn the_listing_with_an_arc_back() {
    let arcs = [(1, 2, 4, 0), (1, 3, 2, 0), (2, 3, 4, 1), (3, 4, 1, 0), (4, 1, 3, 2)];
    let table = OwnTable::with_bounded_arcs(4, 1, 4, &arcs);
    assert_value_and_side(&table, -1, &[1, 1, 1, 0]);
    let printed = String::from_utf8(desk(table.text().as_bytes())).expect("the desk program prints ASCII");
    assert!(printed.starts_with("nodes=4\narcs=5\nvalue=-1\nscale=0\nphases=0\nsaturating=0\n"));
    assert!(printed.contains("\nside=1 2 3\nflow="));
}

/// One arc from the sink to the source must take two.
#[test]
fn one_arc_back_alone() {
    let table = OwnTable::with_bounded_arcs(3, 1, 3, &[(3, 1, 3, 2)]);
    assert_value_and_side(&table, -2, &[1, 0, 0]);
    assert_eq!(solved(&table).flow, [2]);
    assert!(desk(table.text().as_bytes()).starts_with(b"nodes=3\narcs=1\nvalue=-2\n"));
}

/// More must come than can go on.
#[test]
fn more_than_can_go_on_is_impossible() {
    let table = OwnTable::with_bounded_arcs(3, 1, 3, &[(1, 2, 3, 2), (2, 3, 1, 0)]);
    assert_refused(&table, Name::Impossible, 0);
    assert_eq!(desk(table.text().as_bytes()), b"refusal=IMPOSSIBLE\nplace=0\n");
}

/// The value is exact to 4,096,000,000 either way.
#[test]
fn the_greatest_values_either_way() {
    let onwards = OwnTable::with_bounded_arcs(2, 1, 2, &[(1, 2, 1_000_000, 1_000_000); 4_096]);
    assert_value_and_side(&onwards, 4_096_000_000, &[1, 0]);
    let back = OwnTable::with_bounded_arcs(2, 1, 2, &[(2, 1, 1_000_000, 1_000_000); 4_096]);
    assert_value_and_side(&back, -4_096_000_000, &[1, 0]);
}

/// A minimum above its capacity comes after the arc's other faults and before those of later arcs.
#[test]
fn the_order_of_a_minimum_among_faults() {
    let arcs = [(1, 2, 4, 4), (5, 5, 1_000_001, 1_000_002), (2, 2, 1, 0)];
    let mut table = OwnTable::with_bounded_arcs(3, 1, 3, &arcs);
    assert_refused(&table, Name::Node, 1);
    (table.tails[1], table.heads[1]) = (2, 2);
    assert_refused(&table, Name::Loop, 1);
    table.heads[1] = 3;
    assert_refused(&table, Name::Capacity, 1);
    table.capacities[1] = 1_000_000;
    assert_refused(&table, Name::Minimum, 1);
    table.minimums[0] = 5;
    assert_refused(&table, Name::Minimum, 0);
    let read = read_place(&table.lent(), 1, 0, &[0; 3], &[0; 3], 9);
    assert_eq!((read.refusal, read.place), (Name::Minimum.number(), 0));
    table.minimums = vec![4, 5, 0];
    assert_refused(&table, Name::Loop, 2);
    table.heads[2] = 3;
    assert_refused(&table, Name::Impossible, 0);
    assert_eq!(
        read_place(&table.lent(), 1, 1, &[4, 5, 6], &[1, 1, 0], 1),
        reading(5, 1_000_000, 1)
    );
    table.minimums[1] = 3;
    assert_value_and_side(&table, 4, &[1, 0, 0]);
}

/// Lines of arcs may have a minimum or not, and a line too many may have one.
#[test]
fn texts_with_minimums() {
    let text = b"p max 3 3\nn 1 s\nn 3 t\na 1 2 9 4\na 2 3\t9  5 \na 1 2 9";
    let (found, rows) = read_in(text, [3; 4]);
    assert_eq!(found.map(|given| given.m), Ok(3));
    assert_eq!(rows, [vec![1, 2, 1], vec![2, 3, 2], vec![9, 9, 9], vec![4, 5, 0]]);
    assert_text_refused(b"p max 3 0\nn 1 s\nn 3 t\na 1 2 9 4\n", Name::Count, 4);
    assert_text_refused(b"p max 3 0\nn 1 s\nn 3 t\na 1 2 9 4 0\n", Name::Line, 4);
    assert_text_refused(b"p max 3 1\nn 1 s\nn 3 t\na 1 2 9 10\n", Name::Minimum, 0);
    assert_text_refused(b"p max 3 1\nn 1 s\nn 3 t\na 1 1 9 10\n", Name::Loop, 0);
}

/// Sums the capacities that leave some marks less the minimums that enter them.
fn cut_capacity(table: &OwnTable, marks: &[u8]) -> i64 {
    let mark = |node: u32| marks[node as usize - 1];
    let ends = |place: usize| (mark(table.tails[place]), mark(table.heads[place]));
    let of_arc = |place: usize| match ends(place) {
        (1, 0) => i64::from(table.capacities[place]),
        (0, 1) => -i64::from(table.minimums[place]),
        _ => 0,
    };
    (0..table.arcs()).map(of_arc).sum()
}

/// All ways to mark the nodes.
fn all_marks(n: u32) -> impl Iterator<Item = Vec<u8>> {
    (0..1_u32 << n).map(move |subset| (0..n).map(|bit| (subset >> bit & 1) as u8).collect())
}

/// Whether some flow keeps the bounds: none of the sets with both ends or neither must take in more than can leave it.
fn is_possible(table: &OwnTable) -> bool {
    let mut sets = all_marks(table.n).filter(|marks| marks[table.s as usize - 1] == marks[table.t as usize - 1]);
    sets.all(|marks| cut_capacity(table, &marks) >= 0)
}

/// The least capacity of a cut, and what the sides of all such cuts have in common.
fn least_cut(table: &OwnTable) -> (i64, Vec<u8>) {
    let cuts = all_marks(table.n).filter(|marks| marks[table.s as usize - 1] == 1 && marks[table.t as usize - 1] == 0);
    let mut least: Option<(i64, Vec<u8>)> = None;
    for marks in cuts {
        let capacity = cut_capacity(table, &marks);
        least = match least {
            Some((earlier, _)) if capacity < earlier => Some((capacity, marks)),
            None => Some((capacity, marks)),
            Some((earlier, common)) if capacity == earlier => {
                let both = common.iter().zip(&marks).map(|(mark, other)| *mark.min(other));
                Some((earlier, both.collect()))
            }
            earlier => earlier,
        };
    }
    least.expect("there is a cut")
}

/// Checks that a table is solved exactly if that is possible, with the least cut's value and the smallest side.
fn assert_solved_if_possible(table: &OwnTable) -> bool {
    let possible = is_possible(table);
    assert_eq!(some_kept_flow(&table.lent()).is_some(), possible);
    if !table.lent().is_bounded() {
        return possible;
    }
    if possible {
        let (value, side) = least_cut(table);
        assert_value_and_side(table, value, &side);
        let text = table.text();
        assert!(is_printed(&desk(text.as_bytes()), text.as_bytes()));
    } else {
        assert_refused(table, Name::Impossible, 0);
    }
    possible
}

/// Small random tables with minimums are solved exactly if that is possible.
#[test]
fn small_random_tables_with_minimums() {
    let (mut solved, mut impossible, mut below) = (0, 0, 0);
    for index in 0..6_000 {
        let mut table = small_random_table(31, index, 6);
        let random = &mut Random::of_case(32, index);
        let kept = index % 2 == 0;
        if kept {
            put_kept_minimums(random, &mut table);
        } else {
            put_any_minimums(random, &mut table);
        }
        let possible = assert_solved_if_possible(&table);
        assert!(possible || !kept);
        solved += u32::from(possible);
        impossible += u32::from(!possible);
        below += u32::from(possible && least_cut(&table).0 < 0);
    }
    assert!(
        solved > 1_000 && impossible > 1_000 && below > 100,
        "{solved} {impossible} {below}"
    );
}

/// The same table with all minimums 0 has the run's answer.
#[test]
fn minimums_of_0_change_nothing() {
    for index in 0..200 {
        let table = small_random_table(33, index, 9);
        assert!(!table.lent().is_bounded());
        let found = solved(&table);
        assert_eq!(found.flow, judge::run::run(&table.lent()).flow);
        assert_eq!(work_need(&table), judge::solve::work_need(&table.lent()) as usize);
    }
}

/// Another greatest flow is taken where it is free, and no other flow is.
#[test]
fn any_greatest_flow_may_be_printed() {
    let arcs = [(1, 2, 1, 0), (1, 2, 1, 0), (2, 3, 1, 1)];
    let text = OwnTable::with_bounded_arcs(3, 1, 3, &arcs).text();
    let printed = |flow: &str| {
        let before =
            "nodes=3\narcs=3\nvalue=1\nscale=0\nphases=0\nsaturating=0\nnonsaturating=0\nrelabels=0\nside=1 2\n";
        format!("{before}flow={flow}\n")
    };
    for (flow, is_right) in [
        ("1 0 1", true),
        ("0 1 1", true),
        ("1 1 1", false),
        ("1 1 2", false),
        ("0 0 0", false),
        ("0 1", false),
        ("0 1 1 ", false),
        ("0 1 +1", false),
        ("0 1 1 0", false),
        ("", false),
    ] {
        assert_eq!(
            is_printed(printed(flow).as_bytes(), text.as_bytes()),
            is_right,
            "{flow}"
        );
    }
    let unbounded = text.replace("a 2 3 1 1", "a 2 3 1");
    let run = String::from_utf8(desk(unbounded.as_bytes())).expect("the desk program prints ASCII");
    let other = if run.contains("flow=1 0 1") { "0 1 1" } else { "1 0 1" };
    let (before, _) = run.split_once("flow=").expect("a line of flows");
    assert!(is_printed(run.as_bytes(), unbounded.as_bytes()));
    assert!(!is_printed(
        format!("{before}flow={other}\n").as_bytes(),
        unbounded.as_bytes()
    ));
}
