//! Checking plans: the listing in many forms, what keeps a plan from being full, and the order of refusals.

mod shared;

use judge::compare::plans::{random_plan, Change};
use judge::compare::tables::OwnTable;
use judge::desk::solution;
use judge::plan::{check_plan, read_plan, why_not_full, Why};
use judge::table::check;
use shared::{small_random_table, solved, table_of, LISTING_ARCS};

/// Checks a text and marks against the listing: the refusal, its place, and whether the week is full.
fn checked(text: &str, side: &[u8]) -> (u32, u32, u32) {
    let found = check_plan(&table_of(4, &LISTING_ARCS).lent(), text.as_bytes(), side);
    (found.refusal, found.place, found.full)
}

/// The listing's answer is full in any order and form.
#[test]
fn the_listing_is_full_in_many_forms() {
    for text in [
        "s 1\nf 1 2 1\nf 1 3 0\nf 2 3 1\nf 3 4 1\n",
        "s 1\nf 3 4 1\nf 2 3 1\nf 1 2 1",
        "s 1\nf 1 3 1\nf 3 4 1\n",
        "c\ns\t 1 \nc f\nf  1 2\t1\nf 2 3 0\nf 3 4 1\nf 2 3 1\t\nc",
        "s 1\nf 1 3 1\nf 3 4 1\nf 9 9 0\nf 4 4 0\nf 4 1 0\nf 4294967295 0 0\n",
    ] {
        assert_eq!(checked(text, &[1, 1, 1, 0]), (0, 0, 1), "{text:?}");
        assert_eq!(checked(text, &[1, 1, 1, 2, 9]), (0, 0, 1), "{text:?}");
    }
}

/// One thing alone keeps a plan from being full.
#[test]
fn what_keeps_a_plan_from_being_full() {
    let table = table_of(4, &LISTING_ARCS);
    let full = "s 1\nf 1 3 1\nf 3 4 1\n";
    let cases: [(&str, [u8; 4], &[Why]); 12] = [
        (full, [1, 1, 1, 0], &[]),
        (full, [1, 1, 1, 1], &[Why::SinkMarked, Why::Cut]),
        (full, [0, 0, 1, 0], &[Why::SourceUnmarked]),
        (full, [1, 1, 2, 0], &[Why::Cut]),
        ("s 2\nf 1 3 1\nf 3 4 1\n", [1, 1, 1, 0], &[Why::Value, Why::Cut]),
        ("s 1\nf 1 3 1\n", [1, 1, 1, 0], &[Why::Conservation]),
        (
            "s 1\nf 1 3 1\nf 3 4 1\nf 2 3 1\nf 3 2 1\n",
            [1, 1, 1, 0],
            &[Why::Capacity],
        ),
        ("s 1\nf 1 3 1\nf 3 4 1\nf 9 9 1\n", [1, 1, 1, 0], &[Why::Capacity]),
        ("s 1\nf 1 3 1\nf 3 4 1\nf 2 2 1\n", [1, 1, 1, 0], &[Why::Capacity]),
        (
            "s 1\nf 1 3 1\nf 3 4 4294967295\nf 3 4 2\n",
            [1, 1, 1, 0],
            &[Why::Capacity, Why::Conservation],
        ),
        ("s 4294967295\n", [1, 1, 1, 0], &[Why::Value, Why::Cut]),
        ("s 0\n", [1, 1, 1, 0], &[Why::Cut]),
    ];
    for (text, side, why) in cases {
        let plan = read_plan(text.as_bytes()).expect("a plan");
        assert_eq!(why_not_full(&table.lent(), &plan, &side), why, "{text:?}");
        assert_eq!(checked(text, &side), (0, 0, u32::from(why.is_empty())));
    }
}

/// Opposite pairs are not netted, and parallel arcs share a sum.
#[test]
fn opposite_pairs_and_parallel_arcs() {
    let table = table_of(3, &[(1, 2, 2), (1, 2, 3), (2, 1, 4), (2, 3, 1)]);
    let full = |text: &str| check_plan(&table.lent(), text.as_bytes(), &[1, 1, 0]).full == 1;
    assert!(full("s 1\nf 1 2 5\nf 2 1 4\nf 2 3 1\n"));
    assert!(!full("s 1\nf 1 2 6\nf 2 1 5\nf 2 3 1\n"));
    assert!(!full("s 1\nf 1 2 6\nf 2 1 4\nf 2 3 1\n"));
    assert!(!full("s 1\nf 1 2 5\nf 2 3 1\n"));
}

/// The first line that is not of its form is told, or one past the last without an s line.
#[test]
fn lines_that_are_not_of_their_form() {
    for (text, line) in [
        ("", 1),
        ("\n", 1),
        ("c\nc", 3),
        ("c\n", 2),
        ("f 1 2 0\ns 1\n", 1),
        ("s 1\ns 1\n", 2),
        ("s 1\n\n", 2),
        ("s 1\n \n", 2),
        (" s 1\n", 1),
        ("s1\n", 1),
        ("s 01\n", 1),
        ("s 4294967296\n", 1),
        ("s 1 1\n", 1),
        ("s 1\nf 1 2\n", 2),
        ("s 1\nf 1 2 3 4\n", 2),
        ("s 1\nc\nf 1 2 -3\n", 3),
        ("s 1\r\n", 1),
        ("p max 2 0\n", 1),
    ] {
        assert_eq!(checked(text, &[1, 1, 1, 0]), (16, line, 0), "{text:?}");
    }
}

/// LONG comes first, then the table's refusals, BOUNDED, ROOM and SOLUTION.
#[test]
fn checking_refuses_in_order() {
    let mut table = OwnTable::with_bounded_arcs(3, 1, 1, &[(1, 2, 4, 1)]);
    let refused = |table: &OwnTable, text: &[u8], side: &[u8]| {
        let found = check_plan(&table.lent(), text, side);
        (found.refusal, found.place, found.full)
    };
    assert_eq!(refused(&table, &vec![b'x'; 1_048_577], &[]), (15, 0, 0));
    assert_eq!(refused(&table, &vec![b'x'; 1_048_576], &[]), (4, 0, 0));
    table.t = 3;
    assert_eq!(refused(&table, b"", &[]), (21, 0, 0));
    table.minimums[0] = 0;
    assert_eq!(refused(&table, b"", &[1, 1]), (5, 0, 0));
    assert_eq!(refused(&table, b"", &[1, 1, 0]), (16, 1, 0));
    assert_eq!(refused(&table, b"s 0", &[1, 1, 0]), (0, 0, 1));
}

/// The solution text of an answer, with its side, always gets a yes.
#[test]
fn an_answers_own_text_is_full() {
    for index in 0..500 {
        let table = small_random_table(51, index, 9);
        let text = solution(table.text().as_bytes());
        let found = check_plan(&table.lent(), text.as_bytes(), &solved(&table).side);
        assert_eq!((found.refusal, found.full), (0, 1));
    }
}

/// The plans of the comparison that nothing was done to are full.
#[test]
fn unchanged_plans_of_the_comparison_are_full() {
    let mut full = 0;
    for index in 3..3_000 {
        let call = random_plan(6, index);
        let table = call.table.lent();
        let is_fine = check(&table, call.side.len() >= table.n as usize).is_ok() && !table.is_bounded();
        if is_fine && call.done == Change::Nothing as u32 {
            assert_eq!(check_plan(&table, &call.text, &call.side).full, 1);
            full += 1;
        }
    }
    assert!(full > 500);
}
