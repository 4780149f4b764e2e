//! The stored list of calls at bounds, and the families of seeded tables.

use judge::boundaries;
use judge::compare::caller::expected;
use judge::families;

/// Each line of the list names a call, and together they bring all that they are for.
#[test]
fn the_list_of_boundaries_brings_all_that_it_is_for() {
    let list = include_str!("../boundaries.txt");
    let calls = boundaries::calls(list).expect("each line names a call");
    assert_eq!(calls.len(), list.lines().count());
    let ends: Vec<String> = calls
        .iter()
        .map(|(name, call)| (name, expected(call).0))
        .map(|(name, numbers)| format!("{name}: refusal={} place={} ", numbers[0], numbers[1]))
        .collect();
    for part in boundaries::wanted() {
        assert!(ends.iter().any(|end| end.contains(&part)), "{part}");
    }
}

/// A line that names no call is told.
#[test]
fn a_line_that_names_no_call() {
    assert!(boundaries::calls("n 4 s 1 t 4, arc 2>3:4, rows 4 4 4, lent 4 4").is_none());
    assert!(boundaries::calls("").expect("no line").is_empty());
}

/// Each family's table is solved.
#[test]
fn each_family_is_solved() {
    let calls = families::calls(false);
    assert_eq!(calls.len(), 18);
    for (name, call) in calls {
        assert_eq!(expected(&call).0[0], 0, "{name}");
    }
}
