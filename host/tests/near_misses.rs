//! Tables where a run that is nearly the one of document 01 gives other numbers.

mod shared;

use shared::{answer, assert_solved, solved, table_of};

/// Nodes 2 and 3 have equal labels, and node 2 is taken first.
#[test]
fn equal_labels_take_the_least_number() {
    let table = table_of(4, &[(1, 3, 1), (2, 3, 1), (1, 2, 1)]);
    assert_solved(&table, answer(0, 1, 1, [2, 0, 3]), &[0, 0, 0], &[1, 1, 1, 0]);
}

/// The filled arc stands first in the list of node 2 and takes the excess back.
#[test]
fn the_filled_arc_stands_first_and_is_emptied() {
    let table = table_of(3, &[(1, 2, 1), (2, 1, 1)]);
    assert_solved(&table, answer(0, 1, 1, [1, 0, 1]), &[0, 0], &[1, 1, 0]);
}

/// The opposite arc stands first in the list of node 2 and carries the excess back.
#[test]
fn the_opposite_arc_stands_first_and_is_filled() {
    let table = table_of(3, &[(2, 1, 1), (1, 2, 1)]);
    assert_solved(&table, answer(0, 1, 1, [1, 0, 1]), &[1, 1], &[1, 1, 0]);
}

/// Nothing reaches the sink, and all excess goes back to the source.
#[test]
fn excess_goes_back_to_the_source() {
    let table = table_of(4, &[(3, 2, 2), (1, 3, 3)]);
    assert_solved(&table, answer(0, 4, 3, [4, 3, 6]), &[0, 0], &[1, 1, 1, 0]);
}

/// An arc out of the sink without flow has no residual towards the sink.
#[test]
fn an_arc_out_of_the_sink_without_flow_is_not_residual_towards_it() {
    let table = table_of(3, &[(3, 2, 1), (1, 2, 1)]);
    assert_solved(&table, answer(0, 1, 1, [1, 0, 1]), &[0, 0], &[1, 1, 0]);
}

/// The largest excess is above 2^31, so D is 2^32.
#[test]
fn the_scale_may_be_two_to_the_power_of_32() {
    let mut table = table_of(3, &[(1, 2, 1_000_000); 2_148]);
    table.add(2, 3, 1);
    let found = solved(&table);
    assert_eq!(found.answer, answer(1, 4_294_967_296, 33, [2_148, 1, 1]));
    assert_eq!(found.flow.iter().sum::<u32>(), 2);
    assert_eq!(found.side, [1, 1, 0]);
}
