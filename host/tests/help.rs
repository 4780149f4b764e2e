//! Which opening would help: examples, refusals, and the truth about raising one arc by one unit.

mod shared;

use judge::compare::tables::OwnTable;
use judge::help::{copy_shorter, find_openings, help, Help, HelpLists};
use judge::solve::Answer;
use shared::{answer, small_random_table, solved, table_of, work_need, LISTING_ARCS, STAMP};

/// Searches in rows of sevens, the lists of these lengths: the answer, how many were filled, and the lists.
fn found(table: &OwnTable, lengths: [usize; 3]) -> (Answer, [u32; 3], [Vec<u32>; 3]) {
    let (mut flow, mut side) = (vec![7; table.arcs() + 1], vec![7; table.n as usize + 1]);
    let mut work = vec![7; work_need(table) + 1];
    let [mut sources, mut sinks, mut places] = lengths.map(|length| vec![7; length]);
    let lists = HelpLists {
        sources: &mut sources,
        sinks: &mut sinks,
        places: &mut places,
    };
    let (answer, filled) = find_openings(&table.lent(), STAMP, &mut flow, &mut side, &mut work, lists);
    let is_refused = answer.refusal != 0;
    assert_eq!(flow.iter().chain(&work).all(|number| *number == 7), is_refused);
    assert_eq!(side.iter().all(|mark| *mark == 7), is_refused);
    (answer, filled, [sources, sinks, places])
}

/// The listing's last place would help.
#[test]
fn the_listings_last_place_would_help() {
    let mut listing = table_of(4, &LISTING_ARCS);
    let (solved, filled, lists) = found(&listing, [4, 1, 2]);
    assert_eq!((solved, filled), (answer(1, 4, 3, [3, 6, 6]), [3, 1, 1]));
    assert_eq!(lists, [vec![1, 2, 3, 7], vec![4], vec![3, 7]]);
    let refused = |refusal: u32, place: u32| Answer {
        refusal,
        place,
        ..Answer::default()
    };
    for lengths in [[2, 1, 1], [3, 0, 1], [3, 1, 0]] {
        assert_eq!(found(&listing, lengths).0, refused(5, 0));
    }
    assert_eq!(found(&listing, [3, 1, 1]).1, [3, 1, 1]);
    listing.minimums[0] = 1;
    assert_eq!(found(&listing, [0; 3]).0, refused(21, 0));
    listing.minimums[0] = 5;
    assert_eq!(found(&listing, [0; 3]).0, refused(19, 0));
}

/// A place of capacity 0 or at the limit may help, and between two full arcs none does.
#[test]
fn places_that_would_help() {
    let table = table_of(3, &[(1, 2, 1_000_000), (2, 3, 0), (1, 3, 1_000_000)]);
    let helps = help(&table.lent(), &[0, 0, 1_000_000]);
    let expected = Help {
        sources: vec![1, 2],
        sinks: vec![3],
        places: vec![1, 2],
    };
    assert_eq!(helps, expected);
    let in_a_line = table_of(3, &[(1, 2, 3), (2, 3, 3)]);
    assert_eq!(help(&in_a_line.lent(), &[3, 3]).places, Vec::<u32>::new());
}

/// Raising one arc by one unit raises the value by one exactly at the listed places.
#[test]
fn raising_an_arc_raises_the_value_exactly_there() {
    for index in 0..600 {
        let table = small_random_table(81, index, 7);
        let before = solved(&table);
        let helps = help(&table.lent(), &before.flow);
        let rising = |list: &[u32]| list.windows(2).all(|pair| pair[0] < pair[1]);
        assert!(rising(&helps.sources) && rising(&helps.sinks) && rising(&helps.places));
        for place in 0..table.arcs() {
            let mut raised = table.clone();
            raised.capacities[place] += 1;
            let value = raised_value(&raised);
            let risen = i64::from(helps.places.contains(&(place as u32)));
            assert_eq!(value, before.answer.value + risen);
        }
    }
}

/// The value of a table, also where a capacity is one above the limit.
fn raised_value(table: &OwnTable) -> i64 {
    let flow = judge::run::run(&table.lent()).flow;
    judge::solve::value(&table.lent(), &flow)
}

/// The filled part of the shorter list is copied, the first if equal, none of it if a length passes its list.
#[test]
fn the_shorter_of_two_lists() {
    let (first, second) = ([1, 2, 3], [4, 5]);
    let cases: [(u32, u32, u32, &[u32]); 9] = [
        (3, 2, 0, &[4, 5, 7]),
        (1, 2, 0, &[1, 7, 7]),
        (2, 2, 0, &[1, 2, 7]),
        (0, 0, 0, &[7, 7, 7]),
        (3, 0, 0, &[7, 7, 7]),
        (4, 1, 0, &[7, 7, 7]),
        (1, 3, 0, &[7, 7, 7]),
        (4_294_967_295, 4_294_967_295, 0, &[7, 7, 7]),
        (2, 1, 0, &[4, 7, 7]),
    ];
    for (in_first, in_second, refusal, expected) in cases {
        let mut part = [7; 3];
        let (found, filled) = copy_shorter(&first, &second, in_first, in_second, &mut part);
        assert_eq!(found, refusal);
        assert_eq!(part, expected);
        assert!(part[filled as usize..].iter().all(|number| *number == 7));
    }
    let mut part = [7; 1];
    assert_eq!(copy_shorter(&first, &second, 2, 2, &mut part), (5, 0));
    assert_eq!(part, [7]);
    assert_eq!(copy_shorter(&first, &second, 9, 2, &mut []), (0, 0));
}
