//! Whether there is room: examples, refusals, and truths on random tables.

mod shared;

use judge::compare::tables::OwnTable;
use judge::room::{has_room_for, room_work_need, run_until, Room};
use shared::{small_random_table, solved, table_of, LISTING_ARCS, STAMP};

/// Asks with a work row of sevens that is one longer than it must be.
fn asked(table: &OwnTable, q: u64) -> Room {
    let need = room_work_need(&table.lent()) as usize;
    let mut work = vec![7; need + 1];
    let room = has_room_for(&table.lent(), STAMP, q, &mut work);
    assert_eq!(work.pop(), Some(7));
    let left = if room.refusal == 0 { 0 } else { 7 };
    assert!(work.iter().all(|number| *number == left));
    room
}

/// Checks that the question is refused with a work row of this length, which is unchanged.
fn assert_refused(table: &OwnTable, length: usize, refusal: u32, place: u32) {
    for q in [0, 1, u64::MAX] {
        let mut work = vec![7; length];
        let refused = Room {
            refusal,
            place,
            ..Room::default()
        };
        assert_eq!(has_room_for(&table.lent(), STAMP, q, &mut work), refused);
        assert!(work.iter().all(|number| *number == 7));
    }
}

/// The listing has room for one.
#[test]
fn the_listing_has_room_for_one() {
    let listing = table_of(4, &LISTING_ARCS);
    let at_the_start = Room {
        stamp: STAMP,
        yes: 1,
        scale: 4,
        phases: 3,
        ..Room::default()
    };
    assert_eq!(asked(&listing, 0), at_the_start);
    let one = asked(&listing, 1);
    assert_eq!((one.yes, one.value), (1, 1));
    let full = Room {
        yes: 0,
        value: 1,
        saturating: 3,
        nonsaturating: 6,
        relabels: 6,
        ..at_the_start
    };
    for q in [2, 3, 4_294_967_296, 4_294_967_297, u64::MAX] {
        assert_eq!(asked(&listing, q), full);
    }
    assert_eq!(room_work_need(&listing.lent()), 29);
    assert_refused(&listing, 28, 5, 0);
    assert_refused(&listing, 25, 5, 0);
    assert_refused(&table_of(1, &[]), 99, 1, 0);
    let mut bounded = listing;
    bounded.minimums[3] = 1;
    assert_refused(&bounded, 28, 5, 0);
    assert_refused(&bounded, 29, 21, 0);
}

/// What the start brings to the sink is there at once.
#[test]
fn the_start_alone_may_do() {
    let table = table_of(2, &[(1, 2, 5), (2, 1, 3)]);
    for q in 0..=6 {
        let room = asked(&table, q);
        assert_eq!((room.yes, room.value), (u32::from(q <= 5), 5));
        assert_eq!((room.scale, room.phases), (0, 0));
    }
}

/// The yes means that the value is at least q, and the counts are a first part of the full run's.
#[test]
fn truths_of_random_questions() {
    for index in 0..600 {
        let table = small_random_table(71, index, 7);
        let full = solved(&table).answer;
        let value = full.value as u64;
        let mut steps = 0;
        for q in (0..=value + 1)
            .step_by((value / 20 + 1) as usize)
            .chain([value, value + 1])
        {
            let room = asked(&table, q);
            assert_eq!(room.yes == 1, value >= q);
            assert!(room.value <= value && (room.value >= q || room.yes == 0));
            assert_eq!((room.scale, room.phases, room.stamp), (full.scale, full.phases, STAMP));
            let taken = room.saturating + room.nonsaturating + room.relabels;
            assert!(taken >= steps || q >= value);
            steps = taken;
            if room.yes == 0 {
                let counts = (room.saturating, room.nonsaturating, room.relabels);
                assert_eq!(counts, (full.saturating, full.nonsaturating, full.relabels));
                assert_eq!(room.value, value);
            }
        }
        assert_eq!(run_until(&table.lent(), u64::MAX).value, value);
    }
}
