//! The booking server's calls: the listing in bytes, and the order of refusals.

mod shared;

use judge::refusal::Name;
use judge::server::{server_place, server_solve};
use shared::LISTING_ARCS;

/// Makes numbers of 32 bits into bytes.
fn bytes_of(numbers: &[u32]) -> Vec<u8> {
    numbers.iter().flat_map(|number| number.to_le_bytes()).collect()
}

/// Makes numbers of 64 bits into bytes.
fn long_bytes_of(numbers: &[u64]) -> Vec<u8> {
    numbers.iter().flat_map(|number| number.to_le_bytes()).collect()
}

/// Makes arcs into bytes.
fn arc_bytes(arcs: &[(u32, u32, u32)]) -> Vec<u8> {
    let numbers = arcs.iter().flat_map(|(tail, head, capacity)| [*tail, *head, *capacity]);
    bytes_of(&numbers.collect::<Vec<u32>>())
}

/// Makes the number that a refusal returns.
fn refused(name: Name, place: u32) -> u64 {
    u64::from(name.number()) * 4_294_967_296 + u64::from(place)
}

/// Solves in rows of sevens of these lengths: what is returned, and the rows.
fn solved(ends: [u32; 3], arcs: &[u8], lengths: [usize; 3]) -> (u64, [Vec<u8>; 3]) {
    let [mut flow, mut side, mut result] = lengths.map(|length| vec![7; length]);
    let returned = server_solve(ends, 9, arcs, &mut flow, &mut side, &mut result);
    (returned, [flow, side, result])
}

/// Checks that solving is refused and changes nothing.
fn assert_refused(ends: [u32; 3], arcs: &[u8], lengths: [usize; 3], name: Name, place: u32) {
    let (returned, rows) = solved(ends, arcs, lengths);
    assert_eq!(returned, refused(name, place));
    assert!(rows.iter().flatten().all(|byte| *byte == 7));
}

/// The listing is solved into bytes, later bytes unchanged, and read by place.
#[test]
fn the_listing_in_bytes() {
    let arcs = arc_bytes(&LISTING_ARCS);
    let (returned, [flow, side, result]) = solved([4, 1, 4], &arcs, [19, 5, 59]);
    assert_eq!(returned, 0);
    assert_eq!(flow, [bytes_of(&[1, 0, 1, 1]), vec![7; 3]].concat());
    assert_eq!(side, [1, 1, 1, 0, 7]);
    assert_eq!(result, [long_bytes_of(&[9, 1, 4, 3, 3, 6, 6]), vec![7; 3]].concat());
    let mut result = [7; 26];
    let returned = server_place([4, 1, 4], [9, 9], &arcs, &flow, &side, 3, &mut result);
    assert_eq!((returned, &result[..24]), (0, &long_bytes_of(&[1, 1, 1])[..]));
    assert_eq!(result[24..], [7, 7]);
}

/// Solving gives the next refusal in order as one fault after the other is mended.
#[test]
fn solving_refuses_in_order() {
    let mut arcs = arc_bytes(&[(1, 2, 4), (2, 2, 1_000_001)]);
    arcs.push(0);
    assert_refused([1, 1, 1], &arcs, [0; 3], Name::Nodes, 0);
    assert_refused([3, 1, 1], &arcs, [0; 3], Name::Rows, 0);
    let many = arc_bytes(&[(9, 9, 9); 4_097]);
    assert_refused([3, 1, 1], &many, [0; 3], Name::Arcs, 0);
    assert_refused([3, 1, 1], &[&many[..], &[0]].concat(), [0; 3], Name::Rows, 0);
    arcs.pop();
    assert_refused([3, 1, 1], &arcs, [0; 3], Name::Ends, 0);
    for lengths in [[7, 3, 56], [8, 2, 56], [8, 3, 55], [0; 3]] {
        assert_refused([3, 1, 3], &arcs, lengths, Name::Room, 0);
    }
    assert_refused([3, 1, 3], &arcs, [8, 3, 56], Name::Loop, 1);
    for bytes in 1..12 {
        assert_refused([3, 1, 3], &vec![7; bytes], [0; 3], Name::Rows, 0);
    }
    assert_eq!(solved([2, 1, 2], &[], [0, 2, 56]).0, 0);
}

/// Reading by place gives the distance as the place of STALE and AHEAD, and PLACE last.
#[test]
fn reading_refuses_in_order() {
    let arcs = arc_bytes(&LISTING_ARCS);
    let read = |stamps: [u32; 2], place: u32, length: usize| {
        let mut result = vec![7; length];
        let returned = server_place([4, 1, 4], stamps, &arcs, &[0; 16], &[1; 4], place, &mut result);
        assert_eq!(result.iter().all(|byte| *byte == 7), returned != 0);
        returned
    };
    assert_eq!(read([9, 9], 4, 23), refused(Name::Room, 0));
    assert_eq!(read([9, 9], 4, 24), refused(Name::Place, 4));
    assert_eq!(read([9, 9], 4_294_967_295, 24), refused(Name::Place, 4_294_967_295));
    assert_eq!(read([9, 6], 4, 24), refused(Name::Stale, 3));
    assert_eq!(read([9, 11], 4, 24), refused(Name::Ahead, 2));
    assert_eq!(read([0, 2_147_483_648], 4, 24), refused(Name::Unordered, 0));
    assert_eq!(read([9, 9], 3, 24), 0);
}
