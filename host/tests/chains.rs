//! Listing chains: examples, the order of refusals, and truths on random tables.

mod shared;

use judge::chains::{list_chains, list_of, pieces, Piece, Shape};
use judge::compare::tables::OwnTable;
use judge::solve::Answer;
use shared::{answer, small_random_table, solved, table_of, work_need, LISTING_ARCS, STAMP};

/// The rows after a listing.
type Rows = (Vec<u32>, Vec<u8>, Vec<u32>, Vec<u32>);

/// Lists a table's chains in rows of sevens, the list of this length.
fn listed(table: &OwnTable, length: usize) -> (Answer, u32, Rows) {
    let (mut flow, mut side) = (vec![7; table.arcs() + 1], vec![7; table.n as usize + 1]);
    let (mut work, mut list) = (vec![7; work_need(table) + 1], vec![7; length]);
    let (answer, filled) = list_chains(&table.lent(), STAMP, &mut flow, &mut side, &mut work, &mut list);
    (answer, filled, (flow, side, work, list))
}

/// Checks that listing is refused and changes nothing.
fn assert_refused(table: &OwnTable, length: usize, refusal: u32, place: u32) {
    let (answer, filled, (flow, side, work, list)) = listed(table, length);
    let refused = Answer {
        refusal,
        place,
        ..Answer::default()
    };
    assert_eq!((answer, filled), (refused, 0));
    assert!(flow.iter().chain(&work).chain(&list).all(|number| *number == 7));
    assert!(side.iter().all(|mark| *mark == 7));
}

/// The listing has one chain.
#[test]
fn the_listing_has_one_chain() {
    let listing = table_of(4, &LISTING_ARCS);
    let (found, filled, (flow, side, work, list)) = listed(&listing, 8);
    assert_eq!(found, answer(1, 4, 3, [3, 6, 6]));
    assert_eq!((filled, &list[..]), (6, &[1, 1, 3, 0, 2, 3, 7, 7][..]));
    assert_eq!((&flow[..], &side[..]), (&[1, 0, 1, 1, 7][..], &[1, 1, 1, 0, 7][..]));
    assert!(work[..25].iter().all(|number| *number == 0) && work[25] == 7);
    assert_eq!(listed(&listing, 6).1, 6);
    assert_refused(&listing, 5, 5, 0);
    let mut bounded = listing;
    bounded.minimums[0] = 1;
    assert_refused(&bounded, 0, 21, 0);
    bounded.heads[1] = 1;
    assert_refused(&bounded, 0, 7, 1);
}

/// A walk from the source meets a ring, keeps what was walked before it, and starts over.
#[test]
fn a_ring_on_the_way() {
    let table = table_of(5, &[(1, 2, 3), (2, 3, 9), (3, 4, 9), (4, 2, 4), (4, 5, 3), (1, 5, 2)]);
    let piece = |shape: Shape, amount: u32, places: &[usize]| Piece {
        shape,
        amount,
        places: places.to_vec(),
    };
    let found = pieces(&table.lent(), &[3, 5, 5, 2, 3, 2]);
    let expected = [
        piece(Shape::Ring, 2, &[1, 2, 3]),
        piece(Shape::Chain, 3, &[0, 1, 2, 4]),
        piece(Shape::Chain, 2, &[5]),
    ];
    assert_eq!(found, expected);
    assert_eq!(list_of(&found), [2, 2, 3, 1, 2, 3, 1, 3, 4, 0, 1, 2, 4, 1, 2, 1, 5]);
    let apart = pieces(&table.lent(), &[0, 4, 4, 4, 0, 2]);
    assert_eq!(apart, [piece(Shape::Chain, 2, &[5]), piece(Shape::Ring, 4, &[1, 2, 3])]);
    let through_the_source = table_of(3, &[(2, 1, 1), (1, 2, 1)]);
    let (_, filled, (_, _, _, list)) = listed(&through_the_source, 5);
    assert_eq!((filled, &list[..]), (5, &[2, 1, 2, 1, 0][..]));
}

/// Chains add up to the value, chains and rings to each arc's flow, and there are at most m.
#[test]
fn pieces_add_up() {
    for index in 0..3_000 {
        let table = small_random_table(61, index, 8);
        let found = solved(&table);
        let pieces = pieces(&table.lent(), &found.flow);
        assert!(pieces.len() <= table.arcs());
        let chains = pieces.iter().filter(|piece| piece.shape == Shape::Chain);
        assert_eq!(
            chains.map(|piece| i64::from(piece.amount)).sum::<i64>(),
            found.answer.value
        );
        let mut sums = vec![0; table.arcs()];
        for piece in &pieces {
            piece.places.iter().for_each(|place| sums[*place] += piece.amount);
            let next = piece.places.iter().skip(1).chain(&piece.places[..1]);
            let joins = piece
                .places
                .iter()
                .zip(next)
                .filter(|(one, next)| table.heads[**one] == table.tails[**next]);
            let is_ring = usize::from(piece.shape == Shape::Ring);
            assert_eq!(joins.count(), piece.places.len() - 1 + is_ring);
        }
        assert_eq!(sums, found.flow);
    }
}
