//! Random tables whose chains are listed.
use super::caller::{Call, Kind, Numbers};
use super::calls::{asked_table, called, list_beside, odd_list, solving_call};
use super::random::Random;
use super::tables::OwnTable;
use crate::chains::{list_of, pieces, Piece, Shape};
use crate::run::run;
use crate::solve::has_room;
use crate::table::{check, Table};

/// The pieces of an accepted table without minimums; none of another.
fn pieces_of(table: &Table) -> Vec<Piece> {
    if check(table, true).is_err() || table.is_bounded() {
        return Vec::new();
    }
    pieces(table, &run(table).flow)
}

/// A table of rings: arcs there and back beside others.
fn ringed_table(random: &mut Random) -> OwnTable {
    let n = random.between(3, 7);
    let (s, t) = (random.between(1, n - 1), n);
    let mut table = OwnTable::without_arcs(n, s, t);
    for _ in 0..random.between(4, 16) {
        let tail = random.between(1, n);
        let head = tail % n + 1;
        let capacity = random.between(0, 9);
        table.add(tail, head, capacity);
        if random.once_in(2) {
            table.add(head, tail, capacity);
        }
    }
    table
}

/// Listing `index` of a seed.
pub fn random_listing(seed: u64, index: u64) -> Call {
    let random = &mut Random::of_case(seed ^ 0x6c69_7374, index);
    let table = if random.once_in(5) {
        ringed_table(random)
    } else {
        asked_table(random)
    };
    let need = list_of(&pieces_of(&table.lent())).len();
    let mut call = solving_call(random, Kind::ListChains, table);
    call.lists[0] = odd_list(random, need);
    call
}

/// Whether a ring goes through the source.
fn meets_source(table: &Table, piece: &Piece) -> bool {
    piece.shape == Shape::Ring && piece.places.iter().any(|place| table.tails[*place] == table.s)
}

/// Whether some ring was walked once nothing left the source.
fn has_ring_apart(table: &Table, pieces: &[Piece]) -> bool {
    let leaves_source = |piece: &Piece| piece.places.iter().any(|place| table.tails[*place] == table.s);
    let last = pieces.iter().rposition(leaves_source);
    pieces.len() > last.map_or(0, |last| last + 1)
}

/// What the pieces of a table bring.
fn brought_by_pieces(table: &Table, pieces: &[Piece]) -> Vec<String> {
    let is = |shape: Shape| move |piece: &Piece| piece.shape == shape;
    let last_chain = pieces.iter().rposition(is(Shape::Chain));
    let first_ring = pieces.iter().position(is(Shape::Ring));
    let mut used = vec![0; table.arcs()];
    pieces
        .iter()
        .flat_map(|piece| &piece.places)
        .for_each(|place| used[*place] += 1);
    let things = [
        (pieces.is_empty(), "no pieces"),
        (last_chain.is_some(), "chains"),
        (first_ring.is_some(), "rings"),
        (
            pieces.iter().any(|piece| meets_source(table, piece)),
            "a ring through the source",
        ),
        (
            first_ring.is_some_and(|ring| last_chain.is_some_and(|chain| ring < chain)),
            "a ring before a chain",
        ),
        (
            last_chain.is_some_and(|chain| pieces[chain + 1..].len() > 1),
            "rings after all chains",
        ),
        (has_ring_apart(table, pieces), "a ring once nothing leaves the source"),
        (used.iter().any(|times| *times > 1), "a place in two pieces"),
        (pieces.iter().any(|piece| piece.places.len() > 4), "a long piece"),
    ];
    let met = things.into_iter().filter(|(is_met, _)| *is_met);
    met.map(|(_, thing)| thing.to_string()).collect()
}

/// What a listing brings: how it ended, what was wrong with it, and what its pieces were.
pub fn brought(call: &Call, numbers: &Numbers) -> Vec<String> {
    let table = call.table.lent();
    let mut things = vec![called(call.kind, numbers[0])];
    if check(&table, true).is_err() {
        return things;
    }
    let has_room = has_room(&table, &call.flow, &call.side, &call.work);
    if table.is_bounded() {
        things.push(
            if has_room {
                "BOUNDED"
            } else {
                "solving's ROOM and BOUNDED"
            }
            .to_string(),
        );
        return things;
    }
    let pieces = pieces_of(&table);
    let beside = list_beside(call.lists[0].len(), list_of(&pieces).len());
    if has_room {
        things.push(format!("list {beside}"));
    } else if beside.contains("short") {
        things.push("solving's ROOM and the list's".to_string());
    }
    if numbers[0] == 0 {
        things.extend(brought_by_pieces(&table, &pieces));
    }
    things
}

/// What every comparison of listings must have seen: an answer and each refusal, each length of the list, and each kind
/// of piece.
pub fn wanted() -> Vec<String> {
    let refusals = (0..=8).chain([19, 21]);
    let mut wanted: Vec<String> = refusals.map(|number| called(Kind::ListChains, number)).collect();
    let things = "list exact,list longer,list one short,list short,list empty and short,BOUNDED,\
        solving's ROOM and BOUNDED,solving's ROOM and the list's,no pieces,chains,rings,a ring through the source,\
        a ring before a chain,rings after all chains,a ring once nothing leaves the source,a place in two pieces,\
        a long piece";
    wanted.extend(things.split(',').map(str::to_string));
    wanted
}
