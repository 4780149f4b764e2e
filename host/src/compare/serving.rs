//! Random calls of the booking server, on byte rows.
use super::caller::{Call, Kind, Numbers};
use super::calls::{asked_place, called, called_table, distance, odd_mark, odd_number, stamp_beside};
use super::random::Random;
use super::tables::OwnTable;
use crate::refusal::Name;
use crate::server::{ANSWER_BYTES, ARC_BYTES, READING_BYTES};

/// The arcs of a table as bytes.
fn arc_bytes(table: &OwnTable) -> Vec<u8> {
    let arc = |place: usize| [table.tails[place], table.heads[place], table.capacities[place]];
    let numbers = (0..table.arcs()).flat_map(arc);
    numbers.flat_map(u32::to_le_bytes).collect()
}

/// A byte that a lent row may hold beforehand.
fn odd_byte(random: &mut Random) -> u8 {
    let any = random.bits() as u8;
    random.one_of(&[0, 1, 7, 255, any])
}

/// The length of a lent row that needs so many bytes: exact, longer by few bytes, or short.
fn byte_length(random: &mut Random, need: usize) -> usize {
    match random.between(0, 29) {
        0 => need.saturating_sub(1),
        1 => need.saturating_sub(4),
        2 => random.place(need + 1),
        3..=14 => need + random.place(9) + 1,
        _ => need,
    }
}

/// The table with a D of 2^32, more than 32 bits hold.
fn of_greatest_scale() -> OwnTable {
    let mut table = OwnTable::with_arcs(3, 1, 3, &[(1, 2, 1_000_000); 2_148]);
    table.add(2, 3, 1);
    table
}

/// How many bytes the result of a call takes.
fn result_bytes(kind: Kind) -> usize {
    match kind {
        Kind::ServerSolve => ANSWER_BYTES,
        _ => READING_BYTES,
    }
}

/// The call of a table and these arc bytes, with rows of these lengths.
fn call_with(random: &mut Random, kind: Kind, table: &OwnTable, arcs: Vec<u8>, lengths: [usize; 3]) -> Call {
    let stamp = odd_number(random);
    let (answer_stamp, place) = match kind {
        Kind::ServerSolve => (0, 0),
        _ => (stamp_beside(random, stamp), asked_place(random, table.arcs())),
    };
    Call {
        stamp,
        answer_stamp,
        place,
        text: arcs,
        flow_bytes: (0..lengths[0]).map(|_| odd_byte(random)).collect(),
        side: (0..lengths[1]).map(|_| odd_mark(random)).collect(),
        out: (0..lengths[2]).map(|_| odd_byte(random)).collect(),
        ..Call::of(kind, OwnTable::without_arcs(table.n, table.s, table.t))
    }
}

/// A table to call the server's calls with, which have no minimums.
fn served_table(random: &mut Random) -> OwnTable {
    let mut table = called_table(random);
    table.minimums.fill(0);
    table
}

/// Call `index` of a seed.
pub fn random_server_call(seed: u64, index: u64) -> Call {
    let random = &mut Random::of_case(seed ^ 0x7365_7276, index);
    if index == 0 {
        let table = of_greatest_scale();
        let lengths = [4 * table.arcs(), 3, ANSWER_BYTES];
        return call_with(random, Kind::ServerSolve, &table, arc_bytes(&table), lengths);
    }
    let table = served_table(random);
    let kind = random.one_of(&[Kind::ServerSolve, Kind::ServerPlace]);
    let mut arcs = arc_bytes(&table);
    if random.once_in(15) {
        let part = random.place(ARC_BYTES - 1) + 1;
        arcs.extend((0..part).map(|_| odd_byte(random)));
    }
    let needs = [4 * table.arcs(), table.n.min(600) as usize, result_bytes(kind)];
    let lengths = needs.map(|need| byte_length(random, need));
    call_with(random, kind, &table, arcs, lengths)
}

/// How a row of bytes stands to its need.
fn beside(length: usize, need: usize) -> &'static str {
    match length {
        _ if length == need => "exact",
        _ if length + 1 == need => "one byte short",
        _ if length < need => "short",
        _ if length % 4 != 0 => "longer, no multiple of 4",
        _ => "longer",
    }
}

/// How the rows of bytes stand to their needs, where the numbers and arcs before them are fine.
fn brought_by_rows(call: &Call) -> Vec<String> {
    let m = call.text.len() / ARC_BYTES;
    let rows = [
        ("flow", call.flow_bytes.len(), 4 * m),
        ("side", call.side.len(), call.table.n as usize),
        ("result", call.out.len(), result_bytes(call.kind)),
    ];
    let short = rows.iter().filter(|(_, length, need)| length < need).count();
    let told = rows
        .iter()
        .filter(|(_, length, need)| short == 0 || (short == 1 && length < need));
    told.map(|(row, length, need)| format!("{row} row {}", beside(*length, *need)))
        .collect()
}

/// What a server's call brings: how it ended, its rows, a part of an arc, and a distance of stamps.
pub fn brought(call: &Call, numbers: &Numbers) -> Vec<String> {
    let (refusal, place) = (numbers[0] >> 32, numbers[0] & u64::from(u32::MAX));
    let mut things = vec![called(call.kind, refusal)];
    if refusal == 0 || refusal == u64::from(Name::Room.number()) {
        things.extend(brought_by_rows(call));
    }
    if refusal == 0 && call.text.is_empty() {
        things.push("no arcs".to_string());
    }
    if refusal == 0 && call.text.len() == 2_149 * ARC_BYTES {
        things.push("scale 2^32".to_string());
    }
    if refusal == u64::from(Name::Rows.number()) {
        things.push(format!("{} bytes of an arc", call.text.len() % ARC_BYTES));
    }
    things.extend(distance(refusal, place));
    things
}

/// What every comparison of the server's calls must have seen: an answer and each refusal of each call, each part of an
/// arc, each length of a row, and the least and the greatest distance of stamps.
pub fn wanted() -> Vec<String> {
    let mut wanted: Vec<String> = (0..=8).map(|number| called(Kind::ServerSolve, number)).collect();
    wanted.extend((0..=12).map(|number| called(Kind::ServerPlace, number)));
    wanted.extend((1..ARC_BYTES).map(|part| format!("{part} bytes of an arc")));
    for row in ["flow", "side", "result"] {
        let lengths = ["exact", "one byte short", "short", "longer", "longer, no multiple of 4"];
        wanted.extend(lengths.map(|length| format!("{row} row {length}")));
    }
    let things = "STALE at 1,STALE at 2147483647,UNORDERED at 0,AHEAD at 1,AHEAD at 2147483647,no arcs,scale 2^32";
    wanted.extend(things.split(',').map(str::to_string));
    wanted
}
