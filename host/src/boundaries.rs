//! The calls at every bound of solving and reading by place: a list has one call a line, in words and numbers, and each call is built from its line.

use crate::compare::caller::{Call, Kind};
use crate::compare::tables::OwnTable;

/// The stamp of the solved tables.
const STAMP: u32 = 5;

/// The numbers in a part of a line, in order.
fn numbers_in(part: &str) -> Vec<u32> {
    let words = part.split(|letter: char| !letter.is_ascii_digit());
    words.filter_map(|word| word.parse().ok()).collect()
}

/// The base table with these ends and this arc at place 2, its rows cut from five arcs.
fn base_table(ends: [u32; 3], arc: [u32; 4], lengths: [u32; 4]) -> OwnTable {
    let [tail, head, capacity, minimum] = arc;
    let arcs = [
        (1, 2, 4, 0),
        (1, 3, 2, 0),
        (tail, head, capacity, minimum),
        (3, 4, 1, 0),
        (3, 4, 9, 0),
    ];
    cut(OwnTable::with_bounded_arcs(ends[0], ends[1], ends[2], &arcs), lengths)
}

/// A table whose arcs are all the same.
fn uniform_table(ends: [u32; 3], arc: [u32; 4], lengths: [u32; 4]) -> OwnTable {
    let most = lengths.into_iter().max().unwrap_or(0) as usize;
    let arcs = vec![(arc[0], arc[1], arc[2], arc[3]); most];
    cut(OwnTable::with_bounded_arcs(ends[0], ends[1], ends[2], &arcs), lengths)
}

/// The table with its rows cut to these lengths.
fn cut(mut table: OwnTable, lengths: [u32; 4]) -> OwnTable {
    table.tails.truncate(lengths[0] as usize);
    table.heads.truncate(lengths[1] as usize);
    table.capacities.truncate(lengths[2] as usize);
    table.minimums.truncate(lengths[3] as usize);
    table
}

/// The call of solving a table in rows of sevens with these lengths.
fn solving(table: OwnTable, lengths: [u32; 3]) -> Call {
    let [flow, side, work] = lengths.map(|length| length as usize);
    Call {
        stamp: STAMP,
        flow: vec![7; flow],
        side: vec![7; side],
        work: vec![7; work],
        ..Call::of(Kind::Solve, table)
    }
}

/// The call of reading the base table's answer, flows 1 0 1 1 and these marks, in rows of these lengths.
fn reading(stamps: [u32; 2], place: u32, s: u32, arc: [u32; 4], lengths: [u32; 2], marks: [u32; 4]) -> Call {
    let mut flow = vec![1, 0, 1, 1];
    let mut side: Vec<u8> = marks.iter().map(|mark| *mark as u8).collect();
    flow.resize(lengths[0] as usize, 0);
    side.resize(lengths[1] as usize, 0);
    Call {
        stamp: stamps[0],
        answer_stamp: stamps[1],
        place,
        flow,
        side,
        ..Call::of(Kind::ReadPlace, base_table([4, s, 4], arc, [4; 4]))
    }
}

/// The call that a line names.
fn named(line: &str) -> Option<Call> {
    let call = match (line.starts_with("stamps "), &numbers_in(line)[..]) {
        (false, &[n, s, t, tail, head, capacity, minimum, tails, heads, capacities, minimums, flow, side, work]) => {
            let (ends, arc) = ([n, s, t], [tail, head, capacity, minimum]);
            let rows = [tails, heads, capacities, minimums];
            let table = match line.contains(" arcs ") {
                true => uniform_table(ends, arc, rows),
                false => base_table(ends, arc, rows),
            };
            solving(table, [flow, side, work])
        }
        (true, &[stamp, answer, place, s, tail, head, capacity, minimum, flow, side, ref marks @ ..]) => {
            let (arc, marks) = ([tail, head, capacity, minimum], marks.try_into().ok()?);
            reading([stamp, answer], place, s, arc, [flow, side], marks)
        }
        _ => return None,
    };
    Some(call)
}

/// The calls that the lines of a list name, each with its line; none if a line names no call.
pub fn calls(list: &str) -> Option<Vec<(String, Call)>> {
    list.lines()
        .map(|line| Some((line.to_string(), named(line)?)))
        .collect()
}

/// What the lines must bring, each with how it ended: solved, and each refusal of solving; read, and each refusal of
/// reading that its calls can have, STALE and AHEAD at the least and the greatest distance; each bound of a minimum.
pub fn wanted() -> Vec<String> {
    let arcs_and_room = [
        "rows 4097 4097 4097 4097, lent 4097 2 8203: refusal=3 ",
        "lent 4 4 24: refusal=5 ",
        "lent 4097 2 8201: refusal=0 ",
    ];
    let mut wanted: Vec<String> = arcs_and_room.map(str::to_string).to_vec();
    wanted.extend([0, 1, 2, 4, 6, 7, 8, 19, 20].map(|refusal| format!("lent 4 4 25: refusal={refusal} ")));
    wanted.extend([0, 4, 5, 7, 12, 19].map(|refusal| format!("marks 1 1 1 0: refusal={refusal} ")));
    let (least, greatest) = (1, 2_147_483_647);
    let stamps = [(9, least), (9, greatest), (10, 0), (11, least), (11, greatest)];
    wanted.extend(stamps.map(|(refusal, place)| format!("marks 1 1 1 0: refusal={refusal} place={place} ")));
    let minimums = [
        "arc 2>3:4 least 1, rows 4 4 4 4, lent 4 4 25: refusal=0 ",
        "arc 2>3:4 least 4, rows 4 4 4 4, lent 4 4 25: refusal=20 ",
        "arc 2>3:4 least 5, rows 4 4 4 4, lent 4 4 25: refusal=19 place=2 ",
        "arc 2>3:4 least 4294967295, rows 4 4 4 4, lent 4 4 25: refusal=19 place=2 ",
        "rows 4 4 4 3, lent 4 4 25: refusal=2 ",
        "rows 4 4 4 5, lent 4 4 25: refusal=2 ",
    ];
    wanted.extend(minimums.map(str::to_string));
    wanted
}
