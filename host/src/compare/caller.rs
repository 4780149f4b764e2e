//! Calls as the caller takes them, and what must come back from each.
use super::tables::OwnTable;
use crate::bounded::is_greatest;
use crate::chains::list_chains;
use crate::desk::{desk_with_flow_of, serve};
use crate::help::{copy_shorter, find_openings, HelpLists};
use crate::month::{solve_month, Month};
use crate::opening::{open, Opening};
use crate::plan::check_plan;
use crate::reading::read_place;
use crate::reduce::{reduce, SmallRows};
use crate::room::has_room_for;
use crate::server::{server_place, server_solve};
use crate::solution::{read_solution, write_solution};
use crate::solve::{solve, Answer};
use crate::text;
use std::ops::Range;

/// How many numbers come back from a call.
pub const NUMBERS: usize = 14;

/// How many lists of numbers a call may be lent.
pub const LISTS: usize = 5;

/// The numbers that come back from a call.
pub type Numbers = [u64; NUMBERS];

/// The places of two rows in the caller's order.
const FLOW: usize = 4;
const OUT: usize = 8;

/// Which call is made.
#[derive(Clone, Copy, PartialEq, Eq, Debug)]
pub enum Kind {
    Solve = 1,
    SolveRecords,
    ReadPlace,
    ReadText,
    Serve,
    Open,
    ServerSolve,
    ServerPlace,
    WriteSolution,
    ReadSolution,
    CheckPlan,
    ListChains,
    HasRoomFor,
    FindOpenings,
    Shorter,
    Reduce,
    SolveMonth,
}

/// A call: its numbers and all rows that are lent to it. Numbers that it doesn't have are 0, rows that it doesn't have
/// are empty. Reading a text is lent the table's rows, to write into. The server's calls have their arcs in the row of the
/// text, and their result in the row `out`, which is also the row that a solution text is written to. The filled lengths
/// of two lists stand as the place and the capacity. A month's joined arcs stand in the table's rows, its starts, n, s, t
/// and stamps in the lists. What was done to a call, by its number, is not sent.
#[derive(Clone)]
pub struct Call {
    pub kind: Kind,
    pub table: OwnTable,
    pub stamp: u32,
    pub answer_stamp: u32,
    pub place: u32,
    pub capacity: u32,
    pub long: u64,
    pub flow: Vec<u32>,
    pub side: Vec<u8>,
    pub work: Vec<u32>,
    pub text: Vec<u8>,
    pub out: Vec<u8>,
    pub flow_bytes: Vec<u8>,
    pub lists: [Vec<u32>; LISTS],
    pub answers: Vec<u64>,
    pub done: u32,
}

impl Call {
    /// A call with a table and nothing else.
    pub fn of(kind: Kind, table: OwnTable) -> Call {
        Call {
            kind,
            table,
            stamp: 0,
            answer_stamp: 0,
            place: 0,
            capacity: 0,
            long: 0,
            flow: Vec::new(),
            side: Vec::new(),
            work: Vec::new(),
            text: Vec::new(),
            out: Vec::new(),
            flow_bytes: Vec::new(),
            lists: [const { Vec::new() }; LISTS],
            answers: Vec::new(),
            done: 0,
        }
    }
}

/// A row of numbers as bytes.
fn bytes_of(numbers: &[u32]) -> Vec<u8> {
    numbers.iter().flat_map(|number| number.to_le_bytes()).collect()
}

/// The lent rows, in the caller's order: how many places each has, and its bytes.
fn rows(call: &Call) -> Vec<(usize, Vec<u8>)> {
    let table = &call.table;
    let of_numbers = |row: &Vec<u32>| (row.len(), bytes_of(row));
    let of_bytes = |row: &Vec<u8>| (row.len(), row.clone());
    let mut rows: Vec<(usize, Vec<u8>)> = table.rows().into_iter().map(of_numbers).collect();
    rows.push(of_numbers(&call.flow));
    rows.push(of_bytes(&call.side));
    rows.push(of_numbers(&call.work));
    rows.push(of_bytes(&call.text));
    rows.push(of_bytes(&call.out));
    rows.push(of_bytes(&call.flow_bytes));
    rows.extend(call.lists.iter().map(of_numbers));
    let longs = call.answers.iter().flat_map(|number| number.to_le_bytes());
    rows.push((call.answers.len(), longs.collect()));
    rows
}

/// A call as the caller takes it.
pub fn sent(call: &Call) -> Vec<u8> {
    let table = &call.table;
    let numbers = [
        call.kind as u32,
        table.n,
        table.s,
        table.t,
        call.stamp,
        call.answer_stamp,
        call.place,
        call.capacity,
        call.long as u32,
        (call.long >> 32) as u32,
    ];
    let rows = rows(call);
    let mut bytes = bytes_of(&numbers);
    rows.iter().for_each(|row| bytes.extend(bytes_of(&[row.0 as u32])));
    rows.into_iter().for_each(|row| bytes.extend(row.1));
    bytes
}

/// Numbers of which these come first and the rest is 0.
fn first(fields: &[u32]) -> Numbers {
    let mut numbers = [0; NUMBERS];
    for (number, field) in numbers.iter_mut().zip(fields) {
        *number = u64::from(*field);
    }
    numbers
}

/// The nine numbers of an answer, which come first.
fn numbers_of(answer: Answer) -> Numbers {
    let nine = [
        u64::from(answer.refusal),
        u64::from(answer.place),
        u64::from(answer.stamp),
        answer.value as u64,
        answer.scale,
        u64::from(answer.phases),
        answer.saturating,
        answer.nonsaturating,
        answer.relabels,
    ];
    let mut numbers = [0; NUMBERS];
    numbers[..9].copy_from_slice(&nine);
    numbers
}

/// The nine numbers of an answer, and these after them.
fn numbers_and(answer: Answer, more: &[u32]) -> Numbers {
    let mut numbers = numbers_of(answer);
    for (number, field) in numbers[9..].iter_mut().zip(more) {
        *number = u64::from(*field);
    }
    numbers
}

/// Solves the call's table: an answer's nine numbers.
fn make_solving(call: &mut Call) -> Numbers {
    let table = call.table.lent();
    numbers_of(solve(
        &table,
        call.stamp,
        &mut call.flow,
        &mut call.side,
        &mut call.work,
    ))
}

/// Opens the call's place: an answer's nine numbers.
fn make_opening(call: &mut Call) -> Numbers {
    let table = call.table.lent();
    let opening = Opening {
        place: call.place,
        capacity: call.capacity,
    };
    let (flow, side, work) = (&mut call.flow, &mut call.side, &mut call.work);
    numbers_of(open(&table, call.stamp, opening, flow, side, work))
}

/// Reads the call's rows by place: a reading's five numbers.
fn make_reading(call: &Call) -> Numbers {
    let (stamp, answer_stamp) = (call.stamp, call.answer_stamp);
    let table = call.table.lent();
    let reading = read_place(&table, stamp, answer_stamp, &call.flow, &call.side, call.place);
    first(&[
        reading.refusal,
        reading.place,
        reading.flow,
        reading.capacity,
        reading.crossing,
    ])
}

/// Reads the call's text into its arc rows: a text's six numbers.
fn make_text_reading(call: &mut Call) -> Numbers {
    let rows = &mut call.table;
    let (tails, heads) = (&mut rows.tails, &mut rows.heads);
    match text::read(&call.text, tails, heads, &mut rows.capacities, &mut rows.minimums) {
        Ok(given) => first(&[0, 0, given.n, given.m, given.s, given.t]),
        Err(refusal) => first(&[refusal.name.number(), refusal.place]),
    }
}

/// Serves the call's text into its row of bytes: where the bytes end.
fn make_serving(call: &mut Call) -> Numbers {
    first(&[serve(&call.text, &mut call.out) as u32])
}

/// The n, s and t of a call.
fn ends(call: &Call) -> [u32; 3] {
    [call.table.n, call.table.s, call.table.t]
}

/// Numbers of which the first is the one that a server's call returned.
fn returned(number: u64) -> Numbers {
    let mut numbers = [0; NUMBERS];
    numbers[0] = number;
    numbers
}

/// Solves for the server: the returned number.
fn make_server_solving(call: &mut Call) -> Numbers {
    let (ends, arcs) = (ends(call), &call.text);
    let (flow, side, result) = (&mut call.flow_bytes, &mut call.side, &mut call.out);
    returned(server_solve(ends, call.stamp, arcs, flow, side, result))
}

/// Reads by place for the server: the returned number.
fn make_server_reading(call: &mut Call) -> Numbers {
    let (ends, stamps) = (ends(call), [call.stamp, call.answer_stamp]);
    let (flow, side, result) = (&call.flow_bytes, &call.side, &mut call.out);
    returned(server_place(ends, stamps, &call.text, flow, side, call.place, result))
}

/// Numbers of which a refusal's two and one more come first.
fn three(refusal: u32, place: u32, more: u64) -> Numbers {
    let mut numbers = first(&[refusal, place]);
    numbers[2] = more;
    numbers
}

/// Writes a solution text: its three numbers.
fn make_writing(call: &mut Call) -> Numbers {
    let written = write_solution(&call.table.lent(), call.long, &call.flow, &mut call.out);
    three(written.refusal, written.place, written.filled)
}

/// Reads a solution text back: its three numbers.
fn make_reading_back(call: &mut Call) -> Numbers {
    let read = read_solution(&call.table.lent(), &call.text, &mut call.flow);
    three(read.refusal, read.place, read.value)
}

/// Checks a plan: its three numbers.
fn make_checking(call: &Call) -> Numbers {
    let checked = check_plan(&call.table.lent(), &call.text, &call.side);
    first(&[checked.refusal, checked.place, checked.full])
}

/// Solves the call's table and lists its chains: an answer's nine numbers, and how many of the list were filled.
fn make_listing(call: &mut Call) -> Numbers {
    let table = call.table.lent();
    let (flow, side, work) = (&mut call.flow, &mut call.side, &mut call.work);
    let (answer, filled) = list_chains(&table, call.stamp, flow, side, work, &mut call.lists[0]);
    numbers_and(answer, &[filled])
}

/// Asks whether there is room: ten numbers.
fn make_asking(call: &mut Call) -> Numbers {
    let room = has_room_for(&call.table.lent(), call.stamp, call.long, &mut call.work);
    let ten = [
        u64::from(room.refusal),
        u64::from(room.place),
        u64::from(room.stamp),
        u64::from(room.yes),
        room.value,
        room.scale,
        u64::from(room.phases),
        room.saturating,
        room.nonsaturating,
        room.relabels,
    ];
    let mut numbers = [0; NUMBERS];
    numbers[..10].copy_from_slice(&ten);
    numbers
}

/// Finds which openings would help: an answer's nine numbers, and how many of each list were filled.
fn make_finding(call: &mut Call) -> Numbers {
    let table = call.table.lent();
    let (flow, side, work) = (&mut call.flow, &mut call.side, &mut call.work);
    let [sources, sinks, places, ..] = &mut call.lists;
    let lists = HelpLists { sources, sinks, places };
    let (answer, filled) = find_openings(&table, call.stamp, flow, side, work, lists);
    numbers_and(answer, &filled)
}

/// Hands back the filled part of the shorter list: three numbers.
fn make_shorter(call: &mut Call) -> Numbers {
    let [first_list, second_list, part, ..] = &mut call.lists;
    let (refusal, filled) = copy_shorter(first_list, second_list, call.place, call.capacity, part);
    first(&[refusal, 0, filled])
}

/// Makes the smaller table and solves it: an answer's nine numbers, and the small table's five.
fn make_reducing(call: &mut Call) -> Numbers {
    let table = call.table.lent();
    let (flow, side, work) = (&mut call.flow, &mut call.side, &mut call.work);
    let [tails, heads, capacities, nodes_from, arcs_from] = &mut call.lists;
    let rows = &mut SmallRows {
        tails,
        heads,
        capacities,
        nodes_from,
        arcs_from,
    };
    let (answer, sizes) = reduce(&table, call.stamp, flow, side, work, rows);
    numbers_and(answer, &sizes)
}

/// The month of a call.
pub fn month_of(call: &Call) -> Month<'_> {
    let [starts, nodes, sources, sinks, stamps] = &call.lists;
    Month {
        starts,
        nodes,
        sources,
        sinks,
        stamps,
        tails: &call.table.tails,
        heads: &call.table.heads,
        capacities: &call.table.capacities,
        minimums: &call.table.minimums,
    }
}

/// Solves a month: its five numbers.
fn make_month(call: &mut Call) -> Numbers {
    let (mut flow, mut side) = (call.flow.clone(), call.side.clone());
    let (mut work, mut answers) = (call.work.clone(), call.answers.clone());
    let sums = solve_month(&month_of(call), &mut flow, &mut side, &mut work, &mut answers);
    (call.flow, call.side, call.work, call.answers) = (flow, side, work, answers);
    let mut numbers = first(&[sums.refusal, sums.place, sums.solved, 0, sums.day]);
    numbers[3] = sums.total;
    numbers
}

/// Makes the call by the independent program: its numbers; the call's rows are changed as the call changes them.
fn make(call: &mut Call) -> Numbers {
    match call.kind {
        Kind::Solve | Kind::SolveRecords => make_solving(call),
        Kind::ReadPlace => make_reading(call),
        Kind::ReadText => make_text_reading(call),
        Kind::Serve => make_serving(call),
        Kind::Open => make_opening(call),
        Kind::WriteSolution => make_writing(call),
        Kind::ReadSolution => make_reading_back(call),
        Kind::CheckPlan => make_checking(call),
        Kind::ListChains => make_listing(call),
        Kind::HasRoomFor => make_asking(call),
        Kind::FindOpenings => make_finding(call),
        Kind::Shorter => make_shorter(call),
        Kind::Reduce => make_reducing(call),
        Kind::SolveMonth => make_month(call),
        Kind::ServerSolve => make_server_solving(call),
        Kind::ServerPlace => make_server_reading(call),
    }
}

/// What comes back: the numbers, all rows, and that nothing was written beside.
fn come_back(numbers: &Numbers, call: &Call) -> Vec<u8> {
    let mut bytes: Vec<u8> = numbers.iter().flat_map(|number| number.to_le_bytes()).collect();
    rows(call).into_iter().for_each(|row| bytes.extend(row.1));
    bytes.extend(bytes_of(&[1]));
    bytes
}

/// What must come back: the numbers, and the bytes of all.
pub fn expected(call: &Call) -> (Numbers, Vec<u8>) {
    let mut made = call.clone();
    let numbers = make(&mut made);
    (numbers, come_back(&numbers, &made))
}

/// Where a row of the call stands in what comes back, by its place in the caller's order.
fn row_range(call: &Call, row: usize) -> Range<usize> {
    let lengths: Vec<usize> = rows(call).iter().map(|row| row.1.len()).collect();
    let start = 8 * NUMBERS + lengths[..row].iter().sum::<usize>();
    start..start + lengths[row]
}

/// What must come back of solving with the flow that came back, if that is a greatest flow of the table.
fn expected_with_flow(call: &Call, theirs: &[u8]) -> Option<Vec<u8>> {
    let mut made = call.clone();
    let numbers = make(&mut made);
    let (table, m) = (call.table.lent(), call.table.arcs());
    let flow: Vec<u32> = theirs[row_range(call, FLOW)]
        .chunks(4)
        .map(|bytes| u32::from_le_bytes([bytes[0], bytes[1], bytes[2], bytes[3]]))
        .take(m)
        .collect();
    let is_free = numbers[0] == 0 && table.is_bounded();
    if !is_free || !is_greatest(&table, &flow, numbers[3] as i64, &made.side[..table.n as usize]) {
        return None;
    }
    made.flow[..m].copy_from_slice(&flow);
    Some(come_back(&numbers, &made))
}

/// What must come back of serving with the flow that was served, if that is a greatest flow of the text's table.
fn expected_with_served_flow(call: &Call, theirs: &[u8]) -> Option<Vec<u8>> {
    let served = &theirs[row_range(call, OUT)];
    let end = u64::from_le_bytes(theirs[..8].try_into().ok()?) as usize;
    let printed = desk_with_flow_of(served.get(..end)?, &call.text)?;
    if printed.len() != end {
        return None;
    }
    let mut made = call.clone();
    made.out[..end].copy_from_slice(&printed);
    Some(come_back(&first(&[end as u32]), &made))
}

/// Where what came back differs first from what must come back, if it does. Which greatest flow comes back is free where
/// a minimum is above 0: then it is judged by the definition, and all else must be equal.
pub fn difference(call: &Call, ours: &[u8], theirs: &[u8]) -> Option<usize> {
    if ours == theirs {
        return None;
    }
    let with_their_flow = match call.kind {
        Kind::Solve | Kind::SolveRecords => expected_with_flow(call, theirs),
        Kind::Serve => expected_with_served_flow(call, theirs),
        _ => None,
    };
    let ours = with_their_flow.as_deref().unwrap_or(ours);
    (0..ours.len()).find(|k| ours[*k] != theirs[*k])
}
