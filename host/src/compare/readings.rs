//! Random readings of text into lent arc rows, and texts served into a lent row of bytes.
use super::caller::{Call, Kind, Numbers};
use super::calls::{called, odd_number};
use super::outcome;
use super::random::Random;
use super::tables::{Fault, OwnTable, FAULTS};
use super::texts::{random_text, text_with, Damage};
use crate::desk::{desk, longest_with_any_flow, LONGEST_INPUT};
use crate::refusal::{Name, Refusal};
use crate::text::{read, Given, LONGEST_TEXT};
use std::collections::BTreeSet;

/// How many texts of about a megabyte there are; they come first.
const LONGEST_CASES: u64 = 4;

/// The names of the four arc rows.
const ROW_NAMES: [&str; 4] = ["tails", "heads", "capacities", "minimums"];

/// How many lines of a text begin as those of arcs do.
fn arc_lines(text: &[u8]) -> usize {
    let lines = text.split(|byte| *byte == b'\n');
    lines.filter(|line| line.first() == Some(&b'a')).count()
}

/// Fills a text up to a length by comments in front, one long or many of one letter.
fn padded(random: &mut Random, text: &[u8], length: usize) -> Vec<u8> {
    let missing = length.saturating_sub(text.len());
    let mut padded = Vec::with_capacity(length);
    if random.once_in(2) {
        while padded.len() + 4 <= missing {
            padded.extend_from_slice(b"c\n");
        }
    }
    if padded.len() + 2 <= missing {
        padded.resize(missing - 1, b'c');
        padded.push(b'\n');
    }
    padded.extend_from_slice(text);
    padded
}

/// How long four arc rows are made: as long as they must be, longer, one of them short, or anyhow.
#[derive(Clone, Copy)]
enum Lengths {
    Exact,
    Longer,
    ShortAlone,
    Any,
}

/// The lengths of four arc rows for a text of m arcs.
fn row_lengths(random: &mut Random, m: usize) -> [usize; 4] {
    use Lengths::*;
    let longer = |random: &mut Random| m + random.place(9);
    match random.one_of(&[Exact, Longer, Longer, ShortAlone, ShortAlone, Any]) {
        Exact => [m; 4],
        Longer => [0; 4].map(|_| longer(random)),
        ShortAlone => {
            let mut lengths = [0; 4].map(|_| longer(random));
            let below = random.one_of(&[1, 1, 2, m]);
            lengths[random.place(4)] = m.saturating_sub(below);
            lengths
        }
        Any => [0; 4].map(|_| random.place(2 * m + 2)),
    }
}

/// A table that is no more than its four rows of odd numbers.
fn odd_rows(random: &mut Random, lengths: [usize; 4]) -> OwnTable {
    let [tails, heads, capacities, minimums] = lengths.map(|length| (0..length).map(|_| odd_number(random)).collect());
    OwnTable {
        tails,
        heads,
        capacities,
        minimums,
        ..OwnTable::without_arcs(0, 0, 0)
    }
}

/// The call of reading a text into rows of some lengths.
fn reading_of(random: &mut Random, text: Vec<u8>) -> Call {
    let lengths = row_lengths(random, arc_lines(&text));
    Call {
        text,
        ..Call::of(Kind::ReadText, odd_rows(random, lengths))
    }
}

/// The length of a row to serve a text into: 0, short, exact or longer. Where which flow is printed is free, the row
/// ends before the flows or has room for any.
fn served_length(random: &mut Random, text: &[u8]) -> usize {
    let printed = desk(text);
    let need = printed.len();
    let some = random.place(need);
    let more = random.place(40) + 2;
    if let Some(longest) = longest_with_any_flow(text) {
        let before = printed.len() - printed.rsplit(|byte| *byte == b'=').next().map_or(0, <[u8]>::len);
        let short = random.place(before);
        return random.one_of(&[before, short, longest, longest + more]);
    }
    random.one_of(&[0, 1, some, need - 1, need, need, need + 1, need + more])
}

/// The call of serving a text into a row that is empty, short, exact or longer.
fn serving_of(random: &mut Random, text: Vec<u8>) -> Call {
    let length = served_length(random, &text);
    Call {
        text,
        out: (0..length).map(|_| odd_number(random) as u8).collect(),
        ..Call::of(Kind::Serve, OwnTable::without_arcs(0, 0, 0))
    }
}

/// A text of the greatest length or one byte more, to be read or served.
fn longest_case(random: &mut Random, index: u64) -> Call {
    let text = OwnTable::with_arcs(3, 1, 3, &[(1, 2, 4), (2, 3, 3)])
        .text()
        .into_bytes();
    let length = if index == 0 { LONGEST_TEXT + 1 } else { LONGEST_TEXT };
    let text = padded(random, &text, length);
    match index {
        0 => reading_of(random, text),
        1 => serving_of(random, text),
        _ => Call {
            text,
            ..Call::of(Kind::ReadText, odd_rows(random, [3, 2, 4, 2]))
        },
    }
}

/// A text to read or to serve: as random texts are, or one without damage, or with a fault of its table.
fn read_text(random: &mut Random, seed: u64, index: u64) -> Vec<u8> {
    let fault = random.one_of(&FAULTS);
    let (text, _) = match random.between(0, 59) {
        0..=29 => random_text(seed, index),
        30 => text_with(random, &[Damage::TableFault(Fault::ManyArcs)]),
        31..=36 if fault != Fault::ManyArcs => text_with(random, &[Damage::TableFault(fault)]),
        _ => text_with(random, &[]),
    };
    text
}

/// Reading `index` of a seed.
pub fn random_reading(seed: u64, index: u64) -> Call {
    let random = &mut Random::of_case(seed ^ 0x7465_7874, index);
    if index < LONGEST_CASES {
        return longest_case(random, index);
    }
    let mut text = read_text(random, seed, index);
    if random.once_in(30) {
        let length = random.one_of(&[LONGEST_INPUT, LONGEST_INPUT + 1]);
        text = padded(random, &text, length);
    }
    if random.once_in(2) {
        reading_of(random, text)
    } else {
        serving_of(random, text)
    }
}

/// What a text gives where every row has room.
fn read_with_room(text: &[u8]) -> Result<Given, Refusal> {
    let [mut tails, mut heads, mut capacities, mut minimums] = [0; 4].map(|_| vec![0; 4_096]);
    read(text, &mut tails, &mut heads, &mut capacities, &mut minimums)
}

/// How four rows stand to m: which of them alone is short, or of what lengths they are.
fn rows_beside(lengths: [usize; 4], m: usize) -> String {
    let short: Vec<usize> = (0..4).filter(|row| lengths[*row] < m).collect();
    let different: BTreeSet<usize> = lengths.into_iter().collect();
    match short[..] {
        [row] => format!("{} alone short", ROW_NAMES[row]),
        [_, _, ..] => "more than one row short".to_string(),
        [] if lengths == [m; 4] => "rows exact".to_string(),
        [] if different.len() == 4 => "rows of four lengths".to_string(),
        [] => "rows of some lengths".to_string(),
    }
}

/// What a reading of text brings: how it ended, the lengths of its rows, and what stood behind a short row.
fn brought_by_reading(call: &Call, numbers: &Numbers) -> Vec<String> {
    let lengths = call.table.rows().map(Vec::len);
    let mut things = vec![called(call.kind, numbers[0])];
    match read_with_room(&call.text) {
        Ok(given) => {
            things.push(rows_beside(lengths, given.m as usize));
            things.extend(longest_with_any_flow(&call.text).map(|_| "read minimums above 0".to_string()));
        }
        Err(_) if numbers[0] == u64::from(Name::Room.number()) => things.push("ROOM before an arc's fault".to_string()),
        Err(_) => {}
    }
    if call.text.len() >= LONGEST_TEXT {
        things.push(format!("read {} bytes", call.text.len()));
    }
    things
}

/// How the length of a lent row of bytes stands to what is printed.
fn row_beside(length: usize, printed: usize) -> &'static str {
    match length {
        0 => "0",
        1 => "1",
        _ if length + 1 == printed => "one short",
        _ if length < printed => "short",
        _ if length == printed => "exact",
        _ => "longer",
    }
}

/// What a served text brings: what is printed, and how long the row and the text are.
fn brought_by_serving(call: &Call) -> Vec<String> {
    let printed = desk(&call.text);
    let mut things = vec![
        format!("Serve {}", outcome(&printed)),
        format!("Serve into a row: {}", row_beside(call.out.len(), printed.len())),
    ];
    if longest_with_any_flow(&call.text).is_some() {
        things.push("Serve a table with minimums".to_string());
    }
    if [LONGEST_INPUT, LONGEST_INPUT + 1].contains(&call.text.len()) {
        things.push(format!("served {} bytes", call.text.len()));
    }
    things
}

/// What a reading of text or a served text brings.
pub fn brought(call: &Call, numbers: &Numbers) -> Vec<String> {
    match call.kind {
        Kind::Serve => brought_by_serving(call),
        _ => brought_by_reading(call, numbers),
    }
}

/// What every comparison of readings must have seen: each refusal of a text, read and served, each length of the rows,
/// and each length of a text at its bound.
pub fn wanted() -> Vec<String> {
    use Name::*;
    let names = [
        Nodes, Arcs, Ends, Room, Node, Loop, Capacity, Minimum, Line, Count, Long,
    ];
    let mut wanted = vec![called(Kind::ReadText, 0), "Serve solved".to_string()];
    wanted.extend(names.map(|name| called(Kind::ReadText, u64::from(name.number()))));
    let served = names.into_iter().filter(|name| *name != Room);
    wanted.extend(served.map(|name| format!("Serve {}", name.word())));
    wanted.extend(
        [
            "Serve IMPOSSIBLE",
            "Serve a table with minimums",
            "read minimums above 0",
        ]
        .map(str::to_string),
    );
    wanted.extend(ROW_NAMES.map(|name| format!("{name} alone short")));
    wanted.extend(["rows exact", "rows of four lengths", "ROOM before an arc's fault"].map(str::to_string));
    wanted.extend(["0", "1", "one short", "short", "exact", "longer"].map(|row| format!("Serve into a row: {row}")));
    wanted.extend([LONGEST_TEXT, LONGEST_TEXT + 1].map(|length| format!("read {length} bytes")));
    wanted.extend([LONGEST_INPUT, LONGEST_INPUT + 1].map(|length| format!("served {length} bytes")));
    wanted
}
