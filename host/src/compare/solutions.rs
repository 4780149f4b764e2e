//! Random solution texts, written and read back.
use super::caller::{Call, Kind, Numbers};
use super::calls::{asked_table, called, odd_number};
use super::random::Random;
use super::tables::OwnTable;
use crate::refusal::Name;
use crate::solution::{solution_text, MOST_VALUE};
use crate::table::{check, Table};
use crate::text::LONGEST_TEXT;

/// What is done to a solution text before it is read back.
#[derive(Clone, Copy, PartialEq, Eq, Debug)]
pub enum Damage {
    Nothing,
    OtherByte,
    ByteMore,
    ByteLess,
    LineDropped,
    LineTwice,
    LinesSwapped,
    EmptyLine,
    Comment,
    NoLastLf,
    CutShort,
    NoText,
    LineTooMany,
    LeadingZero,
    BlankMore,
    TabForBlank,
    BlankAtEnd,
    CarriageReturn,
    OtherNumber,
    FlowAbove,
    FlowLarge,
    ValueAbove,
    ValueLarge,
}

/// All damages.
pub const DAMAGES: [Damage; 23] = [
    Damage::Nothing,
    Damage::OtherByte,
    Damage::ByteMore,
    Damage::ByteLess,
    Damage::LineDropped,
    Damage::LineTwice,
    Damage::LinesSwapped,
    Damage::EmptyLine,
    Damage::Comment,
    Damage::NoLastLf,
    Damage::CutShort,
    Damage::NoText,
    Damage::LineTooMany,
    Damage::LeadingZero,
    Damage::BlankMore,
    Damage::TabForBlank,
    Damage::BlankAtEnd,
    Damage::CarriageReturn,
    Damage::OtherNumber,
    Damage::FlowAbove,
    Damage::FlowLarge,
    Damage::ValueAbove,
    Damage::ValueLarge,
];

/// Flows within the capacities.
fn flows_within(random: &mut Random, table: &OwnTable) -> Vec<u32> {
    let some = |capacity: u32, random: &mut Random| {
        let any = random.between(0, capacity);
        random.one_of(&[0, any, capacity])
    };
    (0..table.arcs())
        .map(|place| some(table.capacities[place], random))
        .collect()
}

/// A value that may be written.
fn value_within(random: &mut Random) -> u64 {
    let any = u64::from(random.between(0, MOST_VALUE as u32));
    random.one_of(&[0, 7, any, MOST_VALUE])
}

/// The table of as many arcs as all four rows have.
fn whole(table: &OwnTable) -> OwnTable {
    let (mut whole, m) = (table.clone(), table.arcs());
    let rows = [
        &mut whole.tails,
        &mut whole.heads,
        &mut whole.capacities,
        &mut whole.minimums,
    ];
    rows.into_iter().for_each(|row| row.truncate(m));
    whole
}

/// The text that the writer writes for a value and flows.
fn written(table: &OwnTable, value: u64, flow: &[u32]) -> Vec<u8> {
    solution_text(&whole(table).lent(), value, flow).into_bytes()
}

/// A row of odd numbers after the first ones.
fn flow_row(random: &mut Random, mut flow: Vec<u32>) -> Vec<u32> {
    let m = flow.len();
    let length = match random.between(0, 19) {
        0 => m.saturating_sub(1),
        1 => random.place(m + 1),
        2..=8 => m + random.place(9) + 1,
        _ => m,
    };
    flow.resize_with(length, || odd_number(random));
    flow
}

/// The call of writing a text: mostly within the bounds.
fn writing(random: &mut Random, table: OwnTable) -> Call {
    let mut flow = flows_within(random, &table);
    if random.once_in(6) && !flow.is_empty() {
        let place = random.place(flow.len());
        flow[place] = random.one_of(&[table.capacities[place].saturating_add(1), u32::MAX]);
    }
    let mut value = value_within(random);
    if random.once_in(6) {
        value = random.one_of(&[MOST_VALUE + 1, 1 << 32, u64::MAX]);
    }
    let need = written(&table, value, &flow).len();
    let (some, more) = (random.place(need), random.place(20) + 1);
    let length = random.one_of(&[need, need, need, need, need + more, need + more, need - 1, some, 0]);
    let flow = flow_row(random, flow);
    Call {
        long: value,
        flow,
        out: (0..length).map(|_| odd_number(random) as u8).collect(),
        ..Call::of(Kind::WriteSolution, table)
    }
}

/// The place of a blank in a line.
fn some_blank(random: &mut Random, line: &[u8]) -> usize {
    let blanks: Vec<usize> = (0..line.len()).filter(|place| line[*place] == b' ').collect();
    if blanks.is_empty() {
        0
    } else {
        random.one_of(&blanks)
    }
}

/// Damages the bytes of one line, without its LF.
fn damage_line(random: &mut Random, line: &mut Vec<u8>, damage: Damage) {
    let blank = some_blank(random, line);
    let place = random.place(line.len().max(1));
    let byte = random.one_of(b"0123459 sfc\t\r\n-+.\0\xff");
    match damage {
        Damage::OtherByte if !line.is_empty() => line[place] = byte,
        Damage::ByteMore => line.insert(place, byte),
        Damage::ByteLess if !line.is_empty() => drop(line.remove(place)),
        Damage::LeadingZero if !line.is_empty() => line.insert(blank + 1, b'0'),
        Damage::BlankMore => line.insert(blank, b' '),
        Damage::TabForBlank if !line.is_empty() => line[blank] = b'\t',
        Damage::BlankAtEnd => line.push(b' '),
        Damage::CarriageReturn => line.push(b'\r'),
        _ => {}
    }
}

/// Damages the lines of a text.
fn damage_lines(random: &mut Random, lines: &mut Vec<Vec<u8>>, damage: Damage) {
    let (one, other) = (random.place(lines.len()), random.place(lines.len()));
    let gap = random.place(lines.len() + 1);
    match damage {
        Damage::LineDropped => drop(lines.remove(one)),
        Damage::LineTwice => lines.insert(gap, lines[one].clone()),
        Damage::LinesSwapped => lines.swap(one, other),
        Damage::EmptyLine => lines.insert(gap, Vec::new()),
        Damage::Comment => lines.insert(gap, b"c x".to_vec()),
        Damage::LineTooMany => lines.push(random.one_of(&["f 1 2 0", "s 0", "x", ""]).as_bytes().to_vec()),
        _ => damage_line(random, &mut lines[one], damage),
    }
}

/// The flows and the value of a text that is damaged by its numbers.
fn damage_numbers(random: &mut Random, table: &OwnTable, flow: &mut [u32], value: &mut u64, damage: Damage) {
    match damage {
        Damage::ValueAbove => *value = MOST_VALUE + 1,
        Damage::ValueLarge => *value = random.one_of(&[u64::from(u32::MAX), 1 << 32, 9_999_999_999, u64::MAX]),
        _ => {}
    }
    if flow.is_empty() {
        return;
    }
    let place = random.place(flow.len());
    match damage {
        Damage::OtherNumber => flow[place] = random.between(0, table.capacities[place]),
        Damage::FlowAbove => flow[place] = table.capacities[place].saturating_add(1),
        Damage::FlowLarge => flow[place] = random.one_of(&[u32::MAX, 4_000_000_000]),
        _ => {}
    }
}

/// A text to read back with this damage.
fn text_with(random: &mut Random, table: &OwnTable, damage: Damage) -> Vec<u8> {
    let (mut flow, mut value) = (flows_within(random, table), value_within(random));
    damage_numbers(random, table, &mut flow, &mut value, damage);
    let mut text = written(table, value, &flow);
    text.pop();
    let mut lines: Vec<Vec<u8>> = text.split(|byte| *byte == b'\n').map(<[u8]>::to_vec).collect();
    damage_lines(random, &mut lines, damage);
    let mut text: Vec<u8> = lines
        .into_iter()
        .flat_map(|line| [line, vec![b'\n']].concat())
        .collect();
    match damage {
        Damage::NoLastLf => drop(text.pop()),
        Damage::CutShort => text.truncate(random.place(text.len() + 1)),
        Damage::NoText => text.clear(),
        _ => {}
    }
    text
}

/// The call of reading a text back: mostly damaged in one way.
fn reading_back(random: &mut Random, table: OwnTable) -> Call {
    let any = random.one_of(&DAMAGES);
    let damage = random.one_of(&[Damage::Nothing, any, any]);
    let flow = (0..table.arcs()).map(|_| odd_number(random)).collect();
    Call {
        text: text_with(random, &table, damage),
        flow: flow_row(random, flow),
        done: damage as u32,
        ..Call::of(Kind::ReadSolution, table)
    }
}

/// A text of the greatest length, or one byte more, which is no solution text.
fn longest_case(random: &mut Random, index: u64) -> Call {
    let mut table = OwnTable::with_arcs(3, 1, 3, &[(1, 2, 4), (2, 3, 3)]);
    if index == 2 {
        table.n = 1;
    }
    let mut text = b"s 3\nf 1 2 3\nf 2 3 3\n".to_vec();
    text.resize(LONGEST_TEXT + usize::from(index > 0), b'\n');
    let flow = flow_row(random, vec![0; 2]);
    Call {
        text,
        flow,
        ..Call::of(Kind::ReadSolution, table)
    }
}

/// Solution text `index` of a seed, to write or to read.
pub fn random_solution(seed: u64, index: u64) -> Call {
    let random = &mut Random::of_case(seed ^ 0x736f_6c75, index);
    if index < 3 {
        return longest_case(random, index);
    }
    let table = asked_table(random);
    if random.once_in(2) {
        writing(random, table)
    } else {
        reading_back(random, table)
    }
}

/// All that is wrong with writing a text for an accepted table, in the order of refusals.
fn faults_of_writing(call: &Call, table: &Table) -> Vec<&'static str> {
    let m = table.arcs();
    let short_flow = call.flow.len() < m;
    let short_text = !short_flow && call.out.len() < solution_text(table, call.long, &call.flow).len();
    let above = call
        .flow
        .iter()
        .zip(table.capacities)
        .any(|(amount, capacity)| amount > capacity);
    let faults = [
        (table.is_bounded(), "BOUNDED"),
        (short_flow, "short flow row"),
        (short_text, "short text row"),
        (above, "flow above its capacity"),
        (call.long > MOST_VALUE, "value above"),
    ];
    faults
        .into_iter()
        .filter(|(is_there, _)| *is_there)
        .map(|(_, fault)| fault)
        .collect()
}

/// What writing for an accepted table brings.
fn brought_by_writing(call: &Call, table: &Table, numbers: &Numbers) -> Vec<String> {
    let faults = faults_of_writing(call, table);
    let mut things = vec![format!("write: {}", faults.join(" and "))];
    if faults.is_empty() {
        let beside = match call.out.len() as u64 == numbers[2] {
            true => "exact",
            false => "longer",
        };
        things.push(format!("write: text row {beside}"));
        things.extend((call.long == MOST_VALUE).then(|| "write: the greatest value".to_string()));
        things.extend((table.arcs() == 0).then(|| "write: no arcs".to_string()));
    }
    if numbers[0] == u64::from(Name::Solution.number()) {
        let at = if numbers[1] == table.arcs() as u64 {
            "m"
        } else {
            "a flow"
        };
        things.push(format!("write: SOLUTION at {at}"));
    }
    let need = solution_text(table, call.long, &flow_of(call, table)).len();
    things.extend(
        (faults == ["short text row"] && call.out.len() + 1 == need).then(|| "write: one byte short".to_string()),
    );
    things
}

/// The flows of a call, with 0 where the row is short.
fn flow_of(call: &Call, table: &Table) -> Vec<u32> {
    let mut flow = call.flow.clone();
    flow.resize(table.arcs(), 0);
    flow
}

/// Where a solution text was refused: at its first line, within, past its end, at a line too many or without LF.
fn refused_line(call: &Call, table: &Table, line: u64) -> String {
    let lines = call.text.split_inclusive(|byte| *byte == b'\n').count() as u64;
    let has_last_lf = call.text.last() == Some(&b'\n');
    let at = match line {
        _ if lines == 0 => "the empty text",
        _ if line > lines => "one past the last line",
        _ if line == table.arcs() as u64 + 2 => "a line too many",
        _ if line == lines && !has_last_lf => "the last line without LF",
        1 => "the first line",
        _ => "a line within",
    };
    format!("read: SOLUTION at {at}")
}

/// What reading back against an accepted table brings.
fn brought_by_reading(call: &Call, table: &Table, numbers: &Numbers) -> Vec<String> {
    let mut things = vec![format!("read: {:?}", DAMAGES[call.done as usize])];
    if numbers[0] == u64::from(Name::Solution.number()) {
        things.push(refused_line(call, table, numbers[1]));
    }
    if numbers[0] == 0 {
        things.extend((numbers[2] == MOST_VALUE).then(|| "read: the greatest value".to_string()));
        things.extend((table.arcs() == 0).then(|| "read: no arcs".to_string()));
        things.extend((call.flow.len() > table.arcs()).then(|| "read: flow row longer".to_string()));
    }
    if table.is_bounded() && call.flow.len() < table.arcs() {
        things.push("read: BOUNDED and short flow row".to_string());
    }
    things
}

/// What a solution text brings: how it ended, what was wrong, and how it was damaged.
pub fn brought(call: &Call, numbers: &Numbers) -> Vec<String> {
    let mut things = vec![called(call.kind, numbers[0])];
    if call.text.len() >= LONGEST_TEXT {
        let table = if call.table.n == 1 { "NODES" } else { "a table" };
        things.push(format!("{} bytes for {table}", call.text.len()));
        return things;
    }
    let table = call.table.lent();
    if check(&table, true).is_err() {
        return things;
    }
    things.extend(match call.kind {
        Kind::WriteSolution => brought_by_writing(call, &table, numbers),
        _ => brought_by_reading(call, &table, numbers),
    });
    things
}

/// What every comparison of solution texts must have seen: each refusal of both calls, faults together, each damage,
/// each place of a refusal, and each length at its bound.
pub fn wanted() -> Vec<String> {
    let refusals = || (0..=8).chain([16, 19, 21]);
    let mut wanted: Vec<String> = refusals().map(|number| called(Kind::WriteSolution, number)).collect();
    wanted.extend(refusals().chain([15]).map(|number| called(Kind::ReadSolution, number)));
    wanted.extend(DAMAGES.map(|damage| format!("read: {damage:?}")));
    let things = "write: ,write: short flow row,write: short text row,write: flow above its capacity,\
        write: value above,write: flow above its capacity and value above,\
        write: short text row and flow above its capacity,write: short text row and value above,\
        write: BOUNDED and short text row,write: BOUNDED and flow above its capacity,write: text row exact,\
        write: text row longer,write: one byte short,write: the greatest value,write: no arcs,write: SOLUTION at m,\
        write: SOLUTION at a flow,read: SOLUTION at the empty text,read: SOLUTION at one past the last line,\
        read: SOLUTION at a line too many,read: SOLUTION at the last line without LF,read: SOLUTION at the first line,\
        read: SOLUTION at a line within,read: the greatest value,read: no arcs,read: flow row longer,\
        read: BOUNDED and short flow row,1048576 bytes for a table,1048577 bytes for a table,1048577 bytes for NODES";
    wanted.extend(things.split(',').map(str::to_string));
    wanted
}
