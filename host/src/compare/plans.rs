//! Random plans to check: made from solved tables, in any order and form, and changed a little.
use super::caller::{Call, Kind, Numbers};
use super::calls::{asked_table, called, odd_mark};
use super::random::Random;
use super::spacing::{gaps, respaced};
use super::tables::OwnTable;
use super::walks::add_ring;
use crate::plan::{read_plan, why_not_full, Why};
use crate::refusal::Name;
use crate::run::run;
use crate::side::side;
use crate::solve::value;
use crate::table::{check, Table};
use crate::text::LONGEST_TEXT;
use std::collections::{BTreeMap, BTreeSet};

/// What is changed in a plan.
#[derive(Clone, Copy, PartialEq, Eq, Debug)]
pub enum Change {
    Nothing,
    AmountMore,
    AmountLess,
    RingAbove,
    ChainTakenOut,
    RoundTwoTo32,
    NoSuchPair,
    NoSuchPairOf0,
    OppositePair,
    ValueMore,
    ValueLess,
    ValueLarge,
    MarkChanged,
    MarkOf2,
    SourceUnmarked,
    SinkMarked,
    AllMarked,
    SecondS,
    FBeforeS,
    NoS,
    OnlyComments,
    SAlone,
    EmptyLine,
    BlankInFront,
    FieldMore,
    FieldLess,
    NoNumber,
    LargeNumber,
    OtherLetter,
    NoText,
}

/// All changes.
pub const CHANGES: [Change; 30] = [
    Change::Nothing,
    Change::AmountMore,
    Change::AmountLess,
    Change::RingAbove,
    Change::ChainTakenOut,
    Change::RoundTwoTo32,
    Change::NoSuchPair,
    Change::NoSuchPairOf0,
    Change::OppositePair,
    Change::ValueMore,
    Change::ValueLess,
    Change::ValueLarge,
    Change::MarkChanged,
    Change::MarkOf2,
    Change::SourceUnmarked,
    Change::SinkMarked,
    Change::AllMarked,
    Change::SecondS,
    Change::FBeforeS,
    Change::NoS,
    Change::OnlyComments,
    Change::SAlone,
    Change::EmptyLine,
    Change::BlankInFront,
    Change::FieldMore,
    Change::FieldLess,
    Change::NoNumber,
    Change::LargeNumber,
    Change::OtherLetter,
    Change::NoText,
];

/// A plan that is being made: its value, its f lines as tail, head and amount, and its marks.
struct Draft {
    value: u64,
    flows: Vec<(u32, u32, u64)>,
    marks: Vec<u8>,
}

/// A greatest flow of an accepted table: the run's, sometimes with rings.
fn greatest_flow(random: &mut Random, table: &Table) -> Vec<u32> {
    let mut flow = run(table).flow;
    if random.once_in(3) {
        (0..4).for_each(|_| add_ring(random, table, &mut flow));
    }
    flow
}

/// The nodes that don't reach the sink over residual arcs: the greatest side of a least cut.
fn greatest_side(table: &Table, flow: &[u32]) -> Vec<u8> {
    let back = Table {
        s: table.t,
        t: table.s,
        tails: table.heads,
        heads: table.tails,
        ..*table
    };
    side(&back, flow).into_iter().map(|mark| 1 - mark).collect()
}

/// The plan of a solved table, and its marks.
fn draft_of(random: &mut Random, table: &Table) -> Draft {
    let flow = greatest_flow(random, table);
    let marks = if random.once_in(4) {
        greatest_side(table, &flow)
    } else {
        side(table, &flow)
    };
    let line = |place: usize| (table.tails[place], table.heads[place], u64::from(flow[place]));
    Draft {
        value: value(table, &flow) as u64,
        flows: (0..table.arcs()).map(line).collect(),
        marks,
    }
}

/// A plan for a table that is refused: any numbers will do.
fn odd_draft(random: &mut Random, table: &OwnTable) -> Draft {
    let line = |place: usize| (table.tails[place], table.heads[place], 1);
    Draft {
        value: 1,
        flows: (0..table.arcs()).map(line).collect(),
        marks: (0..table.n.min(600)).map(|_| odd_mark(random)).collect(),
    }
}

/// Sums the amounts of each pair into one line.
fn merged(flows: &[(u32, u32, u64)]) -> Vec<(u32, u32, u64)> {
    let mut sums = BTreeMap::new();
    for (tail, head, amount) in flows {
        *sums.entry((*tail, *head)).or_insert(0) += amount;
    }
    sums.into_iter().map(|((tail, head), sum)| (tail, head, sum)).collect()
}

/// Splits some amounts into two lines.
fn split(random: &mut Random, flows: &[(u32, u32, u64)]) -> Vec<(u32, u32, u64)> {
    let mut parts = Vec::new();
    for (tail, head, amount) in flows {
        let part = random.place(*amount as usize + 1) as u64;
        parts.push((*tail, *head, part));
        parts.push((*tail, *head, amount - part));
    }
    parts
}

/// Puts lines into another order.
fn shuffle<T>(random: &mut Random, rows: &mut [T]) {
    for last in (1..rows.len()).rev() {
        rows.swap(last, random.place(last + 1));
    }
}

/// Puts the f lines into another form that means the same.
fn reform(random: &mut Random, draft: &mut Draft) {
    if random.once_in(3) {
        draft.flows = merged(&draft.flows);
    }
    if random.once_in(3) {
        draft.flows = split(random, &draft.flows);
    }
    if random.once_in(2) {
        draft.flows.retain(|(_, _, amount)| *amount > 0);
    }
    if random.once_in(2) {
        shuffle(random, &mut draft.flows);
    }
}

/// Changes the amounts of a plan.
fn change_amounts(random: &mut Random, draft: &mut Draft, n: u32, change: Change) {
    let (any_tail, any_head) = (
        random.between(0, n.saturating_add(1)),
        random.between(0, n.saturating_add(1)),
    );
    match change {
        Change::NoSuchPair => draft.flows.push((any_tail, any_head, 1)),
        Change::NoSuchPairOf0 => draft.flows.push((any_tail, any_head, 0)),
        Change::RingAbove => {
            let ring: Vec<(u32, u32, u64)> = draft.flows.iter().map(|(tail, head, _)| (*head, *tail, 1)).collect();
            let one = random.place(ring.len().max(1));
            if let Some((head, tail, amount)) = ring.get(one) {
                draft.flows.extend([(*tail, *head, *amount), (*head, *tail, *amount)]);
            }
        }
        _ => {}
    }
    if draft.flows.is_empty() {
        return;
    }
    let place = random.place(draft.flows.len());
    let (tail, head, amount) = draft.flows[place];
    match change {
        Change::AmountMore => draft.flows[place].2 += 1,
        Change::AmountLess => draft.flows[place].2 = amount.saturating_sub(1),
        Change::ChainTakenOut => draft.flows.iter_mut().for_each(|flow| flow.2 = 0),
        Change::RoundTwoTo32 => draft.flows.extend([(tail, head, u64::from(u32::MAX)), (tail, head, 1)]),
        Change::OppositePair => draft.flows[place] = (head, tail, amount),
        _ => {}
    }
}

/// Changes the value or the marks of a plan.
fn change_numbers(random: &mut Random, draft: &mut Draft, table: &OwnTable, change: Change) {
    match change {
        Change::ValueMore => draft.value += 1,
        Change::ValueLess => draft.value = draft.value.saturating_sub(1),
        Change::ValueLarge => draft.value = random.one_of(&[4_096_000_001, u64::from(u32::MAX)]),
        Change::ChainTakenOut => draft.value = 0,
        _ => {}
    }
    if draft.marks.is_empty() {
        return;
    }
    let node = random.place(draft.marks.len());
    let place_of = |node: u32| (node.max(1) as usize - 1).min(table.n as usize).min(599);
    let (source, sink) = (place_of(table.s), place_of(table.t));
    match change {
        Change::MarkChanged => draft.marks[node] ^= 1,
        Change::MarkOf2 => draft.marks[node] = random.one_of(&[2, 255]),
        Change::SourceUnmarked if source < draft.marks.len() => draft.marks[source] = random.one_of(&[0, 2]),
        Change::SinkMarked if sink < draft.marks.len() => draft.marks[sink] = 1,
        Change::AllMarked => draft.marks.fill(1),
        _ => {}
    }
}

/// The lines of a plan.
fn lines_of(draft: &Draft) -> Vec<Vec<u8>> {
    let mut lines = vec![format!("s {}", draft.value).into_bytes()];
    let line = |(tail, head, amount): &(u32, u32, u64)| format!("f {tail} {head} {amount}").into_bytes();
    lines.extend(draft.flows.iter().map(line));
    lines
}

/// Changes the lines of a plan.
fn change_lines(random: &mut Random, lines: &mut Vec<Vec<u8>>, change: Change) {
    let gap = random.place(lines.len() + 1);
    let one = random.place(lines.len());
    let field = random.one_of(&["x", "-1", "01", "1.0", "00000000001"]);
    match change {
        Change::SecondS => lines.insert(gap.max(1), lines[0].clone()),
        Change::FBeforeS => lines.insert(0, b"f 1 2 0".to_vec()),
        Change::NoS => drop(lines.remove(0)),
        Change::OnlyComments => *lines = vec![b"c".to_vec(); random.between(1, 3) as usize],
        Change::SAlone => lines.truncate(1),
        Change::EmptyLine => lines.insert(gap, Vec::new()),
        Change::BlankInFront => lines[one].insert(0, b' '),
        Change::FieldMore => lines[one].extend_from_slice(b" 0"),
        Change::FieldLess | Change::NoNumber | Change::LargeNumber => {
            let end = lines[one].iter().rposition(|byte| *byte == b' ').unwrap_or(0);
            lines[one].truncate(end);
            let large = random.one_of(&[" 4294967296", " 9999999999"]);
            match change {
                Change::NoNumber => lines[one].extend_from_slice(format!(" {field}").as_bytes()),
                Change::LargeNumber => lines[one].extend_from_slice(large.as_bytes()),
                _ => {}
            }
        }
        Change::OtherLetter => lines[one][0] = random.one_of(b"SFaxpn"),
        Change::NoText => lines.clear(),
        _ => {}
    }
}

/// The text of a plan's lines: sometimes with comments, runs of blanks and tabs, or without the last LF.
fn text_of(random: &mut Random, mut lines: Vec<Vec<u8>>) -> Vec<u8> {
    if random.once_in(3) {
        let longest = random.one_of(&[2, 9]);
        lines = lines.iter().map(|line| respaced(random, line, longest)).collect();
    }
    if random.once_in(3) && !lines.is_empty() {
        for _ in 0..random.between(1, 3) {
            let gap = random.place(lines.len() + 1);
            lines.insert(gap, random.one_of(&["c", "c s 1", "cf", "c\t\r"]).as_bytes().to_vec());
        }
    }
    let mut text: Vec<u8> = lines
        .into_iter()
        .flat_map(|line| [line, vec![b'\n']].concat())
        .collect();
    if random.once_in(6) {
        text.pop();
    }
    text
}

/// The marks of a plan as a lent row: exact, longer or short.
fn mark_row(random: &mut Random, mut marks: Vec<u8>) -> Vec<u8> {
    let n = marks.len();
    let length = match random.between(0, 29) {
        0 => n.saturating_sub(1),
        1 => random.place(n + 1),
        2..=9 => n + random.place(9) + 1,
        _ => n,
    };
    marks.resize_with(length, || odd_mark(random));
    marks
}

/// A text of the greatest length or one byte more: a plan that is full but for comments.
fn longest_case(random: &mut Random, index: u64) -> Call {
    let mut table = OwnTable::with_arcs(3, 1, 3, &[(1, 2, 4), (2, 3, 3)]);
    if index == 2 {
        table.n = 1;
    }
    let mut text = b"s 3\nf 1 2 3\nf 2 3 3\n".to_vec();
    text.resize(LONGEST_TEXT + usize::from(index > 0), b'c');
    Call {
        text,
        side: mark_row(random, vec![1, 1, 0]),
        ..Call::of(Kind::CheckPlan, table)
    }
}

/// Plan `index` of a seed.
pub fn random_plan(seed: u64, index: u64) -> Call {
    let random = &mut Random::of_case(seed ^ 0x706c_616e, index);
    if index < 3 {
        return longest_case(random, index);
    }
    let table = asked_table(random);
    let lent = table.lent();
    let any = random.one_of(&CHANGES);
    let change = random.one_of(&[Change::Nothing, any, any]);
    let mut draft = match check(&lent, true) {
        Ok(()) if !lent.is_bounded() => draft_of(random, &lent),
        _ => odd_draft(random, &table),
    };
    reform(random, &mut draft);
    change_amounts(random, &mut draft, table.n, change);
    change_numbers(random, &mut draft, &table, change);
    let mut lines = lines_of(&draft);
    change_lines(random, &mut lines, change);
    Call {
        text: text_of(random, lines),
        side: mark_row(random, draft.marks),
        done: change as u32,
        ..Call::of(Kind::CheckPlan, table)
    }
}

/// What the form of a text brings that was read.
fn brought_by_form(call: &Call, table: &Table) -> Vec<String> {
    let lines: Vec<&[u8]> = call.text.split(|byte| *byte == b'\n').collect();
    let is_comment = |line: &&&[u8]| line.first() == Some(&b'c');
    let flows: Vec<Vec<u8>> = lines
        .iter()
        .filter(|line| line.first() == Some(&b'f'))
        .map(|line| pair_in(line))
        .collect();
    let pairs: BTreeSet<&Vec<u8>> = flows.iter().collect();
    let arcs: BTreeSet<(u32, u32)> = (0..table.arcs())
        .map(|place| (table.tails[place], table.heads[place]))
        .collect();
    let is_long = |line: &&&[u8]| gaps(line).iter().any(|gap| gap.len() > 1);
    let forms = [
        (lines.iter().any(|line| is_comment(&line)), "comments"),
        (
            lines.first().is_some_and(|line| is_comment(&line)),
            "a comment before the s line",
        ),
        (
            lines.iter().filter(|line| !is_comment(line)).any(|line| is_long(&line)),
            "runs of blanks or tabs",
        ),
        (call.text.contains(&b'\t'), "tabs"),
        (call.text.last() != Some(&b'\n'), "no last LF"),
        (pairs.len() < flows.len(), "a pair in two lines"),
        (arcs.len() < table.arcs(), "parallel arcs"),
        (pairs.len() < arcs.len(), "a pair left out"),
        (flows.is_empty(), "no f lines"),
        (call.side.len() > table.n as usize, "side row longer"),
    ];
    let met = forms.into_iter().filter(|(is_met, _)| *is_met);
    met.map(|(_, form)| form.to_string()).collect()
}

/// The letter, tail and head of an f line.
fn pair_in(line: &[u8]) -> Vec<u8> {
    let fields = line
        .split(|byte| *byte == b' ' || *byte == b'\t')
        .filter(|field| !field.is_empty());
    fields.take(3).collect::<Vec<&[u8]>>().join(&b' ')
}

/// What a plan that was read brings: full and its form, or why it isn't.
fn brought_by_plan(call: &Call, table: &Table) -> Vec<String> {
    let Ok(plan) = read_plan(&call.text) else {
        return Vec::new();
    };
    let why = why_not_full(table, &plan, &call.side);
    let change = CHANGES[call.done as usize];
    let mut things = Vec::new();
    if why.is_empty() {
        things.push(format!("full after {change:?}"));
        things.extend(
            brought_by_form(call, table)
                .into_iter()
                .map(|form| format!("full: {form}")),
        );
        let both = |(tail, head): &(u32, u32)| plan.sums.get(&(*head, *tail)).is_some_and(|sum| *sum > 0);
        let opposite = plan.sums.iter().any(|(pair, sum)| *sum > 0 && both(pair));
        things.extend(opposite.then(|| "full: opposite pairs both in use".to_string()));
        things.extend((plan.value == 0).then(|| "full: value 0".to_string()));
    }
    if let [why] = why[..] {
        things.push(format!("not full by {why:?} alone"));
    }
    if plan.sums.values().any(|sum| *sum > u64::from(u32::MAX)) {
        things.push("a sum above 2^32".to_string());
    }
    things
}

/// What a plan brings: how it ended, what was changed, and what it was.
pub fn brought(call: &Call, numbers: &Numbers) -> Vec<String> {
    let mut things = vec![called(call.kind, numbers[0])];
    let table = call.table.lent();
    if call.text.len() >= LONGEST_TEXT {
        let table = if call.table.n == 1 { "NODES" } else { "a table" };
        things.push(format!("{} bytes for {table}", call.text.len()));
        return things;
    }
    if check(&table, true).is_err() {
        return things;
    }
    things.push(format!("{:?}", CHANGES[call.done as usize]));
    let is_short = (call.side.len() as u64) < u64::from(table.n);
    let is_unread = read_plan(&call.text).is_err();
    if is_short {
        let other = [
            (table.is_bounded(), "BOUNDED and ROOM"),
            (is_unread, "ROOM and SOLUTION"),
        ];
        things.extend(
            other
                .into_iter()
                .filter(|(is_met, _)| *is_met)
                .map(|(_, faults)| faults.to_string()),
        );
    } else if !table.is_bounded() {
        things.extend(brought_by_plan(call, &table));
    }
    if numbers[0] == u64::from(Name::Solution.number()) {
        let lines = call.text.split_inclusive(|byte| *byte == b'\n').count() as u64;
        let at = if numbers[1] > lines {
            "one past the last line"
        } else {
            "a line"
        };
        things.push(format!("SOLUTION at {at}"));
    }
    things
}

/// What every comparison of plans must have seen: each refusal, each change, each reason alone why a plan isn't full,
/// and each form of a full one.
pub fn wanted() -> Vec<String> {
    use Why::*;
    let refusals = (0..=8).chain([15, 16, 19, 21]);
    let mut wanted: Vec<String> = refusals.map(|number| called(Kind::CheckPlan, number)).collect();
    wanted.extend(CHANGES.map(|change| format!("{change:?}")));
    let reasons = [Capacity, Conservation, Value, SourceUnmarked, SinkMarked, Cut];
    wanted.extend(reasons.map(|why| format!("not full by {why:?} alone")));
    let things = "full after Nothing,full after NoSuchPairOf0,full after SAlone,full: comments,\
        full: a comment before the s line,full: runs of blanks or tabs,full: tabs,full: no last LF,\
        full: a pair in two lines,full: parallel arcs,full: a pair left out,full: no f lines,full: side row longer,\
        full: opposite pairs both in use,full: value 0,a sum above 2^32,BOUNDED and ROOM,ROOM and SOLUTION,\
        SOLUTION at a line,SOLUTION at one past the last line,1048576 bytes for a table,1048577 bytes for a table,\
        1048577 bytes for NODES";
    wanted.extend(things.split(',').map(str::to_string));
    wanted
}
