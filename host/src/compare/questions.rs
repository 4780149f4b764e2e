//! Random questions whether a week has room for so many.
use super::caller::{Call, Kind, Numbers};
use super::calls::{asked_table, called, odd_number};
use super::random::Random;
use crate::room::{room_work_need, run_until};
use crate::solve::work_need;
use crate::table::{check, Table};

/// How many are asked for: at and beside the value, at and beside what the start brings, and anything.
fn asked_for(random: &mut Random, table: &Table) -> u64 {
    let large = random.one_of(&[1 << 32, (1 << 32) + 1, 4_096_000_001, u64::MAX]);
    if check(table, true).is_err() || table.is_bounded() {
        return random.one_of(&[0, 1, 9, large]);
    }
    let (start, value) = (run_until(table, 0).value, run_until(table, u64::MAX).value);
    let between = u64::from(random.between(start as u32, value as u32));
    let any = random.bits() % 5_000_000;
    random.one_of(&[
        0,
        1,
        start,
        start + 1,
        start + 1,
        between,
        between,
        between,
        value.saturating_sub(1),
        value,
        value,
        value + 1,
        value + 1,
        any,
        large,
    ])
}

/// The length of the work row: exact, longer, one short, as for solving, or short.
fn work_length(random: &mut Random, table: &Table) -> usize {
    let need = room_work_need(table).min(20_000) as usize;
    let as_for_solving = work_need(table).min(20_000) as usize;
    let (more, some) = (random.place(9) + 1, random.place(need));
    match random.between(0, 19) {
        0 => need - 1,
        1 => as_for_solving,
        2 => some,
        3..=8 => need + more,
        _ => need,
    }
}

/// Question `index` of a seed.
pub fn random_question(seed: u64, index: u64) -> Call {
    let random = &mut Random::of_case(seed ^ 0x726f_6f6d, index);
    let table = asked_table(random);
    let length = work_length(random, &table.lent());
    let long = asked_for(random, &table.lent());
    Call {
        stamp: odd_number(random),
        long,
        work: (0..length).map(|_| odd_number(random)).collect(),
        ..Call::of(Kind::HasRoomFor, table)
    }
}

/// How the work row stands to its need.
fn work_beside(call: &Call, table: &Table) -> &'static str {
    let (length, need) = (call.work.len() as u64, room_work_need(table));
    match length {
        _ if length == need => "exact",
        _ if length > need => "longer",
        _ if length + 1 == need => "one short",
        _ if length == work_need(table) => "as for solving",
        _ => "short",
    }
}

/// What an answered question brings.
fn brought_by_answer(call: &Call, table: &Table, numbers: &Numbers) -> Vec<String> {
    let (q, yes, value) = (call.long, numbers[3] == 1, numbers[4]);
    let full = run_until(table, u64::MAX);
    let steps: u64 = numbers[7..10].iter().sum();
    let all_steps = full.counts.saturating + full.counts.nonsaturating + full.counts.relabels;
    let things = [
        (!yes, "no"),
        (yes && steps == 0, "yes at the start"),
        (yes && steps > 0 && steps < all_steps, "yes before the end"),
        (yes && steps > 0 && steps == all_steps, "yes at the last step"),
        (q == 0, "0 asked for"),
        (q == 0 && value > 0, "0 asked for and more there"),
        (q == full.value, "the value asked for"),
        (q == full.value + 1, "one more than the value asked for"),
        (yes && value > q, "more there than asked for"),
        (yes && value == q && steps > 0, "as many there as asked for"),
        (q >= 1 << 32, "2^32 or more asked for"),
        (full.value == 0, "value 0"),
    ];
    let met = things.into_iter().filter(|(is_met, _)| *is_met);
    met.map(|(_, thing)| thing.to_string()).collect()
}

/// What a question brings: how it ended, what was wrong with it, and where the run stopped.
pub fn brought(call: &Call, numbers: &Numbers) -> Vec<String> {
    let table = call.table.lent();
    let mut things = vec![called(call.kind, numbers[0])];
    if check(&table, true).is_err() {
        return things;
    }
    let beside = work_beside(call, &table);
    things.push(format!("work row {beside}"));
    if table.is_bounded() && (call.work.len() as u64) < room_work_need(&table) {
        things.push("ROOM and BOUNDED".to_string());
    }
    if numbers[0] == 0 {
        things.extend(brought_by_answer(call, &table, numbers));
    } else if call.long == 0 {
        things.push("refused though 0 is asked for".to_string());
    }
    things
}

/// What every comparison of questions must have seen: an answer and each refusal, each length of the work row, and each
/// way to stop.
pub fn wanted() -> Vec<String> {
    let refusals = (0..=8).chain([19, 21]);
    let mut wanted: Vec<String> = refusals.map(|number| called(Kind::HasRoomFor, number)).collect();
    let things = "work row exact,work row longer,work row one short,work row as for solving,work row short,\
        ROOM and BOUNDED,refused though 0 is asked for,no,yes at the start,yes before the end,yes at the last step,\
        0 asked for,0 asked for and more there,the value asked for,one more than the value asked for,\
        more there than asked for,as many there as asked for,2^32 or more asked for,value 0";
    wanted.extend(things.split(',').map(str::to_string));
    wanted
}
