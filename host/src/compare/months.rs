//! Random months: days' tables in joined rows.
use super::caller::{month_of, Call, Kind, Numbers};
use super::calls::{asked_table, called, odd_mark, odd_number};
use super::random::Random;
use super::tables::OwnTable;
use crate::month::{check_month, sums_of, Month, DAY_MARKS, DAY_NUMBERS, MOST_DAYS};
use crate::refusal::Name;
use crate::solve::{answered, solve, work_need, Answer};
use crate::table::{check, Table, MOST_ARCS};

/// The names of the nine rows that are read.
const ROW_NAMES: [&str; 9] = [
    "starts",
    "nodes",
    "sources",
    "sinks",
    "stamps",
    "tails",
    "heads",
    "capacities",
    "minimums",
];

/// A day's table: seldom a large one, with rows of one length.
fn day_table(random: &mut Random) -> OwnTable {
    loop {
        let mut table = asked_table(random);
        let m = table.arcs();
        let rows = [
            &mut table.tails,
            &mut table.heads,
            &mut table.capacities,
            &mut table.minimums,
        ];
        rows.into_iter().for_each(|row| row.truncate(m));
        if m < 60 || random.once_in(8) {
            return table;
        }
    }
}

/// How many days a month has: mostly few, sometimes none, 31 or more.
fn number_of_days(random: &mut Random) -> usize {
    match random.between(0, 59) {
        0 => 0,
        1 => random.one_of(&[30, MOST_DAYS]),
        2 => random.one_of(&[MOST_DAYS + 1, MOST_DAYS + 2]),
        _ => random.between(1, 6) as usize,
    }
}

/// Joins a day's table to the month's rows.
fn join_day(random: &mut Random, call: &mut Call, day: &OwnTable) {
    let start = call.table.arcs() as u32;
    let numbers = [start, day.n, day.s, day.t, odd_number(random)];
    call.lists
        .iter_mut()
        .zip(numbers)
        .for_each(|(list, number)| list.push(number));
    call.table.tails.extend(&day.tails);
    call.table.heads.extend(&day.heads);
    call.table.capacities.extend(&day.capacities);
    call.table.minimums.extend(&day.minimums);
}

/// A month that is fine as a whole, without rows to write.
fn joined_month(random: &mut Random) -> Call {
    let mut call = Call::of(Kind::SolveMonth, OwnTable::without_arcs(0, 0, 0));
    if random.once_in(6) {
        (0..random.between(1, 9)).for_each(|_| call.table.add(9, 9, u32::MAX));
    }
    for _ in 0..number_of_days(random) {
        let day = day_table(random);
        join_day(random, &mut call, &day);
    }
    call
}

/// Makes one of the nine rows shorter or longer.
fn part_row(random: &mut Random, call: &mut Call) {
    let table = &mut call.table;
    let row = match random.place(9) {
        row @ 0..=4 => &mut call.lists[row],
        5 => &mut table.tails,
        6 => &mut table.heads,
        7 => &mut table.capacities,
        _ => &mut table.minimums,
    };
    if random.once_in(2) || row.is_empty() {
        row.push(1);
    } else {
        row.pop();
    }
}

/// Moves a start: to the rows' end, past it, below an earlier one, or anywhere.
fn move_start(random: &mut Random, call: &mut Call) {
    let end = call.table.arcs() as u32;
    let any = random.between(0, end + 1);
    let starts = &mut call.lists[0];
    if let Some(last) = starts.len().checked_sub(1) {
        let some = random.place(starts.len());
        let day = random.one_of(&[last, some]);
        starts[day] = random.one_of(&[end, end, end + 1, u32::MAX, any, 0]);
    }
}

/// The greatest need of a day's work row.
fn greatest_need(month: &Month) -> usize {
    let is_fine = month.rows_agree() && month.starts_are_good();
    let days = if is_fine { month.days() } else { 0 };
    let needs = (0..days)
        .map(|day| month.table(day))
        .filter(|table| table.n <= 512)
        .map(|table| work_need(&table));
    needs.max().unwrap_or(9).min(20_000) as usize
}

/// The length of a row to write: mostly exact or longer, seldom short.
fn written_length(random: &mut Random, need: usize) -> usize {
    match random.between(0, 39) {
        0 => need.saturating_sub(1),
        1 => random.place(need + 1),
        2..=12 => need + random.place(9) + 1,
        _ => need,
    }
}

/// Lends the rows that are written.
fn lend_rows(random: &mut Random, call: &mut Call) {
    let (days, arcs) = (call.lists[0].len(), call.table.tails.len());
    let need = greatest_need(&month_of(call));
    let needs = [arcs, DAY_MARKS * days, DAY_NUMBERS * days];
    let [flow, side, answers] = needs.map(|need| written_length(random, need));
    let some = random.place(need + 1);
    let work = random.one_of(&[need, need, need, need + 3, need + 900, need - 1, some]);
    call.flow = (0..flow).map(|_| odd_number(random)).collect();
    call.side = (0..side).map(|_| odd_mark(random)).collect();
    call.work = (0..work).map(|_| odd_number(random)).collect();
    call.answers = (0..answers).map(|_| u64::from(odd_number(random)) << 7).collect();
}

/// The first months: one day of 4,097 arcs, and two of the greatest value.
fn of_many_arcs(random: &mut Random) -> Call {
    let mut call = Call::of(Kind::SolveMonth, OwnTable::without_arcs(0, 0, 0));
    let small = OwnTable::with_arcs(3, 1, 3, &[(1, 2, 4), (2, 3, 3)]);
    let many = OwnTable::with_arcs(2, 1, 2, &[(9, 9, 1); MOST_ARCS + 1]);
    let most = OwnTable::with_arcs(2, 1, 2, &[(1, 2, 1_000_000); MOST_ARCS]);
    [&small, &many, &most, &most, &small]
        .into_iter()
        .for_each(|day| join_day(random, &mut call, day));
    lend_rows(random, &mut call);
    call
}

/// Month `index` of a seed.
pub fn random_month(seed: u64, index: u64) -> Call {
    let random = &mut Random::of_case(seed ^ 0x6d6f_6e74, index);
    if index < 8 {
        return of_many_arcs(random);
    }
    let mut call = joined_month(random);
    match random.between(0, 19) {
        0 => move_start(random, &mut call),
        1 => part_row(random, &mut call),
        2 => {
            move_start(random, &mut call);
            part_row(random, &mut call);
        }
        _ => {}
    }
    lend_rows(random, &mut call);
    call
}

/// How a day ends by itself with rows of its own and this work row.
fn day_alone(table: &Table, work: usize) -> Answer {
    if check(table, true).is_ok() && table.is_bounded() && work as u64 >= work_need(table) {
        return answered(Err(Name::Bounded.at(0)));
    }
    let mut own_work = vec![0; work];
    solve(table, 0, &mut vec![0; table.arcs()], &mut [0; DAY_MARKS], &mut own_work)
}

/// All that is wrong with a month as a whole.
fn faults(call: &Call, month: &Month) -> Vec<String> {
    let days = month.days();
    let rooms = [
        ("flow", call.flow.len(), month.arcs()),
        ("side", call.side.len(), DAY_MARKS * days),
        ("answers", call.answers.len(), DAY_NUMBERS * days),
    ];
    let mut faults = Vec::new();
    faults.extend((days > MOST_DAYS).then(|| "MANY".to_string()));
    faults.extend((!month.rows_agree()).then(|| "ROWS".to_string()));
    faults.extend((!month.starts_are_good()).then(|| "STARTS".to_string()));
    for (row, length, need) in rooms {
        let by = if length + 1 == need { " by one" } else { "" };
        faults.extend((length < need).then(|| format!("short {row}{by}")));
    }
    faults
}

/// The row that alone differs from the others of its set.
fn parted_row(call: &Call, month: &Month) -> Option<String> {
    let lists = call.lists.iter().map(Vec::len);
    let lengths: Vec<usize> = lists.chain(call.table.rows().map(Vec::len)).collect();
    let alone = |row: usize| {
        let set = if row < 5 { 0..5 } else { 5..9 };
        set.filter(|other| lengths[*other] != lengths[row]).count() > 1
    };
    let parted: Vec<usize> = (0..9).filter(|row| alone(*row)).collect();
    match parted[..] {
        [row] if !month.rows_agree() => Some(format!("ROWS by {}", ROW_NAMES[row])),
        _ => None,
    }
}

/// What the days of a month that is fine as a whole bring.
fn brought_by_days(call: &Call, month: &Month) -> Vec<String> {
    let days: Vec<Answer> = (0..month.days())
        .map(|day| day_alone(&month.table(day), call.work.len()))
        .collect();
    let mut things: Vec<String> = days.iter().map(|day| format!("day {:2}", day.refusal)).collect();
    let is_solved = |day: &Answer| day.refusal == 0;
    let values: Vec<i64> = days.iter().filter(|day| is_solved(day)).map(|day| day.value).collect();
    let least = values
        .iter()
        .filter(|value| Some(*value) == values.iter().min())
        .count();
    let empty = |day: usize| month.places(day).0 == month.places(day).1;
    let between = days
        .windows(3)
        .any(|three| is_solved(&three[0]) && !is_solved(&three[1]) && is_solved(&three[2]));
    let short_of_work = days.iter().any(|day| day.refusal == Name::Room.number());
    let sums = sums_of(&days);
    let told = [
        (month.days() == 0, "no days"),
        (month.days() == 1, "one day"),
        (month.days() == MOST_DAYS, "31 days"),
        (!days.is_empty() && values.is_empty(), "no day solved"),
        (values.len() > 1 && values.len() == days.len(), "all days solved"),
        (between, "a refused day between solved ones"),
        (least > 1, "two days of least value"),
        (sums.day > 1, "a later day of least value"),
        (sums.total > u64::from(u32::MAX), "a total above 2^32"),
        ((0..month.days()).any(empty), "a day without arcs"),
        (
            month.starts.last().is_some_and(|start| *start as usize == month.arcs()),
            "a start at the rows' end",
        ),
        (
            month.starts.first().is_some_and(|start| *start > 0),
            "a first start above 0",
        ),
        (short_of_work && !values.is_empty(), "work short for some days alone"),
    ];
    things.extend(
        told.into_iter()
            .filter(|(is_met, _)| *is_met)
            .map(|(_, thing)| thing.to_string()),
    );
    things
}

/// What a month brings: how it ended as a whole, what was wrong with it, and what its days were.
pub fn brought(call: &Call, numbers: &Numbers) -> Vec<String> {
    let month = month_of(call);
    let mut things = vec![called(call.kind, numbers[0])];
    things.extend(parted_row(call, &month));
    let faults = faults(call, &month);
    if !faults.is_empty() {
        things.push(faults.join(" and "));
    }
    if check_month(&month, call.flow.len(), call.side.len(), call.answers.len()).is_ok() {
        things.extend(brought_by_days(call, &month));
    }
    things
}

/// What every comparison of months must have seen: each refusal of the whole and of a day, each row that differs, faults
/// together, and each kind of month.
pub fn wanted() -> Vec<String> {
    let mut wanted: Vec<String> = [0, 2, 5, 17, 18]
        .map(|number| called(Kind::SolveMonth, number))
        .to_vec();
    wanted.extend([0, 1, 3, 4, 5, 6, 7, 8, 19, 21].map(|refusal| format!("day {refusal:2}")));
    wanted.extend(ROW_NAMES.map(|row| format!("ROWS by {row}")));
    let things = "MANY,STARTS,short flow by one,short side by one,short answers by one,short flow,short side,\
        short answers,ROWS and STARTS,no days,one day,31 days,no day solved,all days solved,\
        a refused day between solved ones,two days of least value,a later day of least value,a total above 2^32,\
        a day without arcs,\
        a start at the rows' end,a first start above 0,work short for some days alone";
    wanted.extend(things.split(',').map(str::to_string));
    wanted
}
