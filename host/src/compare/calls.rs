//! Random calls of solving and reading by place on lent rows.
use super::caller::{Call, Kind, Numbers};
use super::random::Random;
use super::tables::{put_fault, random_table, Fault, OwnTable, FAULTS};
use super::walks::{put_any_minimums, put_kept_minimums};
use crate::refusal::Name;
use crate::table::MOST_CAPACITY;

/// The distance of two stamps of which neither is the older.
const HALF: u32 = 1 << 31;

/// A number that a lent row may hold beforehand.
pub fn odd_number(random: &mut Random) -> u32 {
    let any = random.bits() as u32;
    random.one_of(&[0, 1, 2, 7, 1_000_000, u32::MAX, any])
}

/// A mark that a lent row may hold beforehand: mostly 0 or 1, as in an answer.
pub fn odd_mark(random: &mut Random) -> u8 {
    random.one_of(&[0, 0, 0, 1, 1, 1, 2, 255])
}

/// The length of a lent row that needs `need` numbers: exact, longer, or shorter.
pub fn row_length(random: &mut Random, need: u64) -> usize {
    let need = need.min(20_000) as usize;
    match random.between(0, 19) {
        0 => need.saturating_sub(1),
        1 => random.place(need + 1),
        2..=8 => need + random.place(9) + 1,
        _ => need,
    }
}

/// The length of a lent row: mostly exact or longer.
pub fn lent_length(random: &mut Random, need: u64) -> usize {
    let more = random.one_of(&[0, 0, 1, 9]);
    if random.once_in(4) {
        row_length(random, need)
    } else {
        need.min(20_000) as usize + more
    }
}

/// A call with a stamp and solving's rows, mostly exact or longer.
pub fn solving_call(random: &mut Random, kind: Kind, table: OwnTable) -> Call {
    let (n, m) = (u64::from(table.n), table.arcs() as u64);
    let [flow, side, work] = [m, n, 4 * n + 2 * m + 1].map(|need| lent_length(random, need));
    Call {
        stamp: odd_number(random),
        flow: (0..flow).map(|_| odd_number(random)).collect(),
        side: (0..side).map(|_| odd_mark(random)).collect(),
        work: (0..work).map(|_| odd_number(random)).collect(),
        ..Call::of(kind, table)
    }
}

/// A list of odd numbers for so many: exact, longer, one short, short or empty.
pub fn odd_list(random: &mut Random, need: usize) -> Vec<u32> {
    let (some, more) = (random.place(need + 1), random.place(9) + 1);
    let length = random.one_of(&[
        need,
        need,
        need,
        need,
        need + 1,
        need + more,
        need.saturating_sub(1),
        some,
        0,
    ]);
    (0..length).map(|_| odd_number(random)).collect()
}

/// How a list stands to the numbers that it is to hold.
pub fn list_beside(length: usize, need: usize) -> &'static str {
    match length {
        _ if length == need => "exact",
        _ if length > need => "longer",
        _ if length + 1 == need => "one short",
        0 => "empty and short",
        _ => "short",
    }
}

/// A row of odd numbers.
fn odd_row(random: &mut Random, need: u64) -> Vec<u32> {
    (0..row_length(random, need)).map(|_| odd_number(random)).collect()
}

/// A row of odd marks.
fn odd_marks(random: &mut Random, need: u64) -> Vec<u8> {
    (0..row_length(random, need)).map(|_| odd_mark(random)).collect()
}

/// Shortens one of the four arc rows, or makes it longer.
pub fn part_rows(random: &mut Random, table: &mut OwnTable) {
    let row = match random.between(0, 4) {
        0 => &mut table.tails,
        1 => &mut table.heads,
        2 => &mut table.capacities,
        _ => &mut table.minimums,
    };
    if random.once_in(2) {
        row.push(1);
    } else {
        row.pop();
    }
}

/// A table to call with: fine, or with some faults; with 4,097 arcs only now and then, since they are long to send.
pub fn called_table(random: &mut Random) -> OwnTable {
    let mut table = random_table(random);
    match random.between(0, 19) {
        0 => put_any_minimums(random, &mut table),
        1..=4 => put_kept_minimums(random, &mut table),
        _ => {}
    }
    if random.once_in(3) {
        for _ in 0..random.between(1, 3) {
            let fault = random.one_of(&FAULTS);
            if fault != Fault::ManyArcs || random.once_in(20) {
                put_fault(random, &mut table, fault);
            }
        }
    }
    table
}

/// A table to ask more of than solving: mostly fine, with minimums or faults now and then.
pub fn asked_table(random: &mut Random) -> OwnTable {
    let mut table = random_table(random);
    match random.between(0, 23) {
        0 => put_any_minimums(random, &mut table),
        1 => put_kept_minimums(random, &mut table),
        _ => {}
    }
    if random.once_in(6) {
        for _ in 0..random.between(1, 2) {
            let fault = random.one_of(&FAULTS);
            if fault != Fault::ManyArcs || random.once_in(5) {
                put_fault(random, &mut table, fault);
            }
        }
    }
    if random.once_in(25) {
        part_rows(random, &mut table);
    }
    table
}

/// The answer's stamp beside a table's: often the same, else few rebuilds away, at a bound of the ranges, or anywhere.
pub fn stamp_beside(random: &mut Random, stamp: u32) -> u32 {
    let few = random.between(1, 5);
    let any = random.bits() as u32;
    let distance = random.one_of(&[0, 0, 0, 0, 0, 1, few, HALF - few, HALF - 1, HALF, any]);
    if random.once_in(2) {
        stamp.wrapping_sub(distance)
    } else {
        stamp.wrapping_add(distance)
    }
}

/// A place to ask for: mostly one of the table's.
pub fn asked_place(random: &mut Random, arcs: usize) -> u32 {
    let m = arcs as u32;
    match random.between(0, 9) {
        0 => m,
        1 => random.one_of(&[m.wrapping_sub(1), m + 1, 4096, 1 << 31, u32::MAX]),
        _ => random.between(0, m.max(1) - 1),
    }
}

/// A table that is called with by its rows: some of them differ in length.
fn called_rows(random: &mut Random) -> OwnTable {
    let mut table = called_table(random);
    if random.once_in(12) {
        part_rows(random, &mut table);
    }
    table
}

/// A random call of solving a table, by its rows or as arc records.
fn random_solve(random: &mut Random, kind: Kind, table: OwnTable) -> Call {
    let (n, m) = (u64::from(table.n), table.arcs() as u64);
    Call {
        stamp: odd_number(random),
        flow: odd_row(random, m),
        side: odd_marks(random, n),
        work: odd_row(random, 4 * n + 2 * m + 1),
        ..Call::of(kind, table)
    }
}

/// A random call of reading by place.
fn random_reading(random: &mut Random, table: OwnTable) -> Call {
    let (n, m) = (u64::from(table.n), table.arcs() as u64);
    let stamp = odd_number(random);
    Call {
        stamp,
        answer_stamp: stamp_beside(random, stamp),
        place: asked_place(random, table.arcs()),
        flow: odd_row(random, m),
        side: odd_marks(random, n),
        ..Call::of(Kind::ReadPlace, table)
    }
}

/// Call `index` of a seed.
pub fn random_call(seed: u64, index: u64) -> Call {
    let random = &mut Random::of_case(seed, index);
    match random.between(0, 4) {
        0 | 1 => {
            let table = called_rows(random);
            random_solve(random, Kind::Solve, table)
        }
        2 => {
            let table = called_table(random);
            random_solve(random, Kind::SolveRecords, table)
        }
        _ => {
            let table = called_rows(random);
            random_reading(random, table)
        }
    }
}

/// A call and how it ended.
pub fn called(kind: Kind, refusal: u64) -> String {
    format!("{kind:?} {refusal:2}")
}

/// How far the stamps are from each other, as it is told where it is a bound of the ranges.
pub fn distance(refusal: u64, place: u64) -> Option<String> {
    let name = [Name::Stale, Name::Unordered, Name::Ahead]
        .into_iter()
        .find(|name| u64::from(name.number()) == refusal)?;
    let is_bound = [0, 1, u64::from(HALF) - 1].contains(&place);
    is_bound.then(|| format!("{} at {place}", name.word()))
}

/// Whether the minimums row alone differs in length from the others, and how.
fn minimums_beside(table: &OwnTable) -> Option<String> {
    let [tails, heads, capacities, minimums] = table.rows().map(Vec::len);
    let alone = tails == heads && tails == capacities && tails != minimums;
    let told = if minimums > tails { "longer" } else { "shorter" };
    alone.then(|| format!("minimums row alone {told}"))
}

/// Which faults the first faulty arc has from its capacity on, where it has no other.
fn faults_of_numbers(table: &OwnTable, place: usize) -> Option<String> {
    let (capacity, minimum) = (table.capacities[place], table.minimums[place]);
    match (capacity > MOST_CAPACITY, minimum > capacity) {
        (true, true) => Some("CAPACITY and MINIMUM".to_string()),
        (false, true) if minimum == capacity + 1 => Some("minimum one above its capacity".to_string()),
        (false, true) if minimum == u32::MAX => Some("minimum 4294967295".to_string()),
        _ => None,
    }
}

/// What a solved table with minimums brings.
fn brought_by_minimums(table: &OwnTable, value: i64) -> Vec<String> {
    let sign = match value {
        0 => "0",
        1.. => "above 0",
        _ => "below 0",
    };
    let full = |place: usize| table.minimums[place] > 0 && table.minimums[place] == table.capacities[place];
    let mut things = vec![format!("minimums and a value {sign}")];
    if (0..table.arcs()).any(full) {
        things.push("minimum equal to its capacity".to_string());
    }
    things
}

/// What the minimums of a call bring.
fn brought_by_bounds(call: &Call, numbers: &Numbers) -> Vec<String> {
    let refusal = numbers[0];
    let is = |name: Name| refusal == u64::from(name.number());
    if is(Name::Rows) {
        minimums_beside(&call.table).into_iter().collect()
    } else if is(Name::Capacity) || is(Name::Minimum) {
        faults_of_numbers(&call.table, numbers[1] as usize)
            .into_iter()
            .collect()
    } else if refusal == 0 && call.kind != Kind::ReadPlace && call.table.lent().is_bounded() {
        brought_by_minimums(&call.table, numbers[3] as i64)
    } else {
        Vec::new()
    }
}

/// What a call brings: how it ended, what its minimums were, and a distance of stamps.
pub fn brought(call: &Call, numbers: &Numbers) -> Vec<String> {
    let mut things = vec![called(call.kind, numbers[0])];
    things.extend(brought_by_bounds(call, numbers));
    if call.kind == Kind::ReadPlace {
        things.extend(distance(numbers[0], numbers[1]));
    }
    things
}

/// What every comparison of calls must have seen: an answer and each refusal of each call (records never have ROWS),
/// each case of minimums, and the least and the greatest distance of stamps.
pub fn wanted() -> Vec<String> {
    let solved = (0..=8).chain([19, 20]);
    let of_records = solved
        .clone()
        .filter(|number| *number != u64::from(Name::Rows.number()));
    let read = (0..=12).chain([19]);
    let mut wanted: Vec<String> = solved.map(|number| called(Kind::Solve, number)).collect();
    wanted.extend(of_records.map(|number| called(Kind::SolveRecords, number)));
    wanted.extend(read.map(|number| called(Kind::ReadPlace, number)));
    let things = "STALE at 1,STALE at 2147483647,UNORDERED at 0,AHEAD at 1,AHEAD at 2147483647,\
        minimums row alone longer,minimums row alone shorter,CAPACITY and MINIMUM,minimum one above its capacity,\
        minimum 4294967295,minimum equal to its capacity,minimums and a value above 0,minimums and a value 0,\
        minimums and a value below 0";
    wanted.extend(things.split(',').map(str::to_string));
    wanted
}
