//! Random tables of which is asked which opening would help, and random lists of which the shorter is asked for.
use super::caller::{Call, Kind, Numbers};
use super::calls::{asked_table, called, list_beside, odd_list, odd_number, solving_call};
use super::random::Random;
use super::tables::OwnTable;
use crate::help::{help, shorter, Help};
use crate::run::run;
use crate::solve::has_room;
use crate::table::{check, Table, MOST_CAPACITY};

/// The names of the three lists.
const LIST_NAMES: [&str; 3] = ["sources", "sinks", "places"];

/// What would help in an accepted table without minimums.
fn help_of(table: &Table) -> Option<Help> {
    if check(table, true).is_err() || table.is_bounded() {
        return None;
    }
    Some(help(table, &run(table).flow))
}

/// How many numbers each list must hold.
fn needs(help: &Help) -> [usize; 3] {
    [help.sources.len(), help.sinks.len(), help.places.len()]
}

/// The three lists: all fine, one of them short, or anyhow.
fn lists_for(random: &mut Random, needs: [usize; 3]) -> [Vec<u32>; 3] {
    let fine = |need: usize, random: &mut Random| {
        let more = random.one_of(&[0, 0, 1, 5]);
        (0..need + more).map(|_| odd_number(random)).collect::<Vec<u32>>()
    };
    let mut lists = needs.map(|need| fine(need, random));
    match random.between(0, 4) {
        0 => drop(lists[random.place(3)].pop()),
        1 => lists = needs.map(|need| odd_list(random, need)),
        _ => {}
    }
    lists
}

/// A filled length of a list: within it, all of it, or past its end.
fn filled_of(random: &mut Random, list: &[u32]) -> u32 {
    let length = list.len() as u32;
    let some = random.between(0, length);
    let past = random.one_of(&[length + 1, length + 1, length + 9, u32::MAX]);
    random.one_of(&[some, some, some, some, length, length, past])
}

/// The call of handing back the filled part of the shorter list.
fn shorter_call(random: &mut Random) -> Call {
    let mut list = |most: u32| -> Vec<u32> { (0..random.between(0, most)).map(|_| odd_number(random)).collect() };
    let (first, mut second) = (list(9), list(9));
    if random.once_in(4) {
        second.truncate(first.len());
    }
    let place = filled_of(random, &first);
    let equal = random.once_in(4) && second.len() as u32 >= place;
    let capacity = if equal { place } else { filled_of(random, &second) };
    let need = shorter(&first, &second, place, capacity).len();
    let part = odd_list(random, need);
    Call {
        place,
        capacity,
        lists: [first, second, part, Vec::new(), Vec::new()],
        ..Call::of(Kind::Shorter, OwnTable::without_arcs(0, 0, 0))
    }
}

/// Call `index` of a seed.
pub fn random_help(seed: u64, index: u64) -> Call {
    let random = &mut Random::of_case(seed ^ 0x6865_6c70, index);
    if random.once_in(4) {
        return shorter_call(random);
    }
    let table = asked_table(random);
    let needs = help_of(&table.lent()).map_or([1; 3], |help| needs(&help));
    let [sources, sinks, places] = lists_for(random, needs);
    Call {
        lists: [sources, sinks, places, Vec::new(), Vec::new()],
        ..solving_call(random, Kind::FindOpenings, table)
    }
}

/// What the lists of a found help bring.
fn brought_by_help(table: &Table, help: &Help) -> Vec<String> {
    let capacities = || help.places.iter().map(|place| table.capacities[*place as usize]);
    let between = help.sources.len() + help.sinks.len() < table.n as usize;
    let things = [
        (help.places.is_empty(), "no place would help"),
        (help.places.len() > 1, "some places would help"),
        (capacities().any(|capacity| capacity == 0), "a place of capacity 0"),
        (
            capacities().any(|capacity| capacity == MOST_CAPACITY),
            "a place at the capacity limit",
        ),
        (between, "nodes on neither side"),
        (!between, "all nodes on either side"),
        (help.sources == [table.s], "the source alone"),
        (help.sinks == [table.t], "the sink alone"),
    ];
    let met = things.into_iter().filter(|(is_met, _)| *is_met);
    met.map(|(_, thing)| thing.to_string()).collect()
}

/// What a search for openings brings: its lists, what was wrong with it, and what would help.
fn brought_by_search(call: &Call, numbers: &Numbers) -> Vec<String> {
    let table = call.table.lent();
    let has_room = has_room(&table, &call.flow, &call.side, &call.work);
    if table.is_bounded() {
        return vec![if has_room {
            "BOUNDED"
        } else {
            "solving's ROOM and BOUNDED"
        }
        .to_string()];
    }
    let Some(help) = help_of(&table) else {
        return Vec::new();
    };
    let rows = || LIST_NAMES.iter().zip(&call.lists).zip(needs(&help));
    let short = rows().filter(|((_, list), need)| list.len() < *need).count();
    if !has_room {
        return vec![if short > 0 {
            "solving's ROOM and a list's"
        } else {
            "solving's ROOM"
        }
        .to_string()];
    }
    let is_told = |length: usize, need: usize| short == 0 || (short == 1 && length < need);
    let told = rows().filter(|((_, list), need)| is_told(list.len(), *need));
    let mut things: Vec<String> = told
        .map(|((name, list), need)| format!("{name} {}", list_beside(list.len(), need)))
        .collect();
    things.extend((short > 1).then(|| "more than one list short".to_string()));
    if numbers[0] == 0 {
        things.extend(brought_by_help(&table, &help));
    }
    things
}

/// What handing back the shorter list brings.
fn brought_by_shorter(call: &Call) -> Vec<String> {
    let [first, second, part, ..] = &call.lists;
    let passes = |filled: u32, list: &Vec<u32>| filled as usize > list.len();
    let handed = match (passes(call.place, first), passes(call.capacity, second)) {
        (true, true) => "both pass their lists",
        (true, false) => "the first passes its list",
        (false, true) => "the second passes its list",
        _ if call.place < call.capacity => "the first is shorter",
        _ if call.place > call.capacity => "the second is shorter",
        _ => "both are equal",
    };
    let need = shorter(first, second, call.place, call.capacity).len();
    let beside = list_beside(part.len(), need);
    vec![handed.to_string(), format!("part {beside}")]
}

/// What a call brings: how it ended, and what its lists were.
pub fn brought(call: &Call, numbers: &Numbers) -> Vec<String> {
    let mut things = vec![called(call.kind, numbers[0])];
    if call.kind == Kind::Shorter {
        things.extend(brought_by_shorter(call));
    } else if check(&call.table.lent(), true).is_ok() {
        things.extend(brought_by_search(call, numbers));
    }
    things
}

/// What every comparison of helps must have seen: an answer and each refusal of both calls, each length of each list, and
/// each way to hand back a part.
pub fn wanted() -> Vec<String> {
    let refusals = (0..=8).chain([19, 21]);
    let mut wanted: Vec<String> = refusals.map(|number| called(Kind::FindOpenings, number)).collect();
    wanted.extend([0, 5].map(|number| called(Kind::Shorter, number)));
    for list in LIST_NAMES {
        wanted.extend(["exact", "longer", "one short"].map(|length| format!("{list} {length}")));
    }
    let things = "more than one list short,solving's ROOM,solving's ROOM and a list's,BOUNDED,\
        solving's ROOM and BOUNDED,no place would help,some places would help,a place of capacity 0,\
        a place at the capacity limit,nodes on neither side,all nodes on either side,the source alone,the sink alone,\
        both pass their lists,the first passes its list,the second passes its list,the first is shorter,\
        the second is shorter,both are equal,part exact,part longer,part one short,part short,part empty and short";
    wanted.extend(things.split(',').map(str::to_string));
    wanted
}
