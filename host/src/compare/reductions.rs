//! Random tables that are made smaller.
use super::caller::{Call, Kind, Numbers};
use super::calls::{asked_table, called, odd_number, solving_call};
use super::random::Random;
use super::tables::OwnTable;
use crate::reduce::{live_nodes, small_of, Small};
use crate::refusal::Name;
use crate::run::run;
use crate::solve::has_room;
use crate::table::{check, Table};

/// The names of the small table's rows and of the origins.
const ROW_NAMES: [&str; 5] = [
    "small tails",
    "small heads",
    "small capacities",
    "nodes from",
    "arcs from",
];

/// A table to make smaller: often with many arcs of capacity 0.
fn reduced_table(random: &mut Random) -> OwnTable {
    let mut table = asked_table(random);
    let often = random.one_of(&[0, 0, 2, 3, 6]);
    for capacity in table.capacities.iter_mut() {
        if often > 0 && random.once_in(often) {
            *capacity = 0;
        }
    }
    table
}

/// How many numbers each of the five rows must hold: the old m, for node origins n.
fn needs(table: &OwnTable) -> [usize; 5] {
    let (n, m) = (table.n.min(600) as usize, table.arcs());
    [m, m, m, n, m]
}

/// The five rows: fine, one of them one short, or anyhow.
fn small_rows(random: &mut Random, needs: [usize; 5]) -> [Vec<u32>; 5] {
    let mut lengths = needs.map(|need| need + random.one_of(&[0, 0, 0, 1, 7]));
    match random.between(0, 7) {
        0 => {
            let row = random.place(5);
            lengths[row] = needs[row].saturating_sub(1);
        }
        1 => lengths = needs.map(|need| random.place(2 * need + 1)),
        2 => lengths = needs,
        _ => {}
    }
    lengths.map(|length| (0..length).map(|_| odd_number(random)).collect())
}

/// Reduction `index` of a seed.
pub fn random_reduction(seed: u64, index: u64) -> Call {
    let random = &mut Random::of_case(seed ^ 0x736d_616c, index);
    let table = reduced_table(random);
    let lists = small_rows(random, needs(&table));
    Call {
        lists,
        ..solving_call(random, Kind::Reduce, table)
    }
}

/// What the small table brings beside the old.
fn brought_by_small(call: &Call, table: &Table, small: &Small) -> Vec<String> {
    let live = live_nodes(table);
    let has_way = live[table.s as usize];
    let into = |node: u32| small.arcs_from.iter().any(|place| table.heads[*place as usize] == node);
    let out_of = |node: u32| small.arcs_from.iter().any(|place| table.tails[*place as usize] == node);
    let from_sink_to_source =
        |place: usize| table.tails[place] == table.t && table.heads[place] == table.s && table.capacities[place] > 0;
    let lone_arc = |place: usize| table.capacities[place] > 0 && !small.arcs_from.contains(&(place as u32));
    let sizes = [small.nodes_from.len(), small.arcs_from.len()];
    let things = [
        (!has_way, "no way from source to sink"),
        (
            !has_way && (0..table.arcs()).any(from_sink_to_source),
            "an arc from sink to source alone",
        ),
        (small.sink < small.source, "the sink has the lower number"),
        (sizes == [table.n as usize, table.arcs()], "nothing thrown out"),
        (has_way && sizes[0] < table.n as usize, "nodes thrown out"),
        (
            has_way && sizes[0] == table.n as usize && sizes[1] < table.arcs(),
            "arcs alone thrown out",
        ),
        (has_way && (0..table.arcs()).any(lone_arc), "arcs above 0 thrown out"),
        (table.capacities.contains(&0), "arcs of capacity 0"),
        (into(table.s), "an arc into the source kept"),
        (out_of(table.t), "an arc out of the sink kept"),
        (call.stamp == u32::MAX, "stamp round 2^32"),
    ];
    let met = things.into_iter().filter(|(is_met, _)| *is_met);
    met.map(|(_, thing)| thing.to_string()).collect()
}

/// How the run on the small table differs from the run on the old, if it does.
fn brought_by_runs(table: &Table, numbers: &Numbers) -> Option<String> {
    let old = run(table);
    let scale = old.scale != numbers[4];
    let counts = [old.counts.saturating, old.counts.nonsaturating, old.counts.relabels] != numbers[6..9];
    match (scale, counts) {
        (true, _) => Some("another scale than the old table's".to_string()),
        (_, true) => Some("other counts than the old table's".to_string()),
        _ => None,
    }
}

/// How the five rows stand to their needs.
fn brought_by_rows(call: &Call) -> Vec<String> {
    let needs = needs(&call.table);
    let lengths: Vec<usize> = call.lists.iter().map(Vec::len).collect();
    let short: Vec<usize> = (0..5).filter(|row| lengths[*row] < needs[*row]).collect();
    match short[..] {
        [] if lengths == needs => vec!["rows exact".to_string()],
        [] => vec!["rows longer".to_string()],
        [row] if lengths[row] + 1 == needs[row] => vec![format!("{} one short", ROW_NAMES[row])],
        _ => vec!["rows short".to_string()],
    }
}

/// What a reduction brings: how it ended, its rows, and what was thrown out.
pub fn brought(call: &Call, numbers: &Numbers) -> Vec<String> {
    let table = call.table.lent();
    let mut things = vec![called(call.kind, numbers[0])];
    let rows = brought_by_rows(call);
    let is_short = rows.iter().any(|thing| thing.contains("short"));
    if check(&table, true).is_err() {
        let is_arc_fault = check(&table, false).is_err_and(|refusal| refusal.name == Name::Room);
        things.extend((is_short && is_arc_fault).then(|| "ROOM before an arc's fault".to_string()));
        return things;
    }
    if has_room(&table, &call.flow, &call.side, &call.work) {
        things.extend((is_short && table.is_bounded()).then(|| "ROOM and BOUNDED".to_string()));
        things.extend(rows);
    } else {
        things.push("solving's ROOM".to_string());
    }
    if numbers[0] == 0 {
        things.extend(brought_by_small(call, &table, &small_of(&table)));
        things.extend(brought_by_runs(&table, numbers));
    }
    things
}

/// What every comparison of reductions must have seen: an answer and each refusal, each length of a row, and each kind of
/// small table.
pub fn wanted() -> Vec<String> {
    let refusals = (0..=8).chain([19, 21]);
    let mut wanted: Vec<String> = refusals.map(|number| called(Kind::Reduce, number)).collect();
    wanted.extend(ROW_NAMES.map(|row| format!("{row} one short")));
    let things = "rows exact,rows longer,rows short,solving's ROOM,ROOM and BOUNDED,ROOM before an arc's fault,\
        no way from source to sink,an arc from sink to source alone,the sink has the lower number,nothing thrown out,\
        nodes thrown out,arcs alone thrown out,arcs above 0 thrown out,arcs of capacity 0,an arc into the source kept,\
        an arc out of the sink kept,stamp round 2^32,another scale than the old table's,\
        other counts than the old table's";
    wanted.extend(things.split(',').map(str::to_string));
    wanted
}
