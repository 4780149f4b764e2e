//! The desk program.

use crate::bounded::is_greatest;
use crate::refusal::{Name, Refusal};
use crate::solution::solution_text;
use crate::solve::{try_solve, work_need, Answer};
use crate::table::{check_unbounded, Table, MOST_CAPACITY};
use crate::text;

/// The greatest length in bytes of what the desk program reads.
pub const LONGEST_INPUT: usize = 65_536;

/// How many places each arc row of the desk program holds.
const ROW_PLACES: usize = 4_096;

/// The arc rows of the desk program, filled with zero beforehand.
struct Rows {
    tails: [u32; ROW_PLACES],
    heads: [u32; ROW_PLACES],
    capacities: [u32; ROW_PLACES],
    minimums: [u32; ROW_PLACES],
}

impl Rows {
    /// Rows of zeros.
    fn new() -> Rows {
        Rows {
            tails: [0; ROW_PLACES],
            heads: [0; ROW_PLACES],
            capacities: [0; ROW_PLACES],
            minimums: [0; ROW_PLACES],
        }
    }

    /// Reads the text into the rows.
    fn read(&mut self, text: &[u8]) -> Result<text::Given, Refusal> {
        if text.len() > LONGEST_INPUT {
            return Err(Name::Long.at(0));
        }
        let Rows {
            tails,
            heads,
            capacities,
            minimums,
        } = self;
        text::read(text, tails, heads, capacities, minimums)
    }

    /// The table of the text that was read.
    fn table(&self, given: text::Given) -> Table<'_> {
        let m = given.m as usize;
        Table {
            n: given.n,
            s: given.s,
            t: given.t,
            tails: &self.tails[..m],
            heads: &self.heads[..m],
            capacities: &self.capacities[..m],
            minimums: &self.minimums[..m],
        }
    }
}

/// A solved table with its flow and side rows.
struct Solved {
    given: text::Given,
    answer: Answer,
    flow: Vec<u32>,
    side: Vec<u8>,
}

/// Reads the text into the arc rows and solves the table with stamp 0.
fn read_and_solve(rows: &mut Rows, text: &[u8]) -> Result<Solved, Refusal> {
    let given = rows.read(text)?;
    let table = rows.table(given);
    let mut flow = vec![0; table.arcs()];
    let mut side = vec![0; given.n as usize];
    let mut work = vec![0; work_need(&table) as usize];
    let answer = try_solve(&table, 0, &mut flow, &mut side, &mut work)?;
    Ok(Solved {
        given,
        answer,
        flow,
        side,
    })
}

/// Parts numbers by one blank.
fn parted(numbers: impl Iterator<Item = u32>) -> String {
    let words: Vec<String> = numbers.map(|number| number.to_string()).collect();
    words.join(" ")
}

/// The ten lines for a solved table.
fn listing(solved: &Solved) -> String {
    let answer = &solved.answer;
    let marked = (1..=solved.given.n).filter(|node| solved.side[*node as usize - 1] == 1);
    let lines = [
        format!("nodes={}", solved.given.n),
        format!("arcs={}", solved.given.m),
        format!("value={}", answer.value),
        format!("scale={}", answer.scale),
        format!("phases={}", answer.phases),
        format!("saturating={}", answer.saturating),
        format!("nonsaturating={}", answer.nonsaturating),
        format!("relabels={}", answer.relabels),
        format!("side={}", parted(marked)),
        format!("flow={}", parted(solved.flow.iter().copied())),
    ];
    lines.iter().map(|line| format!("{line}\n")).collect()
}

/// The two lines for a refusal.
fn refusal_listing(refusal: Refusal) -> String {
    format!("refusal={}\nplace={}\n", refusal.name.word(), refusal.place)
}

/// Exactly the bytes that the desk program prints for a standard input.
pub fn desk(text: &[u8]) -> Vec<u8> {
    let printed = match read_and_solve(&mut Rows::new(), text) {
        Ok(solved) => listing(&solved),
        Err(refusal) => refusal_listing(refusal),
    };
    printed.into_bytes()
}

/// The flows in the last line of what the desk program printed for a solved table.
fn printed_flow(printed: &[u8]) -> Option<Vec<u32>> {
    let printed = std::str::from_utf8(printed).ok()?;
    let flows = printed.strip_suffix('\n')?.rsplit('\n').next()?.strip_prefix("flow=")?;
    flows.split(' ').map(|word| word.parse().ok()).collect()
}

/// The bytes that the desk program prints with the flow that was printed instead of ours: only where which greatest flow
/// comes back is free, and the printed one is a greatest flow.
pub fn desk_with_flow_of(printed: &[u8], text: &[u8]) -> Option<Vec<u8>> {
    let mut rows = Rows::new();
    let mut solved = read_and_solve(&mut rows, text).ok()?;
    let table = rows.table(solved.given);
    let flow = printed_flow(printed)?;
    let is_free = table.is_bounded() && is_greatest(&table, &flow, solved.answer.value, &solved.side);
    solved.flow = flow;
    is_free.then(|| listing(&solved).into_bytes())
}

/// How many bytes at most the desk program prints for a text, if which greatest flow comes back is free.
pub fn longest_with_any_flow(text: &[u8]) -> Option<usize> {
    let mut rows = Rows::new();
    let mut solved = read_and_solve(&mut rows, text).ok()?;
    solved.flow.fill(MOST_CAPACITY);
    rows.table(solved.given).is_bounded().then(|| listing(&solved).len())
}

/// Whether what was printed for a text is what the desk program prints, with any greatest flow where that is free.
pub fn is_printed(printed: &[u8], text: &[u8]) -> bool {
    printed == desk(text) || desk_with_flow_of(printed, text).is_some_and(|ours| ours == printed)
}

/// The solution text of the answer to a text's table, or the two lines for a refusal.
pub fn solution(text: &[u8]) -> String {
    let mut rows = Rows::new();
    let solved = read_and_solve(&mut rows, text).and_then(|solved| {
        check_unbounded(&rows.table(solved.given))?;
        Ok(solved)
    });
    match solved {
        Ok(solved) => solution_text(&rows.table(solved.given), solved.answer.value as u64, &solved.flow),
        Err(refusal) => refusal_listing(refusal),
    }
}

/// Writes what the desk program prints into a lent row of bytes as far as it goes, and tells where the bytes end.
pub fn serve(text: &[u8], out: &mut [u8]) -> usize {
    let printed = desk(text);
    let end = printed.len().min(out.len());
    out[..end].copy_from_slice(&printed[..end]);
    end
}
