//! Solution texts: written from a value and flows, and read back against their table.

use crate::refusal::{Name, Refusal};
use crate::table::{check, check_unbounded, Table};
use crate::text::LONGEST_TEXT;

/// The greatest value of a table: all capacities together.
pub const MOST_VALUE: u64 = 4_096_000_000;

/// What writing returns: a refusal, or how many bytes were filled.
#[derive(Clone, Copy, PartialEq, Eq, Debug, Default)]
pub struct Written {
    pub refusal: u32,
    pub place: u32,
    pub filled: u64,
}

/// What reading back returns: a refusal, or the value.
#[derive(Clone, Copy, PartialEq, Eq, Debug, Default)]
pub struct ReadBack {
    pub refusal: u32,
    pub place: u32,
    pub value: u64,
}

/// The line of a value, with its LF.
fn value_line(value: u64) -> String {
    format!("s {value}\n")
}

/// The line of the flow at a place, with its LF.
fn flow_line(table: &Table, place: usize, amount: u32) -> String {
    format!("f {} {} {amount}\n", table.tails[place], table.heads[place])
}

/// The solution text of a value and flows, whatever they are.
pub fn solution_text(table: &Table, value: u64, flow: &[u32]) -> String {
    let lines = (0..table.arcs()).map(|place| flow_line(table, place, flow[place]));
    value_line(value) + &lines.collect::<String>()
}

/// Writes the solution text, or gives a refusal and leaves the text row unchanged.
fn try_write(table: &Table, value: u64, flow: &[u32], text: &mut [u8]) -> Result<usize, Refusal> {
    check(table, true)?;
    check_unbounded(table)?;
    if flow.len() < table.arcs() {
        return Err(Name::Room.at(0));
    }
    let written = solution_text(table, value, flow);
    if text.len() < written.len() {
        return Err(Name::Room.at(0));
    }
    let above = (0..table.arcs()).find(|place| flow[*place] > table.capacities[*place]);
    if let Some(place) = above {
        return Err(Name::Solution.at(place as u32));
    }
    if value > MOST_VALUE {
        return Err(Name::Solution.at(table.arcs() as u32));
    }
    text[..written.len()].copy_from_slice(written.as_bytes());
    Ok(written.len())
}

/// Writes the solution text and answers a refusal by its number and place.
pub fn write_solution(table: &Table, value: u64, flow: &[u32], text: &mut [u8]) -> Written {
    match try_write(table, value, flow, text) {
        Ok(filled) => Written {
            filled: filled as u64,
            ..Written::default()
        },
        Err(refusal) => Written {
            refusal: refusal.name.number(),
            place: refusal.place,
            filled: 0,
        },
    }
}

/// The number at the end of a line with its LF, if the writer writes just this line for it.
fn number_of(line: &[u8], written: impl Fn(u64) -> String) -> Option<u64> {
    let line = std::str::from_utf8(line).ok()?;
    let number = line.strip_suffix('\n')?.rsplit(' ').next()?.parse().ok()?;
    (line == written(number)).then_some(number)
}

/// The value of the first line, if the writer writes it.
fn read_value(line: &[u8]) -> Option<u64> {
    number_of(line, value_line).filter(|value| *value <= MOST_VALUE)
}

/// The flow of the line for a place, if the writer writes it.
fn read_flow(table: &Table, place: usize, line: &[u8]) -> Option<u32> {
    let capacity = *table.capacities.get(place)?;
    let within = |amount: u64| u32::try_from(amount).ok().filter(|amount| *amount <= capacity);
    let written = |amount: u64| within(amount).map_or(String::new(), |amount| flow_line(table, place, amount));
    number_of(line, written).and_then(within)
}

/// Reads the lines one after the other; the first that no such text has there is told by its number, from 1.
fn read_lines(table: &Table, text: &[u8]) -> Result<(u64, Vec<u32>), Refusal> {
    let mut lines = text.split_inclusive(|byte| *byte == b'\n');
    let value = lines.next().and_then(read_value).ok_or(Name::Solution.at(1))?;
    let mut flow = Vec::new();
    for line in lines.by_ref() {
        let number = flow.len() as u32 + 2;
        flow.push(read_flow(table, flow.len(), line).ok_or(Name::Solution.at(number))?);
    }
    if flow.len() < table.arcs() {
        return Err(Name::Solution.at(flow.len() as u32 + 2));
    }
    Ok((value, flow))
}

/// Reads a solution text back, or gives a refusal and leaves the flow row unchanged.
fn try_read(table: &Table, text: &[u8], flow: &mut [u32]) -> Result<u64, Refusal> {
    if text.len() > LONGEST_TEXT {
        return Err(Name::Long.at(0));
    }
    check(table, true)?;
    check_unbounded(table)?;
    if flow.len() < table.arcs() {
        return Err(Name::Room.at(0));
    }
    let (value, flows) = read_lines(table, text)?;
    flow[..table.arcs()].copy_from_slice(&flows);
    Ok(value)
}

/// Reads a solution text back and answers a refusal by its number and place.
pub fn read_solution(table: &Table, text: &[u8], flow: &mut [u32]) -> ReadBack {
    match try_read(table, text, flow) {
        Ok(value) => ReadBack {
            value,
            ..ReadBack::default()
        },
        Err(refusal) => ReadBack {
            refusal: refusal.name.number(),
            place: refusal.place,
            value: 0,
        },
    }
}
