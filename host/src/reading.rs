//! Reading an answer by place.

use crate::refusal::{Name, Refusal};
use crate::table::{check, Table};

/// What is read at a place, or a refusal with all other fields 0.
#[derive(Clone, Copy, PartialEq, Eq, Debug, Default)]
pub struct Reading {
    pub refusal: u32,
    pub place: u32,
    pub flow: u32,
    pub capacity: u32,
    pub crossing: u32,
}

/// Whether the flow and side rows are as long as document 01 says.
fn has_room(table: &Table, flow: &[u32], side: &[u8]) -> bool {
    flow.len() >= table.arcs() && side.len() as u64 >= u64::from(table.n)
}

/// Compares the stamps of the table and of the answer, taken round 2^32: the place is the distance, of UNORDERED 0.
fn check_stamps(stamp: u32, answer_stamp: u32) -> Result<(), Refusal> {
    let older = stamp.wrapping_sub(answer_stamp);
    let newer = answer_stamp.wrapping_sub(stamp);
    match older {
        0 => Ok(()),
        1..=0x7fff_ffff => Err(Name::Stale.at(older)),
        0x8000_0000 => Err(Name::Unordered.at(0)),
        0x8000_0001..=0xffff_ffff => Err(Name::Ahead.at(newer)),
    }
}

/// Whether the arc at a place crosses the cut: the mark of its tail is 1, of its head not.
fn crosses(table: &Table, side: &[u8], place: usize) -> bool {
    let tail_mark = side[table.tails[place] as usize - 1];
    let head_mark = side[table.heads[place] as usize - 1];
    tail_mark == 1 && head_mark != 1
}

/// Reads the answer at a place or gives a refusal.
pub fn try_read_place(
    table: &Table,
    stamp: u32,
    answer_stamp: u32,
    flow: &[u32],
    side: &[u8],
    place: u32,
) -> Result<Reading, Refusal> {
    check(table, has_room(table, flow, side))?;
    check_stamps(stamp, answer_stamp)?;
    let arc = place as usize;
    if arc >= table.arcs() {
        return Err(Name::Place.at(place));
    }
    Ok(Reading {
        refusal: 0,
        place: 0,
        flow: flow[arc],
        capacity: table.capacities[arc],
        crossing: u32::from(crosses(table, side, arc)),
    })
}

/// Reads the answer at a place and answers a refusal by its number and place.
pub fn read_place(table: &Table, stamp: u32, answer_stamp: u32, flow: &[u32], side: &[u8], place: u32) -> Reading {
    match try_read_place(table, stamp, answer_stamp, flow, side, place) {
        Ok(reading) => reading,
        Err(refusal) => Reading {
            refusal: refusal.name.number(),
            place: refusal.place,
            ..Reading::default()
        },
    }
}
