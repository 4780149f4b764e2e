//! Reading a table from a text.

use crate::refusal::{Name, Refusal};
use crate::table::{check, Table};

/// The greatest length of a text in bytes.
pub const LONGEST_TEXT: usize = 1_048_576;

/// What reading a text returns beside the four arc rows.
#[derive(Clone, Copy, PartialEq, Eq, Debug)]
pub struct Given {
    pub n: u32,
    pub m: u32,
    pub s: u32,
    pub t: u32,
}

/// What the lines so far have given.
#[derive(Default)]
struct Gathered {
    size: Option<(u32, u32)>,
    source: Option<u32>,
    sink: Option<u32>,
    tails: Vec<u32>,
    heads: Vec<u32>,
    capacities: Vec<u32>,
    minimums: Vec<u32>,
}

impl Gathered {
    /// Judges the next line and takes in what it gives.
    fn take_line(&mut self, line: &[u8]) -> Result<(), Name> {
        if line.first() == Some(&b'c') {
            return Ok(());
        }
        let Some((_, m)) = self.size else {
            self.size = Some(size_line(line).ok_or(Name::Line)?);
            return Ok(());
        };
        if self.source.is_none() || self.sink.is_none() {
            return self.take_end(line);
        }
        self.take_arc(line, m)
    }

    /// Takes in an n line, the first one for the source or the first one for the sink.
    fn take_end(&mut self, line: &[u8]) -> Result<(), Name> {
        let (node, letter) = end_line(line).ok_or(Name::Line)?;
        let end = match letter {
            b's' => &mut self.source,
            b't' => &mut self.sink,
            _ => return Err(Name::Line),
        };
        if end.is_some() {
            return Err(Name::Line);
        }
        *end = Some(node);
        Ok(())
    }

    /// Takes in an arc line unless it is one too many.
    fn take_arc(&mut self, line: &[u8], m: u32) -> Result<(), Name> {
        let [tail, head, capacity, minimum] = arc_line(line).ok_or(Name::Line)?;
        if self.tails.len() as u64 >= u64::from(m) {
            return Err(Name::Count);
        }
        self.tails.push(tail);
        self.heads.push(head);
        self.capacities.push(capacity);
        self.minimums.push(minimum);
        Ok(())
    }

    /// Judges the end of the text.
    fn finish(&self) -> Result<Given, Name> {
        let (Some((n, m)), Some(s), Some(t)) = (self.size, self.source, self.sink) else {
            return Err(Name::Line);
        };
        if (self.tails.len() as u64) < u64::from(m) {
            return Err(Name::Count);
        }
        Ok(Given { n, m, s, t })
    }
}

/// The lines of a text without their LF, where the last LF may be missing.
pub fn lines(text: &[u8]) -> impl Iterator<Item = &[u8]> {
    text.split_inclusive(|byte| *byte == b'\n')
        .map(|line| line.strip_suffix(b"\n").unwrap_or(line))
}

/// Reads a number of 1 to 10 digits without a leading zero, at most 4,294,967,295.
pub fn number(field: &[u8]) -> Option<u32> {
    if field.is_empty() || field.len() > 10 {
        return None;
    }
    if field[0] == b'0' && field.len() > 1 {
        return None;
    }
    let mut sum: u64 = 0;
    for byte in field {
        if !byte.is_ascii_digit() {
            return None;
        }
        sum = 10 * sum + u64::from(*byte - b'0');
    }
    u32::try_from(sum).ok()
}

/// Whether a byte parts fields: a blank or a tab.
pub fn is_separator(byte: &u8) -> bool {
    *byte == b' ' || *byte == b'\t'
}

/// The fields of a line, parted by one or more separators; none if a separator stands before its first letter.
pub fn fields(line: &[u8]) -> Option<Vec<&[u8]>> {
    if line.first().is_some_and(is_separator) {
        return None;
    }
    let pieces = line.split(is_separator);
    Some(pieces.filter(|piece| !piece.is_empty()).collect())
}

/// Reads the line of p, max, n and m.
fn size_line(line: &[u8]) -> Option<(u32, u32)> {
    match fields(line)?[..] {
        [b"p", b"max", n, m] => Some((number(n)?, number(m)?)),
        _ => None,
    }
}

/// Reads a line with n, a number and a last field of one byte.
fn end_line(line: &[u8]) -> Option<(u32, u8)> {
    match fields(line)?[..] {
        [b"n", node, [letter]] => Some((number(node)?, *letter)),
        _ => None,
    }
}

/// Reads a line with a, the tail, the head, the capacity and, where it is said, the minimum.
fn arc_line(line: &[u8]) -> Option<[u32; 4]> {
    match fields(line)?[..] {
        [b"a", tail, head, capacity] => Some([number(tail)?, number(head)?, number(capacity)?, 0]),
        [b"a", tail, head, capacity, minimum] => {
            Some([number(tail)?, number(head)?, number(capacity)?, number(minimum)?])
        }
        _ => None,
    }
}

/// Judges a text in line order, then its end at one past the last line.
fn judge_lines(text: &[u8]) -> Result<(Given, Gathered), Refusal> {
    let mut gathered = Gathered::default();
    let mut line_number = 1;
    for line in lines(text) {
        gathered.take_line(line).map_err(|name| name.at(line_number))?;
        line_number += 1;
    }
    let given = gathered.finish().map_err(|name| name.at(line_number))?;
    Ok((given, gathered))
}

/// Reads a text, then judges the table that it gives and writes the four arc rows.
pub fn read(
    text: &[u8],
    tails: &mut [u32],
    heads: &mut [u32],
    capacities: &mut [u32],
    minimums: &mut [u32],
) -> Result<Given, Refusal> {
    if text.len() > LONGEST_TEXT {
        return Err(Name::Long.at(0));
    }
    let (given, gathered) = judge_lines(text)?;
    let table = Table {
        n: given.n,
        s: given.s,
        t: given.t,
        tails: &gathered.tails,
        heads: &gathered.heads,
        capacities: &gathered.capacities,
        minimums: &gathered.minimums,
    };
    let m = table.arcs();
    let has_room = [&*tails, heads, capacities, minimums].iter().all(|row| row.len() >= m);
    check(&table, has_room)?;
    tails[..m].copy_from_slice(table.tails);
    heads[..m].copy_from_slice(table.heads);
    capacities[..m].copy_from_slice(table.capacities);
    minimums[..m].copy_from_slice(table.minimums);
    Ok(given)
}
