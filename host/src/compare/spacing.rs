//! Blanks and tabs between the fields of a text: runs of them, and texts parted in another way.
use super::random::Random;
use crate::desk::LONGEST_INPUT;
use crate::text::is_separator;
use std::collections::BTreeSet;
use std::ops::Range;

/// The longest run of separators that comes often.
pub const LONGEST_OFTEN: usize = 70;

/// A run of so many separators: blanks, tabs, or both.
pub fn run_of(random: &mut Random, length: usize) -> Vec<u8> {
    let letters = random.one_of(&[b"  ", b"\t\t", b" \t"]);
    (0..length).map(|_| random.one_of(letters)).collect()
}

/// A run of 1 to 70 separators, often few.
pub fn run(random: &mut Random) -> Vec<u8> {
    let few = random.between(1, 3);
    let some = random.between(1, LONGEST_OFTEN as u32);
    let length = random.one_of(&[few, some]) as usize;
    run_of(random, length)
}

/// Whether a line is a comment.
fn is_comment(line: &[u8]) -> bool {
    line.first() == Some(&b'c')
}

/// Where the fields of a line stand.
pub fn field_places(line: &[u8]) -> Vec<Range<usize>> {
    let mut places = Vec::new();
    let mut start = 0;
    for piece in line.split(is_separator) {
        if !piece.is_empty() {
            places.push(start..start + piece.len());
        }
        start += piece.len() + 1;
    }
    places
}

/// Where the runs of separators between fields stand in a line.
pub fn gaps(line: &[u8]) -> Vec<Range<usize>> {
    let fields = field_places(line);
    fields.windows(2).map(|pair| pair[0].end..pair[1].start).collect()
}

/// The line up to the end of its last field.
pub fn without_last_separators(line: &[u8]) -> &[u8] {
    let end = line.iter().rposition(|byte| !is_separator(byte));
    &line[..end.map_or(0, |last| last + 1)]
}

/// The line with other separators, at most `longest` together: what stands before its first letter is kept, and each
/// run between fields stays a run. Comments are kept as they are.
pub fn respaced(random: &mut Random, line: &[u8], longest: usize) -> Vec<u8> {
    let fields = field_places(line);
    if is_comment(line) || fields.is_empty() {
        return line.to_vec();
    }
    let mut respaced = line[..fields[0].start].to_vec();
    for (place, field) in fields.iter().enumerate() {
        if place > 0 {
            let length = random.place(longest) + 1;
            respaced.extend(run_of(random, length));
        }
        respaced.extend_from_slice(&line[field.clone()]);
    }
    if random.once_in(3) {
        let length = random.place(longest + 1);
        respaced.extend(run_of(random, length));
    }
    respaced
}

/// How long runs may be in a text of so many lines, so that the desk still reads it.
pub fn longest_for(lines: usize) -> usize {
    match lines {
        0..=120 => LONGEST_OFTEN,
        121..=500 => 12,
        _ => 3,
    }
}

/// The text with other separators, which must give the same answer: none where one of both is too long for the desk.
pub fn twin(random: &mut Random, text: &[u8]) -> Option<Vec<u8>> {
    let lines: Vec<&[u8]> = text.split(|byte| *byte == b'\n').collect();
    let longest = longest_for(lines.len());
    let respaced: Vec<Vec<u8>> = lines.iter().map(|line| respaced(random, line, longest)).collect();
    let twin = respaced.join(&b'\n');
    (text.len() <= LONGEST_INPUT && twin.len() <= LONGEST_INPUT).then_some(twin)
}

/// Whether the fields of every line are parted by exactly one blank, with none at the ends.
pub fn is_old_form(text: &[u8]) -> bool {
    let lines = text.split(|byte| *byte == b'\n').filter(|line| !is_comment(line));
    let is_old = |line: &[u8]| {
        let one_blank = |gap: &Range<usize>| line[gap.clone()] == [b' '];
        let at_the_ends = [line.first(), line.last()].into_iter().flatten().any(is_separator);
        gaps(line).iter().all(one_blank) && !at_the_ends
    };
    lines.into_iter().all(is_old)
}

/// The lengths of the runs of separators in the lines of a text, as they are told: each of 1 to 70, and thousands.
pub fn runs_met(text: &[u8]) -> BTreeSet<String> {
    let lines = text.split(|byte| *byte == b'\n').filter(|line| !is_comment(line));
    let lengths = lines.flat_map(gaps).map(|gap| gap.len());
    lengths.filter_map(told).collect()
}

/// The length of a run as it is told.
fn told(length: usize) -> Option<String> {
    match length {
        1..=LONGEST_OFTEN => Some(format!("run of {length:2}")),
        1_000.. => Some("run of thousands".to_string()),
        _ => None,
    }
}

/// All runs that texts are to bring.
pub fn wanted_runs() -> Vec<String> {
    (1..=LONGEST_OFTEN).chain([1_000]).filter_map(told).collect()
}
