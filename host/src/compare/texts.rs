//! Random texts for the desk, valid and damaged.
use super::random::Random;
use super::spacing::{self, field_places, gaps, respaced, run, run_of, without_last_separators};
use super::tables::{put_fault, random_table, Fault, OwnTable, FAULTS};
use super::walks::{put_any_minimums, put_kept_minimums};
use crate::desk::LONGEST_INPUT;

/// What is done to a text before it is given to the desk.
#[derive(Clone, Copy, PartialEq, Eq, Debug)]
pub enum Damage {
    LeadingZero,
    ElevenDigits,
    LargeNumber,
    NoNumber,
    LinesSwapped,
    LineTwice,
    SameEndTwice,
    LineDropped,
    ArcTooMany,
    OddArcTooMany,
    OtherCount,
    OtherLetter,
    FieldMore,
    FieldLess,
    EmptyLine,
    SeparatorsAtEnd,
    SeparatorsInFront,
    SeparatorsMore,
    SeparatorsDropped,
    SeparatorsInNumber,
    SeparatorsAfterP,
    SeparatorsOnly,
    LineOfBlanks,
    OddSeparator,
    OddByte,
    OddByteInComment,
    CarriageReturns,
    NoLastLf,
    CutShort,
    NoText,
    OnlyLf,
    OnlyComments,
    FullLength,
    TableFault(Fault),
}

/// All damages.
fn damages() -> Vec<Damage> {
    use Damage::*;
    let mut all = vec![
        LeadingZero,
        ElevenDigits,
        LargeNumber,
        NoNumber,
        LinesSwapped,
        LineTwice,
        SameEndTwice,
        LineDropped,
        ArcTooMany,
        OddArcTooMany,
        OtherCount,
        OtherLetter,
        FieldMore,
        FieldLess,
        EmptyLine,
        SeparatorsAtEnd,
        SeparatorsInFront,
        SeparatorsMore,
        SeparatorsDropped,
        SeparatorsInNumber,
        SeparatorsAfterP,
        SeparatorsOnly,
        LineOfBlanks,
        OddSeparator,
        OddByte,
        OddByteInComment,
        CarriageReturns,
        NoLastLf,
        CutShort,
        NoText,
        OnlyLf,
        OnlyComments,
        FullLength,
    ];
    all.extend(FAULTS.map(TableFault));
    all
}

/// How the fields of a text are parted before it is damaged.
#[derive(Clone, Copy, PartialEq, Eq, Debug)]
enum Spacing {
    OneBlank,
    Runs,
    TabsOnly,
    OneLongRun,
}

/// All ways to part the fields.
const SPACINGS: [Spacing; 4] = [Spacing::OneBlank, Spacing::Runs, Spacing::TabsOnly, Spacing::OneLongRun];

/// A text as lines, and whether its last LF is there.
struct Draft {
    lines: Vec<Vec<u8>>,
    last_lf: bool,
}

/// Bytes that stand in no line of its form.
const ODD_BYTES: [u8; 13] = [b'\r', 0, 11, 12, 127, 128, 160, 194, 255, b'-', b'+', b'.', b'c'];

/// Writes some minimums of 0 out: in no line, in some or in all.
fn add_zeros(random: &mut Random, table: &OwnTable, lines: &mut [Vec<u8>]) {
    let often = random.one_of(&[0, 0, 1, 2, 9]);
    for (line, minimum) in lines.iter_mut().skip(3).zip(&table.minimums) {
        if *minimum == 0 && often > 0 && random.once_in(often) {
            line.extend_from_slice(b" 0");
        }
    }
}

/// The lines of a table, its n lines in either order.
fn drafted(random: &mut Random, table: &OwnTable) -> Draft {
    let mut lines: Vec<Vec<u8>> = table.text().lines().map(|line| line.as_bytes().to_vec()).collect();
    add_zeros(random, table, &mut lines);
    if random.once_in(2) {
        lines.swap(1, 2);
    }
    Draft { lines, last_lf: true }
}

/// The draft's bytes.
fn joined(draft: &Draft) -> Vec<u8> {
    let mut text = draft.lines.join(&b'\n');
    if draft.last_lf && !draft.lines.is_empty() {
        text.push(b'\n');
    }
    text
}

/// Where a line stands, if there is one: the first four lines as often as all others.
fn some_line(random: &mut Random, draft: &Draft) -> Option<usize> {
    let count = draft.lines.len();
    if count == 0 {
        return None;
    }
    let among = if random.once_in(2) { count.min(4) } else { count };
    Some(random.place(among))
}

/// Where a new line can stand.
fn some_gap(random: &mut Random, draft: &Draft) -> usize {
    random.place(draft.lines.len() + 1)
}

/// Changes one field of a line that is all digits.
fn change_number(random: &mut Random, line: &mut Vec<u8>, change: impl Fn(&mut Random, &[u8]) -> Vec<u8>) {
    let mut numbers = field_places(line);
    numbers.retain(|field| line[field.clone()].iter().all(u8::is_ascii_digit));
    if !numbers.is_empty() {
        let field = numbers.swap_remove(random.place(numbers.len()));
        let changed = change(random, &line[field.clone()]);
        line.splice(field, changed);
    }
}

/// A number with separators inside, beside it if it has one digit.
fn parted_number(random: &mut Random, number: &[u8]) -> Vec<u8> {
    let at = number.len().min(random.place(number.len()) + 1);
    [&number[..at], &run(random), &number[at..]].concat()
}

/// Changes one run of separators between fields of a line.
fn change_gap(random: &mut Random, line: &mut Vec<u8>, change: impl Fn(&mut Random) -> Vec<u8>) {
    let mut gaps = gaps(line);
    if !gaps.is_empty() {
        let gap = gaps.swap_remove(random.place(gaps.len()));
        let changed = change(random);
        line.splice(gap, changed);
    }
}

/// The line without its last field and the separators beside it.
fn without_last_field(line: &[u8]) -> Vec<u8> {
    let last = field_places(line).pop();
    without_last_separators(&line[..last.map_or(0, |field| field.start)]).to_vec()
}

/// A byte in the place of a separator.
fn odd_separator(random: &mut Random) -> Vec<u8> {
    random
        .one_of(&[
            &b"\r"[..],
            b"\x0b",
            b"\x0c",
            b"\xa0",
            b"\0",
            b",",
            b" \r",
            b"\x0b ",
            b" \0 ",
        ])
        .to_vec()
}

/// A number with zeros in front.
fn with_zeros(random: &mut Random, number: &[u8]) -> Vec<u8> {
    let mut zeros = vec![b'0'; random.between(1, 3) as usize];
    zeros.extend_from_slice(number);
    zeros
}

/// Eleven digits or more, sometimes zeros before a small number.
fn eleven_digits(random: &mut Random, number: &[u8]) -> Vec<u8> {
    let length = random.one_of(&[11, 11, 12, 20, 21, 40]);
    let mut digits = vec![random.one_of(b"0123456789"); length];
    let kept = number.len().min(length);
    digits[length - kept..].copy_from_slice(&number[number.len() - kept..]);
    digits
}

/// A number at or above the largest one of a text.
fn large_number(random: &mut Random, _: &[u8]) -> Vec<u8> {
    random
        .one_of(&[
            "4294967294",
            "4294967295",
            "4294967296",
            "4294967297",
            "4294967305",
            "5000000000",
            "9999999999",
        ])
        .as_bytes()
        .to_vec()
}

/// Something where a number belongs.
fn no_number(random: &mut Random, _: &[u8]) -> Vec<u8> {
    random
        .one_of(&["", "-1", "+1", "1.0", "0x1", "1e3", "s", "1,000", "00", "1a"])
        .as_bytes()
        .to_vec()
}

/// Another line that begins nearly as one of its form.
fn other_letter(random: &mut Random, line: &mut Vec<u8>) {
    let text = String::from_utf8_lossy(line).into_owned();
    let (from, to) = random.one_of(&[
        ("p max", "p min"),
        ("p max", "pmax"),
        ("p max", "P max"),
        ("p max", "p maxx"),
        ("p max ", "p max"),
        ("p max", "p ma x"),
        ("p max", "x max"),
        ("n ", "N "),
        (" s", " S"),
        (" t", " s"),
        (" s", " t"),
        (" s", " st"),
        (" t", ""),
        ("a ", "A "),
        ("a ", "b "),
        ("a ", "aa "),
        ("n ", "a "),
        ("a ", "n "),
        ("a ", "f "),
    ]);
    *line = text.replacen(from, to, 1).into_bytes();
}

/// A comment of any bytes but LF.
fn comment(random: &mut Random) -> Vec<u8> {
    let mut line = b"c".to_vec();
    for _ in 0..random.one_of(&[0, 0, 1, 5, 30]) {
        let odd = random.one_of(&ODD_BYTES);
        line.push(random.one_of(&[b' ', b'a', b'p', b'1', b'c', odd]));
    }
    line
}

/// A line that is no arc's, though it begins as one.
fn odd_arc(random: &mut Random) -> Vec<u8> {
    random
        .one_of(&[
            "a",
            "a ",
            "a 1 2",
            "a 1 2 ",
            "a 1 2 3 4 5",
            "a 1 2 3 04",
            "a 1 2 3 4294967296",
            "a 1 2 x",
            "a1 2 3",
            "a\t1\t2 \t",
            " a 1 2 3",
            "a 01 2 3",
            "a 1 2 4294967296",
        ])
        .as_bytes()
        .to_vec()
}

/// Pads the text with a comment to about 65,536 bytes.
fn pad(random: &mut Random, draft: &mut Draft) {
    let wanted = random.one_of(&[65_535, 65_536, 65_536, 65_537, 65_537, 65_538, 66_000]);
    let length = joined(draft).len();
    if length + 2 <= wanted {
        let mut line = vec![b'c'; wanted - length - 1];
        let last = line.len() - 1;
        if last > 0 {
            line[last] = random.one_of(&ODD_BYTES);
        }
        let gap = some_gap(random, draft);
        draft.lines.insert(gap, line);
    }
}

/// Damages the bytes of one line.
fn damage_line(random: &mut Random, line: &mut Vec<u8>, damage: Damage) {
    match damage {
        Damage::LeadingZero => change_number(random, line, with_zeros),
        Damage::ElevenDigits => change_number(random, line, eleven_digits),
        Damage::LargeNumber => change_number(random, line, large_number),
        Damage::NoNumber => change_number(random, line, no_number),
        Damage::OtherLetter => other_letter(random, line),
        Damage::FieldMore => line.extend_from_slice(b" 1"),
        Damage::FieldLess => *line = without_last_field(line),
        Damage::SeparatorsAtEnd => line.extend(run(random)),
        Damage::SeparatorsInFront => {
            line.splice(0..0, run(random));
        }
        Damage::SeparatorsMore => change_gap(random, line, run),
        Damage::SeparatorsDropped => change_gap(random, line, |_| Vec::new()),
        Damage::SeparatorsInNumber => change_number(random, line, parted_number),
        Damage::OddSeparator => change_gap(random, line, odd_separator),
        Damage::OddByte => {
            let byte = random.one_of(&ODD_BYTES);
            let place = random.place(line.len() + 1);
            if place < line.len() && random.once_in(2) {
                line[place] = byte;
            } else {
                line.insert(place, byte);
            }
        }
        _ => {}
    }
}

/// Damages the order or the number of lines, or the whole text.
fn damage_text(random: &mut Random, draft: &mut Draft, damage: Damage) {
    let gap = some_gap(random, draft);
    let line = some_line(random, draft);
    match damage {
        Damage::LinesSwapped => {
            if let (Some(one), Some(other)) = (line, some_line(random, draft)) {
                draft.lines.swap(one, other);
            }
        }
        Damage::LineTwice => {
            if let Some(one) = line {
                let copy = draft.lines[one].clone();
                draft.lines.insert(random.one_of(&[gap, one]), copy);
            }
        }
        Damage::SameEndTwice => {
            for line in draft.lines.iter_mut().filter(|line| line.first() == Some(&b'n')) {
                let last = without_last_separators(line).len() - 1;
                line[last] = b's';
            }
        }
        Damage::LineDropped => {
            if let Some(one) = line {
                draft.lines.remove(one);
            }
        }
        Damage::ArcTooMany => {
            let arc = random
                .one_of(&[
                    "a 1 2 3",
                    "a 0 0 4294967295",
                    "a 2 1 0",
                    "a 1 2 3 2",
                    "a 1 2 3 4294967295",
                ])
                .as_bytes()
                .to_vec();
            let gap = random.one_of(&[gap, draft.lines.len()]);
            draft.lines.insert(gap, arc);
        }
        Damage::OddArcTooMany => draft.lines.push(odd_arc(random)),
        Damage::OtherCount => {
            let arcs = draft.lines.len().saturating_sub(3) as u32;
            let count = random.one_of(&[arcs + 1, arcs.saturating_sub(1), 0, 4096, 4097, u32::MAX]);
            for line in draft.lines.iter_mut().filter(|line| line.first() == Some(&b'p')) {
                *line = without_last_field(line);
                line.extend_from_slice(format!(" {count}").as_bytes());
            }
        }
        Damage::SeparatorsAfterP => {
            for line in draft.lines.iter_mut().filter(|line| line.first() == Some(&b'p')) {
                let run = run(random);
                if let Some(gap) = gaps(line).into_iter().next() {
                    line.splice(gap, run);
                }
            }
        }
        Damage::SeparatorsOnly => draft.lines.insert(gap, run(random)),
        Damage::LineOfBlanks => draft.lines.insert(gap, vec![b' '; 65_000]),
        Damage::EmptyLine => draft.lines.insert(random.one_of(&[gap, draft.lines.len()]), Vec::new()),
        Damage::OddByteInComment => {
            let mut line = comment(random);
            line.push(random.one_of(&ODD_BYTES));
            draft.lines.insert(gap, line);
        }
        Damage::CarriageReturns => draft.lines.iter_mut().for_each(|line| line.push(b'\r')),
        Damage::NoLastLf => draft.last_lf = false,
        Damage::CutShort => {
            let mut text = joined(draft);
            text.truncate(random.place(text.len() + 1));
            *draft = Draft {
                lines: vec![text],
                last_lf: false,
            };
        }
        Damage::NoText => draft.lines.clear(),
        Damage::OnlyLf => draft.lines = vec![Vec::new(); random.between(1, 3) as usize],
        Damage::OnlyComments => {
            draft.lines = (0..random.between(1, 4)).map(|_| comment(random)).collect();
        }
        Damage::FullLength => pad(random, draft),
        _ => {
            if let Some(one) = line {
                damage_line(random, &mut draft.lines[one], damage);
            }
        }
    }
}

/// Makes one run of separators long, for itself or up to the desk's bound.
fn add_long_run(random: &mut Random, draft: &mut Draft) {
    let bound = random.one_of(&[LONGEST_INPUT, LONGEST_INPUT, LONGEST_INPUT + 1]);
    let room = bound.saturating_sub(joined(draft).len());
    let line = some_line(random, draft);
    let length = random.one_of(&[1_000, 4_095, 65_000, room]).min(room);
    if let Some(one) = line {
        change_gap(random, &mut draft.lines[one], |random| run_of(random, length + 1));
    }
}

/// Parts the fields of the whole text in this way.
fn space_out(random: &mut Random, draft: &mut Draft, spacing: Spacing) {
    let longest = spacing::longest_for(draft.lines.len());
    match spacing {
        Spacing::OneBlank => {}
        Spacing::Runs => {
            for line in draft.lines.iter_mut() {
                *line = respaced(random, line, longest);
            }
        }
        Spacing::TabsOnly => {
            let bytes = draft.lines.iter_mut().flatten();
            bytes.filter(|byte| **byte == b' ').for_each(|byte| *byte = b'\t');
        }
        Spacing::OneLongRun => add_long_run(random, draft),
    }
}

/// Puts comments anywhere.
fn add_comments(random: &mut Random, draft: &mut Draft) {
    for _ in 0..random.between(0, 3) {
        let line = comment(random);
        let gap = some_gap(random, draft);
        draft.lines.insert(gap, line);
    }
}

/// Which damages a text gets: none, one, or a few. Those that make it long or empty are rarer.
fn chosen(random: &mut Random) -> Vec<Damage> {
    let count = random.one_of(&[0, 0, 0, 1, 1, 1, 1, 1, 2, 3]);
    let all = damages();
    let mut some = Vec::new();
    while some.len() < count {
        let damage = random.one_of(&all);
        let rare = [
            Damage::NoText,
            Damage::OnlyLf,
            Damage::OnlyComments,
            Damage::FullLength,
            Damage::LineOfBlanks,
            Damage::TableFault(Fault::ManyArcs),
        ];
        if !rare.contains(&damage) || random.once_in(6) {
            some.push(damage);
        }
    }
    some
}

/// Which bounds of document 01 a table meets or passes by one.
fn bounds_met(table: &OwnTable) -> Vec<String> {
    let mut met = Vec::new();
    if [1, 2, 512, 513].contains(&table.n) {
        met.push(format!("n {}", table.n));
    }
    if [0, 4096, 4097].contains(&table.arcs()) {
        met.push(format!("m {}", table.arcs()));
    }
    for bound in [0, 1_000_000, 1_000_001] {
        if table.capacities.contains(&bound) {
            met.push(format!("capacity {bound}"));
        }
    }
    met.extend(minimums_met(table));
    met
}

/// How the minimums of a table stand to its capacities, and whether minimums above 0 and of 0 are mixed.
fn minimums_met(table: &OwnTable) -> Vec<String> {
    let pairs = || table.minimums.iter().zip(&table.capacities);
    let mut met = Vec::new();
    if pairs().any(|(minimum, capacity)| *minimum > 0 && minimum == capacity) {
        met.push("minimum equal to its capacity".to_string());
    }
    if pairs().any(|(minimum, capacity)| minimum.checked_sub(*capacity) == Some(1)) {
        met.push("minimum one above its capacity".to_string());
    }
    if table.minimums.contains(&0) && table.minimums.iter().any(|minimum| *minimum > 0) {
        met.push("arcs with and without a minimum".to_string());
    }
    met
}

/// All that random texts are to bring: each damage, each way to part fields, and each bound.
pub fn wanted() -> Vec<String> {
    let bounds = "n 1,n 2,n 512,n 513,m 0,m 4096,m 4097,capacity 0,capacity 1000000,capacity 1000001,\
        minimum equal to its capacity,minimum one above its capacity,arcs with and without a minimum";
    let mut wanted: Vec<String> = bounds.split(',').map(str::to_string).collect();
    wanted.extend(damages().iter().map(|damage| format!("{damage:?}")));
    wanted.extend(SPACINGS.map(|spacing| format!("{spacing:?}")));
    wanted
}

/// A text with these damages, and what it brings: damages and bounds.
pub fn text_with(random: &mut Random, damages: &[Damage]) -> (Vec<u8>, Vec<String>) {
    let mut table = random_table(random);
    match random.between(0, 19) {
        0 => put_any_minimums(random, &mut table),
        1..=4 => put_kept_minimums(random, &mut table),
        _ => {}
    }
    for damage in damages {
        if let Damage::TableFault(fault) = damage {
            put_fault(random, &mut table, *fault);
        }
    }
    let mut draft = drafted(random, &table);
    let [one_blank, runs, ..] = SPACINGS;
    let any = random.one_of(&SPACINGS);
    let spacing = random.one_of(&[one_blank, one_blank, one_blank, runs, runs, any]);
    space_out(random, &mut draft, spacing);
    if random.once_in(2) {
        add_comments(random, &mut draft);
    }
    for damage in damages {
        if !matches!(damage, Damage::TableFault(_)) {
            damage_text(random, &mut draft, *damage);
        }
    }
    let mut brought = bounds_met(&table);
    brought.extend(damages.iter().map(|damage| format!("{damage:?}")));
    brought.push(format!("{spacing:?}"));
    (joined(&draft), brought)
}

/// Text `index` of a seed, and what it brings.
pub fn random_text(seed: u64, index: u64) -> (Vec<u8>, Vec<String>) {
    let random = &mut Random::of_case(seed, index);
    let damages = chosen(random);
    text_with(random, &damages)
}
