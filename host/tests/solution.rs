//! Solution texts: the listing, the order of refusals, and every text read back to what it was written from.

mod shared;

use judge::compare::random::Random;
use judge::compare::tables::OwnTable;
use judge::desk::solution;
use judge::refusal::Name;
use judge::solution::{read_solution, solution_text, write_solution, ReadBack, Written};
use shared::{small_random_table, solved, table_of, LISTING_ARCS, LISTING_TEXT};

/// The solution text of the listing.
const LISTING_SOLUTION: &str = "s 1\nf 1 2 1\nf 1 3 0\nf 2 3 1\nf 3 4 1\n";

/// Writes a text into a row of sevens and checks that later bytes, or all on a refusal, are unchanged.
fn written(table: &OwnTable, value: u64, flow: &[u32], length: usize) -> (Written, Vec<u8>) {
    let mut text = vec![7; length];
    let written = write_solution(&table.lent(), value, flow, &mut text);
    let later = text.split_off(written.filled as usize);
    assert!(later.iter().all(|byte| *byte == 7));
    (written, text)
}

/// Checks that writing is refused.
fn assert_unwritten(table: &OwnTable, value: u64, flow: &[u32], length: usize, name: Name, place: u32) {
    let refused = Written {
        refusal: name.number(),
        place,
        filled: 0,
    };
    assert_eq!(written(table, value, flow, length), (refused, Vec::new()));
}

/// Reads a text back into a row of sevens that is one longer than it must be.
fn read_back(table: &OwnTable, text: &[u8]) -> (ReadBack, Vec<u32>) {
    let mut flow = vec![7; table.arcs() + 1];
    let read = read_solution(&table.lent(), text, &mut flow);
    assert_eq!(flow.pop(), Some(7));
    (read, flow)
}

/// Checks that a text is refused by SOLUTION at a line and changes nothing.
fn assert_no_solution(table: &OwnTable, text: &str, line: u32) {
    let refused = ReadBack {
        refusal: Name::Solution.number(),
        place: line,
        value: 0,
    };
    assert_eq!(
        read_back(table, text.as_bytes()),
        (refused, vec![7; table.arcs()]),
        "{text:?}"
    );
}

/// The listing's answer is written and read back.
#[test]
fn the_listing_is_written_and_read_back() {
    let listing = table_of(4, &LISTING_ARCS);
    assert_eq!(solution(LISTING_TEXT.as_bytes()), LISTING_SOLUTION);
    let length = LISTING_SOLUTION.len();
    for more in [0, 1, 9] {
        let (answer, text) = written(&listing, 1, &[1, 0, 1, 1, 9], length + more);
        assert_eq!((answer.refusal, answer.filled), (0, length as u64));
        assert_eq!(text, LISTING_SOLUTION.as_bytes());
    }
    assert_unwritten(&listing, 1, &[1, 0, 1, 1], length - 1, Name::Room, 0);
    let (read, flow) = read_back(&listing, LISTING_SOLUTION.as_bytes());
    assert_eq!((read.refusal, read.value), (0, 1));
    assert_eq!(flow, [1, 0, 1, 1]);
    assert_eq!(solution(b"p max 1 0\nn 1 s\nn 1 t\n"), "refusal=NODES\nplace=0\n");
    assert_eq!(
        solution(b"p max 2 1\nn 1 s\nn 2 t\na 1 2 3 1\n"),
        "refusal=BOUNDED\nplace=0\n"
    );
}

/// Writing gives the next refusal in order as one fault after the other is mended.
#[test]
fn writing_refuses_in_order() {
    let mut table = OwnTable::with_bounded_arcs(3, 1, 1, &[(1, 2, 4, 1), (2, 3, 3, 0)]);
    let above = 4_096_000_001;
    assert_unwritten(&table, above, &[5], 9, Name::Ends, 0);
    table.t = 3;
    table.heads[1] = 2;
    assert_unwritten(&table, above, &[5], 9, Name::Loop, 1);
    table.heads[1] = 3;
    assert_unwritten(&table, above, &[5], 9, Name::Bounded, 0);
    table.minimums[0] = 0;
    assert_unwritten(&table, above, &[5], 99, Name::Room, 0);
    assert_unwritten(&table, above, &[4, 4], 28, Name::Room, 0);
    assert_unwritten(&table, above, &[4, 4], 29, Name::Solution, 1);
    assert_unwritten(&table, above, &[5, 4], 29, Name::Solution, 0);
    assert_unwritten(&table, above, &[4, 3], 29, Name::Solution, 2);
    assert_unwritten(&table, u64::MAX, &[4, 3], 39, Name::Solution, 2);
    assert_unwritten(&table, u64::MAX, &[4, 3], 38, Name::Room, 0);
    assert_eq!(written(&table, above - 1, &[4, 3], 29).0.filled, 29);
    assert_unwritten(&table_of(2, &[]), above, &[], 13, Name::Solution, 0);
}

/// Reading gives LONG first, then the table's refusals, then ROOM, then the line.
#[test]
fn reading_refuses_in_order() {
    let mut table = OwnTable::with_bounded_arcs(3, 1, 1, &[(1, 2, 4, 1)]);
    let refused = |table: &OwnTable, text: &[u8], length: usize| {
        let mut flow = vec![7; length];
        let read = read_solution(&table.lent(), text, &mut flow);
        assert!(flow.iter().all(|number| *number == 7));
        (read.refusal, read.place)
    };
    assert_eq!(refused(&table, &vec![b'x'; 1_048_577], 0), (15, 0));
    assert_eq!(refused(&table, &vec![b'x'; 1_048_576], 0), (4, 0));
    table.t = 3;
    assert_eq!(refused(&table, b"", 0), (21, 0));
    table.minimums[0] = 0;
    assert_eq!(refused(&table, b"", 0), (5, 0));
    assert_eq!(refused(&table, b"", 1), (16, 1));
}

/// The line that no such text has there is told.
#[test]
fn lines_that_no_solution_text_has() {
    let table = table_of(3, &[(1, 2, 4), (2, 3, 10)]);
    let cases = [
        ("", 1),
        ("\n", 1),
        ("s 3", 1),
        ("s 03\nf 1 2 3\nf 2 3 3\n", 1),
        ("s  3\nf 1 2 3\nf 2 3 3\n", 1),
        ("s 3 \nf 1 2 3\nf 2 3 3\n", 1),
        ("s +3\nf 1 2 3\nf 2 3 3\n", 1),
        ("s 4096000001\nf 1 2 3\nf 2 3 3\n", 1),
        ("s 18446744073709551616\nf 1 2 3\nf 2 3 3\n", 1),
        ("c\ns 3\nf 1 2 3\nf 2 3 3\n", 1),
        ("s 3\n", 2),
        ("s 3\nf 1 2 3", 2),
        ("s 3\nf 1 2 5\nf 2 3 3\n", 2),
        ("s 3\nf 2 3 3\nf 1 2 3\n", 2),
        ("s 3\nf 1 2 3\n", 3),
        ("s 3\nf 1 2 3\nf 2 3 3", 3),
        ("s 3\nf 1 2 3\nf 2 3 03\n", 3),
        ("s 3\nf 1 2 3\nf 2 3 11\n", 3),
        ("s 3\nf 1 2 3\nf 2 3 4294967299\n", 3),
        ("s 3\nf 1 2 3\nf\t2 3 3\n", 3),
        ("s 3\nf 1 2 3\nf 2 3 3\r\n", 3),
        ("s 3\nf 1 2 3\nf 2 3 3\n\n", 4),
        ("s 3\nf 1 2 3\nf 2 3 3\nf 2 3 3\n", 4),
        ("s 3\nf 1 2 3\nf 2 3 3\nx", 4),
    ];
    for (text, line) in cases {
        assert_no_solution(&table, text, line);
    }
    for text in ["s 4096000000\nf 1 2 4\nf 2 3 10\n", "s 0\nf 1 2 0\nf 2 3 0\n"] {
        assert_eq!(read_back(&table, text.as_bytes()).0.refusal, 0);
    }
}

/// What is written of random values and flows is read back to the same.
#[test]
fn what_is_written_is_read_back() {
    for index in 0..500 {
        let table = small_random_table(41, index, 9);
        let random = &mut Random::of_case(42, index);
        let flow: Vec<u32> = table
            .capacities
            .iter()
            .map(|capacity| random.between(0, *capacity))
            .collect();
        let value = u64::from(random.between(0, 4_096_000_000));
        let text = solution_text(&table.lent(), value, &flow);
        let (answer, bytes) = written(&table, value, &flow, text.len() + 2);
        assert_eq!((answer.refusal, &bytes[..]), (0, text.as_bytes()));
        let (read, flows) = read_back(&table, &bytes);
        assert_eq!((read.refusal, read.value, flows), (0, value, flow));
        let found = solved(&table);
        let text = solution(table.text().as_bytes());
        assert_eq!(
            text,
            solution_text(&table.lent(), found.answer.value as u64, &found.flow)
        );
    }
}
