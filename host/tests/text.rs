//! The text clauses of document 01 and what the desk program prints.

mod shared;

use judge::compare::random::Random;
use judge::compare::spacing::twin;
use judge::compare::tables::OwnTable;
use judge::compare::texts::random_text;
use judge::desk::{desk, serve};
use judge::refusal::Name;
use judge::text::Given;
use shared::{
    assert_text_refused, assert_text_refused_in, read_in, shown, small_random_table, solved, table_of, LISTING_ARCS,
    LISTING_TEXT,
};

/// Checks that a text gives a table and writes only its places of arc rows of the given lengths.
fn assert_text_read_in(text: &[u8], lengths: [usize; 4], table: &OwnTable) {
    let (n, m, s, t) = (table.n, table.arcs(), table.s, table.t);
    let (found, rows) = read_in(text, lengths);
    assert_eq!(found, Ok(Given { n, m: m as u32, s, t }), "{}", shown(text));
    for (row, written) in rows.iter().zip(table.rows()) {
        assert_eq!(row[..m], written[..]);
        assert!(row[m..].iter().all(|number| *number == 7));
    }
}

/// Checks that a text gives a table where the arc rows are exact and longer.
fn assert_text_read(text: &[u8], table: &OwnTable) {
    let m = table.arcs();
    assert_text_read_in(text, [m, m + 1, m + 2, m + 3], table);
}

/// Checks the name and the place by which each text is refused.
fn assert_texts_refused(cases: &[(&str, Name, u32)]) {
    for (text, name, place) in cases {
        assert_text_refused(text.as_bytes(), *name, *place);
    }
}

/// Makes a text of two nodes and m arcs that goes on with some lines.
fn two_nodes(m: u32, lines: &str) -> String {
    format!("p max 2 {m}\nn 1 s\nn 2 t\n{lines}")
}

/// Makes a good text of two nodes and fills it up to a length by a comment.
fn padded_text(length: usize) -> Vec<u8> {
    let mut text = two_nodes(0, "").into_bytes();
    text.resize(length, b'c');
    text
}

/// A text may lack the last LF and may have its n lines in either order.
#[test]
fn text_forms_that_are_accepted() {
    let listing = table_of(4, &LISTING_ARCS);
    let cases = [
        (LISTING_TEXT, listing.clone()),
        (LISTING_TEXT.trim_end(), listing),
        ("p max 2 0\nn 2 t\nn 1 s\n", OwnTable::without_arcs(2, 1, 2)),
        ("p max 2 0\nn 2 s\nn 1 t", OwnTable::without_arcs(2, 2, 1)),
        (&two_nodes(1, "a 1 2 0\n"), table_of(2, &[(1, 2, 0)])),
    ];
    for (text, table) in cases {
        assert_text_read(text.as_bytes(), &table);
    }
}

/// Comments may stand anywhere, but their first byte is c.
#[test]
fn text_comments_may_stand_anywhere() {
    let text = b"c\nc  x\np max 2 1\nc p max 3 3\nn 1 s\ncn\nn 2 t\nc\r\na 1 2 6\nc\xff\x00\nc end";
    assert_text_read(text, &table_of(2, &[(1, 2, 6)]));
    assert_texts_refused(&[
        (" c\np max 2 0\nn 1 s\nn 2 t\n", Name::Line, 1),
        ("\tc\np max 2 0\nn 1 s\nn 2 t\n", Name::Line, 1),
        ("C\np max 2 0\nn 1 s\nn 2 t\n", Name::Line, 1),
        ("c\nc\n\n", Name::Line, 3),
    ]);
}

/// An empty line is not a comment and is refused by LINE.
#[test]
fn text_empty_lines_are_no_comments() {
    assert_texts_refused(&[
        ("\n", Name::Line, 1),
        ("\n\n", Name::Line, 1),
        ("p max 2 0\n\nn 1 s\nn 2 t\n", Name::Line, 2),
        ("p max 2 0\nn 1 s\nn 2 t\n\n", Name::Line, 4),
        ("p max 2 0\nn 1 s\nn 2 t\n ", Name::Line, 4),
        ("p max 2 0\nn 1 s\nn 2 t\n\t", Name::Line, 4),
        ("p max 2 0\n \t \nn 1 s\nn 2 t\n", Name::Line, 2),
        ("\t\n", Name::Line, 1),
    ]);
}

/// Fields are parted by one or more blanks or tabs, and any number may stand before the end of the line.
#[test]
fn text_fields_are_parted_by_blanks_and_tabs() {
    let listing = table_of(4, &LISTING_ARCS);
    let long = " ".repeat(20_000);
    for separators in [" ", "  ", "\t", "\t\t\t", " \t", "\t ", " \t \t  ", &long] {
        let parted = LISTING_TEXT.replace(' ', separators);
        assert_text_read(parted.as_bytes(), &listing);
        let parted_at_ends = parted.replace('\n', &format!("{separators}\n"));
        assert_text_read(parted_at_ends.as_bytes(), &listing);
        assert_text_read(parted_at_ends.trim_end_matches('\n').as_bytes(), &listing);
    }
    for line in [
        "p  max 2 0",
        "p\tmax 2 0",
        "p \t max\t 2 \t0",
        "p max 2 0 ",
        "p max 2 0\t",
        "p max 2 0 \t \t",
    ] {
        let text = format!("{line}\nn\t1   s\t\nn  2\tt  ");
        assert_text_read(text.as_bytes(), &table_of(2, &[]));
    }
    for line in [
        "a 1 2 3 ",
        "a 1  2 3",
        "a  1 2 3",
        "a\t1 2 3",
        "a\t1\t2\t3\t",
        "a \t1\t 2  3",
    ] {
        assert_text_read(two_nodes(1, line).as_bytes(), &table_of(2, &[(1, 2, 3)]));
        let too_many = two_nodes(0, &format!("{line}\n"));
        assert_text_refused(too_many.as_bytes(), Name::Count, 4);
    }
}

/// A text with other separators gives the same answer, whether it is accepted or refused.
#[test]
fn text_twins_have_one_answer() {
    for index in 0..3_000 {
        let (text, _) = random_text(11, index);
        if let Some(twin) = twin(&mut Random::of_case(12, index), &text) {
            assert_eq!(desk(&text), desk(&twin), "{}", shown(&text));
        }
    }
}

/// Reads a text line by line in the form of exactly one blank between fields and none at the ends.
fn read_in_the_old_form(text: &str) -> Option<Vec<Vec<&str>>> {
    let lines = text.lines().filter(|line| !line.starts_with('c'));
    let fields = lines.map(|line| line.split(' ').collect::<Vec<_>>());
    fields
        .map(|line| line.iter().all(|field| !field.is_empty()).then_some(line))
        .collect()
}

/// Every text that was accepted in the old form gives the same table.
#[test]
fn text_the_old_form_gives_the_same_table() {
    for index in 0..300 {
        let table = small_random_table(13, index, 9);
        let text = table.text();
        let lines = read_in_the_old_form(&text).expect("the old form");
        assert_eq!(lines.len(), table.arcs() + 3);
        let numbers: Vec<u32> = lines.iter().flatten().filter_map(|field| field.parse().ok()).collect();
        let [n, m, s, t, arcs @ ..] = &numbers[..] else {
            panic!("four numbers come first");
        };
        let arcs: Vec<(u32, u32, u32)> = arcs.chunks(3).map(|arc| (arc[0], arc[1], arc[2])).collect();
        assert_eq!(*m as usize, arcs.len());
        assert_text_read(text.as_bytes(), &OwnTable::with_arcs(*n, *s, *t, &arcs));
    }
}

/// Lines that are not of the form of the p line are refused by LINE.
#[test]
fn text_the_first_line_has_its_form() {
    for line in [
        "p max 2",
        "p max 2 ",
        "p max 2 \t ",
        "p max 2 0 0",
        "p max 2 0\t0",
        " p max 2 0",
        "\tp max 2 0",
        " \t p max 2 0",
        "p max 2 0\r",
        "p max 2 0 \r",
        "p max\r2 0",
        "p\rmax 2 0",
        "p\x0bmax 2 0",
        "p max\x0b2 0",
        "p max 2\x0c0",
        "p max 2 0\x0b",
        "p max 2 0\0",
        "p max 2\u{a0}0",
        "p min 2 0",
        "pmax 2 0",
        "p max2 0",
        "p max2 2 0",
        "p ma x 2 0",
        "p m\tax 2 0",
        "P max 2 0",
        "p MAX 2 0",
        "p max ",
        "p max",
        "p",
        "p max 02 0",
        "p max 2 00",
        "p max -2 0",
        "p max +2 0",
        "p max 2 0x",
        "p max 4294967296 0",
        "p max 2 4294967296",
        "p max 10000000000 0",
        "p max 99999999999999999999999 0",
        "n 1 s",
        "a 1 2 3",
    ] {
        let text = format!("{line}\nn 1 s\nn 2 t\n");
        assert_text_refused(text.as_bytes(), Name::Line, 1);
    }
}

/// Lines that are not of the form of the n lines, or out of order, are refused by LINE.
#[test]
fn text_the_ends_have_their_form_and_order() {
    for line in [
        " n 1 s",
        "\tn 1 s",
        "n1 s",
        "n 1s",
        "n 1 s\r",
        "n 1 s \r",
        "n\x0b1 s",
        "n 1\rs",
        "n 1",
        "n 1 ",
        "n 1\t\t",
        "n s",
        "n  s",
        "n\t \ts",
        "n 1 s t",
        "n 1 x",
        "n 1 S",
        "n 1 ss",
        "n 1 st",
        "n 01 s",
        "n 1 s s",
        "n 1 2 s",
        "n 4294967296 s",
        "n 00000000001 s",
        "n",
        "n 1 t",
        "p max 2 0",
        "a 1 2 3",
        "m 1 s",
    ] {
        let place = if line == "n 1 t" { 3 } else { 2 };
        let first = format!("p max 2 0\n{line}\nn 2 t\n");
        let second = format!("c\np max 2 0\nn 2 t\n{line}\n");
        assert_texts_refused(&[(&first, Name::Line, place), (&second, Name::Line, 4)]);
    }
    assert_texts_refused(&[
        ("p max 2 0\nn 1 s\nn 1 s\nn 2 t\n", Name::Line, 3),
        ("p max 2 0\nn 1 s\nn 2 s\nn 2 t\n", Name::Line, 3),
        ("p max 2 0\nn 1 s\nn 2 t\nn 2 t\n", Name::Line, 4),
        ("p max 2 0\nn 1 s\nn 2 t\np max 2 0\n", Name::Line, 4),
        ("p max 2 1\nn 1 s\na 1 2 3\nn 2 t\n", Name::Line, 3),
    ]);
}

/// Lines that are not of the form of an a line are refused by LINE, also one too many.
#[test]
fn text_the_arcs_have_their_form() {
    for line in [
        "a 1 2",
        "a 1 2 ",
        "a 1 2\t \t",
        "a 1 2 3 4 5",
        "a 1 2 3\t4\t5",
        "a 1 2 1 0 0",
        "a 1 2 3 00",
        "a 1 2 3 -0",
        "a 1 2 3 4294967296",
        " a 1 2 3",
        "\ta 1 2 3",
        "a 1 2 3\r",
        "a 1 2 3 \r",
        "a 1 2 3\x0b",
        "a\x0b1 2 3",
        "a 1\r2 3",
        "a1 2 3",
        "a\t12 3",
        "A 1 2 3",
        "a 01 2 3",
        "a 1 2 03",
        "a 1 2 00",
        "a 1 2 -3",
        "a 1 2 3.0",
        "a 1 2 4294967296",
        "a 1 2 9999999999",
        "a 1 2 00000000001",
        "a 1 2 10000000000",
        "a",
        "a ",
        "n 1 s",
        "x",
    ] {
        for m in [1, 2] {
            let text = two_nodes(m, &format!("a 1 2 3\n{line}\n"));
            assert_text_refused(text.as_bytes(), Name::Line, 5);
        }
    }
}

/// An end before the p line or both n lines is refused by LINE at one past the last line.
#[test]
fn text_an_end_that_comes_too_early() {
    assert_texts_refused(&[
        ("c", Name::Line, 2),
        ("c\n", Name::Line, 2),
        ("p max 2 0", Name::Line, 2),
        ("p max 2 0\n", Name::Line, 2),
        ("p max 2 0\nn 1 s\n", Name::Line, 3),
        ("p max 2 9\nn 2 t\nc", Name::Line, 4),
    ]);
}

/// More or fewer arcs than m are refused by COUNT at the first line too many or one past the last.
#[test]
fn text_more_or_fewer_arcs_than_m() {
    let huge = "p max 4294967295 4294967295\nn 1 s\nn 2 t\na 1 2 3\n";
    assert_texts_refused(&[
        (&two_nodes(1, ""), Name::Count, 4),
        (&two_nodes(1, "c\nc"), Name::Count, 6),
        (&two_nodes(1, "a 1 2 3\na 1 2 3\n"), Name::Count, 5),
        (&two_nodes(1, "c\na 1 2 3\nc\na 9 9 4294967295"), Name::Count, 7),
        (&two_nodes(1, "a 1 2 3\na 1 2 3\nx\n"), Name::Count, 5),
        (&two_nodes(1, "a 1 2 3\nx\na 1 2 3\n"), Name::Line, 5),
        (&two_nodes(0, "a 1 2 3"), Name::Count, 4),
        (huge, Name::Count, 5),
    ]);
}

/// The table that a text gives is judged after its lines.
#[test]
fn text_the_table_that_it_gives_is_judged() {
    let two_arcs = |second: &str| two_nodes(2, &format!("a 1 2 3\n{second}"));
    assert_texts_refused(&[
        ("p max 1 0\nn 9 s\nn 9 t\n", Name::Nodes, 0),
        ("p max 513 0\nn 9 s\nn 9 t\n", Name::Nodes, 0),
        ("p max 4294967295 0\nn 0 s\nn 0 t\n", Name::Nodes, 0),
        ("p max 2 0\nn 1 s\nn 1 t\n", Name::Ends, 0),
        ("p max 2 0\nn 0 s\nn 1 t\n", Name::Ends, 0),
        ("p max 2 0\nn 4294967295 t\nn 1 s\n", Name::Ends, 0),
        (&two_arcs("a 0 0 4294967295"), Name::Node, 1),
        (&two_arcs("a 2 3 1"), Name::Node, 1),
        (&two_arcs("a 2 2 1000001"), Name::Loop, 1),
        (&two_arcs("a 2 1 1000001"), Name::Capacity, 1),
        (&two_arcs("a 2 1 4294967295"), Name::Capacity, 1),
    ]);
    let accepted = table_of(2, &[(1, 2, 3), (2, 1, 1_000_000)]);
    assert_text_read(two_arcs("a 2 1 1000000").as_bytes(), &accepted);
}

/// A text may have 4,096 arcs, and more are refused by ARCS after NODES and before ENDS.
#[test]
fn text_many_arcs() {
    let most = two_nodes(4_096, &"a 1 2 3\n".repeat(4_096));
    assert_text_read(most.as_bytes(), &table_of(2, &[(1, 2, 3); 4_096]));
    let loops = "a 5 5 3\n".repeat(4_097);
    assert_texts_refused(&[
        (&two_nodes(4_097, &loops), Name::Arcs, 0),
        (&format!("p max 2 4097\nn 1 s\nn 1 t\n{loops}"), Name::Arcs, 0),
        (&format!("p max 1 4097\nn 1 s\nn 1 t\n{loops}"), Name::Nodes, 0),
        (&two_nodes(131_000, &"a 1 2 3\n".repeat(131_000)), Name::Arcs, 0),
    ]);
}

/// Too short an arc row is refused by ROOM, after ENDS and before NODE, and lengths may differ.
#[test]
fn text_room_in_the_four_arc_rows() {
    let listing = LISTING_TEXT.as_bytes();
    for lengths in [[3, 4, 4, 4], [4, 3, 4, 4], [4, 4, 3, 4], [4, 4, 4, 3], [0; 4]] {
        assert_text_refused_in(listing, lengths, Name::Room, 0);
    }
    assert_text_read_in(listing, [4, 9, 5, 6], &table_of(4, &LISTING_ARCS));
    assert_text_read_in(two_nodes(0, "").as_bytes(), [0; 4], &table_of(2, &[]));
    let same_ends = b"p max 2 1\nn 1 s\nn 1 t\na 3 3 1\n";
    assert_text_refused_in(same_ends, [0; 4], Name::Ends, 0);
    let no_node = two_nodes(1, "a 3 3 1\n");
    assert_text_refused_in(no_node.as_bytes(), [1, 0, 1, 1], Name::Room, 0);
    assert_text_refused_in(no_node.as_bytes(), [1; 4], Name::Node, 0);
}

/// A text may have 1,048,576 bytes, and one byte more is refused by LONG.
#[test]
fn text_the_greatest_length() {
    assert_text_read(&padded_text(1_048_576), &table_of(2, &[]));
    assert_text_refused(&padded_text(1_048_577), Name::Long, 0);
    assert_text_refused(&[b'\n'; 1_048_577], Name::Long, 0);
    assert_text_refused(&b"c\n".repeat(524_288), Name::Line, 524_289);
}

/// The desk program prints refusals, a table without arcs and a table of 4,096 arcs.
#[test]
fn the_desk_prints_refusals_and_the_table_without_arcs() {
    let printed = b"nodes=2\narcs=0\nvalue=0\nscale=0\nphases=0\nsaturating=0\n\
        nonsaturating=0\nrelabels=0\nside=1\nflow=\n";
    assert_eq!(desk(b"p max 2 0\nn 1 s\nn 2 t"), printed);
    assert_eq!(desk(&padded_text(65_536)), printed);
    assert_eq!(desk(&padded_text(65_537)), b"refusal=LONG\nplace=0\n");
    assert_eq!(desk(&[b'\n'; 65_537]), b"refusal=LONG\nplace=0\n");
    let a_loop = two_nodes(2, "a 1 2 5\na 1 1 5\n");
    assert_eq!(desk(a_loop.as_bytes()), b"refusal=LOOP\nplace=1\n");
    let most = two_nodes(4_096, &"a 1 2 3\n".repeat(4_096));
    let lines = String::from_utf8(desk(most.as_bytes())).expect("the desk program prints ASCII");
    assert!(lines.starts_with("nodes=2\narcs=4096\nvalue=12288\nscale=0\n"));
    assert!(lines.ends_with(&format!("flow={}\n", ["3"; 4_096].join(" "))));
    let more = two_nodes(4_097, &"a 1 2 3\n".repeat(4_097));
    assert_eq!(desk(more.as_bytes()), b"refusal=ARCS\nplace=0\n");
}

/// A served text is what the desk program prints, cut where the lent row ends, and later bytes are unchanged.
#[test]
fn a_served_text_goes_as_far_as_the_row_does() {
    for text in [LISTING_TEXT.as_bytes(), b"", &padded_text(65_537)] {
        let printed = desk(text);
        for length in [
            0,
            1,
            printed.len() - 1,
            printed.len(),
            printed.len() + 1,
            printed.len() + 9,
        ] {
            let mut row = vec![7; length];
            let end = serve(text, &mut row);
            assert_eq!(end, printed.len().min(length));
            assert_eq!(row[..end], printed[..end]);
            assert!(row[end..].iter().all(|byte| *byte == 7));
        }
    }
}

/// Parts numbers by one blank.
fn parted(numbers: impl Iterator<Item = u32>) -> String {
    numbers.map(|number| number.to_string()).collect::<Vec<_>>().join(" ")
}

/// The desk program prints what solving gives.
#[test]
fn the_desk_agrees_with_solving() {
    for index in 0..300 {
        let table = small_random_table(4, index, 9);
        let found = solved(&table);
        let marked = (1..=table.n).filter(|node| found.side[*node as usize - 1] == 1);
        let printed = format!(
            "nodes={}\narcs={}\nvalue={}\nscale={}\nphases={}\nsaturating={}\n\
             nonsaturating={}\nrelabels={}\nside={}\nflow={}\n",
            table.n,
            table.arcs(),
            found.answer.value,
            found.answer.scale,
            found.answer.phases,
            found.answer.saturating,
            found.answer.nonsaturating,
            found.answer.relabels,
            parted(marked),
            parted(found.flow.iter().copied()),
        );
        assert_eq!(desk(table.text().as_bytes()), printed.as_bytes());
    }
}
