//! What a person is told of a refusal.
use vealtikum::{parse, Error, Refusal};

fn refused(source: &[u8]) -> Error {
    parse(source).expect_err("it is to be refused")
}

fn located(source: &[u8]) -> (usize, usize, String) {
    let error = refused(source);
    (error.location().line(), error.location().column(), error.line().to_string())
}

#[test]
fn the_message_has_the_line_and_a_caret() {
    let error = refused(b"[\n  1,\n  2 3\n]");
    assert_eq!(error.to_string(), " --> HCL parse error in line 3, column 5\n  |\n3 |   2 3\n  |     ^---\n  |\n  = unexpected token");
}

#[test]
fn the_margin_fits_the_line_number() {
    let mut many = b"[".to_vec();
    many.extend(b"1,\n".repeat(11));
    many.extend(b"@]");
    assert_eq!(refused(&many).to_string(), "  --> HCL parse error in line 12, column 1\n   |\n12 | @]\n   | ^---\n   |\n   = unexpected token");
}

#[test]
fn columns_count_characters() {
    assert_eq!(located("[\"grün\", é]".as_bytes()), (1, 10, "[\"grün\", é]".to_string()));
    assert_eq!(refused("[\"grün\", é]".as_bytes()).refusal(), Refusal::Foreign { place: 10 });
}

#[test]
fn the_end_is_behind_the_last_byte() {
    assert_eq!(located(b""), (1, 1, String::new()));
    assert_eq!(located(b"[1"), (1, 3, "[1".to_string()));
    assert_eq!(located(b"(1\n"), (1, 4, "(1".to_string()));
    assert_eq!(refused(b"").message(), "unexpected end of the source");
}

#[test]
fn a_line_ending_is_no_part_of_the_line() {
    assert_eq!(located(b"[1,\r\n 2 x,\r\n]"), (2, 4, " 2 x,".to_string()));
    assert_eq!(located(b"1\n"), (1, 2, "1".to_string()));
}

#[test]
fn what_is_printed_moves_no_cursor() {
    let error = refused(b"[\t\x1b[2J]");
    assert_eq!(error.line(), "[ \u{fffd}[2J]");
    assert_eq!(error.location().column(), 3);
    assert_eq!(located(b"[1, \xff\xfe]"), (1, 5, "[1, \u{fffd}\u{fffd}]".to_string()));
}

#[test]
fn each_refusal_has_its_own_number_name_and_message() {
    let all = [
        refused(&[b'1'; 65_536]),
        refused(b"\xff"),
        refused("é".as_bytes()),
        refused(b"@"),
        refused(b"\"\\q\""),
        refused(b"\"a"),
        refused(b"{a=1,a=2}"),
        refused("(".repeat(65).as_bytes()),
        refused(b"\"%{if a}\""),
        refused(b"a.18446744073709551616"),
        Error::new(b"1", Refusal::Slots { nodes: 1, text: 0 }),
        Error::new(b"1", Refusal::Text { nodes: 1, text: 0 }),
    ];
    for (i, error) in all.iter().enumerate() {
        assert_eq!(usize::from(error.refusal().number()), i + 1);
        assert!(all[..i].iter().all(|e| e.message() != error.message() && e.refusal().name() != error.refusal().name()));
    }
}
