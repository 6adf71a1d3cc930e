//! A table and a text from anyone: yes exactly where they are the source's reading.
mod common;

use common::{file, sources};
use vealtikum::{check, parse, Table, WIDTH};

#[test]
fn readings_are_a_yes_and_each_number_counts() {
    let list = file("stdin");
    let mut changed = 0;
    for (source, reading) in sources(&list).into_iter().filter_map(|s| Some((s, parse(s).ok()?))) {
        let table = reading.table();
        assert!(Table::from_parts(source, table.numbers(), table.text()) == Some(table), "{}", source.escape_ascii());
        if 40 < table.len() {
            continue;
        }
        let mut numbers = table.numbers().to_vec();
        for i in 0..numbers.len() {
            for other in [numbers[i].wrapping_add(1), numbers[i].wrapping_sub(1)] {
                let was = std::mem::replace(&mut numbers[i], other);
                assert!(!check(source, &numbers, table.text()), "{}: number {i} as {other}", source.escape_ascii());
                numbers[i] = was;
                changed += 1;
            }
        }
    }
    assert!(10_000 < changed, "{changed}");
}

#[test]
fn a_source_that_changed_is_a_no() {
    let (nodes, text) = parse(b"8 - 3 - 2").unwrap().into_parts();
    assert!(check(b"8 - 3 - 2", &nodes, &text) && check(b"7 - 3 - 2", &nodes, &text));
    for other in [&b"8 - 3 * 2"[..], b"8 - 3 + 2", b"8 - 3 - 2 ", b"8 - 3 -2", b"8 - 3 - x", b"", b"\xff - 3 - 2"] {
        assert!(!check(other, &nodes, &text), "{}", other.escape_ascii());
    }
}

#[test]
fn text_is_all_there_and_all_used() {
    let source = br#"["a\tb", "c\n"]"#;
    let (nodes, text) = parse(source).unwrap().into_parts();
    assert_eq!(text, b"a\tbc\n");
    assert!(check(source, &nodes, &text));
    for other in [&b""[..], b"a\tbc", b"a\tbc\n\n", b"a\tbd\n", b"a bc\n"] {
        assert!(!check(source, &nodes, other), "{}", other.escape_ascii());
    }
}

#[test]
fn forged_tables_are_a_no() {
    let source = b"[1, 2]";
    let good = parse(source).unwrap().into_parts().0;
    assert!(check(source, &good, b""));
    for cut in 0..good.len() {
        assert!(!check(source, &good[..cut], b"") && !check(source, &good[good.len() - cut..], b""));
    }
    assert!(!check(source, &[&good[..], &good].concat(), b""));
    // the count of the root, and of a child
    for at in [2 * WIDTH + 4, WIDTH + 4] {
        for count in [0, 2, 4, 5, 1000, 65_535] {
            let mut forged = good.clone();
            forged[at] = count;
            assert!(!check(source, &forged, b""), "{count} at {at}");
        }
    }
    assert!(!check(source, &vec![65_535; 70_000 * WIDTH], b"") && !check(source, &vec![0; 70_000 * WIDTH], b""));
    assert!(!check(&[b'1'; 65_536], &[4, 0, 0, 65_535, 1, 0, 0], b""));
}

#[test]
fn a_run_of_operators_is_checked() {
    let source = [&b"1"[..], &b"+1".repeat(32_000)].concat();
    let (mut nodes, text) = parse(&source).unwrap().into_parts();
    assert!(check(&source, &nodes, &text));
    let middle = nodes.len() / WIDTH / 2 * WIDTH;
    nodes[middle + 2] ^= 1;
    assert!(!check(&source, &nodes, &text));
}
