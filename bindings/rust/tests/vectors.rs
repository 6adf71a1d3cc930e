//! The sources that `replay` is run on, with the answers that an independent reading gives them, through this crate.
mod common;

use common::{assert_tree, file, sources};
use std::fmt::Write;
use vealtikum::{parse, read, Answer, Refusal, LONGEST, WIDTH};

/// The lines that `replay` prints of an answer.
fn lines(source: &[u8], answer: Answer<'_>) -> String {
    match answer {
        Answer::Refused(refusal) => {
            let (nodes, text) = needs(refusal);
            format!("{} {} {nodes} {text}\n\n\n", refusal.number(), refusal.place())
        }
        Answer::Accepted(table) => {
            let mut out = format!("0 {} {} {}\n", source.len(), table.len(), table.text().len());
            for record in table.numbers().chunks_exact(WIDTH) {
                out += &record.iter().map(u16::to_string).collect::<Vec<_>>().join(" ");
                out += "\n";
            }
            table.text().iter().for_each(|b| write!(out, "{b:02x}").unwrap());
            out + "\n\n"
        }
    }
}

fn needs(refusal: Refusal) -> (usize, usize) {
    match refusal {
        Refusal::Slots { nodes, text } | Refusal::Text { nodes, text } => (nodes, text),
        _ => (0, 0),
    }
}

#[test]
fn answers_are_those_of_the_list() {
    let (list, expected) = (file("stdin"), String::from_utf8(file("stdout")).unwrap());
    let (mut nodes, mut text) = (vec![0; LONGEST * WIDTH], vec![0; LONGEST]);
    let mut found = String::new();
    for source in sources(&list) {
        found += &lines(source, read(source, &mut nodes, &mut text));
    }
    for (i, (f, e)) in found.lines().zip(expected.lines()).enumerate() {
        assert_eq!(f, e, "line {} of the list's answers", i + 1);
    }
    assert_eq!(found.len(), expected.len());
}

#[test]
fn parse_gives_what_read_gives() {
    let list = file("stdin");
    let (mut nodes, mut text) = (vec![0; LONGEST * WIDTH], vec![0; LONGEST]);
    let (mut good, mut bad) = (0, 0);
    for source in sources(&list) {
        match (parse(source), read(source, &mut nodes, &mut text)) {
            (Ok(reading), Answer::Accepted(table)) => {
                assert!(reading.table() == table);
                assert_tree(table);
                good += 1;
            }
            (Err(error), Answer::Refused(refusal)) => {
                assert_eq!(error.refusal(), refusal);
                assert!(error.location().offset() <= source.len());
                assert!(error.to_string().contains(error.message()));
                bad += 1;
            }
            (parsed, answer) => panic!("{source:?}: {parsed:?} and {answer:?}"),
        }
    }
    assert!(500 < good && 500 < bad, "{good} read and {bad} refused");
}

#[test]
fn a_refusal_leaves_the_room_alone() {
    let (mut nodes, mut text) = ([7; 14], [7; 2]);
    for source in [&b"{a=1,a=2}"[..], b"[1,2,3]", b"\"\\n\\n\\n\"", b"\xff", &[b'1'; LONGEST + 1]] {
        assert!(matches!(read(source, &mut nodes, &mut text), Answer::Refused(_)), "{source:?}");
        assert_eq!((nodes, text), ([7; 14], [7; 2]));
    }
}

#[test]
fn room_is_told_when_it_lacks() {
    assert_eq!(read(b"[1]", &mut [0; 13], &mut []), Answer::Refused(Refusal::Slots { nodes: 2, text: 0 }));
    assert_eq!(read(b"\"\\n\"", &mut [0; 7], &mut []), Answer::Refused(Refusal::Text { nodes: 1, text: 1 }));
    assert!(matches!(read(b"\"\\n\"", &mut [0; 7], &mut [0]), Answer::Accepted(_)));
}
