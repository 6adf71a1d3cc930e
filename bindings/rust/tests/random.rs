//! Random and damaged sources: none makes the crate panic, and all that can be asked of an answer agrees.
//!
//! The same sources come out each time. VEALTIKUM_INPUTS says how many.
mod common;

use common::{assert_tree, file, sources};
use std::env;
use std::panic::{catch_unwind, AssertUnwindSafe};
use vealtikum::{check, parse, read, Answer, Reading, Refusal, Table, LONGEST, WIDTH};

const INPUTS: u64 = 100_000;

/// From so many on each refusal is among the answers.
const MANY: u64 = 10_000;

/// What sources are put together from: each token, and what is likely to go wrong.
#[rustfmt::skip]
const TOKENS: &[&str] = &[
    "a", "b1", "for", "in", "if", "null", "true", "false", "0", "42", "1.5e3", "1e", "-", "!", "*", "/", "%", "+", ">", ">=", "<", "<=", "==", "!=", "&&", "||",
    "?", ":", "=", "=>", ",", ".", "...", "::", "(", ")", "[", "]", "{", "}", "[*]", ".*", ".0", ".18446744073709551616", "\"", "\"\"", "\"a\"", "\"a\\n\"",
    "\"${\"", "\"${a}\"", "\"${~a~}\"", "\\u00e9", "\\q", "\\", "${", "${~", "~}", "$${", "%%{", "%{", "<<E\n", "<<-E\n", "\nE", "\nE\n", "# c\n", "// c\n",
    "/* c */", "/*", "\n", "\r\n", " ", "\t", "é", "\u{2028}", "\u{feff}", "a=1", "[for a in b:", "{for a, b in c:", "f(", "a.b", "((((((((((((((((",
];

/// Expressions, with an expression for each `@`.
#[rustfmt::skip]
const FORMS: &[&str] = &[
    "a", "42", "-1.5", "null", "\"a\\n\"", "\"\"", "<<E\n x\\n\nE", "(@)", "[@, @]", "[@,\n@,\n]", "{ a = @, \"b\" : @ }", "{ a = @\n (@) = @\n}", "{@ = @}",
    "f(@, @...)", "n::f(@)", "@ ? @ : @", "-@", "!@", "@ + @", "@ * @ - @", "@ && @ || @", "@ <= @", "@.a", "@.0.*", "@[@]", "@[*].b", "\"x${@}y\\t${~ @ ~}\"",
    "<<-E\n  a ${@}\n  b\n  E", "[for a in @ : @]", "[for a, b in @ : @ if @]", "{for a in @ : @ => @...}", "( # c\n@ /* d */ )",
];

/// Numbers that look random and are the same each time (xorshift).
struct Dice(u64);

impl Dice {
    /// Those of the i-th source.
    fn of(i: u64) -> Dice {
        let mut dice = Dice((i + 1).wrapping_mul(0x9e37_79b9_7f4a_7c15));
        (0..4).for_each(|_| drop(dice.next()));
        dice
    }

    fn next(&mut self) -> u64 {
        self.0 ^= self.0 << 13;
        self.0 ^= self.0 >> 7;
        self.0 ^= self.0 << 17;
        self.0
    }

    /// One of 0 to n - 1.
    fn below(&mut self, n: usize) -> usize {
        ((self.next() >> 33) % n as u64) as usize
    }

    fn token(&mut self) -> &'static [u8] {
        TOKENS[self.below(TOKENS.len())].as_bytes()
    }

    fn byte(&mut self) -> u8 {
        self.next() as u8
    }
}

fn bytes(dice: &mut Dice) -> Vec<u8> {
    // half of them in ASCII, which is not refused at once
    let mask = if dice.below(2) == 0 { 0x7f } else { 0xff };
    (0..dice.below(40)).map(|_| dice.byte() & mask).collect()
}

fn tokens(dice: &mut Dice) -> Vec<u8> {
    let between: &[u8] = if dice.below(2) == 0 { b"" } else { b" " };
    (0..dice.below(16)).map(|_| dice.token()).collect::<Vec<_>>().join(between)
}

/// An expression that is good but for a key that comes twice, or a minus where none may be.
fn grown(dice: &mut Dice, deep: usize) -> Vec<u8> {
    let forms = if deep < 4 { FORMS } else { &FORMS[..7] };
    let mut out = Vec::new();
    for byte in forms[dice.below(forms.len())].bytes() {
        match byte {
            b'@' => out.extend(grown(dice, deep + 1)),
            other => out.push(other),
        }
    }
    out
}

/// A source of the list, or one that is grown, with a few places changed.
fn damaged(dice: &mut Dice, list: &[&[u8]]) -> Vec<u8> {
    let mut source = if dice.below(2) == 0 { grown(dice, 0) } else { list[dice.below(list.len())].to_vec() };
    for _ in 0..=dice.below(3) {
        let from = dice.below(source.len() + 1);
        let to = (from + dice.below(6)).min(source.len());
        let part = source[from..to].to_vec();
        let new = match dice.below(6) {
            0 => Vec::new(),
            1 => vec![dice.byte()],
            2 => dice.token().to_vec(),
            3 => [&part[..], &part].concat(),
            4 => part.into_iter().rev().collect(),
            _ => list[dice.below(list.len())].to_vec(),
        };
        source.splice(from..to, new);
    }
    source
}

/// A source as an item of a long array; the longest of these are too long.
fn long(dice: &mut Dice, list: &[&[u8]]) -> Vec<u8> {
    let item = damaged(dice, list);
    let times = (LONGEST - 1000 + dice.below(2000)) / (item.len() + 1);
    [&b"["[..], &vec![&item[..]; times].join(&b','), b"]"].concat()
}

fn source(i: u64, list: &[&[u8]]) -> Vec<u8> {
    let mut dice = Dice::of(i);
    match i % 5 {
        _ if i % 2000 == 1999 => long(&mut dice, list),
        0 => bytes(&mut dice),
        1 => tokens(&mut dice),
        2 => grown(&mut dice, 0),
        _ => damaged(&mut dice, list),
    }
}

/// An acceptance is a whole tree and passes the check; with a number or a byte changed it does not. Just enough room gives the same, and a little less gives a refusal that tells the needs.
fn accepted(source: &[u8], reading: &Reading<'_>, dice: &mut Dice) {
    let table = reading.table();
    assert!(table.source() == source && table.len() <= source.len() && table.text().len() <= source.len());
    assert_tree(table);
    let (slots, bytes) = (table.numbers().len(), table.text().len());
    let (mut nodes, mut text) = (vec![7; slots], vec![7; bytes]);
    let needs = (slots / WIDTH, bytes);
    assert_eq!(read(source, &mut nodes[1..], &mut text), Answer::Refused(Refusal::Slots { nodes: needs.0, text: needs.1 }));
    if bytes != 0 {
        assert_eq!(read(source, &mut nodes, &mut text[1..]), Answer::Refused(Refusal::Text { nodes: needs.0, text: needs.1 }));
    }
    assert!(nodes.iter().all(|&n| n == 7) && text.iter().all(|&b| b == 7));
    assert!(read(source, &mut nodes, &mut text) == Answer::Accepted(table));
    assert!(Table::from_parts(source, &nodes, &text) == Some(table));
    let at = dice.below(nodes.len());
    nodes[at] ^= 1 << dice.below(16);
    assert!(!check(source, &nodes, &text), "number {at} as {}", nodes[at]);
    if bytes != 0 {
        text[dice.below(bytes)] ^= 1 << dice.below(8);
        assert!(!check(source, table.numbers(), &text));
    }
}

/// Gives back the number of the answer.
fn ask(source: &[u8], dice: &mut Dice) -> usize {
    match parse(source) {
        Ok(reading) => {
            accepted(source, &reading, dice);
            0
        }
        Err(error) => {
            let (refusal, location) = (error.refusal(), error.location());
            assert!(refusal.place() == location.offset() && location.offset() <= source.len());
            assert!(0 < location.line() && 0 < location.column() && error.to_string().contains(error.line()));
            let (mut nodes, mut text) = ([7; WIDTH], [7]);
            assert_eq!(read(source, &mut nodes, &mut text), Answer::Refused(refusal));
            assert_eq!((nodes, text), ([7; WIDTH], [7]));
            refusal.number().into()
        }
    }
}

#[test]
fn random_and_damaged_sources() {
    let inputs = env::var("VEALTIKUM_INPUTS").map_or(INPUTS, |n| n.parse().expect("VEALTIKUM_INPUTS is a number"));
    let list = file("stdin");
    let list = sources(&list);
    let mut seen = [0; 13];
    for i in 0..inputs {
        let source = source(i, &list);
        let answer = catch_unwind(AssertUnwindSafe(|| ask(&source, &mut Dice::of(inputs + i))));
        seen[answer.unwrap_or_else(|_| panic!("source {i}: {}", source.escape_ascii()))] += 1;
    }
    println!("{inputs} sources; by answer {seen:?}");
    // they are no test if nearly all are refused, or all for one reason; Slots and Text need too little room
    assert!(inputs < MANY || inputs / 10 < seen[0] && seen[1..11].iter().all(|&n| 0 < n), "{seen:?}");
}
