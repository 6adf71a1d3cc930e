//! The command, run as people run it.
use std::fs;
use std::io::Write;
use std::path::PathBuf;
use std::process::{Command, Output, Stdio};

/// The command itself, through an emulator where cargo uses one to run what it builds.
fn command() -> Command {
    let program = env!("CARGO_BIN_EXE_hcl-inspect");
    match std::env::var("CARGO_TARGET_X86_64_UNKNOWN_LINUX_GNU_RUNNER") {
        Ok(runner) => {
            let mut words = runner.split_whitespace();
            let mut command = Command::new(words.next().unwrap());
            command.args(words).arg(program);
            command
        }
        Err(_) => Command::new(program),
    }
}

/// A file with these bytes, which nothing else uses.
fn file(name: &str, bytes: &[u8]) -> PathBuf {
    let path = PathBuf::from(env!("CARGO_TARGET_TMPDIR")).join(name);
    fs::write(&path, bytes).unwrap();
    path
}

fn run(command: &mut Command) -> (i32, String, String) {
    let Output { status, stdout, stderr } = command.output().unwrap();
    (status.code().expect("it ends by itself"), String::from_utf8(stdout).unwrap(), String::from_utf8(stderr).unwrap())
}

/// What it says of standard input.
fn expr(words: &[&str], bytes: &[u8]) -> (i32, String) {
    let mut child = command().args(words).arg("--expr").stdin(Stdio::piped()).stdout(Stdio::piped()).spawn().unwrap();
    child.stdin.take().unwrap().write_all(bytes).unwrap();
    let done = child.wait_with_output().unwrap();
    (done.status.code().expect("it ends by itself"), String::from_utf8(done.stdout).unwrap())
}

#[test]
fn a_tree_is_shown() {
    let path = file("tree.hcl", b"{\n  rate = -1.5 # slow\n  name: \"a\\tb${x}\"\n}\n");
    let (status, out, err) = run(command().arg(&path));
    assert_eq!((status, err.as_str()), (0, ""));
    let tree = "object 0..43
  item 4..15
    key 4..8 rate
    number 11..15 (with a minus) -1.5
  item 25..41 (with a colon)
    key 25..29 name
    template 31..41
      piece 32..36 (with escapes) \"a\\tb\"
      interpolation 36..40
        variable 38..39 x
";
    assert_eq!(out, format!("{}:\n{tree}", path.display()));
}

#[test]
fn a_refusal_is_shown_with_its_line() {
    let path = file("refused.hcl", b"{\n  a = 1\n  a = 2\n}\n");
    let (status, out, _) = run(command().arg(&path));
    assert_eq!(status, 1);
    let said = " --> HCL parse error in line 3, column 3\n  |\n3 |   a = 2\n  |   ^---\n  |\n  = the object has this key already\n";
    assert_eq!(out, format!("{}:\n{said}", path.display()));
}

#[test]
fn the_worst_status_counts() {
    let (good, bad) = (file("good.hcl", b"1"), file("bad.hcl", b"1 2"));
    let none = PathBuf::from(env!("CARGO_TARGET_TMPDIR")).join("there-is-no-such-file");
    assert_eq!(run(command().args([&good, &good])).0, 0);
    assert_eq!(run(command().args([&good, &bad])).0, 1);
    let (status, out, err) = run(command().args([&none, &bad, &good]));
    assert_eq!(status, 2);
    assert!(out.contains("unexpected token") && out.contains("number 0..1 1"), "{out}");
    assert!(err.contains("there-is-no-such-file"), "{err}");
    // a folder can be opened, and not read
    assert_eq!(run(command().arg(env!("CARGO_TARGET_TMPDIR"))).0, 2);
}

#[test]
fn one_line_ending_is_not_counted() {
    assert_eq!(expr(&[], b"1\n"), (0, "standard input:\nnumber 0..1 1\n".to_string()));
    assert_eq!(expr(&[], b"1\r\n").0, 0);
    assert_eq!(expr(&[], b"1\n\n").0, 1);
    assert_eq!(expr(&[], b"1 \n").0, 1);
    assert_eq!(expr(&[], b"").0, 1);
    let longest = b"1".repeat(65_535);
    assert_eq!(expr(&[], &[&longest[..], b"\r\n"].concat()).0, 0);
    assert_eq!(expr(&[], &[&longest[..], b"1\n"].concat()).0, 1);
}

#[test]
fn json_is_a_line_for_each_input() {
    let said = |bytes: &[u8]| expr(&["--json"], bytes);
    let (status, out) = said(b"\"a\\\"\\u0001\\\\\"");
    assert_eq!(status, 0);
    assert_eq!(
        out,
        "{\"file\":\"standard input\",\"ok\":true,\"nodes\":[{\"kind\":\"string\",\"flag\":1,\"start\":0,\"end\":13,\"count\":1,\"text\":\"a\\\"\\u0001\\\\\"}]}\n"
    );
    let (status, out) = said(b"[1,\n @]");
    assert_eq!(status, 1);
    assert_eq!(
        out,
        "{\"file\":\"standard input\",\"ok\":false,\"refusal\":\"Unexpected\",\"number\":4,\"place\":5,\"line\":2,\"column\":2,\"message\":\"unexpected token\"}\n"
    );
    let none = PathBuf::from(env!("CARGO_TARGET_TMPDIR")).join("there-is-no-such-file");
    let (status, out, _) = run(command().arg("--json").arg(none));
    assert_eq!(status, 2);
    assert!(out.contains("\"ok\":false,\"error\":") && out.lines().count() == 1, "{out}");
}

#[test]
fn a_wrong_command_says_so() {
    for words in [&[][..], &["--what"]] {
        let (status, out, err) = run(command().args(words));
        assert_eq!((status, out.as_str()), (2, ""));
        assert!(err.contains("--help"), "{err}");
    }
    let (status, out, _) = run(command().arg("--help"));
    assert!(status == 0 && out.contains("usage: hcl-inspect"), "{out}");
    let odd = file("--what", b"1");
    assert_eq!(run(command().current_dir(odd.parent().unwrap()).args(["--", "--what"])).0, 0);
}

#[test]
fn any_bytes_end_with_status_0_or_1() {
    for bytes in [&b"\0"[..], b"\xff\xfe", b"\x1b[2J", &b"(".repeat(70_000), &[0x80; 100], "\"\u{202e}\u{7f}\"".as_bytes()] {
        for words in [&[][..], &["--json"]] {
            let (status, out) = expr(words, bytes);
            assert!(status < 2 && out.ends_with('\n'), "{bytes:?}: {status}");
        }
    }
    // a run of operators lies as deep as it is long
    let run = [&b"1"[..], &b"+1".repeat(8_000)].concat();
    assert_eq!(expr(&[], &run).0, 0);
    assert_eq!(expr(&["--json"], &run).0, 0);
}
