//! The program: what it reads, prints and exits with.

use std::io::Write;
use std::process::{Command, Output, Stdio};

const P1_LINE: &str =
    "auth flags=00000201 set=U domain= user=box7 work= lm=0 nt=24 key=0 mic=1 kind=v1 max=000000\n";

const P1_HEX: &str = "4E544C4D535350000300000000000000600000001800180060000000\
     0000000058000000080008005800000000000000600000000000000078000000\
     01020000000000000000000000000000000000000000000000000000\
     62006F0078003700AAAAAAAAAAAAAAAAAAAAAAAAAAAAAAAAAAAAAAAAAAAAAAAA";

fn run(args: &[&str], input: &[u8]) -> Output {
    let mut child = Command::new(env!("CARGO_BIN_EXE_second"))
        .args(args)
        .stdin(Stdio::piped())
        .stdout(Stdio::piped())
        .stderr(Stdio::piped())
        .spawn()
        .expect("the program starts");
    let mut stdin = child.stdin.take().expect("a pipe");
    std::thread::scope(|scope| {
        // A program that stops early closes the pipe.
        scope.spawn(move || drop(stdin.write_all(input)));
        child.wait_with_output().expect("the program ends")
    })
}

fn printed(args: &[&str], input: &[u8]) -> String {
    let output = run(args, input);
    assert!(output.status.success());
    assert!(output.stderr.is_empty());
    String::from_utf8(output.stdout).expect("ASCII")
}

fn bytes(hex: &str) -> Vec<u8> {
    (0..hex.len())
        .step_by(2)
        .map(|at| u8::from_str_radix(&hex[at..at + 2], 16).expect("hex"))
        .collect()
}

#[test]
fn ntlm_prints_p1() {
    let message = bytes(P1_HEX);
    assert_eq!(message.len(), 120);
    assert_eq!(printed(&["ntlm"], &message), P1_LINE);
}

#[test]
fn ntlm_chooses_the_challenge_reader() {
    let mut message = b"NTLMSSP\0\x02\0\0\0".to_vec();
    message.resize(48, 0);
    message[20] = 2;
    assert_eq!(
        printed(&["ntlm"], &message),
        "chal flags=00000002 set=O target= pairs=0 max=00\n"
    );
}

#[test]
fn ntlm_chooses_the_negotiate_reader() {
    let mut message = b"NTLMSSP\0\x01\0\0\0\x01\x10\0\0\x02\0\x02\0\x20\0\0\0".to_vec();
    message.resize(32, 0);
    message.extend(b"D\\");
    assert_eq!(
        printed(&["ntlm"], &message),
        "nego flags=00001001 domain=D\\x5C work= max=00\n"
    );
}

#[test]
fn nl_prints_p12() {
    let message = b"\0\0\0\0\x01\0\0\0LINE\0";
    assert_eq!(
        printed(&["nl"], message),
        "nl type=0 flags=00000001 a=LINE\n"
    );
}

#[test]
fn refused_messages_print_and_succeed() {
    assert_eq!(printed(&["ntlm"], b""), "refused 2 field=0 at=0\n");
    assert_eq!(printed(&["nl"], b""), "refused 2 field=0 at=0\n");
    assert_eq!(
        printed(&["nl"], b"\0\0\0\0\0\0\0\0"),
        "refused 14 field=0 at=0\n"
    );
}

#[test]
fn explain_prints_the_checks() {
    let mut message = bytes(P1_HEX);
    let held = "check 1 held\ncheck 2 held\ncheck 3 held\ncheck 4 held\ncheck 5 held\n";
    let rest = "check 6 held\ncheck 7 held\ncheck 8 held\ncheck 9 held\n";
    assert_eq!(printed(&["explain"], &message), format!("{held}{rest}"));
    message[40] = 113;
    let rest = "check 6 failed field=4 offset=113 length=8 message=120\n\
                check 7 not reached\ncheck 8 not reached\ncheck 9 not reached\n";
    assert_eq!(printed(&["explain"], &message), format!("{held}{rest}"));
    let vast = vec![0; 5_000_000];
    let print = printed(&["explain"], &vast);
    let first = "check 1 failed field=0 offset=0 length=0 message=65536\ncheck 2 not reached\n";
    assert!(print.starts_with(first));
    assert_eq!(print.lines().count(), 9);
}

#[test]
fn over_65535_bytes() {
    let mut message = bytes(P1_HEX);
    message.resize(65_535, 0);
    assert_eq!(printed(&["ntlm"], &message), P1_LINE);
    message.push(0);
    assert_eq!(printed(&["ntlm"], &message), "refused 1 field=0 at=0\n");
    let vast = vec![0; 5_000_000];
    for program in ["ntlm", "nl"] {
        assert_eq!(printed(&[program], &vast), "refused 1 field=0 at=0\n");
    }
}

#[test]
fn a_line_over_65536_bytes() {
    let mut request = b"\0\0\0\0\x01\0\0\0".to_vec();
    request.resize(30_000, 0xFF);
    request.push(0);
    assert_eq!(printed(&["nl"], &request), "refused 33 field=0 at=0\n");
}

#[test]
fn batch_prints_a_line_for_each() {
    let long = "00".repeat(65_536);
    let input = format!("{P1_HEX}\n\n{}\r\n{long}\n4E54", P1_HEX.to_lowercase());
    let expected =
        format!("{P1_LINE}refused 2 field=0 at=0\n{P1_LINE}refused 1 field=0 at=0\nrefused 2 field=0 at=0\n");
    assert_eq!(printed(&["batch", "ntlm"], input.as_bytes()), expected);
    assert_eq!(
        printed(&["batch", "nl"], b"010000000000000000"),
        "nl type=1 flags=00000000\n"
    );
    assert_eq!(printed(&["batch", "nl"], b""), "");
    let both = printed(&["batch", "explain"], b"4E54\n010203");
    assert_eq!(both.lines().count(), 18);
    assert!(both.contains("check 2 failed field=0 offset=0 length=0 message=3\n"));
}

#[test]
fn batch_of_many_lines() {
    let input = format!("{P1_HEX}\n").repeat(20_000);
    let output = printed(&["batch", "ntlm"], input.as_bytes());
    assert_eq!(output.len(), 20_000 * P1_LINE.len());
    assert!(output.lines().all(|line| line == P1_LINE.trim_end()));
}

#[test]
fn a_line_that_is_not_hex_ends_the_batch() {
    for bad in ["4E5", "4E5G", "4E 54", "secret"] {
        let output = run(&["batch", "nl"], format!("00\n{bad}\n00\n").as_bytes());
        assert_eq!(output.status.code(), Some(1));
        assert_eq!(output.stdout, b"refused 2 field=0 at=0\n");
        assert_eq!(output.stderr, b"second: line 2 is not a message in hex\n");
    }
}

/// A file of this name with this content.
fn index(name: &str, content: &str) -> String {
    let path = std::path::Path::new(env!("CARGO_TARGET_TMPDIR")).join(name);
    std::fs::write(&path, content).expect("a file");
    path.to_str().expect("a name").to_owned()
}

#[test]
fn night_prints_the_answer_of_each_entry() {
    let message = bytes(P1_HEX);
    let twice = [message.clone(), message].concat();
    let listed = "120 120 AUTHENTICATE\n0 119 AUTHENTICATE\n0 120 CHALLENGE\n1 240 NEGOTIATE\n";
    let index = index("night.index", listed);
    assert_eq!(
        printed(&["night", &index], &twice),
        "120 120 AUTHENTICATE taken\n\
         0 119 AUTHENTICATE refused 6 field=2 at=0\n\
         0 120 CHALLENGE refused 4 field=0 at=0\n\
         1 240 NEGOTIATE refused 54 field=0 at=0\n\
         4 entries: 1 taken, 3 refused\n"
    );
    for more in [65_536, 5_000_000] {
        let long = vec![0; more];
        let refused = "refused 1 field=0 at=0\n";
        assert_eq!(printed(&["night", &index], &long), refused);
    }
}

#[test]
fn night_of_an_empty_index() {
    let index = index("empty.index", "");
    let none = "0 entries: 0 taken, 0 refused\n";
    assert_eq!(printed(&["night", &index], b""), none);
    assert_eq!(printed(&["night", &index], &[0; 65_535]), none);
}

#[test]
fn night_without_an_index_is_one_plain_line() {
    let bad = index("bad.index", "0 120 AUTHENTICATE\n0 secret\n");
    for index in ["/no/such.index", &bad] {
        let output = run(&["night", index], b"secret");
        assert_eq!(output.status.code(), Some(1));
        assert!(output.stdout.is_empty());
        let error = String::from_utf8(output.stderr).expect("ASCII");
        assert_eq!(error.lines().count(), 1);
        assert!(error.starts_with("second: ") && !error.contains("secret"));
    }
}

#[test]
fn wrong_arguments() {
    let cases: [&[&str]; 11] = [
        &[],
        &["other"],
        &["batch"],
        &["batch", "other"],
        &["ntlm", "nl"],
        &["nl", "batch"],
        &["batch", "ntlm", "nl"],
        &["NTLM"],
        &["explain", "ntlm"],
        &["night"],
        &["night", "a", "b"],
    ];
    for args in cases {
        let output = run(args, b"");
        assert_eq!(output.status.code(), Some(2));
        assert!(output.stdout.is_empty());
        let error = String::from_utf8(output.stderr).expect("ASCII");
        assert_eq!(error.lines().count(), 1);
        assert!(error.starts_with("usage: ") && error.ends_with('\n'));
    }
}

#[test]
fn import_prints_the_message_or_its_refusal() {
    for (text, line) in [
        ("NTLM Zm9v", "666F6F\n"),
        ("ntlm   +/+/", "FBFFBF\n"),
        ("NTLM ", "\n"),
        ("NTLM", "refused 57 field=0 at=0\n"),
        ("NTLM Zm9v\n", "refused 58 field=0 at=0\n"),
    ] {
        assert_eq!(printed(&["import"], text.as_bytes()), line, "{text}");
    }
    let long = format!("NTLM {}", "AAAA".repeat(22_000));
    let refused = "refused 1 field=0 at=0\n";
    assert_eq!(printed(&["import"], long.as_bytes()), refused);
    assert_eq!(run(&["batch", "import"], b"").status.code(), Some(2));
}
