//! The program as it is called: what it prints and its status.

use std::process::{Command, Output};

fn compare(args: &[&str]) -> (Option<i32>, String, String) {
    let Output {
        status,
        stdout,
        stderr,
    } = Command::new(env!("CARGO_BIN_EXE_compare"))
        .args(args)
        .output()
        .expect("the program runs");
    let text = |bytes| String::from_utf8(bytes).expect("text");
    (status.code(), text(stdout), text(stderr))
}

#[test]
fn a_missing_program_is_one_plain_line() {
    let (status, out, err) = compare(&["/no/line", "/no/nl_auth", "/no/explain", "1", "0"]);
    assert_eq!((status, out.as_str()), (Some(1), "0 passed, 1 failed\n"));
    assert_eq!(err.lines().count(), 1);
    assert!(err.contains(" can't be run: "), "{err}");
}

#[test]
fn wrong_words_are_status_2() {
    let cases: [(&[&str], &str); 6] = [
        (&[], "usage: compare "),
        (&["a", "b", "1", "2"], "usage: compare "),
        (&["a", "b", "c", "1", "2", "3"], "usage: compare "),
        (&["a", "b", "c", "x", "1"], "SEED and N are whole numbers"),
        (&["a", "b", "c", "1", "-1"], "SEED and N are whole numbers"),
        (&["a", "b", "c", "", "1"], "SEED and N are whole numbers"),
    ];
    for (args, said) in cases {
        let (status, out, err) = compare(args);
        assert_eq!((status, out.as_str()), (Some(2), "0 passed, 1 failed\n"));
        assert!(err.starts_with(said), "{err}");
        assert_eq!(err.lines().count(), 1);
    }
}
