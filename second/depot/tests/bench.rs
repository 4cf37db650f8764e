//! The depot bench as it is called: what it prints and its status.

use std::fs;
use std::os::unix::fs::{symlink, PermissionsExt};
use std::path::{Path, PathBuf};
use std::process::{Command, Output};
use std::sync::OnceLock;

const P12: &[u8] = b"\0\0\0\0\x01\0\0\0LINE\0";

/// What the programs that stand for the real ones print for any message.
const EXPLAIN: &str = "echo check 1 held; \
                       echo check 2 failed field=0 offset=0 length=0 message=8; \
                       echo check 3 not reached";
/// A message of eight bytes.
const IMPORT: &str = "echo 4E544C4D53535000";
const FAILED: &str = "check 2 failed field=0 offset=0 length=0 message=8";
/// What stands under a refusal of eight bytes by 2, and under one of other bytes.
const TOO_SHORT: &str =
    "shorter than its fixed part: it has 8 bytes, and its type would be at byte 8";
const WORDS_ALONE: &str = "shorter than its fixed part";

/// Programs that stand for the real ones. All are written before any is run: a
/// file still open for writing can't be run.
fn program(name: &str) -> PathBuf {
    static FOLDER: OnceLock<PathBuf> = OnceLock::new();
    let folder =
        FOLDER.get_or_init(|| {
            let folder = fresh_folder("programs");
            let scripts = [
            ("refuses", "echo 'refused 2 field=0 at=0'"),
            ("refuses_otherwise", "echo 'refused 3 field=0 at=0'"),
            ("takes", "echo 'nl type=0 flags=00000001 a=LINE'"),
            ("says_its_word", "echo \"read as ${1:-proved}\""),
            ("says_its_words", "echo \"given $*\""),
            ("counts", "wc -c | tr -d ' '; exit"),
            ("fails", "echo 'refused 2 field=0 at=0'; exit 3"),
            ("prints_nothing", ":"),
            ("says_why", "echo 'the input could not be read' >&2"),
            (
                "prints_and_says_why",
                "echo 'refused 2 field=0 at=0'; echo 'the line could not be written' >&2",
            ),
            ("refuses_its_line", "echo 'refused 33 field=0 at=0'"),
            ("refuses_a_string", "echo 'refused 15 field=1 at=0'"),
            // Longer messages take longer, by tenths of a second.
            ("takes_its_time", "n=$(wc -c); sleep \"$((n / 10)).$((n % 10))\"; echo taken"),
            ("explains", EXPLAIN),
            (
                "explains_otherwise",
                "echo check 1 held; echo check 2 failed field=0 offset=0 length=0 message=9",
            ),
            ("explains_less", "echo check 1 held"),
            ("answers", "echo 0 8 NEGOTIATE taken; echo 1 entries"),
            (
                "answers_otherwise",
                "echo 0 8 NEGOTIATE refused 2 field=0 at=0; echo 1 entries",
            ),
            // What each gives for a header line.
            ("imports", IMPORT),
            ("imports_otherwise", "echo 4E544C4D5353510000"),
            ("imports_less", "echo 'refused 58 field=0 at=0'"),
            ("imports_badly", "echo '4E5 NTLM secret'"),
            (
                "holds_all",
                "case \"$1\" in ntlm) echo refused 2 field=0 at=0 ;; *) echo check 1 held ;; esac",
            ),
        ];
            for (name, script) in scripts {
                let path = folder.join(name);
                // The second program prints checks too.
                let explain = format!("if [ \"$1\" = explain ]; then {EXPLAIN}; exit; fi\n");
                let import = format!("if [ \"$1\" = import ]; then {IMPORT}; exit; fi\n");
                let text = if script.contains("wc -c") {
                    format!("#!/bin/sh\n{script}\n")
                } else if script.starts_with("case") {
                    format!("#!/bin/sh\ncat >/dev/null\n{script}\n")
                } else {
                    let import = if name.starts_with("imports") {
                        ""
                    } else {
                        &import
                    };
                    format!("#!/bin/sh\ncat >/dev/null\n{explain}{import}{script}\n")
                };
                fs::write(&path, text).expect("a script");
                fs::set_permissions(&path, fs::Permissions::from_mode(0o755)).expect("its mode");
            }
            folder
        });
    folder.join(name)
}

fn fresh_folder(name: &str) -> PathBuf {
    let path = Path::new(env!("CARGO_TARGET_TMPDIR")).join(name);
    let _ = fs::remove_dir_all(&path);
    fs::create_dir_all(&path).expect("a folder");
    path
}

/// Names and contents.
type Files<'a> = &'a [(&'a str, &'a [u8])];

fn folder_of(name: &str, files: Files<'_>) -> PathBuf {
    let folder = fresh_folder(name);
    for (name, content) in files {
        fs::write(folder.join(name), content).expect("a file");
    }
    folder
}

/// Looks at the input of a command.
fn look(command: &str, input: &Path) -> (Option<i32>, String, String) {
    told(&depot(&[Path::new("look"), Path::new(command), input]))
}

/// What is told of an input that needs these names built.
fn needs(names: &str) -> (Option<i32>, String, String) {
    (Some(0), format!("{names}\n"), String::new())
}

fn depot(args: &[&Path]) -> Output {
    Command::new(env!("CARGO_BIN_EXE_depot"))
        .args(args)
        .output()
        .expect("the bench runs")
}

/// Runs a folder with `ntlm` and `nl_auth` as the proved programs.
fn run(folder: &Path, ntlm: &str, nl_auth: &str, second: &str) -> (Option<i32>, String, String) {
    run_all(folder, [ntlm, nl_auth, "explains", second])
}

/// Runs a folder with these programs: three proved ones, then the second.
fn run_all(folder: &Path, programs: [&str; 4]) -> (Option<i32>, String, String) {
    run_linked(folder, programs, "imports")
}

/// The same with a program for the library's import.
fn run_linked(folder: &Path, programs: [&str; 4], linked: &str) -> (Option<i32>, String, String) {
    let [ntlm, nl_auth, explain, second] = programs;
    let programs = [ntlm, nl_auth, explain, second, linked].map(program);
    let mut args = vec![Path::new("run"), folder];
    args.extend(programs.iter().map(PathBuf::as_path));
    told(&depot(&args))
}

fn told(output: &Output) -> (Option<i32>, String, String) {
    let text = |bytes: &[u8]| String::from_utf8(bytes.to_vec()).expect("text");
    (
        output.status.code(),
        text(&output.stdout),
        text(&output.stderr),
    )
}

#[test]
fn alike_is_status_0() {
    let folder = folder_of(
        "alike",
        &[
            ("nl-request.bin", P12),
            ("README.md", b"about"),
            ("index.json", b"[]"),
            (".hidden", b"x"),
        ],
    );
    let (status, out, err) = run(&folder, "refuses", "takes", "takes");
    assert_eq!(
        out,
        "nl-request.bin: raw, 13 bytes, NL_AUTH\n    nl type=0 flags=00000001 a=LINE\n\
         passed over: .hidden, README.md, index.json\n\
         1 message: 1 the same in both programs (1 taken, 0 refused), 0 different, 0 not read\n"
    );
    assert_eq!((status, err.as_str()), (Some(0), ""));
}

#[test]
fn a_difference_shows_both_lines() {
    let folder = folder_of("different", &[("a.bin", b"NTLMSSP\0"), ("b.bin", P12)]);
    let (status, out, _) = run(&folder, "refuses_otherwise", "refuses", "refuses");
    assert_eq!(
        out,
        format!(
            "a.bin: raw, 8 bytes, NTLM\n    DIFFERENT: the lines part at character 9\n    \
             proved: refused 3 field=0 at=0\n    second: refused 2 field=0 at=0\n    {FAILED}\n\
             b.bin: raw, 13 bytes, NL_AUTH\n    refused 2 field=0 at=0\n    {WORDS_ALONE}\n\
             refused:\n    b.bin: {WORDS_ALONE}\n\
             different:\n    a.bin: the lines part at character 9\n\
             2 messages: 1 the same in both programs (0 taken, 1 refused), 1 different, 0 not read\n"
        )
    );
    assert_eq!(status, Some(1));
}

#[test]
fn a_refused_ntlm_message_shows_the_failed_check() {
    let files: [(&str, &[u8]); 3] = [("a", b"NTLMSSP\0"), ("b", b"NTLMSSQ\0"), ("c", P12)];
    let folder = folder_of("explained", &files);
    let (status, out, _) = run(&folder, "refuses", "refuses", "refuses");
    assert_eq!(
        out,
        format!(
            "a: raw, 8 bytes, NTLM\n    refused 2 field=0 at=0\n    {TOO_SHORT}\n    {FAILED}\n\
             b: raw, 8 bytes, begins like no message, read as NTLM and as NL_AUTH\n    \
             refused 2 field=0 at=0\n    {TOO_SHORT}\n    {FAILED}\n    refused 2 field=0 at=0\n    {WORDS_ALONE}\n\
             c: raw, 13 bytes, NL_AUTH\n    refused 2 field=0 at=0\n    {WORDS_ALONE}\n\
             refused:\n    a: {TOO_SHORT}\n    b: {TOO_SHORT}\n    c: {WORDS_ALONE}\n\
             3 messages: 3 the same in both programs (0 taken, 3 refused), 0 different, 0 not read\n"
        )
    );
    assert_eq!(status, Some(0));
    // Nothing is to be explained of a message that is taken, or whose line is
    // too long.
    for ntlm in ["takes", "refuses_its_line"] {
        let (status, out, _) = run(&folder, ntlm, ntlm, ntlm);
        assert!(!out.contains("check "), "{out}");
        assert_eq!(status, Some(0));
    }
}

#[test]
fn checks_that_differ_are_a_difference() {
    let folder = folder_of("explained_otherwise", &[("a", b"NTLMSSP\0")]);
    let cases = [
        (
            "explains_otherwise",
            "DIFFERENT: the checks part at line 2\n    \
             proved: check 2 failed field=0 offset=0 length=0 message=9\n    \
             second: check 2 failed field=0 offset=0 length=0 message=8\n",
        ),
        (
            "explains_less",
            "DIFFERENT: the checks part at line 2\n    proved: [no more checks]\n    \
             second: check 2 failed field=0 offset=0 length=0 message=8\n",
        ),
        (
            "prints_nothing",
            "DIFFERENT: the proved program gave no line\n    \
             proved: [the program printed no whole line]\n",
        ),
    ];
    for (explain, told) in cases {
        let (status, out, _) = run_all(&folder, ["refuses", "refuses", explain, "refuses"]);
        let line = format!("    refused 2 field=0 at=0\n    {TOO_SHORT}\n    ");
        let again = "different:\n    a: the checks are not the same\n1 message: ";
        assert!(out.contains(&format!("{line}{told}{again}")), "{out}");
        assert!(out.ends_with(" 1 different, 0 not read\n"), "{out}");
        assert_eq!(status, Some(1));
    }
    // Both say that all checks of a refused message held.
    let (status, out, _) = run_all(&folder, ["refuses", "refuses", "holds_all", "holds_all"]);
    assert!(out.contains("    DIFFERENT: refused, but no check failed\n"));
    assert_eq!(status, Some(1));
}

/// Prints the checks of one file.
fn explain(file: &Path, explain: &str, second: &str) -> (Option<i32>, String, String) {
    explain_all(file, [explain, "refuses", second])
}

/// The same with a program for NL_AUTH.
fn explain_all(file: &Path, programs: [&str; 3]) -> (Option<i32>, String, String) {
    let [explain, nl_auth, second] = programs.map(program);
    told(&depot(&[
        Path::new("explain"),
        file,
        &explain,
        &nl_auth,
        &second,
    ]))
}

#[test]
fn one_file_is_explained() {
    let files: [(&str, &[u8]); 2] = [("a.bin", b"NTLMSSP\0"), ("b.hex", b"4E544C4D 53535000\n")];
    let folder = folder_of("one_file", &files);
    for (file, _) in files {
        let file = folder.join(file);
        let (status, out, err) = explain(&file, "explains", "refuses");
        let expected = format!("check 1 held\n{FAILED}\ncheck 3 not reached\n{TOO_SHORT}\n");
        assert_eq!(
            (status, out.as_str(), err.as_str()),
            (Some(0), &expected[..], "")
        );
        let (status, out, _) = explain(&file, "explains_otherwise", "refuses");
        assert!(out.starts_with("DIFFERENT: the checks part at line 2\nproved: check 2 "));
        assert_eq!(status, Some(1));
        assert_eq!(look("explain", &file), needs("ntlm_explain"));
        assert_eq!(look("canonical", &file), needs("linked"));
    }
}

#[test]
fn an_nl_auth_message_is_explained_by_its_line() {
    let (cut, words) = (
        b"\0\0\0\0\x01\0\0\0LINE",
        "a string without its zero byte, or a name cut short: \
         string A (NetBIOS domain name) begins at byte 8 of 12",
    );
    let folder = folder_of("nl_explained", &[("a.bin", cut)]);
    let file = folder.join("a.bin");
    assert_eq!(look("explain", &file), needs("nl_auth_line"));
    let line = "refused 15 field=1 at=0";
    let programs = ["not_there", "refuses_a_string", "refuses_a_string"];
    let (status, out, err) = explain_all(&file, programs);
    assert_eq!(out, format!("{line}\n{words}\n"));
    assert_eq!((status, err.as_str()), (Some(0), ""));
    let programs = ["not_there", "refuses_a_string", "refuses"];
    let (status, out, _) = explain_all(&file, programs);
    let told = format!("DIFFERENT: the lines part at line 1\nproved: {line}\nsecond: refused 2 ");
    assert!(out.starts_with(&told), "{out}");
    assert_eq!(status, Some(1));
    // The second program's own words under `make run`.
    let programs = [
        "not_there",
        "refuses_a_string",
        "not_there",
        "refuses_a_string",
    ];
    let (status, out, _) = run_all(&folder, programs);
    assert!(out.starts_with(&format!(
        "a.bin: raw, 12 bytes, NL_AUTH\n    {line}\n    {words}\n"
    )));
    assert_eq!(status, Some(0));
}

/// Runs a folder with REFUSED set to a word.
fn run_refused(folder: &Path, word: &str, second: &str) -> (Option<i32>, String, String) {
    let programs = [second, second, "explains", second, "imports"].map(program);
    let output = Command::new(env!("CARGO_BIN_EXE_depot"))
        .arg("run")
        .arg(folder)
        .args(programs)
        .env("REFUSED", word)
        .output();
    told(&output.expect("the bench runs"))
}

#[test]
fn a_refusal_is_a_failure_where_that_is_asked_for() {
    let folder = folder_of("refused_fails", &[("a.bin", P12), ("b.bin", P12)]);
    let (status, out, err) = run_refused(&folder, "fail", "refuses");
    assert!(out.contains("refused:\n    a.bin: shorter"), "{out}");
    assert!(out.ends_with("(0 taken, 2 refused), 0 different, 0 not read\n"));
    assert!(err.starts_with("REFUSED=fail, and 2 refused: "), "{err}");
    assert_eq!((status, err.lines().count()), (Some(1), 1));
    // Without the word, or where none is refused, it is none.
    for (word, second) in [("", "refuses"), ("fail", "takes")] {
        let (status, _, err) = run_refused(&folder, word, second);
        assert_eq!((status, err.as_str()), (Some(0), ""), "{word}");
    }
    // A word that isn't understood must not pass for none.
    for word in ["Fail", "yes", "0", "fail "] {
        let (status, out, err) = run_refused(&folder, word, "takes");
        assert_eq!((status, out.as_str()), (Some(1), ""), "{word}");
        assert!(err.starts_with("REFUSED=") && err.contains(" is not understood: REFUSED=fail "));
        assert_eq!(err.lines().count(), 1);
        // It is told before anything is proved.
        let looked = Command::new(env!("CARGO_BIN_EXE_depot"))
            .args([Path::new("look"), Path::new("run"), &folder])
            .env("REFUSED", word)
            .output();
        assert_eq!(told(&looked.expect("the bench runs")), (status, out, err));
    }
}

#[test]
fn a_file_that_gives_no_message_is_one_plain_line() {
    let folder = folder_of("no_file", &[("text", b"box 31")]);
    let cases = [
        (folder.join("nowhere"), "there is no file "),
        (folder.join("text"), ""),
        (folder, ""),
    ];
    for (file, start) in cases {
        let [explained, written] = ["explain", "canonical"].map(|command| look(command, &file));
        for (status, out, err) in [explained, written, explain(&file, "explains", "refuses")] {
            assert_eq!((status, out.as_str()), (Some(1), ""));
            assert_eq!(err.lines().count(), 1, "{err}");
            assert!(err.starts_with(start), "{err}");
            // More than one make target reads a file so.
            assert!(!err.contains("make explain"), "{err}");
        }
    }
}

/// Runs a night: a folder with a buffer and its index.
fn night(folder: &Path, linked: &str, second: &str) -> (Option<i32>, String, String) {
    let (linked, second) = (program(linked), program(second));
    let file = folder.join("a.night");
    told(&depot(&[Path::new("night"), &file, &linked, &second]))
}

#[test]
fn a_night_is_run_through_both_programs() {
    let files: [(&str, &[u8]); 2] = [("a.night", b"NTLMSSP\0"), ("a.index", b"0 8 NEGOTIATE\n")];
    let folder = folder_of("night", &files);
    assert_eq!(look("night", &folder.join("a.night")), needs("linked"));
    let (status, out, err) = night(&folder, "answers", "answers");
    let answers = "0 8 NEGOTIATE taken\n1 entries\n";
    assert_eq!(out, format!("{answers}8 bytes, 1 entries: the same\n"));
    assert_eq!((status, err.as_str()), (Some(0), ""));
    let (status, out, _) = night(&folder, "answers", "answers_otherwise");
    assert_eq!(
        out,
        "DIFFERENT: the answers part at line 1\nproved: 0 8 NEGOTIATE taken\n\
         second: 0 8 NEGOTIATE refused 2 field=0 at=0\n8 bytes, 1 entries: DIFFERENT\n"
    );
    assert_eq!(status, Some(1));
    for (proved, second) in [("fails", "answers"), ("prints_nothing", "prints_nothing")] {
        let (status, out, _) = night(&folder, proved, second);
        assert!(out.starts_with("DIFFERENT: ") && out.ends_with(": DIFFERENT\n"));
        assert_eq!(status, Some(1));
    }
}

#[test]
fn both_programs_are_given_the_buffer_and_the_index() {
    // Raw, also where it could be text, and of any length.
    let buffer = vec![b'A'; 70_000];
    let folder = folder_of("night_given", &[("a.night", &buffer), ("a.index", b"")]);
    let (status, out, _) = night(&folder, "counts", "counts");
    assert_eq!(out, "70000\n70000 bytes, 0 entries: the same\n");
    assert_eq!(status, Some(0));
    let (_, out, _) = night(&folder, "says_its_words", "says_its_words");
    let index = folder.join("a.index");
    let given = format!("given night {}\n70000 bytes, ", index.display());
    assert!(out.starts_with(&given), "{out}");
}

#[test]
fn a_night_that_cannot_be_run_is_one_plain_line() {
    let cases: [(&str, Files<'_>, &str); 4] = [
        ("no_buffer", &[("a.index", b"")], "there is no file "),
        ("no_index", &[("a.night", b"")], "the index "),
        (
            "bad_index",
            &[("a.night", b""), ("a.index", b"\n")],
            "line 1 of the index ",
        ),
        ("no_files", &[], "there is no file "),
    ];
    for (name, files, start) in cases {
        let folder = folder_of(name, files);
        let looked = look("night", &folder.join("a.night"));
        for (status, out, err) in [looked, night(&folder, "answers", "answers")] {
            assert_eq!((status, out.as_str()), (Some(1), ""));
            assert_eq!(err.lines().count(), 1, "{err}");
            assert!(err.starts_with(start), "{err}");
        }
    }
    let files: [(&str, &[u8]); 2] = [("a.night", b""), ("a.index", b"")];
    let folder = folder_of("night_by_its_index", &files);
    let (index, answers) = (folder.join("a.index"), program("answers"));
    let (status, out, err) = told(&depot(&[Path::new("night"), &index, &answers, &answers]));
    assert_eq!((status, out.as_str()), (Some(1), ""));
    let start = format!("{} is an index: name the night's buffer, ", index.display());
    assert!(err.starts_with(&start), "{err}");
    assert_eq!(err.lines().count(), 1, "{err}");
    let folder = folder_of("night_without_program", &files);
    let (status, out, err) = night(&folder, "not_there", "answers");
    assert_eq!((status, out.as_str()), (Some(1), ""));
    assert!(err.contains("not_there can't be run: No such file"));
}

#[test]
fn a_night_in_a_folder_is_passed_over_with_a_word() {
    let files: [(&str, &[u8]); 3] = [("a.bin", P12), ("a.night", b"x"), ("a.index", b"")];
    let folder = folder_of("with_night", &files);
    let (status, out, _) = run(&folder, "takes", "takes", "takes");
    let told = "passed over: a.index, a.night\na night is run by itself, as make night FILE=file\n";
    assert!(out.contains(told), "{out}");
    assert_eq!(status, Some(0));
}

#[test]
fn a_program_that_fails_is_a_difference() {
    let folder = folder_of("failing", &[("a.bin", P12)]);
    let cases = [
        ("fails", "refuses", "the proved program gave no line"),
        ("refuses", "fails", "the second program gave no line"),
        ("says_why", "refuses", "the proved program gave no line"),
        (
            "prints_and_says_why",
            "refuses",
            "the proved program gave no line",
        ),
        (
            "prints_nothing",
            "prints_nothing",
            "neither program gave a line",
        ),
    ];
    for (proved, second, said) in cases {
        let (status, out, _) = run(&folder, proved, proved, second);
        assert!(out.contains(said), "{out}");
        assert!(out.ends_with(" 1 different, 0 not read\n"), "{out}");
        assert_eq!(status, Some(1));
    }
}

#[test]
fn the_beginning_chooses_the_program() {
    let folder = folder_of(
        "kinds",
        &[
            ("damaged", b"NTLMSSQ\0"),
            ("nl-by-name-only", b"NTLMSSP\0"),
            ("request", P12),
        ],
    );
    let (_, out, _) = run(&folder, "says_its_word", "says_its_word", "says_its_word");
    let seconds: Vec<&str> = out
        .lines()
        .filter(|line| line.contains("second:"))
        .collect();
    assert_eq!(
        seconds,
        [
            "    second: read as ntlm",
            "    second: read as nl",
            "    second: read as ntlm",
            "    second: read as nl"
        ]
    );
    assert!(out
        .contains("damaged: raw, 8 bytes, begins like no message, read as NTLM and as NL_AUTH\n"));
    assert!(out.contains("nl-by-name-only: raw, 8 bytes, NTLM\n"));
    assert!(out.contains("3 messages: 0 the same"));
}

#[test]
fn the_programs_are_given_the_message_and_not_its_text() {
    let folder = folder_of(
        "forms",
        &[
            ("a.bin", P12),
            ("b.hex", b"00000000 01000000 4C494E45 00\n"),
            ("c.b64", b"AAAAAAEAAABMSU5FAA==\n"),
        ],
    );
    let (status, out, _) = run(&folder, "counts", "counts", "counts");
    assert_eq!(
        out.lines().take(6).collect::<Vec<_>>(),
        [
            "a.bin: raw, 13 bytes, NL_AUTH",
            "    13",
            "b.hex: hex text, 13 bytes, NL_AUTH",
            "    13",
            "c.b64: base64 text, 13 bytes, NL_AUTH",
            "    13"
        ]
    );
    assert_eq!(status, Some(0));
}

#[test]
fn a_file_that_gives_no_message_is_told_and_the_others_are_run() {
    let folder = folder_of(
        "unreadable",
        &[
            ("a.txt", b"box 31"),
            ("b.bin", P12),
            ("c.txt", b"\xFF\xFE0\0"),
        ],
    );
    symlink(folder.join("nowhere"), folder.join("d.bin")).expect("a link");
    fs::create_dir(folder.join("e")).expect("a folder");
    let (status, out, _) = run(&folder, "refuses", "refuses", "refuses");
    let not_read: Vec<&str> = out
        .lines()
        .filter(|line| line.contains("NOT READ"))
        .collect();
    assert_eq!(not_read.len(), 4, "{out}");
    assert!(not_read[0].starts_with(
        "a.txt: NOT READ: it is text in no form that is read: hex stops at line 1, column 2, \
         a dump at line 1, column 1, base64 at line 1, column 4, and no line is a header line: "
    ));
    assert!(not_read[1].starts_with("c.txt: NOT READ: it begins with a byte order mark"));
    assert!(not_read[2].starts_with("d.bin: NOT READ: it leads to no file"));
    assert!(not_read[3].starts_with("e: NOT READ: it is a folder"));
    assert!(out.contains("b.bin: raw, 13 bytes, NL_AUTH\n    refused 2 field=0 at=0\n"));
    assert!(out.ends_with(
        "5 messages: 1 the same in both programs (0 taken, 1 refused), 0 different, 4 not read\n"
    ));
    assert_eq!(status, Some(1));
}

#[test]
fn nothing_of_a_message_is_told_but_its_line() {
    let folder = folder_of(
        "quiet",
        &[("a.bin", b"NTLMSSP\0SECRET"), ("b.txt", b"SECRET!")],
    );
    for (proved, second) in [
        ("refuses", "refuses"),
        ("fails", "refuses"),
        ("refuses", "takes"),
    ] {
        let (_, out, err) = run(&folder, proved, proved, second);
        assert!(!out.contains("SECRET") && !err.contains("SECRET"));
    }
}

#[test]
fn a_folder_with_nothing_to_run_is_one_plain_line() {
    let empty = fresh_folder("empty");
    let beside = folder_of("beside", &[("README.md", b"about")]);
    let file = folder_of("file", &[("a.bin", P12)]).join("a.bin");
    let cases = [
        (empty.join("nowhere"), "there is no folder "),
        (empty, "the folder "),
        (beside, "the folder "),
        (file, ""),
    ];
    for (folder, start) in cases {
        for (status, out, err) in [
            look("run", &folder),
            run(&folder, "takes", "takes", "takes"),
        ] {
            assert_eq!((status, out.as_str()), (Some(1), ""));
            assert_eq!(err.lines().count(), 1, "{err}");
            assert!(err.starts_with(start), "{err}");
            assert!(err.contains("MESSAGES=folder"), "{err}");
        }
    }
}

/// An output that can't be written is told before anything is proved for it.
#[test]
fn an_output_is_looked_at_too() {
    let folder = folder_of("outputs", &[("a.bin", b"NTLMSSP\0\x03\0\0\0")]);
    let file = folder.join("a.bin");
    let look_out = |command: &str, out: &Path| {
        told(&depot(&[Path::new("look"), Path::new(command), &file, out]))
    };
    assert_eq!(look_out("canonical", &folder.join("new")), needs("linked"));
    for out in [&file, &folder, &folder.join("none/new")] {
        let (status, said, err) = look_out("canonical", out);
        assert_eq!((status, said.as_str()), (Some(1), ""), "{err}");
        assert_eq!(err.lines().count(), 1, "{err}");
    }
    for command in ["run", "explain", "night"] {
        assert_eq!(look_out(command, &folder.join("new")).0, Some(2));
    }
}

/// A word comes before many files are read, and none before few.
#[test]
fn many_files_are_looked_at_with_a_word() {
    let folder = fresh_folder("many-files");
    for number in 0..1001 {
        fs::write(folder.join(format!("{number}.bin")), b"NTLMSSP\0").expect("a file");
    }
    let word = "looking at 1001 files for what they need\n";
    let names = "ntlm_line ntlm_explain\n";
    let expected = (Some(0), names.to_owned(), word.to_owned());
    assert_eq!(look("run", &folder), expected);
    fs::remove_file(folder.join("0.bin")).expect("taken away");
    assert_eq!(look("run", &folder), needs("ntlm_line ntlm_explain"));
}

/// No name and no path brings a control, a line or a change of direction to the terminal, whichever
/// command tells it.
#[test]
fn a_path_is_told_on_one_line() {
    let folder = fresh_folder("evil-names");
    let evil = folder.join("evil\x1b[31m\nfake: raw, 1 bytes, NTLM\u{202E}");
    let plain = |text: &str| !text.contains(['\x1b', '\u{202E}']) && !text.contains("\nfake");
    let out = folder.join("out");
    for command in ["run", "explain", "night", "canonical", "capture", "report"] {
        let words = [Path::new("look"), Path::new(command), &evil, &out];
        let with_out = usize::from(command == "report");
        let (status, said, err) = told(&depot(&words[..3 + with_out]));
        assert_eq!((status, said.as_str()), (Some(1), ""), "{command}");
        assert!(plain(&err) && err.lines().count() == 1, "{command}: {err}");
    }
    let capture = [Path::new("capture"), &evil, &out, Path::new("tshark")];
    let (_, _, err) = told(&depot(&capture));
    assert!(plain(&err) && err.contains("evil?[31m?fake"), "{err}");
    fs::create_dir(&evil).expect("a folder");
    let (status, out, _) = run(&folder, "refuses", "refuses", "refuses");
    assert_eq!(status, Some(1));
    assert!(
        plain(&out) && out.contains("NOT READ: it is a folder"),
        "{out}"
    );
}

#[test]
fn a_folder_is_looked_at_for_what_it_needs() {
    let ntlm = "ntlm_line ntlm_explain";
    let both = "ntlm_line nl_auth_line ntlm_explain";
    let header = b"Authorization: NTLM TlRMTVNTUAA=\n";
    let cases: [(Files<'_>, &str); 6] = [
        (&[("a.bin", b"NTLMSSP\0")], ntlm),
        (&[("a.bin", P12)], "nl_auth_line"),
        (&[("a.bin", b"NTLMSSP\0"), ("b.bin", P12)], both),
        (&[("a.bin", b"NTLMSSQ\0")], both),
        (
            &[("a.txt", header)],
            "ntlm_line nl_auth_line ntlm_explain linked",
        ),
        // A file that isn't read needs nothing.
        (&[("a.txt", b"box 31")], ""),
    ];
    for (files, names) in cases {
        let folder = folder_of("looked_at", files);
        assert_eq!(look("run", &folder), needs(names));
    }
}

/// What a folder doesn't need may be missing.
#[test]
fn what_is_not_needed_is_not_run() {
    let folder = folder_of("not_needed", &[("a.bin", P12)]);
    let programs = ["not_there", "takes", "not_there", "takes"];
    let (status, _, err) = run_linked(&folder, programs, "not_there");
    assert_eq!((status, err.as_str()), (Some(0), ""));
    let folder = folder_of("not_needed_ntlm", &[("a.bin", b"NTLMSSP\0")]);
    let programs = ["takes", "not_there", "explains", "takes"];
    let (status, _, err) = run_linked(&folder, programs, "not_there");
    assert_eq!((status, err.as_str()), (Some(0), ""));
}

#[test]
fn a_missing_program_is_one_plain_line() {
    let folder = folder_of("no_program", &[("a.txt", HEADERS)]);
    for missing in 0..5 {
        let mut names = ["refuses"; 5];
        names[missing] = "not_there";
        let [ntlm, nl_auth, explain, second, linked] = names;
        let (status, out, err) = run_linked(&folder, [ntlm, nl_auth, explain, second], linked);
        assert_eq!((status, out.as_str()), (Some(1), ""));
        assert_eq!(err.lines().count(), 1, "{err}");
        assert!(
            err.contains("not_there can't be run: No such file"),
            "{err}"
        );
    }
}

#[test]
fn wrong_words_are_status_2() {
    for args in [
        &[][..],
        &["run"],
        &["look"],
        &["look", "a"],
        &["look", "a", "b"],
        &["look", "run"],
        &["look", "run", "a", "b"],
        &["run", "a", "b", "c", "d", "e"],
        &["explain", "a", "b"],
        &["walk", "a"],
        &["look", "night"],
        &["night", "a"],
        &["night", "a", "b"],
    ] {
        let args: Vec<&Path> = args.iter().map(Path::new).collect();
        let (status, out, err) = told(&depot(&args));
        assert_eq!((status, out.as_str()), (Some(2), ""));
        assert!(err.starts_with("usage: "));
    }
}

const HEADERS: &[u8] = b"Authorization: NTLM TlRMTVNTUAA=\r\nWWW-Authenticate: NTLM secret\r\n";

#[test]
fn each_header_line_is_a_message() {
    let folder = folder_of("headers", &[("trace.txt", HEADERS)]);
    let programs = ["refuses", "takes", "explains", "refuses"];
    let (status, out, err) = run_linked(&folder, programs, "imports");
    assert_eq!(
        out,
        format!(
            "trace.txt, 1: header line, 8 bytes, NTLM\n    refused 2 field=0 at=0\n    {TOO_SHORT}\n    {FAILED}\n\
             trace.txt, 2: header line, 8 bytes, NTLM\n    refused 2 field=0 at=0\n    {TOO_SHORT}\n    {FAILED}\n\
             refused:\n    trace.txt, 1: {TOO_SHORT}\n    trace.txt, 2: {TOO_SHORT}\n\
             2 messages: 2 the same in both programs (0 taken, 2 refused), 0 different, 0 not read\n"
        )
    );
    assert_eq!((status, err.as_str()), (Some(0), ""));
}

#[test]
fn a_header_line_is_told_by_its_line_in_the_file() {
    let folder = folder_of("headers-apart", &[("a.txt", b"\n\nNTLM a\n\nNTLM b\n")]);
    let programs = ["refuses", "takes", "explains", "refuses"];
    let (_, out, _) = run_linked(&folder, programs, "imports");
    let told: Vec<&str> = out.lines().filter(|line| line.contains("header")).collect();
    assert_eq!(
        told,
        [
            "a.txt, 3: header line, 8 bytes, NTLM",
            "a.txt, 5: header line, 8 bytes, NTLM"
        ]
    );
}

#[test]
fn an_import_that_differs_shows_no_message() {
    let folder = folder_of("headers-differ", &[("trace.txt", HEADERS)]);
    let programs = ["refuses", "takes", "explains", "refuses"];
    for (linked, shown) in [
        ("imports_otherwise", "a message of 9 bytes"),
        ("imports_less", "refused 58 field=0 at=0"),
        (
            "imports_badly",
            "[the program printed neither a message nor a refusal]",
        ),
    ] {
        let (status, out, _) = run_linked(&folder, programs, linked);
        assert!(
            out.starts_with(&format!(
                "trace.txt, 1: header line, 17 characters\n    DIFFERENT: the two don't import it alike\n    \
                 proved: {shown}\n    second: a message of 8 bytes\n"
            )),
            "{out}"
        );
        assert!(!out.contains("4E5"), "{out}");
        assert!(out.ends_with(" 2 different, 0 not read\n"));
        assert_eq!(status, Some(1));
    }
}

#[test]
fn header_lines_are_not_for_one_message() {
    let folder = folder_of("headers-read", &[("trace.txt", HEADERS)]);
    let file = folder.join("trace.txt");
    let (status, out, err) = look("explain", &file);
    assert_eq!((status, out.as_str()), (Some(1), ""));
    assert!(err.contains("it holds header lines, which make run takes: "));
    assert_eq!(err.lines().count(), 1);
}

#[test]
fn other_lines_of_a_header_block_are_counted() {
    let block = b"> PUT /box HTTP/1.1\r\n> Host: secret\r\n> Authorization: NTLM Zg==\r\n>\r\n";
    let folder = folder_of("headers-block", &[("trace.txt", block)]);
    let programs = ["refuses", "takes", "explains", "refuses"];
    let (status, out, _) = run_linked(&folder, programs, "imports");
    assert!(out.starts_with("trace.txt, 3: header line, 8 bytes, NTLM\n"));
    assert!(
        out.contains("\ntrace.txt: 3 other lines passed over\n"),
        "{out}"
    );
    assert!(!out.contains("secret"), "{out}");
    assert_eq!(status, Some(0));
}

#[test]
fn a_message_inside_something_else_is_told_by_its_place() {
    let told = "NTLMSSP stands at byte 6: a message inside something else, as SPNEGO or a packet; \
                cut off what stands before it";
    let files: [(&str, &[u8]); 2] = [
        (
            "a.bin",
            b"\x60\x48\x06\x06\xA2\x2ANTLMSSP\0\x01\0\0\0SECRET",
        ),
        ("b.b64", b"YEgGBqIqTlRMTVNTUAABAAAA\n"),
    ];
    let folder = folder_of("inside", &files);
    let (status, out, _) = run(&folder, "refuses", "refuses", "refuses");
    for (name, _) in files {
        assert!(out.contains(&format!("\n    {name}: {told}\n")), "{out}");
    }
    let under = format!("    refused 2 field=0 at=0\n    {WORDS_ALONE}\n    {told}\n");
    assert_eq!(out.matches(&under).count(), 2, "{out}");
    assert!(!out.contains("SECRET"));
    assert_eq!(status, Some(0));
    let (_, out, _) = explain(&folder.join("a.bin"), "explains", "refuses");
    assert!(out.ends_with(&format!("\n{told}\n")), "{out}");
    // One that is taken needs no word.
    let (_, out, _) = run(&folder, "takes", "takes", "takes");
    assert!(!out.contains("stands at"), "{out}");
}

#[test]
fn a_capture_in_a_folder_is_told() {
    let capture = b"\x0A\x0D\x0D\x0A\x1C\0\0\0\x4D\x3C\x2B\x1A";
    let folder = folder_of("with-capture", &[("a.pcapng", capture), ("b.bin", P12)]);
    let (status, out, _) = run(&folder, "takes", "takes", "takes");
    let told = "a.pcapng: NOT READ: it is a capture: make messages of it, as make capture FILE=";
    assert!(out.starts_with(told), "{out}");
    assert_eq!(status, Some(1));
    let (status, out, err) = look("capture", &folder.join("a.pcapng"));
    assert_eq!((status, out.as_str(), err.as_str()), (Some(0), "\n", ""));
    let (status, _, err) = look("capture", &folder.join("none"));
    assert!(err.starts_with("there is no file ") && err.contains("make capture FILE="));
    assert_eq!((status, err.lines().count()), (Some(1), 1));
}

/// Runs a folder by programs that take as many tenths of a second as a message has bytes.
fn run_slowly(folder: &Path) -> (Option<i32>, String, String) {
    let slow = "takes_its_time";
    run_all(folder, [slow, slow, slow, slow])
}

#[test]
fn what_is_printed_keeps_its_order() {
    let long = b"\xFF\xFF\xFF\xFF\xFF";
    let names: Vec<String> = (0..200).map(|number| format!("{number:03}")).collect();
    let content = |number: usize| {
        if number.is_multiple_of(50) {
            &long[..]
        } else {
            b"\xFF"
        }
    };
    let files: Vec<(&str, &[u8])> = names
        .iter()
        .enumerate()
        .map(|(number, name)| (name.as_str(), content(number)))
        .collect();
    let folder = folder_of("order", &files);
    let (status, out, _) = run_all(&folder, ["counts"; 4]);
    let told: Vec<&str> = out.lines().filter(|line| line.contains("bytes")).collect();
    let expected: Vec<String> = files
        .iter()
        .map(|(name, content)| {
            let len = content.len();
            format!("{name}: raw, {len} bytes, begins like no message, read as NTLM and as NL_AUTH")
        })
        .collect();
    assert_eq!(told, expected);
    assert_eq!(status, Some(0));
    // The first takes longest.
    let files: [(&str, &[u8]); 4] = [("a", long), ("b", b"\xFF"), ("c", b"\xFF"), ("d", b"\xFF")];
    let (status, out, _) = run_slowly(&folder_of("order_slowly", &files));
    let told = out.lines().filter(|line| line.contains("bytes"));
    let first: Vec<&str> = told.filter_map(|line| line.get(..1)).collect();
    assert_eq!(first, ["a", "b", "c", "d"]);
    assert_eq!(status, Some(0));
}

#[test]
fn a_long_run_tells_how_far_it_is() {
    let files: [(&str, &[u8]); 2] = [("a", &[0xFF; 14]), ("b", b"\xFF")];
    let (status, out, err) = run_slowly(&folder_of("progress", &files));
    // Four programs of 1.4 seconds each, one after the other.
    assert!(err.starts_with("1 of 2 files, about "), "{err}");
    assert!(err.ends_with(" s more\n"), "{err}");
    assert!(out.starts_with("a: raw, 14 bytes, ") && out.contains("\nb: raw, 1 bytes, "));
    assert_eq!(status, Some(0));
}
