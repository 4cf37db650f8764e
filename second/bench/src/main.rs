//! Measures the proved library beside the reader: nanoseconds for one call, on
//! the same input in one run, and how they grow with the message.

mod inputs;

use std::env;
use std::hint::black_box;
use std::io::{self, Write};
use std::path::Path;
use std::process::{Command, ExitCode, Stdio};
use std::time::{Duration, Instant};

use dialtable::raw;
use reader::{
    answer_for_bench, authenticate_line, canonical_authenticate, challenge_line, check_messages,
    explain, export_header, import_header, negotiate_line, nl_auth_line, nl_auth_name,
    write_authenticate, write_negotiate, write_nl_auth_request, write_response_pairs, Authenticate,
    AvId, Challenge, Negotiate, NlAuth, NlAuthFlags, Refusal, Secrets, TargetInfo,
};

use inputs::{Account, Night, Opening, SignIn, Target, BEFORE_LIST, FLAGS, TIMESTAMP};

const USAGE: &str = "usage: bench time | round | calls MESSAGES, or bench once MESSAGES PLACE";

/// Sizes of messages, up to the longest.
const SIZES: [usize; 4] = [100, 1_000, 10_000, 65_535];

/// The entries of the nights that are checked.
const NIGHTS: [usize; 4] = [1, 10, 100, 1_000];

/// One call as both sides make it, so many times.
struct Measured {
    /// The name of the library's call.
    name: &'static str,
    /// What it is given.
    on: String,
    /// How many bytes it works through, where that is told as a speed.
    through: Option<usize>,
    proved: Box<dyn FnMut(u64)>,
    second: Box<dyn FnMut(u64)>,
}

/// Repeats a call. What it gives is taken as used.
macro_rules! repeat {
    ($call:expr) => {
        Box::new(move |times| {
            for _ in 0..times {
                let _ = black_box($call);
            }
        })
    };
}

fn main() -> ExitCode {
    depot::plain_end::set();
    let args: Vec<String> = env::args().skip(1).collect();
    let words: Vec<&str> = args.iter().map(String::as_str).collect();
    let [what, folder, place @ ..] = words.as_slice() else {
        return fail(USAGE);
    };
    let captured = match captured(Path::new(folder)) {
        Ok(captured) => captured,
        Err(error) => return fail(&error),
    };
    let mut out = io::stdout().lock();
    let done = match (*what, place) {
        ("time", []) => time(&mut out, folder, captured),
        ("round", []) => round(&mut out, captured),
        ("calls", []) => calls(&mut out, captured),
        ("once", [place]) => return once(captured, place),
        _ => return fail(USAGE),
    };
    match done {
        Ok(()) => ExitCode::SUCCESS,
        Err(error) => fail(&format!(
            "the figures can't be had or can't be printed: {error}; run this again with an output that has room"
        )),
    }
}

fn fail(message: &str) -> ExitCode {
    // Where it can't be printed, the status still tells.
    let _ = writeln!(io::stderr(), "{message}");
    ExitCode::from(2)
}

/// The calls that instructions are counted of: its place, its name, and what it
/// is given.
fn calls(out: &mut impl Write, captured: Vec<Measured>) -> io::Result<()> {
    let mut calls = counted(captured).enumerate();
    calls.try_for_each(|(place, call)| writeln!(out, "{place} {} {}", call.name, call.on))
}

fn counted(captured: Vec<Measured>) -> impl Iterator<Item = Measured> {
    let nights = [
        night(1_000, &BESIDE_SECOND),
        night(1_000, &BESIDE_SINGLE_CALLS),
    ];
    usual().into_iter().chain(captured).chain(nights)
}

/// Makes exactly one call of each side, for a program that counts instructions.
fn once(captured: Vec<Measured>, place: &str) -> ExitCode {
    let mut calls = counted(captured);
    let Some(mut call) = place.parse().ok().and_then(|place| calls.nth(place)) else {
        return fail(USAGE);
    };
    (call.proved)(1);
    bench_second_once(&mut call.second);
    ExitCode::SUCCESS
}

/// A name that the counting program can be told.
#[no_mangle]
#[inline(never)]
extern "C" fn bench_second_once(call: &mut Box<dyn FnMut(u64)>) {
    call(1);
}

/// All calls that are timed, under the names of their tables.
fn tables(captured: Vec<Measured>) -> [Table; 4] {
    let table = |what, calls| Table {
        what,
        sides: ["proved", "second"],
        calls,
    };
    [
        table(
            "the usual messages, as our own writer lays them out",
            usual(),
        ),
        table("captured messages", captured),
        table("how time grows with the message", growing()),
        Table {
            what: "a night in one call of the library, and in as many as it has entries",
            sides: ["one", "single"],
            calls: NIGHTS
                .map(|entries| night(entries, &BESIDE_SINGLE_CALLS))
                .into(),
        },
    ]
}

/// Calls under the name of their table, and what its two sides are.
struct Table {
    what: &'static str,
    sides: [&'static str; 2],
    calls: Vec<Measured>,
}

fn time(out: &mut impl Write, folder: &str, captured: Vec<Measured>) -> io::Result<()> {
    let tables = tables(captured);
    let all = tables.iter().map(|table| table.calls.len()).sum();
    let mut least = vec![[f64::INFINITY; 2]; all];
    for _ in 0..PROCESSES {
        for (least, found) in least.iter_mut().zip(another_process(folder, all)?) {
            *least = [least[0].min(found[0]), least[1].min(found[1])];
        }
    }
    writeln!(out, "nanoseconds for one call, both on the same input: the least of {ROUNDS} rounds in each of {PROCESSES} processes, in which")?;
    writeln!(out, "both sides of all calls take turns. Outputs are lent as the call before left them. The aim is a ratio of at most 1.1, and of 1.6 for writing.")?;
    let mut least = least.into_iter();
    for table in &tables {
        heading(out, table)?;
        for (call, least) in table.calls.iter().zip(&mut least) {
            row(out, call, least)?;
        }
    }
    Ok(())
}

/// How many processes measure. Where a process has its memory can make one side
/// take half as long again, in all its rounds.
const PROCESSES: usize = 8;

/// What another process of this program measured of so many calls.
fn another_process(folder: &str, calls: usize) -> io::Result<Vec<[f64; 2]>> {
    let said = Command::new(env::current_exe()?)
        .args(["round", folder])
        .stderr(Stdio::inherit())
        .output()?;
    let number = |word: Option<&str>| word.and_then(|word| word.parse().ok());
    let read = |line: &str| {
        let mut words = line.split(' ');
        Some([number(words.next())?, number(words.next())?])
    };
    let status = said.status;
    let said = String::from_utf8_lossy(&said.stdout);
    let found: Option<Vec<_>> = said.lines().map(read).collect();
    // One that was killed leaves calls out.
    let whole = found.filter(|found| status.success() && found.len() == calls);
    whole.ok_or_else(|| io::Error::other(format!("a process that measured broke off ({status})")))
}

/// Measures in this process, and prints both sides of each call.
fn round(out: &mut impl Write, captured: Vec<Measured>) -> io::Result<()> {
    let mut tables = tables(captured);
    let calls = tables.iter_mut().flat_map(|table| &mut table.calls);
    measure(calls)
        .iter()
        .try_for_each(|[proved, second]| writeln!(out, "{proved} {second}"))
}

fn heading(out: &mut impl Write, table: &Table) -> io::Result<()> {
    let [one, other] = table.sides;
    write!(out, "\n  {:<68}", table.what)?;
    for column in [one, other, "ratio"] {
        write!(out, "{column:>10}")?;
    }
    writeln!(out)
}

fn row(out: &mut impl Write, call: &Measured, found: [f64; 2]) -> io::Result<()> {
    let [proved, second] = found;
    let ratio = proved / second;
    let most = if call.name.starts_with("write_") {
        1.6
    } else {
        1.1
    };
    let aim = if ratio > most { "  over the aim" } else { "" };
    let what = format!("{} {}", call.name, call.on);
    write!(
        out,
        "  {what:<68}{proved:>10.1}{second:>10.1}{ratio:>10.2}{aim}"
    )?;
    if let Some(bytes) = call.through {
        // Bytes in a nanosecond, times a thousand.
        let [proved, second] = found.map(|time| 1_000.0 * bytes as f64 / time);
        write!(out, "  proved {proved:.0} MB/s, second {second:.0} MB/s")?;
    }
    writeln!(out)
}

/// How often each side of each call is measured.
const ROUNDS: usize = 20;
/// How long one side runs in a round: short, so that on a busy machine some
/// rounds of each side find it free.
const ROUND: Duration = Duration::from_micros(400);

/// The least of both sides of each call, in nanoseconds for one call. All calls
/// have a round before the next round starts, so that each is measured over
/// the whole time.
fn measure<'a>(calls: impl Iterator<Item = &'a mut Measured>) -> Vec<[f64; 2]> {
    let mut sides: Vec<_> = calls
        .map(|call| {
            let sides = [&mut call.proved, &mut call.second];
            sides.map(|run| {
                let times = times_in_a_round(run);
                (run, times, f64::INFINITY)
            })
        })
        .collect();
    for round in 0..ROUNDS {
        for sides in &mut sides {
            for turn in 0..2 {
                // Neither side always goes first.
                let (run, times, least) = &mut sides[(round + turn) % 2];
                *least = least.min(nanoseconds(run, *times));
            }
        }
    }
    let least = |sides: [_; 2]| sides.map(|(_, _, least)| least);
    sides.into_iter().map(least).collect()
}

fn nanoseconds(run: &mut dyn FnMut(u64), times: u64) -> f64 {
    let start = Instant::now();
    run(times);
    start.elapsed().as_nanos() as f64 / times as f64
}

/// Doubles until a round is long enough.
fn times_in_a_round(run: &mut dyn FnMut(u64)) -> u64 {
    let mut times = 1;
    loop {
        let start = Instant::now();
        run(times);
        if start.elapsed() >= ROUND {
            return times;
        }
        times *= 2;
    }
}

/// The calls on the messages that a box has every day.
fn usual() -> Vec<Measured> {
    let account = Account::usual();
    let message = account.message(FLAGS);
    let challenge = inputs::challenge(&inputs::six_pairs());
    let opening = Opening::usual();
    let negotiate = opening.message(FLAGS);
    let nl_auth = inputs::nl_auth(18);
    vec![
        read_challenge(challenge.clone(), "six pairs"),
        read_authenticate(message.clone()),
        read_negotiate(negotiate.clone()),
        read_nl_auth(nl_auth.clone(), ""),
        read_nl_auth(inputs::nl_auth_names(), "a jump"),
        name_of_nl_auth(inputs::nl_auth_names(), 4, "a jump"),
        line_of_challenge(challenge.clone()),
        line_of_authenticate(message.clone(), "a line of 111 bytes"),
        line_of_negotiate(negotiate),
        line_of_nl_auth(nl_auth, ""),
        line_of_nl_auth(inputs::nl_auth_names(), "a jump"),
        checks_of(challenge.clone(), "all held"),
        checks_of(inputs::past_end(message), "check 6 failed"),
        checks_of(inputs::challenge(&inputs::cut_pairs()), "check 11 failed"),
        find_pair(inputs::six_pairs(), "the last of six pairs"),
        write(account.clone()),
        open(opening),
        write_names(),
        go_back(challenge.clone(), "six pairs"),
        respond(challenge, account),
        tidy(Account::usual().message(FLAGS)),
        export(Account::usual().message(FLAGS)),
        import(&Account::usual().message(FLAGS)),
        mic(SignIn::usual(), "three messages"),
        check_mic(SignIn::usual(), "three messages"),
    ]
}

/// The same on messages of other programs, whose fields stand in another order.
fn captured(folder: &Path) -> Result<Vec<Measured>, String> {
    let mut calls = Vec::new();
    for file in inputs::CAPTURED {
        let message = inputs::captured(folder, file)?;
        let made: &[fn(Vec<u8>) -> Measured] = match message.get(8) {
            Some(1) => &[read_negotiate, line_of_negotiate],
            Some(2) => &[
                |message| read_challenge(message, ""),
                line_of_challenge,
                |message| go_back(message, ""),
                |message| respond(message, Account::usual()),
            ],
            Some(3) => &[
                read_authenticate,
                |message| line_of_authenticate(message, ""),
                tidy,
            ],
            _ => &[
                |message| read_nl_auth(message, ""),
                |message| line_of_nl_auth(message, ""),
            ],
        };
        calls.extend(made.iter().map(|make| {
            let call = make(message.clone());
            let on = format!("{file} {}", call.on.trim_start());
            Measured { on, ..call }
        }));
    }
    Ok(calls)
}

/// The same for longer and longer messages.
fn growing() -> Vec<Measured> {
    let mut calls = Vec::new();
    let mut each = |call: fn(usize) -> Measured| calls.extend(SIZES.map(call));
    each(|len| read_authenticate(Account::of_message(len).message(FLAGS)));
    each(|len| {
        read_challenge(
            inputs::challenge(&inputs::long_list(len - BEFORE_LIST)),
            "of pairs",
        )
    });
    each(|len| read_negotiate(Opening::of_message(len).message(FLAGS)));
    each(|len| read_nl_auth(inputs::nl_auth(len), ""));
    each(|len| name_of_nl_auth(inputs::nl_auth(len), 2, "string B"));
    each(|len| line_of_authenticate(inputs::authenticate_with_name(len), "of a name"));
    each(|len| line_of_challenge(inputs::challenge(&inputs::long_list(len - BEFORE_LIST))));
    each(|len| line_of_negotiate(Opening::of_message(len).message(FLAGS)));
    each(|len| line_of_nl_auth(inputs::nl_auth(len), ""));
    each(|len| {
        let list = inputs::long_list(len - BEFORE_LIST);
        checks_of(inputs::challenge(&list), "of pairs")
    });
    calls.extend(NIGHTS.map(|entries| night(entries, &BESIDE_SECOND)));
    let mut each = |call: fn(usize) -> Measured| calls.extend(SIZES.map(call));
    each(|len| find_pair(inputs::long_list(len), "the last pair"));
    each(|len| write(Account::of_message(len)));
    each(|len| open(Opening::of_message(len)));
    each(|len| {
        let list = inputs::long_list_of(1, len - BEFORE_LIST);
        go_back(inputs::challenge(&list), "pairs that stay")
    });
    each(|len| {
        let list = inputs::long_list(len - BEFORE_LIST);
        go_back(inputs::challenge(&list), "pairs left out")
    });
    each(|len| {
        let list = inputs::long_list(len - BEFORE_LIST);
        respond(inputs::challenge(&list), Account::usual())
    });
    each(|len| tidy(Account::of_message(len).message(FLAGS)));
    each(|len| export(Account::of_message(len).message(FLAGS)));
    each(|len| import(&Account::of_message(len).message(FLAGS)));
    each(|len| mic(SignIn::of_messages(len), "three as long"));
    calls
}

fn bytes(message: &[u8]) -> String {
    format!("({} bytes)", message.len())
}

fn what_and_bytes(what: &str, message: &[u8]) -> String {
    format!("{what} {}", bytes(message)).trim_start().to_owned()
}

fn read_authenticate(message: Vec<u8>) -> Measured {
    let other = message.clone();
    let (mut numbers, mut mic) = ([0; raw::AUTHENTICATE_NUMBERS], [0; 16]);
    Measured {
        name: "read_authenticate",
        on: bytes(&message),
        through: None,
        proved: repeat!(raw::read_authenticate(
            black_box(&message),
            &mut numbers,
            &mut mic
        )),
        second: repeat!(Authenticate::read(black_box(&other))),
    }
}

fn read_challenge(message: Vec<u8>, what: &str) -> Measured {
    let other = message.clone();
    let (mut numbers, mut server_challenge) = ([0; raw::CHALLENGE_NUMBERS], [0; 8]);
    Measured {
        name: "read_challenge",
        on: format!("{what} {}", bytes(&message)),
        through: None,
        proved: repeat!(raw::read_challenge(
            black_box(&message),
            &mut numbers,
            &mut server_challenge
        )),
        second: repeat!(Challenge::read(black_box(&other))),
    }
}

fn read_negotiate(message: Vec<u8>) -> Measured {
    let other = message.clone();
    let mut numbers = [0; raw::NEGOTIATE_NUMBERS];
    Measured {
        name: "read_negotiate",
        on: bytes(&message),
        through: None,
        proved: repeat!(raw::read_negotiate(black_box(&message), &mut numbers)),
        second: repeat!(Negotiate::read(black_box(&other))),
    }
}

fn read_nl_auth(message: Vec<u8>, what: &str) -> Measured {
    let other = message.clone();
    let mut numbers = [0; raw::NL_AUTH_NUMBERS];
    Measured {
        name: "read_nl_auth",
        on: what_and_bytes(what, &message),
        through: None,
        proved: repeat!(raw::read_nl_auth(black_box(&message), &mut numbers)),
        second: repeat!(NlAuth::read(black_box(&other))),
    }
}

fn name_of_nl_auth(message: Vec<u8>, which: u32, what: &str) -> Measured {
    line(
        "nl_auth_name",
        what_and_bytes(what, &message),
        move |message, out| raw::nl_auth_name(message, which, out),
        move |message, out| nl_auth_name(message, which, out),
        message,
    )
}

/// Room for any line and any text here.
fn room() -> Vec<u8> {
    vec![0; 90_000]
}

fn line_of_authenticate(message: Vec<u8>, what: &str) -> Measured {
    let on = format!("{what} {}", bytes(&message));
    line(
        "authenticate_line",
        on,
        raw::authenticate_line,
        authenticate_line,
        message,
    )
}

fn line_of_challenge(message: Vec<u8>) -> Measured {
    line(
        "challenge_line",
        bytes(&message),
        raw::challenge_line,
        challenge_line,
        message,
    )
}

fn line_of_negotiate(message: Vec<u8>) -> Measured {
    line(
        "negotiate_line",
        bytes(&message),
        raw::negotiate_line,
        negotiate_line,
        message,
    )
}

fn line_of_nl_auth(message: Vec<u8>, what: &str) -> Measured {
    line(
        "nl_auth_line",
        what_and_bytes(what, &message),
        raw::nl_auth_line,
        nl_auth_line,
        message,
    )
}

fn checks_of(message: Vec<u8>, what: &str) -> Measured {
    let on = format!("{what} {}", bytes(&message));
    line("explain", on, raw::explain, explain, message)
}

fn line(
    name: &'static str,
    on: String,
    proved: impl Fn(&[u8], &mut [u8]) -> u64 + 'static,
    second: impl Fn(&[u8], &mut [u8]) -> Result<usize, Refusal> + 'static,
    message: Vec<u8>,
) -> Measured {
    let other = message.clone();
    let (mut out, mut other_out) = (room(), room());
    Measured {
        name,
        on,
        through: None,
        proved: repeat!(proved(black_box(&message), &mut out)),
        second: repeat!(second(black_box(&other), &mut other_out)),
    }
}

/// What a night in one call of the library stands beside: what that is called, and
/// the other side.
type Beside = (&'static str, fn(Night) -> Box<dyn FnMut(u64)>);

const BESIDE_SECOND: Beside = ("", second_night);
const BESIDE_SINGLE_CALLS: Beside = ("and single calls ", single_calls);

/// The library's entries of a night.
fn entries(night: &Night) -> Vec<raw::Entry> {
    let entry = |&(start, length, mark): &(usize, usize, u32)| raw::Entry {
        start: start as u64,
        length: length as u64,
        mark,
        ..raw::Entry::default()
    };
    night.places.iter().map(entry).collect()
}

fn night(size: usize, (what, other): &Beside) -> Measured {
    let night = Night::of(size);
    let mut entries = entries(&night);
    let on = format!("{size} entries {what}{}", bytes(&night.buffer));
    Measured {
        name: "check_messages",
        on,
        proved: repeat!(raw::check_messages(black_box(&night.buffer), &mut entries)),
        second: other(Night::of(size)),
        through: None,
    }
}

fn second_night(night: Night) -> Box<dyn FnMut(u64)> {
    let entry = |&(start, length, mark): &(usize, usize, u32)| {
        reader::Entry::new(start as u64, length as u64, mark)
    };
    let mut entries: Vec<_> = night.places.iter().map(entry).collect();
    repeat!(check_messages(black_box(&night.buffer), &mut entries))
}

/// A call of the library for each entry, by its mark; the answer goes to a list.
fn single_calls(night: Night) -> Box<dyn FnMut(u64)> {
    let mut numbers = [0; raw::AUTHENTICATE_NUMBERS];
    let mut array = [0; 16];
    let mut answers = vec![0; night.places.len()];
    repeat!({
        let buffer = black_box(&night.buffer);
        for (&(start, length, mark), answer) in night.places.iter().zip(&mut answers) {
            let message = &buffer[start..start + length];
            *answer = match mark {
                1 => raw::read_negotiate(message, &mut numbers),
                2 => raw::read_challenge(message, &mut numbers, &mut array),
                _ => raw::read_authenticate(message, &mut numbers, &mut array),
            };
        }
        black_box(&answers).len()
    })
}

fn find_pair(list: Vec<u8>, what: &str) -> Measured {
    let other = list.clone();
    let mut numbers = [0; raw::FOUND_NUMBERS];
    Measured {
        name: "find_pair",
        on: format!("{what} {}", bytes(&list)),
        through: None,
        proved: repeat!(raw::find_pair(black_box(&list), TIMESTAMP, &mut numbers)),
        second: repeat!(TargetInfo(black_box(&other)).find(AvId(TIMESTAMP))),
    }
}

/// The library's parts of an account.
fn lent(account: &Account) -> raw::Parts<'_> {
    let parts = account.parts(FLAGS);
    raw::Parts {
        version: parts.version,
        mic: parts.mic,
        lm: parts.lm,
        nt: parts.nt,
        domain: parts.domain,
        user: parts.user,
        workstation: parts.workstation,
        key: parts.key,
    }
}

fn write(account: Account) -> Measured {
    let other = account.clone();
    let (mut out, mut other_out) = (room(), room());
    Measured {
        name: "write_authenticate",
        on: bytes(&account.message(FLAGS)),
        through: None,
        proved: repeat!(raw::write_authenticate(
            &mut out,
            FLAGS,
            black_box(&lent(&account))
        )),
        second: repeat!(write_authenticate(
            black_box(&other.parts(FLAGS)),
            &mut other_out
        )),
    }
}

fn open(opening: Opening) -> Measured {
    let other = opening.clone();
    let (mut out, mut other_out) = (room(), room());
    Measured {
        name: "write_negotiate",
        on: bytes(&opening.message(FLAGS)),
        through: None,
        proved: repeat!({
            let parts = black_box(opening.parts(FLAGS));
            raw::write_negotiate(
                &mut out,
                FLAGS,
                &parts.version,
                parts.domain,
                parts.workstation,
            )
        }),
        second: repeat!(write_negotiate(
            black_box(&other.parts(FLAGS)),
            &mut other_out
        )),
    }
}

/// A request with all five strings.
fn write_names() -> Measured {
    const ALL: u32 = 0x1F;
    let (mut out, mut other_out) = (room(), room());
    let strings = inputs::STRINGS;
    let len = write_nl_auth_request(NlAuthFlags::new(ALL), &strings, &mut out);
    Measured {
        name: "write_nl_auth_request",
        on: format!("({} bytes)", len.expect("a request")),
        through: None,
        proved: repeat!(raw::write_nl_auth_request(
            &mut out,
            ALL,
            black_box(&strings)
        )),
        second: repeat!(write_nl_auth_request(
            NlAuthFlags::new(ALL),
            black_box(&strings),
            &mut other_out
        )),
    }
}

fn go_back(challenge: Vec<u8>, what: &str) -> Measured {
    let (other, target) = (challenge.clone(), Target::usual());
    let other_target = target.clone();
    let (mut out, mut other_out) = (room(), room());
    Measured {
        name: "write_response_pairs",
        on: format!("{what} {}", bytes(&challenge)),
        through: None,
        proved: repeat!({
            let parts = black_box(target.parts());
            raw::write_response_pairs(
                &mut out,
                black_box(&challenge),
                parts.target_name,
                u32::from(parts.unverified),
                &parts.bindings,
            )
        }),
        second: repeat!(write_response_pairs(
            black_box(&other),
            black_box(&other_target.parts()),
            &mut other_out
        )),
    }
}

fn respond(challenge: Vec<u8>, account: Account) -> Measured {
    let (other, other_account) = (challenge.clone(), account.clone());
    let (mut out, mut other_out) = (room(), room());
    let mut numbers = [0; raw::RESPONSE_NUMBERS];
    Measured {
        name: "respond_for_bench",
        on: bytes(&challenge),
        through: None,
        proved: repeat!(raw::respond_for_bench(
            &mut out,
            black_box(&challenge),
            1,
            black_box(0),
            black_box(&lent(&account)),
            &mut numbers
        )),
        second: repeat!({
            let parts = black_box(other_account.parts(FLAGS));
            let secrets = Secrets {
                lm: parts.lm,
                nt: parts.nt,
                key: parts.key,
                mic: parts.mic,
            };
            let account = reader::Account {
                version: parts.version,
                domain: parts.domain,
                user: parts.user,
                workstation: parts.workstation,
            };
            answer_for_bench(
                black_box(&other),
                &account,
                1,
                black_box(false),
                &secrets,
                &mut other_out,
            )
        }),
    }
}

fn tidy(message: Vec<u8>) -> Measured {
    line(
        "canonical_authenticate",
        bytes(&message),
        |message, out| raw::canonical_authenticate(out, message),
        canonical_authenticate,
        message,
    )
}

fn export(message: Vec<u8>) -> Measured {
    let through = Some(message.len());
    let call = line(
        "export_header",
        bytes(&message),
        |message, out| raw::export_header(out, message),
        export_header,
        message,
    );
    Measured { through, ..call }
}

/// The message's text is read; its bytes are those that are counted.
fn import(message: &[u8]) -> Measured {
    let mut text = vec![0; 90_000];
    let len = export_header(message, &mut text).expect("a text");
    text.truncate(len);
    let call = line(
        "import_header",
        bytes(message),
        |text, out| raw::import_header(out, text),
        import_header,
        text,
    );
    let through = Some(message.len());
    Measured { through, ..call }
}

fn mic(sign_in: SignIn, what: &str) -> Measured {
    let other = sign_in.clone();
    let mut out = [0; 16];
    Measured {
        name: "mic",
        on: format!("{what} ({} bytes)", sign_in.len()),
        through: Some(sign_in.len()),
        proved: repeat!(raw::mic(
            black_box(&inputs::SESSION_KEY),
            &lent_messages(black_box(&sign_in)),
            &mut out
        )),
        second: repeat!(reader::mic(
            black_box(&inputs::SESSION_KEY),
            &black_box(&other).messages()
        )),
    }
}

fn check_mic(sign_in: SignIn, what: &str) -> Measured {
    let other = sign_in.clone();
    Measured {
        name: "check_mic",
        on: format!("{what} ({} bytes)", sign_in.len()),
        through: Some(sign_in.len()),
        proved: repeat!(raw::check_mic(
            black_box(&inputs::SESSION_KEY),
            &lent_messages(black_box(&sign_in))
        )),
        second: repeat!(reader::check_mic(
            black_box(&inputs::SESSION_KEY),
            &black_box(&other).messages()
        )),
    }
}

/// The library's messages of a sign-in.
fn lent_messages(sign_in: &SignIn) -> raw::SignIn<'_> {
    let messages = sign_in.messages();
    raw::SignIn {
        negotiate: messages.negotiate,
        challenge: messages.challenge,
        authenticate: messages.authenticate,
    }
}

#[cfg(test)]
mod tests {
    use super::*;
    use reader::NegotiateFlags;

    /// Both sides are given messages that they take, of the sizes that are
    /// printed.
    #[test]
    fn the_inputs_are_what_they_are_called() {
        let message = Account::usual().message(FLAGS);
        let mut out = room();
        assert_eq!(authenticate_line(&message, &mut out), Ok(111));
        let challenge = Challenge::read(&inputs::challenge(&inputs::six_pairs()))
            .map(|challenge| (challenge.flags, challenge.pairs.pairs));
        assert_eq!(challenge, Ok((NegotiateFlags(FLAGS), 6)));
        let failed = |message: &[u8]| {
            let mut out = room();
            let len = explain(message, &mut out).expect("room");
            let print = String::from_utf8_lossy(&out[..len]).into_owned();
            let line = print.lines().find(|line| line.contains("failed"));
            line.map(|line| line.split(" field").next().unwrap_or(line).to_owned())
        };
        let past = failed(&inputs::past_end(message));
        assert_eq!(past.as_deref(), Some("check 6 failed"));
        let cut = failed(&inputs::challenge(&inputs::cut_pairs()));
        assert_eq!(cut.as_deref(), Some("check 11 failed"));
        let opening = Opening::usual().message(FLAGS);
        let names =
            Negotiate::read(&opening).map(|read| (read.domain.bytes, read.workstation.bytes));
        assert_eq!(names, Ok((&b"CLIGROUP"[..], &b"PEERCLI"[..])));
        let names = inputs::nl_auth_names();
        let jumps = NlAuth::read(&names).map(|read| read.strings.map(|string| string.jumps));
        assert_eq!(jumps, Ok([0, 0, 0, 1, 0]));
        let host = nl_auth_name(&names, 4, &mut out).map(|len| &out[..len]);
        assert_eq!(host, Ok(inputs::STRINGS[3]));
        for entries in NIGHTS {
            let night = Night::of(entries);
            assert_eq!(night.places.len(), entries);
            assert!(night.buffer.len() <= reader::MAX_MESSAGE);
            let entry = |&(start, length, mark): &(usize, usize, u32)| {
                reader::Entry::new(start as u64, length as u64, mark)
            };
            let mut listed: Vec<_> = night.places.iter().map(entry).collect();
            assert_eq!(check_messages(&night.buffer, &mut listed), Ok(()));
            assert!(listed.iter().all(|entry| entry.number == 0));
        }
        for len in SIZES {
            let opening = Opening::of_message(len).message(FLAGS);
            assert_eq!(opening.len(), len);
            assert!(Negotiate::read(&opening).is_ok());
            let list = inputs::long_list(len - BEFORE_LIST);
            let challenge = inputs::challenge(&list);
            assert_eq!(challenge.len(), len);
            assert!(Challenge::read(&challenge).is_ok());
            let target = Target::usual();
            // Without the names: the timestamp, the rest, flags, bindings, name, end.
            let back = write_response_pairs(&challenge, &target.parts(), &mut out);
            assert!(back.is_ok_and(|back| back < 110), "{back:?}");
            let list = inputs::long_list_of(1, len - BEFORE_LIST);
            let challenge = inputs::challenge(&list);
            let back = write_response_pairs(&challenge, &target.parts(), &mut out);
            assert_eq!(back, Ok(list.len() + 8 + 20 + 4 + target.name.len()));
            assert_eq!(inputs::nl_auth(len).len(), len);
            assert!(NlAuth::read(&inputs::nl_auth(len)).is_ok());
            assert_eq!(inputs::authenticate_with_name(len).len(), len);
            let sign_in = SignIn::of_messages(len);
            assert_eq!(sign_in.len(), 3 * len);
            let checked = reader::check_mic(&inputs::SESSION_KEY, &sign_in.messages());
            assert_eq!(checked, Ok(false));
        }
    }
}
