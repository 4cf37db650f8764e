//! The page of a folder's messages: what it shows, what it masks, and how it is written.

use std::collections::HashSet;
use std::fs;
use std::os::unix::fs::{symlink, PermissionsExt};
use std::path::{Path, PathBuf};
use std::process::{Command, Output};

use compare::cases;
use depot::folder::{Content, Folder};
use depot::form::Kind;
use depot::program::Answer;
use depot::report::{page, Found, Gathered, Item, Said, MOST};
use depot::summary::Outcome;
use depot::words::ReadAs;
use reader::{import_header, Program, LINE_LIMIT};

const MESSAGES: &str = concat!(env!("CARGO_MANIFEST_DIR"), "/../../messages");

/// What the second reader prints, which stands here for both programs.
fn printed(program: Program, message: &[u8]) -> Answer {
    let mut room = Box::new([0; LINE_LIMIT]);
    Answer::Printed(program.line(message, &mut room).to_vec())
}

fn said(message: &[u8]) -> Vec<Said> {
    let checks = || [(); 2].map(|()| printed(Program::Explain, message));
    let said = |read_as, program| Said {
        read_as,
        proved: printed(program, message),
        second: printed(program, message),
        checks: (read_as == ReadAs::Ntlm && printed(program, message).is_by_a_check()).then(checks),
    };
    let kind = Kind::of(message);
    let ntlm = (kind != Kind::NlAuth).then(|| said(ReadAs::Ntlm, Program::Ntlm));
    let nl = (kind != Kind::Ntlm).then(|| said(ReadAs::NlAuth, Program::NlAuth));
    ntlm.into_iter().chain(nl).collect()
}

fn item(file: &str, message: &[u8]) -> Item {
    Item {
        file: file.to_owned(),
        line: None,
        form: "raw".to_owned(),
        found: Found::Message {
            bytes: message.to_vec(),
            said: said(message),
        },
    }
}

fn page_of(message: &[u8]) -> String {
    page_with(vec![item("a.bin", message)])
}

/// The text of a page, without its markup and its style.
fn text(page: &str) -> String {
    let body = page.split_once("<body>").expect("a body").1;
    let mut text = String::new();
    let mut inside = false;
    for c in body.chars() {
        match c {
            '<' => inside = true,
            '>' => inside = false,
            _ if !inside => text.push(c),
            _ => {}
        }
    }
    text
}

fn number(message: &[u8], at: usize, len: usize) -> usize {
    let bytes = message[at..at + len].iter().rev();
    bytes.fold(0, |sum, &byte| sum << 8 | usize::from(byte))
}

/// The places of an AUTHENTICATE that crates/demands/specs/Secret.antt calls secret: "a
/// field's bytes go by its head, in a refused message too".
fn secret_places(message: &[u8]) -> Vec<usize> {
    if message.len() < 64 {
        return Vec::new();
    }
    let key_counts = number(message, 60, 4) & 0x4000_0000 != 0;
    let field = |head: usize| {
        let counts = head != 52 || key_counts;
        let len = if counts { number(message, head, 2) } else { 0 };
        let offset = number(message, head + 4, 4);
        offset..offset + len
    };
    let fields = [12, 20, 28, 36, 44, 52].map(field);
    let starts = fields.iter().filter(|field| !field.is_empty());
    let lowest = starts.map(|field| field.start).min();
    let mut places: HashSet<usize> = HashSet::new();
    for secret in [0, 1, 5] {
        places.extend(64.max(fields[secret].start)..message.len().min(fields[secret].end));
    }
    if lowest.unwrap_or(message.len()) >= 88 {
        places.extend(72..message.len().min(88));
    }
    places.into_iter().filter(|place| *place >= 64).collect()
}

fn is_read_as_authenticate(message: &[u8]) -> bool {
    message.len() < 12 || !matches!(number(message, 8, 4), 1 | 2)
}

/// No page depends on a secret: with other bytes in the place of each, it is the same.
#[test]
fn pages_tell_nothing_of_secrets() {
    let mut changed = 0;
    let mut drawn: Vec<Vec<u8>> = cases(36, 600)
        .into_iter()
        .map(|case| case.message)
        .collect();
    drawn.retain(|message| message.len() < 2_000);
    drawn.dedup();
    for message in drawn {
        assert_no_payload(&message);
        let mut other = message.clone();
        if Kind::of(&message) == Kind::NlAuth {
            // No secret has a place in it.
        } else if is_read_as_authenticate(&other) {
            for place in secret_places(&other) {
                other[place] ^= 0x5A;
            }
        } else if number(&other, 8, 4) == 2 && item("", &other).state() == Outcome::Taken {
            // The server's challenge.
            other[24..32].iter_mut().for_each(|byte| *byte ^= 0x5A);
        }
        if other != message {
            changed += 1;
            assert!(page_of(&message) == page_of(&other), "{message:02X?}");
        }
    }
    assert!(changed > 300, "{changed}");
}

/// The places of a page's only message whose bytes the grid shows.
fn shown_places(page: &str) -> Vec<usize> {
    let grid = page.split_once("<table class=\"grid\">").expect("a grid").1;
    let grid = grid.split_once("</table>").expect("its end").0;
    let mut shown = Vec::new();
    for row in grid.split("<th scope=\"row\">").skip(1) {
        let (start, row) = row.split_once("</th>").expect("a place");
        let Ok(start) = usize::from_str_radix(start, 16) else {
            continue;
        };
        let (hex, beside) = row
            .split_once("</td><td class=\"x\">")
            .expect("two columns");
        let hex = text(&format!("<body>{hex}"));
        let masked = |byte: &str| byte == "\u{2022}\u{2022}";
        let bytes = hex.split_whitespace().enumerate();
        if !hex.contains("bytes masked") {
            shown.extend(
                bytes
                    .filter(|(_, byte)| !masked(byte))
                    .map(|(at, _)| start + at),
            );
        }
        let beside = beside.split_once("</td>").expect("its end").0;
        let beside = ["&lt;", "&gt;", "&amp;", "&quot;", "&#39;"]
            .iter()
            .fold(beside.to_owned(), |text, escape| text.replace(escape, "x"));
        let letters = beside.chars().enumerate();
        shown.extend(
            letters
                .filter(|(_, c)| *c != '\u{2022}')
                .map(|(at, _)| start + at),
        );
    }
    shown
}

/// Fails where the page of a message that isn't taken shows a byte behind the fixed part,
/// a name or a pair; or, where the signature or the type is another, one behind them.
fn assert_no_payload(message: &[u8]) {
    if item("", message).state() == Outcome::Taken {
        return;
    }
    let page = page_of(message);
    let sound = message.starts_with(b"NTLMSSP\0") && message.len() >= 12;
    let fixed = match (Kind::of(message), sound.then(|| number(message, 8, 4))) {
        (Kind::NlAuth, _) => 8,
        (_, Some(1)) if message.len() >= 32 => 32,
        (_, Some(2)) if message.len() >= 48 => 48,
        (_, Some(3)) if message.len() >= 64 => 64,
        _ => 12,
    };
    // Server challenge and reserved bytes of a CHALLENGE are no heads.
    let is_head = |place: usize| place < fixed && (fixed != 48 || !(24..40).contains(&place));
    let behind = shown_places(&page)
        .into_iter()
        .find(|place| !is_head(*place));
    assert_eq!(behind, None, "{message:02X?}");
    let body = page.split_once("</header>").expect("a body").1;
    assert!(body.matches("<bdi").count() <= 1, "{message:02X?}");
    assert!(!body.contains("<table class=\"pairs\">"), "{message:02X?}");
}

/// The search for what is shown finds it.
#[test]
fn what_a_grid_shows_is_found() {
    let message = with_user(&utf16("<b>"), 1);
    let shown = shown_places(&page_of(&message));
    for place in 0..message.len() {
        assert_eq!(
            shown.iter().filter(|at| **at == place).count(),
            2,
            "{place}"
        );
    }
    let (message, _) = with_secrets(FLAGS);
    let shown = shown_places(&page_of(&message));
    assert!(shown.contains(&112) && !shown.contains(&72) && !shown.contains(&111));
}

/// Bytes that stand nowhere else.
fn marked(start: u8, len: usize) -> Vec<u8> {
    (0..len)
        .map(|at| start.wrapping_add((at * 37) as u8) | 0x80)
        .collect()
}

/// An AUTHENTICATE with a MIC, and its secrets with what stands between its fields.
fn with_secrets(flags: u32) -> (Vec<u8>, Vec<Vec<u8>>) {
    let [domain, user, work] = ["DEPO", "box7", "PIT"].map(utf16);
    let (mic, lm, nt) = (marked(3, 16), marked(71, 24), marked(129, 60));
    let (key, gap) = (marked(200, 16), marked(30, 12));
    let payload: [(usize, &[u8]); 6] = [
        (12, &lm),
        (28, &domain),
        (20, &nt),
        (36, &user),
        (44, &work),
        (52, &key),
    ];
    let mut message = b"NTLMSSP\0\x03\0\0\0".to_vec();
    message.resize(72, 0);
    message[60..64].copy_from_slice(&flags.to_le_bytes());
    message.extend_from_slice(&mic);
    for (head, bytes) in payload {
        let (len, offset) = (bytes.len() as u16, message.len() as u32);
        message[head..head + 2].copy_from_slice(&len.to_le_bytes());
        message[head + 2..head + 4].copy_from_slice(&len.to_le_bytes());
        message[head + 4..head + 8].copy_from_slice(&offset.to_le_bytes());
        message.extend_from_slice(bytes);
        if head == 20 {
            message.extend_from_slice(&gap);
        }
    }
    (message, vec![mic, lm, nt, key, gap])
}

const BASE64: &[u8; 64] = b"ABCDEFGHIJKLMNOPQRSTUVWXYZabcdefghijklmnopqrstuvwxyz0123456789+/";

/// The base64 of whole groups of three.
fn base64(bytes: &[u8]) -> String {
    let mut text = String::new();
    for &[a, b, c] in bytes.as_chunks::<3>().0 {
        let bits = u32::from_be_bytes([0, a, b, c]);
        text.extend([18, 12, 6, 0].map(|shift| char::from(BASE64[(bits >> shift & 63) as usize])));
    }
    text
}

/// The windows of `len` bytes of each secret, as something makes texts of them.
fn windows(secrets: &[Vec<u8>], len: usize, text: impl Fn(&[u8]) -> Vec<u8>) -> HashSet<Vec<u8>> {
    let windows = secrets.iter().flat_map(|secret| secret.windows(len));
    windows.map(text).collect()
}

/// Fails where four bytes in a row of a secret stand on a page: as they are, as
/// characters, in hex, as a number in hex or, six of them, in base64.
fn assert_no_secret(page: &str, secrets: &[Vec<u8>], what: &str) {
    let close: String = text(page).chars().filter(|c| !c.is_whitespace()).collect();
    let upper = close.to_uppercase();
    let hex = |bytes: &[u8]| {
        bytes
            .iter()
            .map(|byte| format!("{byte:02X}"))
            .collect::<String>()
    };
    let latin = |bytes: &[u8]| {
        bytes
            .iter()
            .map(|&byte| char::from(byte))
            .collect::<String>()
    };
    assert_none(page, &windows(secrets, 4, <[u8]>::to_vec), what);
    assert_none(
        page,
        &windows(secrets, 4, |bytes| latin(bytes).into()),
        what,
    );
    assert_none(
        &upper,
        &windows(secrets, 4, |bytes| hex(bytes).into()),
        what,
    );
    let number = |bytes: &[u8]| hex(&bytes.iter().rev().copied().collect::<Vec<u8>>());
    assert_none(
        &upper,
        &windows(secrets, 4, |bytes| number(bytes).into()),
        what,
    );
    assert_none(
        &close,
        &windows(secrets, 6, |bytes| base64(bytes).into()),
        what,
    );
}

fn assert_none(text: &str, windows: &HashSet<Vec<u8>>, what: &str) {
    let len = windows.iter().map(Vec::len).max().unwrap_or(1);
    let firsts: HashSet<u8> = windows.iter().map(|window| window[0]).collect();
    let first: Vec<bool> = (0..=255).map(|byte| firsts.contains(&byte)).collect();
    let mut found = text.as_bytes().windows(len);
    let found = found.find(|bytes| first[usize::from(bytes[0])] && windows.contains(*bytes));
    assert_eq!(found, None, "{what}");
}

/// The search finds what it is for.
#[test]
fn a_secret_on_a_page_is_found() {
    let secrets = [marked(71, 24)];
    let spaced: Vec<String> = secrets[0][3..9]
        .iter()
        .map(|byte| format!("{byte:02x}"))
        .collect();
    let characters: String = secrets[0][5..10]
        .iter()
        .map(|&byte| char::from(byte))
        .collect();
    for planted in [
        format!(
            "<b>{}</b> <i>{}</i>",
            spaced[..2].join(" "),
            spaced[2..].join(" ")
        ),
        base64(&secrets[0][1..10]),
        format!("flags {:08X}", number(&secrets[0], 3, 4)),
        characters,
    ] {
        let page = format!("<body>{planted}");
        let found = std::panic::catch_unwind(|| assert_no_secret(&page, &secrets, "planted"));
        assert!(found.is_err(), "{planted}");
    }
    assert_no_secret("<body>4E 54 4C 4D", &secrets, "none");
}

const FLAGS: u32 = 0x6008_8215;

#[test]
fn a_sound_message_shows_no_secret() {
    let (message, secrets) = with_secrets(FLAGS);
    let page = page_of(&message);
    assert!(matches!(item("", &message).state(), Outcome::Taken));
    assert_no_secret(&page, &secrets, "sound");
    for length in ["24 bytes, <em>masked</em>", "60 bytes, <em>masked</em>"] {
        assert!(page.contains(length), "{length}");
    }
    for name in [">DEPO<", ">box7<", ">PIT<"] {
        assert!(page.contains(name), "{name}");
    }
}

/// Whatever byte of the fixed part is damaged, wherever the message is cut, and inside
/// which other message it stands: what can't be attributed is masked.
#[test]
fn a_damaged_message_shows_no_secret() {
    let (message, secrets) = with_secrets(FLAGS);
    for place in 0..64 {
        for value in [0, 1, 2, 0x18, 0x58, 0xFF] {
            let mut damaged = message.clone();
            damaged[place] = value;
            assert_no_secret(&page_of(&damaged), &secrets, &format!("{place} is {value}"));
        }
    }
    for len in (0..message.len()).step_by(3) {
        assert_no_secret(
            &page_of(&message[..len]),
            &secrets,
            &format!("cut to {len}"),
        );
    }
    for before in [1, 4, 8, 12, 34, 64, 100] {
        for byte in [0, 1, b'A', b'N', 0x60] {
            let inside = [vec![byte; before], message.clone()].concat();
            let told = format!("NTLMSSP stands at byte {before}");
            assert!(page_of(&inside).contains(&told), "{told}");
            assert_no_secret(
                &page_of(&inside),
                &secrets,
                &format!("behind {before} times {byte}"),
            );
        }
    }
}

/// Secrets that lie over each other, over names and over the fixed part.
#[test]
fn an_overlap_shows_no_secret() {
    let (message, secrets) = with_secrets(FLAGS);
    for name in [28, 36, 44] {
        for secret in [12, 20, 52] {
            for moved in [0_usize, 1, 3] {
                let mut over = message.clone();
                let offset = (number(&over, secret + 4, 4) + moved) as u32;
                over[name + 4..name + 8].copy_from_slice(&offset.to_le_bytes());
                assert_no_secret(&page_of(&over), &secrets, &format!("{name} over {secret}"));
            }
        }
    }
    // The NT response is said to lie in the fixed part: the bytes there are masked.
    let mut fixed = message;
    fixed[24..28].copy_from_slice(&28_u32.to_le_bytes());
    let page = page_of(&fixed);
    let row = page
        .split_once("<th scope=\"row\">0020</th>")
        .expect("a row")
        .1;
    let row = row.split_once("</tr>").expect("its end").0;
    assert!(
        !text(&format!("<body>{row}")).contains(char::is_alphanumeric),
        "{row}"
    );
    assert!(!page.contains("Flags <code>"));
}

/// Two faults at once: the NT response's head is lost, and a name's points at its bytes,
/// or a name runs over other fields while the flags are at fault.
#[test]
fn a_name_in_doubt_shows_no_secret() {
    let (message, secrets) = with_secrets(FLAGS);
    let mut moved = message.clone();
    moved.copy_within(24..28, 40);
    moved[20..28].fill(0);
    for (place, value) in [(8, 7), (3, b'X')] {
        let mut damaged = moved.clone();
        damaged[place] = value;
        assert_no_secret(&page_of(&damaged), &secrets, &format!("{place} is {value}"));
    }
    for name in [28, 36, 44] {
        for len in [20, 60, 76, 88, 100] {
            let mut damaged = message.clone();
            damaged[60] &= !3;
            damaged[name] = len;
            assert_no_secret(
                &page_of(&damaged),
                &secrets[..4],
                &format!("{name} has {len}"),
            );
        }
    }
    let mut over = message;
    over[60] &= !3;
    over[28] = 88;
    assert_no_secret(&page_of(&over), &secrets, "the domain over a gap");
}

/// The message without its NT response's head, with the user name over these bytes.
fn with_user_over_response(message: &[u8], len: u8) -> Vec<u8> {
    let mut moved = message.to_vec();
    moved.copy_within(24..28, 40);
    moved[36..40].copy_from_slice(&[len, 0, len, 0]);
    moved[20..28].fill(0);
    moved
}

/// Messages with two faults, each of which hides what the other bytes are.
#[test]
fn two_faults_that_hide_each_other_show_no_secret() {
    let (message, secrets) = with_secrets(FLAGS);
    let refused = |message: &[u8], what: &str| {
        assert_eq!(item("", message).state(), Outcome::Refused, "{what}");
        assert_no_payload(message);
        assert_no_secret(&page_of(message), &secrets, what);
    };
    // A CHALLENGE by its type, whose target name is the LM response: one byte is cut off,
    // or it has no character set. Its flags are the NT response's lengths.
    let mut typed = message.clone();
    typed[8] = 2;
    for length in [0x186_u16, 0x184, 0x0C] {
        typed[20..22].copy_from_slice(&length.to_le_bytes());
        typed[22..24].copy_from_slice(&0x80_u16.to_le_bytes());
        refused(&typed[..typed.len() - 1], "CHALLENGE, cut");
        refused(&typed, "CHALLENGE");
    }
    typed[8] = 1;
    refused(&typed[..40], "NEGOTIATE, cut");
    // A user name over the NT response, whose head is lost.
    for len in [60, 72, 100] {
        let mut over = with_user_over_response(&message, len);
        refused(&over[..over.len() - 1], "a name over the response, cut");
        over[60] &= !3;
        refused(&over, "a name over the response, no character set");
    }
    // A workstation over the MIC.
    let mut over = message.clone();
    over[44..52].copy_from_slice(&[16, 0, 16, 0, 72, 0, 0, 0]);
    over[60] &= !3;
    refused(&over, "a name over the MIC");
}

/// Any two bytes of the fixed part at once. A message that is taken all the same has its
/// secrets where its heads say.
#[test]
fn any_two_faults_show_no_secret() {
    let (message, secrets) = with_secrets(FLAGS);
    let mut refused = 0;
    for one in 0..64 {
        let mut items = Vec::new();
        for two in one + 1..64 {
            let mut damaged = message.clone();
            damaged[one] = [0, 2, 1, 0x48][(one + two) % 4];
            damaged[two] = [0, 0x58, 2, 0xFF, 1][(one * 3 + two) % 5];
            let damaged = item("", &damaged);
            if damaged.state() == Outcome::Refused {
                items.push(damaged);
            }
        }
        refused += items.len();
        assert_no_secret(&page_with(items), &secrets, &format!("byte {one}"));
    }
    assert!(refused > 1_000, "{refused}");
}

/// What begins with four zero bytes is read as NL_AUTH: such bytes, each with its secrets.
fn read_as_nl_auth() -> Vec<(Vec<u8>, Vec<Vec<u8>>)> {
    let (mut message, secrets) = with_secrets(FLAGS);
    // No LM response, and no first twelve bytes.
    message[12..20].fill(0);
    let response = marked(129, 200);
    let behind = |start: &[u8]| ([start, &response].concat(), vec![response.clone()]);
    let key = [vec![0; 4], marked(200, 16)].concat();
    let odd = [0xE0, 0x91, 0xA2, 0xB3];
    vec![
        (message[12..].to_vec(), secrets.clone()),
        (message[68..].to_vec(), secrets),
        behind(b"\0\0\0\0\x1F\x33\x44\x55"),
        behind(b"\0\0\0\0\x1F\0\0\0"),
        behind(b"\0\0\0\0\x03\0\0\0ab\0"),
        behind(b"\0\0\0\0\x01\0\0\0ab\0"),
        behind(b"\x01\0\0\0\0\0\0\0"),
        (key.clone(), vec![key[4..].to_vec()]),
        ([&[0; 4], &odd[..], &response].concat(), vec![odd.to_vec()]),
    ]
}

#[test]
fn what_is_read_as_nl_auth_shows_no_secret() {
    for (bytes, secrets) in read_as_nl_auth() {
        assert_eq!(Kind::of(&bytes), Kind::NlAuth, "{bytes:02X?}");
        assert_eq!(item("", &bytes).state(), Outcome::Refused, "{bytes:02X?}");
        assert_no_payload(&bytes);
        assert_no_secret(&page_of(&bytes), &secrets, &format!("{bytes:02X?}"));
    }
    // Places and lengths are told.
    let page = page_of(&[b"\0\0\0\0\x03\0\0\0ab\0", &marked(129, 200)[..]].concat());
    for told in [
        "at 8, 3 bytes</td><td>3 bytes, <em>masked",
        "at 11, 200 bytes</td><td>200 bytes, <em>masked",
    ] {
        assert!(page.contains(told), "{told}");
    }
}

/// What is no message at all, and a message that is read as a string of NL_AUTH.
#[test]
fn what_is_of_no_kind_shows_no_secret() {
    let (message, secrets) = with_secrets(FLAGS);
    for len in [4, 12, 16, 20, 44, 60, 90] {
        let blob = marked(129, len);
        assert_no_secret(&page_of(&blob), std::slice::from_ref(&blob), "of no kind");
        assert!(shown_places(&page_of(&blob)).is_empty());
        let signed = [b"NTLMSS", &blob[..]].concat();
        assert_no_secret(&page_of(&signed), &[blob], "behind a part of the signature");
        assert_eq!(shown_places(&page_of(&signed)).last(), Some(&5));
    }
    let string = [b"\0\0\0\0\x08\0\0\0".to_vec(), message].concat();
    assert_eq!(item("", &string).state(), Outcome::Refused);
    assert_no_secret(&page_of(&string), &secrets, "string D");
}

/// A key that doesn't count stands in no field.
#[test]
fn a_key_that_does_not_count_is_masked() {
    let (message, secrets) = with_secrets(FLAGS & !0x4000_0000);
    assert_no_secret(&page_of(&message), &secrets, "no KEY_EXCH");
}

fn utf16(text: &str) -> Vec<u8> {
    text.encode_utf16().flat_map(u16::to_le_bytes).collect()
}

/// P1 with another user name, and with flags 1 for UTF-16LE or 2 for bytes.
fn with_user(name: &[u8], flags: u8) -> Vec<u8> {
    let mut message = b"NTLMSSP\0\x03\0\0\0".to_vec();
    message.resize(64, 0);
    message[60] = flags;
    message[36] = name.len() as u8;
    message[38] = name.len() as u8;
    message[40] = 64;
    message.extend_from_slice(name);
    message
}

#[test]
fn names_mark_nothing_up() {
    let planted = "<script>alert('1')</script>\"><img src=x onerror=y>";
    let nl = [b"\0\0\0\0\x01\0\0\0", planted.as_bytes(), b"\0"].concat();
    for message in [
        with_user(&utf16(planted), 1),
        with_user(planted.as_bytes(), 2),
        nl,
    ] {
        let page = page_of(&message);
        assert!(matches!(item("", &message).state(), Outcome::Taken));
        assert!(!page.contains("<script") && !page.contains("<img"));
        assert!(page.contains("&lt;script&gt;"));
    }
    let of_folder = page_of_folder(planted, vec![item(planted, b"NTLMSSP\0")]);
    assert!(!of_folder.contains("<script") && !of_folder.contains("<img"));
    let unread = Item {
        file: planted.to_owned(),
        line: None,
        form: planted.to_owned(),
        found: Found::NotRead(planted.to_owned()),
    };
    let passed_over = vec![planted.to_owned()];
    let page = page(
        "messages",
        &Gathered {
            items: vec![unread],
            passed_over,
        },
    );
    assert!(!page.contains("<script") && !page.contains("<img"));
    // A program that prints something else.
    let mut odd = item("a.bin", b"NTLMSSP\0");
    if let Found::Message { said, .. } = &mut odd.found {
        said[0].proved = Answer::Printed([planted.as_bytes(), b"\n"].concat());
        said[0].checks =
            Some([(); 2].map(|()| Answer::Printed([planted.as_bytes(), b"\n"].concat())));
    }
    let page = page_with(vec![odd]);
    assert!(!page.contains("<script") && !page.contains("<img"));
}

fn page_with(items: Vec<Item>) -> String {
    page_of_folder("messages", items)
}

fn page_of_folder(folder: &str, items: Vec<Item>) -> String {
    let passed_over = Vec::new();
    page(folder, &Gathered { items, passed_over })
}

#[test]
fn what_is_not_visible_is_a_number() {
    let name = "a\n\u{202E}b\u{7} c";
    let page = page_of(&with_user(&utf16(name), 1));
    for number in [">000A<", ">202E<", ">0007<", ">0020<"] {
        assert!(page.contains(number), "{number}");
    }
    let page = page_of(&with_user(b"a\x1B[1m\xFC", 2));
    for number in [">1B<", ">FC<"] {
        assert!(page.contains(number), "{number}");
    }
    let odd = page.chars().find(|&c| c.is_control() && c != '\n');
    assert_eq!(odd, None);
}

/// The messages of the repository, as the bench has them.
fn repository() -> Vec<Item> {
    let folder = Folder::list(Path::new(MESSAGES)).expect("messages");
    let mut items = Vec::new();
    for file in &folder.messages {
        match file.read_all().expect("a message") {
            Content::Message(_, message) => items.push(item(&file.name, &message)),
            Content::HeaderTexts(texts, _) => {
                for (line, text) in &texts {
                    let mut message = vec![0; text.len()];
                    if let Ok(len) = import_header(text, &mut message) {
                        items.push(Item {
                            line: Some(*line),
                            ..item(&file.name, &message[..len])
                        });
                    }
                }
            }
        }
    }
    items
}

/// The values of an attribute, in order.
fn attributes<'a>(page: &'a str, name: &str) -> Vec<&'a str> {
    let start = format!(" {name}=\"");
    let values = page.split(&start).skip(1);
    values
        .map(|rest| rest.split_once('"').expect("its end").0)
        .collect()
}

#[test]
fn a_page_needs_nothing_else() {
    let page = page_with(repository());
    for outside in [
        "http:", "https:", "//", "url(", "@import", "<script", "<link", " src=", " on",
    ] {
        let body = page.split_once("<body>").expect("a body");
        let whole = if outside == " on" { "" } else { body.0 };
        assert!(!whole.contains(outside), "{outside}");
        let tags = body.1.split('<').filter_map(|tag| tag.split_once('>'));
        for (tag, _) in tags {
            let name = tag.split(' ').next().unwrap_or_default();
            assert!(!tag.contains(outside), "{tag}");
            assert!(
                !["script", "img", "iframe", "object"].contains(&name),
                "{tag}"
            );
        }
    }
    assert!(page.contains("default-src 'none'"));
}

#[test]
fn links_lead_somewhere_and_headings_go_down_one_by_one() {
    let page = page_with(repository());
    let ids = attributes(&page, "id");
    let known: HashSet<&str> = ids.iter().copied().collect();
    assert_eq!(ids.len(), known.len());
    let links = attributes(&page, "href");
    assert!(links.len() > 200);
    for link in links {
        assert!(
            known.contains(link.strip_prefix('#').expect("a place on the page")),
            "{link}"
        );
    }
    let levels = page
        .match_indices("<h")
        .filter_map(|(at, _)| page[at + 2..].chars().next()?.to_digit(10));
    let levels: Vec<u32> = levels.collect();
    assert_eq!(levels.first(), Some(&1));
    assert!(levels.windows(2).all(|pair| pair[1] <= pair[0] + 1));
}

/// The bytes that a check is about are outlined in each refused message that has any.
#[test]
fn what_failed_is_outlined() {
    for item in repository() {
        let Found::Message { bytes, said } = &item.found else {
            continue;
        };
        let page = page_of(bytes);
        let body = page.split_once("</header>").expect("a body").1;
        let outlined = body.contains(" failed\" data-k=\"\u{2717}");
        let number = said[0].number();
        assert_eq!(
            outlined,
            number.is_some_and(|number| number > 2),
            "{}",
            item.file
        );
        assert_eq!(
            body.contains("<tr class=\"failed\">"),
            number.is_some() && said[0].checks.is_some()
        );
    }
}

#[test]
fn heads_lead_to_their_fields_and_pairs_have_names() {
    let message = fs::read(Path::new(MESSAGES).join("challenge-smbd.bin")).expect("a message");
    let page = page_of(&message);
    for shown in [
        "<a href=\"#m1-f2\" class=\"r head n2",
        "<i id=\"m1-f2\">",
        "NB_COMPUTER",
        "TIMESTAMP",
        "01DD750F3F7F2C5C",
        "TARGET_INFO <code>800000</code>",
        "PEERSRV",
        "No check refuses this message",
    ] {
        assert!(page.contains(shown), "{shown}");
    }
}

#[test]
fn what_needs_a_look_comes_first() {
    let message = fs::read(Path::new(MESSAGES).join("nl-request-p12.bin")).expect("a message");
    let mut different = item("b-different", &message);
    if let Found::Message { said, .. } = &mut different.found {
        said[0].second = Answer::Printed(b"refused 2 field=0 at=0\n".to_vec());
    }
    let unread = Item {
        found: Found::NotRead("it is text".to_owned()),
        ..item("c-unread", &[])
    };
    let items = vec![
        item("a-taken", &message),
        different,
        unread,
        item("d-refused", b"NTLMSSP\0"),
    ];
    let page = page_with(items);
    let place = |name: &str| page.find(name).expect(name);
    let order = ["b-different", "c-unread", "d-refused", "a-taken"].map(place);
    assert!(order.is_sorted(), "{order:?}");
    assert!(page.contains("4 messages: 1 taken, 1 refused, 1 different, 1 not read"));
    assert!(page.contains("the second program says <code>refused 2 field=0 at=0</code>"));
}

/// A message as long as any, of as many pairs as it can have.
#[test]
fn a_long_message_has_a_short_page() {
    let mut message = b"NTLMSSP\0\x02\0\0\0".to_vec();
    message.resize(48, 0);
    message[20..24].copy_from_slice(&0x80_0001_u32.to_le_bytes());
    message[40..44].copy_from_slice(&[0xCF, 0xFF, 0xCF, 0xFF]);
    message[44] = 48;
    message.extend([11, 0, 0, 0].repeat(16_371));
    message.extend([0; 4]);
    message.resize(65_535, 0);
    let page = page_of(&message);
    assert!(page.len() < 200_000, "{}", page.len());
    assert!(page.contains("63487 bytes more, which this page leaves out"));
}

fn fresh_folder(name: &str) -> PathBuf {
    let path = Path::new(env!("CARGO_TARGET_TMPDIR")).join(name);
    let _ = fs::remove_dir_all(&path);
    fs::create_dir_all(&path).expect("a folder");
    path
}

/// The folder of the programs for a page.
fn programs_of(out: &Path) -> String {
    let place = out.display().to_string();
    format!("report-programs{}", place.replace('/', "-"))
}

/// Runs the bench's report with one script for all programs.
fn report(folder: &Path, out: &Path, script: &str) -> Output {
    report_where("", folder, out, script)
}

/// The same with a word in REFUSED.
fn report_where(refused: &str, folder: &Path, out: &Path, script: &str) -> Output {
    let programs = fresh_folder(&programs_of(out));
    let program = programs.join("program");
    fs::write(&program, format!("#!/bin/sh\ncat >/dev/null\n{script}\n")).expect("a script");
    fs::set_permissions(&program, fs::Permissions::from_mode(0o755)).expect("its mode");
    let mut command = Command::new(env!("CARGO_BIN_EXE_depot"));
    command
        .env("REFUSED", refused)
        .arg("report")
        .arg(folder)
        .arg(out)
        .args([&program; 5]);
    command.output().expect("the bench runs")
}

const NL_AUTH: &str = "echo 'nl type=0 flags=00000001 a=LINE'";
const P12: &[u8] = b"\0\0\0\0\x01\0\0\0LINE\0";

#[test]
fn its_owner_alone_may_read_it() {
    let folder = fresh_folder("report-owner");
    let out = folder.join("out-owner.html");
    let messages = folder.join("messages");
    fs::create_dir(&messages).expect("a folder");
    fs::write(messages.join("p12"), P12).expect("a file");
    let output = report(&messages, &out, NL_AUTH);
    let told = String::from_utf8(output.stdout).expect("text");
    assert_eq!(output.status.code(), Some(0), "{told}");
    let counts = "1 message: 1 taken, 0 refused, 0 different, 0 not read";
    assert_eq!(told, format!("{}: {counts}\n", out.display()));
    let mode = fs::metadata(&out).expect("a page").permissions().mode();
    assert_eq!(mode & 0o7777, 0o600);
    let page = fs::read_to_string(&out).expect("a page");
    assert!(page.contains(counts) && page.ends_with("</html>\n"));
    // A second time, and with a file that is no message.
    fs::write(messages.join("other"), "no message").expect("a file");
    let output = report(&messages, &out, NL_AUTH);
    assert_eq!(output.status.code(), Some(1));
    let page = fs::read_to_string(&out).expect("a page");
    assert!(page.contains("2 messages: 1 taken, 0 refused, 0 different, 1 not read"));
}

/// Looks at a folder and at the place of a page.
fn look(folder: &Path, out: &Path) -> Output {
    let mut command = Command::new(env!("CARGO_BIN_EXE_depot"));
    command.arg("look").arg("report").arg(folder).arg(out);
    command.output().expect("the bench runs")
}

/// The folder of one message, and the place of a page beside it.
fn folder_of(name: &str, message: &[u8]) -> (PathBuf, PathBuf) {
    let folder = fresh_folder(name);
    let messages = folder.join("messages");
    fs::create_dir(&messages).expect("a folder");
    fs::write(messages.join("one"), message).expect("a file");
    (messages, folder.join("page.html"))
}

#[test]
fn a_refused_message_fails_where_it_is_asked_to() {
    let refuses = "echo 'refused 16 field=0 at=0'";
    let (messages, out) = folder_of("report-refused", b"\0\0\0\0\x01\0\0\0LINE\0LINE");
    for (word, script, status, told) in [
        ("", refuses, 0, ""),
        (
            "fail",
            refuses,
            1,
            "REFUSED=fail, and 1 refused: the page has them",
        ),
        ("fail", NL_AUTH, 0, ""),
        ("no", refuses, 1, "REFUSED=no is not understood"),
    ] {
        let output = report_where(word, &messages, &out, script);
        let error = String::from_utf8(output.stderr).expect("text");
        assert_eq!(output.status.code(), Some(status), "{word}: {error}");
        assert!(
            error.starts_with(told) && error.lines().count() <= 1,
            "{error}"
        );
        assert_eq!(out.exists(), word != "no");
        let _ = fs::remove_file(&out);
    }
}

/// As for `run`: the checks of a message that is taken aren't asked for.
#[test]
fn the_checks_of_what_is_taken_decide_nothing() {
    let message = with_user(&utf16("b"), 1);
    let (messages, out) = folder_of("report-checks", &message);
    let count = "echo x >>\"$0.count\"; echo ntlm";
    let output = report(&messages, &out, count);
    assert_eq!(output.status.code(), Some(0), "{output:?}");
    let counted = Path::new(env!("CARGO_TARGET_TMPDIR")).join(programs_of(&out));
    let counted = fs::read(counted.join("program.count")).expect("counted");
    assert_eq!(counted.len(), 4, "each of two programs ran once");
    // A refused one's must be the same, and one must have failed.
    let output = report(&messages, &out, "echo 'refused 5 field=0 at=0'");
    assert_eq!(output.status.code(), Some(0), "{output:?}");
    let output = report(
        &messages,
        &out,
        "[ \"$1\" = explain ] && echo 'check 5 held' || echo 'refused 5 field=0 at=0'",
    );
    assert_eq!(output.status.code(), Some(1), "{output:?}");
}

/// What `make run` tells to be passed over stands on the page.
#[test]
fn what_is_passed_over_is_told() {
    let (messages, out) = folder_of("report-passed", P12);
    fs::write(messages.join("README.md"), "about").expect("a file");
    fs::write(messages.join("two.night"), "night").expect("a file");
    let header = "Host: box\nAuthorization: NTLM TlRMTVNTUAA=\nAccept: */*\n";
    fs::write(messages.join("trace.txt"), header).expect("a file");
    let output = report(&messages, &out, "echo 'refused 58 field=0 at=0'");
    assert_eq!(output.status.code(), Some(0), "{output:?}");
    let page = fs::read_to_string(&out).expect("a page");
    for told in [
        "<li>trace.txt: 2 other lines passed over</li>",
        "<li>passed over: README.md, two.night</li>",
        "<li>a night is run by itself, as make night FILE=file</li>",
    ] {
        assert!(page.contains(told), "{told}");
    }
    assert!(!page_of(P12).contains("Passed over"));
}

/// A wrong folder or page is told by the look, which leaves nothing behind.
#[test]
fn a_wrong_page_is_told_before_anything_is_run() {
    let (messages, out) = folder_of("report-look", P12);
    let good = look(&messages, &out);
    assert_eq!(good.status.code(), Some(0));
    assert_eq!(good.stdout, b"nl_auth_line\n");
    let folder = out.parent().expect("a folder").to_owned();
    let none = folder.join("none");
    fs::create_dir(folder.join("empty")).expect("a folder");
    for (messages, out, told) in [
        (
            messages.clone(),
            messages.join("page"),
            "among the messages",
        ),
        (
            messages.clone(),
            messages.join("a\x1Bb\n"),
            "a?b? would stand among the messages",
        ),
        (messages.clone(), none.join("page"), "can't be written"),
        (messages.clone(), folder.clone(), "no plain file"),
        (none.clone(), out.clone(), "as MESSAGES=folder"),
        (folder.join("empty"), out.clone(), "as MESSAGES=folder"),
        (messages.join("one"), out.clone(), "as MESSAGES=folder"),
    ] {
        let output = look(&messages, &out);
        let error = String::from_utf8(output.stderr).expect("text");
        assert_eq!(output.status.code(), Some(1), "{error}");
        assert!(
            error.contains(told) && error.lines().count() == 1,
            "{error}"
        );
    }
    assert_eq!(fs::read_dir(&folder).expect("a folder").count(), 2);
}

#[test]
fn more_header_lines_than_a_page_holds_are_told_by_the_look() {
    let (messages, out) = folder_of("report-look-many", P12);
    let block = "Authorization: NTLM TlRMTVNTUAA=\n".repeat(MOST);
    fs::write(messages.join("trace.txt"), block).expect("a file");
    let error = String::from_utf8(look(&messages, &out).stderr).expect("text");
    assert!(
        error.contains("holds 2001 messages, and a page has room"),
        "{error}"
    );
}

#[test]
fn more_messages_than_a_page_holds_are_told() {
    let folder = fresh_folder("report-many");
    let (messages, out) = (folder.join("messages"), folder.join("page.html"));
    fs::create_dir(&messages).expect("a folder");
    for number in 0..=MOST {
        fs::write(messages.join(number.to_string()), P12).expect("a file");
    }
    let output = report(&messages, &out, NL_AUTH);
    let told = String::from_utf8(output.stderr).expect("text");
    assert_eq!(output.status.code(), Some(1), "{told}");
    assert!(told.contains("holds 2001 messages, and a page has room for 2000"));
    assert_eq!(told.lines().count(), 1, "{told}");
    assert!(!out.exists());
}

#[test]
fn a_page_takes_no_messages_place() {
    let folder = fresh_folder("report-among");
    let messages = folder.join("messages");
    fs::create_dir(&messages).expect("a folder");
    fs::write(messages.join("p12"), P12).expect("a file");
    symlink(messages.join("p12"), folder.join("link.html")).expect("a link");
    let outs = [
        "messages/p12",
        "messages/p",
        "link.html",
        "none/page.html",
        "",
    ];
    for (out, words) in outs.into_iter().zip([
        "among the messages",
        "among the messages",
        "no plain file",
        "can't be written",
        "",
    ]) {
        let output = report(&messages, &folder.join(out), NL_AUTH);
        let told = String::from_utf8(output.stderr).expect("text");
        assert_eq!(output.status.code(), Some(1), "{out}");
        assert_eq!(told.lines().count(), 1, "{told}");
        assert!(told.contains(words), "{told}");
    }
    assert_eq!(fs::read(messages.join("p12")).expect("a file"), P12);
    assert_eq!(fs::read_dir(&messages).expect("a folder").count(), 1);
    let output = report(&folder.join("none"), &folder.join("page.html"), NL_AUTH);
    assert_eq!(output.status.code(), Some(1));
}
