//! A box signs in, in the order that a sign-in wants: `cargo run --example sign_in`. There
//! is no server: the challenge is one that Samba's smbd sent to `make sign-in`, and the
//! radio module, which keeps the password, is played by the answer that smbd then took.
//! Prints the lines of the three messages, which hold no secret.

use std::error::Error;

use dialtable::{
    authenticate_line, challenge_line, check_mic, decide, mic, negotiate_line, read_authenticate,
    respond, write_negotiate, write_response_pairs, Parts, Settings, SignIn, FLAGS_WANTED,
    FLAG_UNICODE,
};

const CHALLENGE: &[u8] = include_bytes!("../../messages/challenge-sign-in.bin");
const TAKEN: &[u8] = include_bytes!("../../messages/authenticate-sign-in.bin");
const SESSION_KEY: u128 = 0x2729_0988_687E_1A90_D5EA_E57C_8412_C840;

const VERSION: [u8; 8] = [6, 1, 0xB1, 0x1D, 0, 0, 0, 15];
const USER: &str = "bench-operator-of-the-northern-depot-number-seven-hall-b-2nd";
const WORKSTATION: &str = "BOX7";
const TARGET: &str = "cifs/localhost";

fn main() -> Result<(), Box<dyn Error>> {
    let (settings, clock) = (Settings::default(), 0);
    let mut room = [0; 64];
    let first = write_negotiate(&mut room, FLAGS_WANTED, &VERSION, b"", b"")?;
    show(negotiate_line(first, &mut [0; 128])?);

    let challenge = exchange(first).ok_or("no challenge came")?;
    show(challenge_line(challenge, &mut [0; 1024])?);
    let decision = decide(settings, challenge)?;
    // The challenge's UNICODE decides how names go out. This box has no page of characters
    // for a server without it.
    if decision.flags & FLAG_UNICODE == 0 {
        return Err("the server wants names as bytes, which this example has not".into());
    }
    let time = decision.time(settings, clock);
    let mut room = [0; 512];
    let pairs = write_response_pairs(&mut room, challenge, &wide(TARGET), false, &[0; 16])?;

    let radio = work_out(time, pairs).ok_or("the radio module has no response")?;
    let parts = Parts {
        version: VERSION,
        lm: radio.lm,
        nt: radio.nt,
        domain: b"", // the server's is sent
        user: &wide(USER),
        workstation: &wide(WORKSTATION),
        key: radio.key,
        ..Parts::default()
    };
    let mut room = [0; 1024];
    let mut answer = respond(&mut room, challenge, settings, clock, &parts)?;
    if answer.mic_due {
        let messages = SignIn {
            negotiate: first,
            challenge,
            authenticate: answer.message,
        };
        let mic = mic(&radio.session_key, &messages)?;
        answer.place_mic(&mic)?;
    }
    show(authenticate_line(answer.message, &mut [0; 1024])?);

    // The bench, which has the session key, sees that nobody altered a message.
    let seen = SignIn {
        negotiate: first,
        challenge,
        authenticate: answer.message,
    };
    if !check_mic(&radio.session_key, &seen).is_right() {
        return Err("the MIC doesn't fit".into());
    }
    if answer.message != TAKEN {
        return Err("this is not the message that smbd took".into());
    }
    Ok(())
}

/// Sends the box's message, and has the server's. Here it is always the same one.
fn exchange(_sent: &[u8]) -> Option<&'static [u8]> {
    Some(CHALLENGE)
}

/// A line has its 0A, and is ASCII.
fn show(line: &[u8]) {
    print!("{}", String::from_utf8_lossy(line));
}

/// A name as it goes out with UNICODE: UTF-16LE.
fn wide(name: &str) -> Vec<u8> {
    name.encode_utf16().flat_map(u16::to_le_bytes).collect()
}

/// What a radio module works out from the password.
struct Radio {
    lm: &'static [u8],
    nt: &'static [u8],
    key: &'static [u8],
    session_key: [u8; 16],
}

/// The response that was taken, where it was worked out over this time and this pair list.
fn work_out(time: u64, pairs: &[u8]) -> Option<Radio> {
    let fields = read_authenticate(TAKEN).ok()?;
    let nt = fields.nt.bytes(TAKEN);
    let over_time = nt.get(24..32)? == time.to_le_bytes();
    let over_pairs = nt.get(44..)?.strip_suffix(&[0; 4])? == pairs;
    (over_time && over_pairs).then_some(Radio {
        lm: fields.lm.bytes(TAKEN),
        nt,
        key: fields.key.bytes(TAKEN),
        session_key: SESSION_KEY.to_be_bytes(),
    })
}
