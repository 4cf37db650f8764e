//! Document 02, request 2/12: the pair list that goes back in the answer.

mod common;

use common::*;
use reader::{write_response_pairs, AvId, Refusal, ResponsePairs, TargetInfo, MAX_MESSAGE};

const BINDINGS: [u8; 16] = *b"sixteen bindings";
const TIME: [u8; 8] = [7; 8];
const FLAGS: u32 = UNICODE | TARGET_INFO;

/// A name and no mark.
fn named(target_name: &[u8]) -> ResponsePairs<'_> {
    ResponsePairs {
        target_name,
        unverified: false,
        bindings: BINDINGS,
    }
}

/// A name that is marked unverified.
fn marked(target_name: &[u8]) -> ResponsePairs<'_> {
    ResponsePairs {
        unverified: true,
        ..named(target_name)
    }
}

/// Writes into too much room, and sees that only the list changes and that it
/// passes checks 10 to 13.
fn written(challenge: &[u8], parts: &ResponsePairs<'_>) -> Result<Vec<u8>, Refusal> {
    let mut out = vec![0xEE; 1 << 17];
    let answer = write_response_pairs(challenge, parts, &mut out);
    let len = answer.unwrap_or_default();
    assert!(out[len..].iter().all(|&byte| byte == 0xEE));
    out.truncate(answer?);
    assert!(TargetInfo(&out).count().is_ok());
    Ok(out)
}

/// What answers a challenge with these pairs.
fn answered(pairs: &Pairs<'_>, parts: &ResponsePairs<'_>) -> Vec<u8> {
    let challenge = challenge(FLAGS, &[], &list(pairs));
    written(&challenge, parts).expect("a list")
}

/// The refusal with this much room, none of which changes.
fn refused_with(challenge: &[u8], parts: &ResponsePairs<'_>, room: usize) -> (u8, u8) {
    let mut out = vec![0xEE; room];
    let answer = refused(write_response_pairs(challenge, parts, &mut out));
    assert!(out.iter().all(|&byte| byte == 0xEE));
    answer
}

/// The pair 10 and the pair 9 that are always added.
fn with_added<'a>(pairs: &Pairs<'a>, name: &'a [u8]) -> Vec<u8> {
    let added: [(u16, &[u8]); 2] = [(10, &BINDINGS), (9, name)];
    list(&[pairs, &added].concat())
}

#[test]
fn every_byte_of_a_list() {
    let expected = [
        &[1, 0, 2, 0, b'S', 0][..],
        &[7, 0, 8, 0, 7, 7, 7, 7, 7, 7, 7, 7],
        &[6, 0, 4, 0, 6, 0, 0, 0],
        &[10, 0, 16, 0],
        &BINDINGS,
        &[9, 0, 4, 0, b'h', 0, b'i', 0],
        &[0, 0, 0, 0],
    ];
    let pairs: [(u16, &[u8]); 2] = [(1, b"S\0"), (7, &TIME)];
    assert_eq!(answered(&pairs, &marked(b"h\0i\0")), expected.concat());
}

#[test]
fn pairs_are_copied_in_order_with_their_values() {
    // Known and unknown ids, empty values, repeated ids.
    let pairs: [(u16, &[u8]); 9] = [
        (2, b"D\0"),
        (1, b"S\0V\0"),
        (2, b"E\0"),
        (5, b""),
        (8, &[8; 48]),
        (11, b"odd"),
        (0xFFFF, b""),
        (11, b"odd"),
        (0x0900, b"x"),
    ];
    assert_eq!(answered(&pairs, &named(b"n\0")), with_added(&pairs, b"n\0"));
}

#[test]
fn a_timestamp_adds_a_flags_pair_with_0x2() {
    let expected = with_added(&[(7, &TIME), (6, &[2, 0, 0, 0])], b"n\0");
    assert_eq!(answered(&[(7, &TIME)], &named(b"n\0")), expected);
    // Of two timestamps as of one.
    let twice = with_added(&[(7, &TIME), (7, &[1; 8]), (6, &[2, 0, 0, 0])], b"");
    assert_eq!(answered(&[(7, &TIME), (7, &[1; 8])], &named(b"")), twice);
}

#[test]
fn without_a_timestamp_and_a_mark_no_flags_pair_is_added_or_changed() {
    assert_eq!(
        answered(&[(1, b"")], &named(b"n\0")),
        with_added(&[(1, b"")], b"n\0")
    );
    for flags in [[0; 4], [1, 2, 3, 4], [0xFF; 4]] {
        let pairs: [(u16, &[u8]); 1] = [(6, &flags)];
        assert_eq!(answered(&pairs, &named(b"n\0")), with_added(&pairs, b"n\0"));
    }
}

#[test]
fn both_bits_go_to_the_first_flags_pair_and_a_later_one_stays() {
    // Before and after the timestamp alike.
    let incoming: [(u16, &[u8]); 4] = [
        (6, &[0, 0, 0, 0x80]),
        (7, &TIME),
        (6, &[0, 0, 0, 0]),
        (6, &[1, 0, 0, 0]),
    ];
    let both = with_added(
        &[
            (6, &[6, 0, 0, 0x80]),
            (7, &TIME),
            (6, &[0, 0, 0, 0]),
            (6, &[1, 0, 0, 0]),
        ],
        b"n\0",
    );
    assert_eq!(answered(&incoming, &marked(b"n\0")), both);
    let after = with_added(&[(7, &TIME), (6, &[6, 0, 0, 0]), (6, &[0; 4])], b"n\0");
    let incoming: [(u16, &[u8]); 3] = [(7, &TIME), (6, &[0; 4]), (6, &[0; 4])];
    assert_eq!(answered(&incoming, &marked(b"n\0")), after);
}

#[test]
fn each_bit_is_set_for_its_own_reason_and_none_is_cleared() {
    for came in [
        0,
        0x1,
        0x2,
        0x4,
        0x6,
        0x8000_0000,
        0xFFFF_FFFF,
        0xFFFF_FFF9_u32,
    ] {
        for timestamp in [false, true] {
            for unverified in [false, true] {
                for name in [&b""[..], b"n\0"] {
                    let mut due = came;
                    if timestamp {
                        due |= 0x2;
                    }
                    if unverified && !name.is_empty() {
                        due |= 0x4;
                    }
                    let (came, due) = (came.to_le_bytes(), due.to_le_bytes());
                    let time: &Pairs<'_> = if timestamp { &[(7, &TIME)] } else { &[] };
                    let incoming = [&[(6, &came[..])], time].concat();
                    let expected = [&[(6, &due[..])], time].concat();
                    let parts = ResponsePairs {
                        unverified,
                        ..named(name)
                    };
                    let list = answered(&incoming, &parts);
                    assert_eq!(list, with_added(&expected, name));
                }
            }
        }
    }
}

#[test]
fn both_bits_due_without_a_flags_pair_are_one_added_pair() {
    let expected = with_added(&[(7, &TIME), (6, &[6, 0, 0, 0])], b"n\0");
    assert_eq!(answered(&[(7, &TIME)], &marked(b"n\0")), expected);
}

#[test]
fn a_mark_and_a_name_without_a_timestamp_add_0x4_alone() {
    let expected = with_added(&[(1, b""), (6, &[4, 0, 0, 0])], b"n\0");
    assert_eq!(answered(&[(1, b"")], &marked(b"n\0")), expected);
}

#[test]
fn a_mark_without_a_name_changes_nothing() {
    for pairs in [&[(1, &b""[..])][..], &[(7, &TIME)], &[(6, &[8; 4])], &[]] {
        assert_eq!(answered(pairs, &marked(b"")), answered(pairs, &named(b"")));
    }
    assert_eq!(
        answered(&[(1, b"")], &marked(b"")),
        with_added(&[(1, b"")], b"")
    );
}

#[test]
fn a_list_of_the_end_pair_alone_is_not_empty() {
    assert_eq!(answered(&[], &named(b"n\0")), with_added(&[], b"n\0"));
    let expected = with_added(&[(6, &[4, 0, 0, 0])], b"n\0");
    assert_eq!(answered(&[], &marked(b"n\0")), expected);
}

#[test]
fn every_incoming_9_and_10_goes() {
    let theirs = [0xAB; 16];
    let [name, bindings]: [(u16, &[u8]); 2] = [(9, b"t\0h\0"), (10, &theirs)];
    let [computer, time]: [(u16, &[u8]); 2] = [(1, b"S\0"), (7, &TIME)];
    for pairs in [
        [name, bindings, computer, time],
        [computer, name, time, bindings],
        [bindings, computer, time, name],
        [computer, time, bindings, name],
    ] {
        let expected = with_added(&[computer, time, (6, &[2, 0, 0, 0])], b"n\0");
        assert_eq!(answered(&pairs, &named(b"n\0")), expected);
    }
    let repeated = [name, name, bindings, computer, bindings, bindings, name];
    assert_eq!(
        answered(&repeated, &named(b"")),
        with_added(&[computer], b"")
    );
    let alone = [bindings, name, (9, b"")];
    assert_eq!(answered(&alone, &named(b"n\0")), with_added(&[], b"n\0"));
}

#[test]
fn one_pair_10_and_one_pair_9_are_added_whatever_came() {
    // A name that came in doesn't stand in for the caller's empty one.
    let list = answered(&[(9, b"t\0")], &named(b""));
    assert_eq!(list, with_added(&[], b""));
    let zeros = ResponsePairs::default();
    let expected: [(u16, &[u8]); 2] = [(10, &[0; 16]), (9, b"")];
    assert_eq!(
        answered(&[(10, &BINDINGS)], &zeros),
        common::list(&expected)
    );
}

#[test]
fn an_empty_target_info_gives_the_end_pair_alone() {
    let empty = challenge(FLAGS, b"T\0", &[]);
    let uncounted = challenge(UNICODE, &[], &list(&[(7, &TIME), (6, &[0; 4])]));
    // What doesn't count isn't checked either.
    let faulty = challenge(UNICODE, &[], b"\x01\0\x06\0A\0");
    for message in [empty, uncounted, faulty] {
        for parts in [named(b""), named(b"n\0"), marked(b"n\0")] {
            assert_eq!(written(&message, &parts), Ok(vec![0; 4]));
            assert_eq!(refused_with(&message, &parts, 3), (33, 0));
            assert_eq!(refused_with(&message, &parts, 0), (33, 0));
            let mut exact = [0xEE; 4];
            assert_eq!(write_response_pairs(&message, &parts, &mut exact), Ok(4));
            assert_eq!(exact, [0; 4]);
        }
        // No list is written that a long name would stand in.
        let long = vec![b'x'; 1 << 17];
        assert_eq!(written(&message, &named(&long)), Ok(vec![0; 4]));
    }
}

#[test]
fn the_readings_refusals_come_first() {
    let odd = named(b"odd");
    let sound = challenge(FLAGS, &[], &list(&[]));
    let mut signature = sound.clone();
    signature[0] ^= 1;
    let mut kind = sound.clone();
    kind[8] = 3;
    let mut past_end = sound.clone();
    put_head(&mut past_end, 40, 5, 56);
    let mut in_fixed = sound.clone();
    put_head(&mut in_fixed, 40, 4, 47);
    let with_list = |list: &[u8]| challenge(FLAGS, &[], list);
    for (message, answer) in [
        (vec![0; MAX_MESSAGE + 1], (1, 0)),
        (sound[..47].to_vec(), (2, 0)),
        (signature, (3, 0)),
        (kind, (4, 0)),
        (challenge(TARGET_INFO, &[], &list(&[])), (5, 0)),
        (past_end, (6, 2)),
        (in_fixed, (7, 2)),
        (challenge(FLAGS | REQUEST_TARGET, b"T", &list(&[])), (8, 1)),
        (with_list(b"\x01\0\x06\0A\0"), (10, 2)),
        (with_list(b"\0\0\0"), (11, 2)),
        (with_list(b"\x01\0\0\0"), (11, 2)),
        (with_list(b"\0\0\0\0\0"), (12, 2)),
        (with_list(b"\x06\0\x02\0\0\0\0\0\0\0"), (13, 2)),
    ] {
        assert_eq!(refused_with(&message, &odd, 0), answer);
        assert_eq!(refused_with(&message, &named(b""), 100), answer);
    }
}

#[test]
fn neither_20_nor_21_plays_a_part() {
    // No 128-bit flag, and neither pair 1 nor pair 2.
    assert!(written(&challenge(FLAGS, &[], &list(&[])), &named(b"")).is_ok());
}

#[test]
fn every_odd_name_is_31_with_field_2() {
    // Whatever UNICODE says, also where TargetInfo is empty or doesn't count,
    // and before 30 and 33.
    let infos = [list(&[(1, b"")]), list(&[]), Vec::new()];
    for flags in [UNICODE, OEM, UNICODE | OEM] {
        for info in &infos {
            for counts in [0, TARGET_INFO] {
                let message = challenge(flags | counts, &[], info);
                for len in [1, 3, 65_535, 65_537, 131_071] {
                    let name = vec![b'x'; len];
                    for parts in [named(&name), marked(&name)] {
                        assert_eq!(refused_with(&message, &parts, 0), (31, 2));
                        assert_eq!(refused_with(&message, &parts, 1 << 17), (31, 2));
                    }
                }
            }
        }
    }
}

#[test]
fn thirty_goes_by_the_list_that_would_be_written() {
    // 20 bytes of pair 10, 4 before the name and 4 of the end pair.
    let message = challenge(FLAGS, &[], &list(&[]));
    let longest = vec![b'x'; MAX_MESSAGE - 1 - 28];
    assert_eq!(
        written(&message, &named(&longest)).map(|list| list.len()),
        Ok(MAX_MESSAGE - 1)
    );
    // 33 only after 30.
    assert_eq!(refused_with(&message, &named(&longest), 100), (33, 0));
    for more in [2, 4, 26, 28, 30, 1 << 16, 1 << 17] {
        let name = vec![b'x'; longest.len() + more];
        assert_eq!(refused_with(&message, &named(&name), 0), (30, 0));
        assert_eq!(refused_with(&message, &named(&name), 1 << 18), (30, 0));
    }
    // The added flags pair has 8 bytes more.
    assert_eq!(refused_with(&message, &marked(&longest), 1 << 17), (30, 0));
    let shorter = &longest[..longest.len() - 8];
    assert!(written(&message, &marked(shorter)).is_ok());
    // An odd length in the list: exactly 65,535, and two more.
    let odd = challenge(FLAGS, &[], &list(&[(8, &[1])]));
    let name = vec![b'x'; MAX_MESSAGE - 28 - 5];
    assert_eq!(
        written(&odd, &named(&name)).map(|list| list.len()),
        Ok(MAX_MESSAGE)
    );
    let name = vec![b'x'; MAX_MESSAGE - 28 - 5 + 2];
    assert_eq!(refused_with(&odd, &named(&name), 1 << 17), (30, 0));
}

#[test]
fn a_list_that_came_in_long_is_30_where_the_added_pairs_pass_the_limit() {
    // The longest list that a message has room for, 48 bytes shorter than it.
    let longest = |id: u16, more: usize| {
        let list = list(&[(id, &vec![b'x'; MAX_MESSAGE - 56 - 8 - more])]);
        challenge(FLAGS, &[], &list)
    };
    let message = longest(8, 0);
    assert_eq!(message.len(), MAX_MESSAGE);
    // 24 bytes of added pairs: 65,479 and 24 are under the limit.
    assert_eq!(
        written(&message, &named(b"")).map(|list| list.len()),
        Ok(65_503)
    );
    let name = [b'x'; 32];
    assert_eq!(
        written(&message, &named(&name)).map(|list| list.len()),
        Ok(MAX_MESSAGE)
    );
    assert_eq!(refused_with(&message, &named(&[b'x'; 34]), 0), (30, 0));
    assert_eq!(refused_with(&message, &marked(&name), 0), (30, 0));
    // What is taken out makes room: a long name that came in.
    let message = longest(9, 1);
    let name = vec![b'x'; 60_000];
    assert_eq!(
        written(&message, &named(&name)).map(|list| list.len()),
        Ok(60_028)
    );
}

#[test]
fn exactly_the_room_suffices_and_bytes_after_it_stay() {
    let pairs: [(u16, &[u8]); 2] = [(1, b"S\0"), (7, &TIME)];
    let message = challenge(FLAGS, &[], &list(&pairs));
    let parts = marked(b"n\0");
    let expected = written(&message, &parts).expect("a list");
    let mut exact = vec![0xEE; expected.len()];
    assert_eq!(
        write_response_pairs(&message, &parts, &mut exact),
        Ok(expected.len())
    );
    assert_eq!(exact, expected);
    for room in [0, 1, 3, 4, expected.len() - 1] {
        assert_eq!(refused_with(&message, &parts, room), (33, 0));
    }
}

#[test]
fn where_target_info_stands_and_ignored_bytes_change_nothing() {
    let pairs: [(u16, &[u8]); 2] = [(1, b"S\0"), (7, &TIME)];
    let plain = challenge(FLAGS, &[], &list(&pairs));
    let expected = written(&plain, &marked(b"n\0"));
    let mut other = challenge(FLAGS | REQUEST_TARGET | BITS_128, b"T\0G\0", &list(&pairs));
    // MaxLen of both heads, Reserved and Version.
    for at in [14, 15, 42, 43].into_iter().chain(32..40).chain(48..56) {
        other[at] ^= 0x5A;
    }
    other.extend([0xEE; 7]);
    assert_eq!(written(&other, &marked(b"n\0")), expected);
}

/// Bytes in hex.
fn hex(text: &str) -> Vec<u8> {
    let digits: Vec<u8> = text
        .chars()
        .filter(|digit| !digit.is_whitespace())
        .map(|digit| digit.to_digit(16).expect("a hex digit") as u8)
        .collect();
    digits
        .chunks_exact(2)
        .map(|two| two[0] << 4 | two[1])
        .collect()
}

fn message(name: &str) -> Vec<u8> {
    let folder = concat!(env!("CARGO_MANIFEST_DIR"), "/../../messages/");
    std::fs::read(format!("{folder}{name}")).expect("a message")
}

/// The pairs that a program sent in its NTLMv2 response: 28 bytes before them
/// follow the proof of 16.
fn sent_pairs(authenticate: &[u8]) -> Vec<u8> {
    let read = reader::Authenticate::read(authenticate).expect("a sound message");
    read.fields()[1].bytes[44..].to_vec()
}

/// A list up to and with its end pair, without the pairs of one id.
fn without(id: AvId, list: &[u8]) -> Vec<u8> {
    let mut bytes = Vec::new();
    let mut at = 0;
    while list[at..at + 2] != [0, 0] {
        let len = 4 + usize::from(u16::from_le_bytes([list[at + 2], list[at + 3]]));
        if list[at..at + 2] != id.0.to_le_bytes() {
            bytes.extend(&list[at..at + len]);
        }
        at += len;
    }
    bytes.extend([0; 4]);
    bytes
}

/// What boxes are built after: no bindings, a name, and no mark.
fn as_others_send(challenge: &[u8], name: &str) -> Vec<u8> {
    let name = utf16(name);
    let parts = ResponsePairs {
        bindings: [0; 16],
        ..named(&name)
    };
    written(challenge, &parts).expect("a list")
}

#[test]
fn smbclient_sends_this_list() {
    // Samba 4.17.12, with a pair 8 of its own between 6 and 10.
    let sent = sent_pairs(&message("authenticate-smbclient.bin"));
    let ours = as_others_send(&message("challenge-smbd.bin"), "cifs/127.0.0.1");
    assert_eq!(ours, without(AvId::SINGLE_HOST, &sent));
    assert_eq!(ours.len() + 52, sent.len());
}

#[test]
fn a_challenge_in_oem_is_answered_the_same_way() {
    // As smbclient answered it, but for its pair 8. The names in pairs are UTF-16
    // whatever the flags say, and TargetInfo stands at an odd offset here.
    let server = utf16("PEERSRV");
    let expected: [(u16, &[u8]); 8] = [
        (2, &server),
        (1, &server),
        (4, b""),
        (3, &utf16("vm")),
        (7, &0x01DD_750F_5CCF_BCFE_u64.to_le_bytes()),
        (6, &[2, 0, 0, 0]),
        (10, &[0; 16]),
        (9, &utf16("cifs/127.0.0.1")),
    ];
    let ours = as_others_send(&message("challenge-smbd-oem.bin"), "cifs/127.0.0.1");
    assert_eq!(ours, list(&expected));
}

#[test]
fn libdcerpc_sends_this_list_to_a_domain_controller() {
    // Samba 4.17.12, in answer to `challenge-samba-ad-dc.b64`, with a pair 8 of
    // its own too.
    let sent = hex("
        02000800500045004500520001000c0042004f0058003700440043000400200070006500650072002e00650078
        0061006d0070006c0065002e0063006f006d0003002e0062006f0078003700640063002e007000650065007200
        2e006500780061006d0070006c0065002e0063006f006d000700080078b2118c1075dd01060004000200000008
        00300030000000000000000000000000000000cd3c37c276a1c3357e20d7b02c47ac04d8ea7ec2d373d4cb4843
        7faef81b085d0a0010000000000000000000000000000000000009001c0068006f00730074002f003100320037
        002e0030002e0030002e00310000000000");
    let pairs: [(u16, &[u8]); 5] = [
        (2, &utf16("PEER")),
        (1, &utf16("BOX7DC")),
        (4, &utf16("peer.example.com")),
        (3, &utf16("box7dc.peer.example.com")),
        (7, &0x01DD_7510_8C11_B278_u64.to_le_bytes()),
    ];
    let challenge = challenge(FLAGS, &[], &list(&pairs));
    let ours = as_others_send(&challenge, "host/127.0.0.1");
    assert_eq!(ours, without(AvId::SINGLE_HOST, &sent));
}

#[test]
fn winpr_sends_this_list() {
    // winpr (FreeRDP) 2.11.7: its own challenge, and the pairs that it answered.
    // Zero bytes follow them in its response.
    let challenge = hex("
        4e544c4d53535000020000000400040038000000978288e231fe32eaa396e1f80000000000000000300030003c
        0000000601b11d0000000f56004d000200040056004d000100040056004d000400040076006d00030004007600
        6d0007000800009780061075dd0100000000");
    let sent = hex("
        0200040056004d000100040056004d000400040076006d000300040076006d0007000800009780061075dd0106
        000400020000000a001000000000000000000000000000000000000900280048005400540050002f0073007200
        76002e006500780061006d0070006c0065002e0063006f006d0000000000");
    assert_eq!(as_others_send(&challenge, "HTTP/srv.example.com"), sent);
}

#[test]
fn the_example_after_4_2_4_goes_back_with_10_and_9_added() {
    // A challenge after MS-NLMP 4.2.4, not held against the page. Its NTLMv2 response has the two pairs as
    // they came and the end pair; 10 and 9 are what document 004 adds.
    let challenge = message("challenge-no-timestamp.bin");
    let came = list(&[(2, &utf16("Domain")), (1, &utf16("Server"))]);
    assert!(challenge.ends_with(&came));
    let ours = as_others_send(&challenge, "");
    let left = without(AvId::CHANNEL_BINDINGS, &without(AvId::TARGET_NAME, &ours));
    assert_eq!(left, came);
    assert_eq!(ours.len(), came.len() + 20 + 4);
    // Samba's ntlm_auth answers it with its own pair 8, then 10, and no name.
    let sent = hex("
        02000c0044006f006d00610069006e0001000c0053006500720076006500720008003000300000000000000000
        000000000000001bbde05cd70408f039efdd9fbeefa84223d53efb6ceb6a46cdc96d4cefd9a9d00a0010000000
        000000000000000000000000000000000000");
    let sent = without(AvId::SINGLE_HOST, &sent);
    assert_eq!(without(AvId::TARGET_NAME, &ours), sent);
}

#[test]
fn a_servers_own_flags_pair_gets_the_bit() {
    // gss-ntlmssp 1.2.0 sends a flags pair of zeros before its timestamp.
    let challenge = hex("
        4e544c4d5353500002000000040004003800000035828ae201b5b827a4eb388a0000000000000000420042003c
        000000060200000000000f56004d000100040056004d000200160057004f0052004b0053005400410054004900
        4f004e000300040076006d000600040000000000070008008aded2051075dd0100000000");
    let expected: [(u16, &[u8]); 7] = [
        (1, &utf16("VM")),
        (2, &utf16("WORKSTATION")),
        (3, &utf16("vm")),
        (6, &[2, 0, 0, 0]),
        (7, &0x01DD_7510_05D2_DE8A_u64.to_le_bytes()),
        (10, &[0; 16]),
        (9, &utf16("http/server.example.com")),
    ];
    let ours = as_others_send(&challenge, "http/server.example.com");
    assert_eq!(ours, list(&expected));
}
