//! Document 01, "Bench cases": the marked ones and the others.

mod common;

use common::*;
use reader::{
    authenticate_line, nl_auth_line, ntlm_line, Authenticate, NlAuth, Program, Reason, TargetInfo,
    LINE_LIMIT,
};

const P1_LINE: &str =
    "auth flags=00000201 set=U domain= user=box7 work= lm=0 nt=24 key=0 mic=1 kind=v1 max=000000\n";

#[test]
fn p1_prints_its_line_whole() {
    let message = p1();
    assert_eq!(message.len(), 120);
    let mut room = Box::new([0; LINE_LIMIT]);
    assert_eq!(Program::Ntlm.line(&message, &mut room), P1_LINE.as_bytes());
    assert_eq!(line(ntlm_line, &message), P1_LINE);
    assert_eq!(line(authenticate_line, &message), P1_LINE);
}

#[test]
fn p1_reads_as_its_fields() {
    let message = p1();
    let read = Authenticate::read(&message).unwrap();
    assert_eq!(read.flags.0, 0x201);
    assert_eq!((read.user.place, read.user.bytes), (88, &message[88..96]));
    assert_eq!((read.nt.place, read.nt.bytes), (96, &message[96..120]));
    for empty in [read.lm, read.domain, read.workstation, read.key] {
        assert_eq!((empty.place, empty.bytes.len()), (0, 0));
    }
    assert_eq!(read.mic, Some([0; 16]));
    assert_eq!(read.mic_bytes(), [0; 16]);
}

#[test]
fn p2_user_past_the_end_or_on_the_nt_response() {
    assert_eq!(refused(Authenticate::read(&p1_with(USER, 8, 113))), (6, 4));
    assert_eq!(refused(Authenticate::read(&p1_with(USER, 8, 112))), (9, 4));
}

#[test]
fn p3_user_in_the_fixed_part_or_right_after_it() {
    assert_eq!(refused(Authenticate::read(&p1_with(USER, 8, 62))), (7, 4));
    let message = p1_with(USER, 8, 64);
    assert_eq!(Authenticate::read(&message).unwrap().mic, None);
    assert_eq!(
        line(ntlm_line, &message),
        "auth flags=00000201 set=U domain= user=\\u0000\\u0000\\u0000\\u0000 work= \
         lm=0 nt=24 key=0 mic=0 kind=v1 max=000000\n"
    );
}

#[test]
fn p4_user_of_odd_length_or_reaching_the_nt_response() {
    assert_eq!(refused(Authenticate::read(&p1_with(USER, 7, 88))), (8, 4));
    assert_eq!(refused(Authenticate::read(&p1_with(USER, 10, 88))), (9, 4));
}

#[test]
fn p5_an_empty_user_at_any_offset() {
    let message = p1_with(USER, 0, 0xFFFF_FFFF);
    assert_eq!(Authenticate::read(&message).unwrap().user.place, 0);
    assert_eq!(
        line(ntlm_line, &message),
        "auth flags=00000201 set=U domain= user= work= lm=0 nt=24 key=0 mic=1 kind=v1 max=000000\n"
    );
}

#[test]
fn p6_check_6_over_all_fields_before_check_7() {
    let message = Auth(p1_with(USER, 8, 113)).field(LM, 1, 10).0;
    assert_eq!(refused(Authenticate::read(&message)), (6, 4));
}

#[test]
fn first_63_bytes_only() {
    assert_eq!(refused(Authenticate::read(&p1()[..63])), (2, 0));
    assert_eq!(line(ntlm_line, &p1()[..63]), "refused 2 field=0 at=0\n");
}

#[test]
fn type_2_to_the_authenticate_reader() {
    let message = Auth(p1()).bytes(8, &[2]).0;
    assert_eq!(refused(Authenticate::read(&message)), (4, 0));
}

#[test]
fn flags_200() {
    let message = Auth(p1()).bytes(60, &0x200u32.to_le_bytes()).0;
    assert_eq!(refused(Authenticate::read(&message)), (5, 0));
}

#[test]
fn p7_to_p11_target_info_lists() {
    assert_eq!(TargetInfo(&[0, 0, 0, 0]).count(), Ok(0));
    let cases: [(&[u8], Reason); 4] = [
        (&[0, 0, 0], Reason::PairCutOff),
        (&[1, 0, 6, 0, 0x41, 0], Reason::PairPastEnd),
        (&[0, 0, 0, 0, 0], Reason::EndPair),
        (&[6, 0, 2, 0, 0, 0, 0, 0, 0, 0], Reason::PairSize),
    ];
    for ((list, reason), number) in cases.into_iter().zip([11, 10, 12, 13]) {
        let answer = TargetInfo(list).count();
        assert_eq!(answer, Err(reason.of_field(2)));
        assert_eq!(refused_at(answer), (number, 2, 0));
    }
    // P11's list after a well-formed pair.
    let list = [&[1, 0, 2, 0, 0x41, 0][..], &[6, 0, 2, 0, 0, 0, 0, 0, 0, 0]].concat();
    assert_eq!(refused_at(TargetInfo(&list).count()), (13, 2, 6));
}

#[test]
fn p12_nl_auth() {
    for flags in [0x01, 0x21] {
        let mut message = vec![0, 0, 0, 0, flags, 0, 0, 0];
        message.extend([0x4C, 0x49, 0x4E, 0x45, 0x00]);
        let read = NlAuth::read(&message).unwrap();
        assert_eq!(read.flags.bits(), 1);
        assert_eq!(
            line(nl_auth_line, &message),
            "nl type=0 flags=00000001 a=LINE\n"
        );
        let mut room = Box::new([0; LINE_LIMIT]);
        assert_eq!(
            Program::NlAuth.line(&message, &mut room),
            b"nl type=0 flags=00000001 a=LINE\n"
        );
    }
}
