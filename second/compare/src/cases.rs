//! The messages of the comparison, each with the program that it is for.

use reader::Program;

use crate::random::Random;
use crate::{authenticate, challenge, negotiate, nl_auth, wire};

/// A message and the program that it is for.
#[derive(Clone, Debug, PartialEq, Eq)]
pub struct Case {
    pub program: Program,
    pub message: Vec<u8>,
}

/// The messages at every boundary, then as many drawn ones as asked for. What goes
/// to the NTLM program goes to the one that explains it too.
pub fn cases(seed: u64, drawn: usize) -> Vec<Case> {
    let random = &mut Random::new(seed);
    let mut cases = Vec::new();
    let mut add = |program, messages: Vec<Vec<u8>>| {
        cases.extend(
            messages
                .into_iter()
                .map(|message| Case { program, message }),
        );
    };
    add(Program::Ntlm, authenticate::KIND.boundaries(random));
    add(Program::Ntlm, challenge::KIND.boundaries(random));
    add(Program::Ntlm, negotiate::KIND.boundaries(random));
    add(Program::Ntlm, wire::short_of_each_type());
    add(Program::NlAuth, nl_auth::boundaries(random));
    for _ in 0..drawn {
        cases.push(drawn_case(random));
    }
    let explained = |case: &Case| Case {
        program: Program::Explain,
        ..case.clone()
    };
    let ntlm = cases.iter().filter(|case| case.program == Program::Ntlm);
    let explained: Vec<Case> = ntlm.map(explained).collect();
    cases.extend(explained);
    cases
}

fn drawn_case(random: &mut Random) -> Case {
    let (program, message) = match random.below(20) {
        0..=6 => (Program::Ntlm, authenticate::drawn(random)),
        7..=11 => (Program::Ntlm, challenge::drawn(random)),
        12..=15 => (Program::Ntlm, negotiate::drawn(random)),
        16..=18 => (Program::NlAuth, nl_auth::drawn(random)),
        // A message for the other program.
        _ => match random.below(2) {
            0 => (Program::Ntlm, nl_auth::drawn(random)),
            _ => (Program::NlAuth, authenticate::drawn(random)),
        },
    };
    Case { program, message }
}

#[cfg(test)]
mod tests {
    use super::{cases, Case};
    use reader::Program;

    #[test]
    fn a_seed_gives_the_same_messages_again() {
        assert_eq!(cases(7, 50), cases(7, 50));
        assert_ne!(cases(7, 50), cases(8, 50));
        // Each drawn one is for one program, and mostly for the one that explains.
        let more = cases(7, 50).len() - cases(7, 0).len();
        assert!((50..=100).contains(&more), "{more}");
    }

    #[test]
    fn the_same_messages_are_explained() {
        let cases = cases(7, 50);
        let of = |program| {
            let of_program = cases.iter().filter(move |case| case.program == program);
            of_program.map(|case| &case.message)
        };
        assert!(of(Program::Ntlm).eq(of(Program::Explain)));
        assert!(of(Program::Ntlm).count() > 1_000);
    }

    #[test]
    fn sizes_go_past_the_limit() {
        let cases = cases(1, 0);
        for program in [Program::Ntlm, Program::NlAuth] {
            for len in [0, 65_535, 65_536, 66_000] {
                let found = |case: &Case| case.program == program && case.message.len() == len;
                assert!(cases.iter().any(found), "{len}");
            }
        }
    }
}
