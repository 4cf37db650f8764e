//! The first inputs: messages by every group that suits them, and some made by hand at
//! limits that changes seldom come to.

use std::path::Path;

use depot::folder::{Content, Folder};

use crate::input::{joined, Group, Head};

/// The longest message that is a seed.
const LONGEST: usize = 3000;

/// What a folder has for seeds.
#[derive(Default)]
pub struct Messages {
    /// NTLM messages, by their type from 1 to 3.
    ntlm: [Vec<Vec<u8>>; 3],
    /// Other messages.
    others: Vec<Vec<u8>>,
    /// Texts of header lines.
    texts: Vec<Vec<u8>>,
}

impl Messages {
    /// The messages of a folder, in any form that the depot bench reads.
    pub fn read(folder: &Path) -> Result<Self, String> {
        let folder = Folder::list(folder).map_err(|error| error.to_string())?;
        let mut messages = Self::default();
        for file in &folder.messages {
            match file.read_all() {
                Ok(Content::Message(_, message)) => messages.add(message),
                Ok(Content::HeaderTexts(texts, _)) => {
                    for (_, text) in texts {
                        messages.add_text(text);
                    }
                }
                Err(error) => return Err(format!("{}: {error}", file.name)),
            }
        }
        Ok(messages)
    }

    fn add(&mut self, message: Vec<u8>) {
        if message.len() <= LONGEST {
            match message.get(8) {
                Some(&kind @ 1..=3) if message.starts_with(b"NTLMSSP\0") => {
                    self.ntlm[usize::from(kind) - 1].push(message);
                }
                _ => self.others.push(message),
            }
        }
    }

    fn add_text(&mut self, text: Vec<u8>) {
        let mut message = vec![0; text.len()];
        if let Ok(len) = reader::import_header(&text, &mut message) {
            message.truncate(len);
            self.add(message);
        }
        self.texts.push(text);
    }

    /// Every seed.
    pub fn seeds(&self) -> Vec<Vec<u8>> {
        let mut seeds = Vec::new();
        for (kind, message) in (1..)
            .zip(&self.ntlm)
            .flat_map(|(kind, of)| of.iter().map(move |one| (kind, one)))
        {
            seeds.extend(alone(kind, message));
        }
        for challenge in &self.ntlm[1] {
            seeds.extend(answered(challenge));
        }
        for message in &self.others {
            seeds.push(joined(Head::new(Group::NlAuth), message));
            seeds.push(joined(Head::new(Group::Ntlm), message));
        }
        for text in &self.texts {
            seeds.push(joined(Head::new(Group::Header), text));
        }
        seeds.extend(self.sign_ins());
        seeds.extend(written());
        seeds.extend(self.at_limits());
        seeds
    }

    /// Sign-ins of some of the messages, each with its MIC as it is, right and nearly.
    fn sign_ins(&self) -> Vec<Vec<u8>> {
        let [negotiates, challenges, authenticates] = &self.ntlm;
        let mut seeds = Vec::new();
        for negotiate in negotiates.iter().filter(|one| one.len() < 256).take(3) {
            for challenge in challenges.iter().take(3) {
                for authenticate in authenticates.iter().take(6) {
                    for lent in [0, 0x20, 0x60] {
                        let [low, high] = (challenge.len() as u16).to_le_bytes();
                        let mut head = Head::new(Group::SignIn);
                        head.lent = lent;
                        head.own = [negotiate.len() as u8, low, high, 7];
                        let all = [negotiate.as_slice(), challenge, authenticate].concat();
                        seeds.push(joined(head, &all));
                    }
                }
            }
        }
        seeds
    }

    /// Messages cut around the end of each fixed part, header lines at the longest
    /// message, a list of 123 pairs, and chains of jumps around the sixteenth.
    fn at_limits(&self) -> Vec<Vec<u8>> {
        let mut seeds = Vec::new();
        for message in self.ntlm.iter().filter_map(|of| of.first()) {
            for end in [
                8, 11, 12, 13, 31, 32, 33, 47, 48, 49, 55, 56, 63, 64, 65, 87, 88,
            ] {
                if let Some(cut) = message.get(..end) {
                    seeds.push(joined(Head::new(Group::Ntlm), cut));
                }
            }
        }
        for stretch in 247..=254 {
            let mut head = Head::new(Group::Header);
            (head.own, head.stretch) = ([1, 0, 0, 0], stretch);
            seeds.push(joined(head, b"NTLMSSP\0"));
        }
        seeds.push(joined(Head::new(Group::Ntlm), &many_pairs()));
        for jumps in 14..=18 {
            seeds.push(joined(Head::new(Group::NlAuth), &chain(jumps)));
        }
        seeds
    }
}

/// A message by itself: read, in a header line, and as a night's.
fn alone(kind: u8, message: &[u8]) -> [Vec<u8>; 3] {
    let mut night = Head::new(Group::Night);
    night.own = [1, 0, 0, 5];
    let [low, high] = (message.len() as u16).to_le_bytes();
    let place = [0, 0, low, high, kind];
    let mut header = Head::new(Group::Header);
    header.own[0] = 1;
    [
        joined(Head::new(Group::Ntlm), message),
        joined(header, message),
        joined(night, &[message, &place].concat()),
    ]
}

/// Settings and thin calls that a challenge is answered by.
const ANSWERED_BY: [u8; 7] = [0, 2, 3, 15, 16, 32, 48];

/// A challenge with what stands beside it in an answer.
fn answered(challenge: &[u8]) -> Vec<Vec<u8>> {
    let put = |group, own: [u8; 3], beside: &[u8]| {
        let mut head = Head::new(group);
        head.own = [own[0], own[1], own[2], beside.len() as u8];
        joined(head, &[challenge, beside].concat())
    };
    let bindings: Vec<u8> = (0..16).chain(wide("cifs/box")).collect();
    let mut seeds = vec![
        put(Group::ResponsePairs, [1, 0, 0], &bindings),
        put(Group::Field, [56, 8, 0], &wide("DOM")),
    ];
    let parts = [&[0; 8], VERSION.as_slice(), &[9; 16], &fields()].concat();
    seeds.extend(ANSWERED_BY.map(|by| put(Group::Respond, [by, 0, 0], &parts)));
    let heads = challenge.get(40..48);
    let list = heads.and_then(|head| {
        let len = u16::from_le_bytes([head[0], head[1]]).into();
        let offset = u32::from_le_bytes([head[4], head[5], head[6], head[7]]) as usize;
        challenge.get(offset..)?.get(..len)
    });
    seeds.extend(list.map(|list| joined(Head::new(Group::Pairs), list)));
    seeds
}

const VERSION: [u8; 8] = [10, 0, 0x63, 0x45, 0, 0, 0, 15];

/// A text in UTF-16LE.
fn wide(text: &str) -> Vec<u8> {
    text.encode_utf16().flat_map(u16::to_le_bytes).collect()
}

/// The six fields of an AUTHENTICATE behind their lengths.
fn fields() -> Vec<u8> {
    let fields = [
        vec![b'L'; 24],
        vec![b'N'; 30],
        wide("DOM"),
        wide("user"),
        wide("BOX"),
        vec![b'K'; 16],
    ];
    let lens = fields.each_ref().map(|field| field.len() as u8);
    [lens.as_slice(), &fields.concat()].concat()
}

/// What messages are written from.
fn written() -> Vec<Vec<u8>> {
    let put = |group, own, parts: &[&[u8]]| {
        let mut head = Head::new(group);
        head.own = own;
        joined(head, &parts.concat())
    };
    let flags = |flags: u32| flags.to_le_bytes();
    let oem = [&[24, 24, 3, 4, 3, 0][..], &[b'x'; 58]].concat();
    vec![
        put(
            Group::WriteAuthenticate,
            [0; 4],
            &[&flags(0x6208_8235), &VERSION, &[1; 16], &fields()],
        ),
        put(
            Group::WriteAuthenticate,
            [0; 4],
            &[&flags(2), &VERSION, &[0; 16], &oem],
        ),
        put(
            Group::WriteNegotiate,
            [0; 4],
            &[&flags(0xE208_8297), &VERSION, &[3, 4], b"DOMHOST"],
        ),
        put(
            Group::WriteNlAuth,
            [31, 0, 0, 0],
            &[&[3, 4, 11, 11, 3], b"DOMHOSTa.example.cb.example.dfoo"],
        ),
        put(Group::WriteNlAuth, [0; 4], &[&[0; 5]]),
    ]
}

/// A challenge whose list has 123 pairs and the end pair.
fn many_pairs() -> Vec<u8> {
    let list = [[3, 0, 2, 0, b'A', 0].repeat(123), vec![0; 4]].concat();
    let [low, high] = (list.len() as u16).to_le_bytes();
    let mut message =
        b"NTLMSSP\0\x02\0\0\0\0\0\0\0\x30\0\0\0\x35\x82\x89\xE212345678\0\0\0\0\0\0\0\0".to_vec();
    message.extend([low, high, low, high, 48, 0, 0, 0]);
    message.extend(list);
    message
}

/// A request whose D goes through so many jumps, which lie in a label of C.
fn chain(jumps: usize) -> Vec<u8> {
    let mut label = vec![0];
    let mut last = 1;
    for _ in 1..jumps {
        let at = label.len() + 1;
        label.extend([0xC0, last]);
        last = at as u8;
    }
    let mut message = vec![0, 0, 0, 0, 0x0C, 0, 0, 0, label.len() as u8];
    message.extend(label);
    message.extend([0, 0xC0, last]);
    message
}

#[cfg(test)]
mod tests {
    use std::path::Path;

    use reader::{Challenge, NlAuth};

    use super::{chain, many_pairs, Messages};
    use crate::input::{split, Group};

    #[test]
    fn limits_are_what_they_are_called() {
        assert_eq!(
            Challenge::read(&many_pairs()).expect("sound").pairs.pairs,
            123
        );
        let jumps = |jumps| NlAuth::read(&chain(jumps)).map(|read| read.strings[3].jumps);
        assert_eq!(jumps(14), Ok(14));
        assert_eq!(jumps(16), Ok(16));
        assert_eq!(jumps(17).expect_err("too many").number(), 52);
    }

    #[test]
    fn every_group_has_a_seed() {
        let folder = Path::new(env!("CARGO_MANIFEST_DIR")).join("../../messages");
        let seeds = Messages::read(&folder).expect("messages").seeds();
        for group in Group::ALL {
            let of = |seed: &Vec<u8>| split(seed).is_some_and(|(head, _)| head.group == group);
            assert!(seeds.iter().any(of), "{}", group.name());
        }
    }
}
