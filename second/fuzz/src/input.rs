//! An input: a head of eight bytes, and the payload.

/// The bytes of a head.
pub const HEAD: usize = 8;

/// Which calls are made on a payload.
#[derive(Clone, Copy, Debug, PartialEq, Eq)]
pub enum Group {
    /// An NTLM message: every reading, every line and what goes by a challenge.
    Ntlm,
    /// An NL_AUTH message.
    NlAuth,
    /// A pair list.
    Pairs,
    /// Flags, Version, MIC and the six fields of an AUTHENTICATE to write.
    WriteAuthenticate,
    /// Flags, Version and the two names of a NEGOTIATE to write.
    WriteNegotiate,
    /// The five strings of an NL_AUTH request to write.
    WriteNlAuth,
    /// A challenge, and behind it bindings and a target name.
    ResponsePairs,
    /// A challenge, and behind it clock, Version, MIC and six fields.
    Respond,
    /// The text of a header line, or a message for one.
    Header,
    /// The three messages of a sign-in.
    SignIn,
    /// A night's buffer, and behind it the places of its entries.
    Night,
    /// A message with a place in it, and behind it a domain.
    Field,
}

impl Group {
    pub const ALL: [Self; 12] = [
        Self::Ntlm,
        Self::NlAuth,
        Self::Pairs,
        Self::WriteAuthenticate,
        Self::WriteNegotiate,
        Self::WriteNlAuth,
        Self::ResponsePairs,
        Self::Respond,
        Self::Header,
        Self::SignIn,
        Self::Night,
        Self::Field,
    ];

    pub const fn name(self) -> &'static str {
        match self {
            Self::Ntlm => "ntlm",
            Self::NlAuth => "nl_auth",
            Self::Pairs => "pairs",
            Self::WriteAuthenticate => "write_authenticate",
            Self::WriteNegotiate => "write_negotiate",
            Self::WriteNlAuth => "write_nl_auth",
            Self::ResponsePairs => "response_pairs",
            Self::Respond => "respond",
            Self::Header => "header",
            Self::SignIn => "sign_in",
            Self::Night => "night",
            Self::Field => "field",
        }
    }
}

/// The head: what an input has beside its payload.
#[derive(Clone, Copy, Debug, PartialEq, Eq)]
pub struct Head {
    pub group: Group,
    /// How much is lent, as against what a call needs.
    pub room: u8,
    /// How many numbers are lent, and what stands in the memory.
    pub lent: u8,
    /// The group's own.
    pub own: [u8; 4],
    /// From 240 on the message is lengthened to one of [`LONG`].
    pub stretch: u8,
}

impl Head {
    /// The head of a group with what is needed lent.
    pub const fn new(group: Group) -> Self {
        Self {
            group,
            room: 1,
            lent: 0,
            own: [0; 4],
            stretch: 0,
        }
    }

    pub const fn bytes(self) -> [u8; HEAD] {
        let [a, b, c, d] = self.own;
        let group = self.group as u8;
        [group, self.room, self.lent, a, b, c, d, self.stretch]
    }

    /// How many bytes at the payload's end stand beside the message.
    pub fn beside(self, payload: usize) -> usize {
        match self.group {
            Group::ResponsePairs | Group::Respond | Group::Night | Group::Field => {
                usize::from(self.own[3]).min(payload)
            }
            _ => 0,
        }
    }
}

/// The head and the payload of an input; none where it has no whole head. Any first
/// byte is a group.
pub fn split(input: &[u8]) -> Option<(Head, &[u8])> {
    let (&[group, room, lent, a, b, c, d, stretch], payload) = input.split_first_chunk::<HEAD>()?;
    let group = Group::ALL[usize::from(group) % Group::ALL.len()];
    let own = [a, b, c, d];
    let head = Head {
        group,
        room,
        lent,
        own,
        stretch,
    };
    Some((head, payload))
}

/// An input of a head and its payload.
pub fn joined(head: Head, payload: &[u8]) -> Vec<u8> {
    [&head.bytes(), payload].concat()
}

/// Lengths that a message is stretched to: at the limit of a message and, encoded,
/// of a header line's text.
pub const LONG: [usize; 16] = [
    300, 1000, 5000, 20_000, 40_000, 65_440, 65_500, 65_530, 65_533, 65_534, 65_535, 65_536,
    65_537, 66_000, 70_000, 87_400,
];

/// The bytes, or as many as a stretch says: the last one is repeated.
pub fn stretched(bytes: &[u8], stretch: u8) -> Vec<u8> {
    let mut bytes = bytes.to_vec();
    if stretch >= 240 {
        let last = bytes.last().copied().unwrap_or(b'A');
        let to = LONG[usize::from(stretch & 15)].max(bytes.len());
        bytes.resize(to, last);
    }
    bytes
}

/// Bytes that are taken one after the other; zeros where there are none left.
pub struct Stream<'a>(pub &'a [u8]);

impl<'a> Stream<'a> {
    pub fn array<const N: usize>(&mut self) -> [u8; N] {
        let mut array = [0; N];
        let taken = self.bytes(N);
        array[..taken.len()].copy_from_slice(taken);
        array
    }

    pub fn byte(&mut self) -> u8 {
        u8::from_le_bytes(self.array())
    }

    pub fn word(&mut self) -> u32 {
        u32::from_le_bytes(self.array())
    }

    /// So many bytes, or as many as are left.
    pub fn bytes(&mut self, len: usize) -> &'a [u8] {
        let (taken, rest) = self.0.split_at(len.min(self.0.len()));
        self.0 = rest;
        taken
    }

    /// Parts behind their lengths, a byte each.
    pub fn parts<const N: usize>(&mut self) -> [&'a [u8]; N] {
        let lens = self.array::<N>();
        lens.map(|len| self.bytes(len.into()))
    }
}

#[cfg(test)]
mod tests {
    use super::{joined, split, stretched, Group, Head, Stream, HEAD};

    #[test]
    fn heads_come_back() {
        for group in Group::ALL {
            let mut head = Head::new(group);
            head.own = [1, 2, 3, 4];
            head.stretch = 250;
            assert_eq!(split(&joined(head, b"xyz")), Some((head, &b"xyz"[..])));
        }
        assert_eq!(split(&[0; HEAD - 1]), None);
        assert_eq!(split(&[12; HEAD]).expect("a head").0.group, Group::Ntlm);
    }

    #[test]
    fn what_is_beside_never_passes_the_payload() {
        let mut head = Head::new(Group::Night);
        head.own[3] = 9;
        assert_eq!([head.beside(20), head.beside(4)], [9, 4]);
        head.group = Group::Ntlm;
        assert_eq!(head.beside(20), 0);
    }

    #[test]
    fn a_stream_ends_in_zeros() {
        let mut stream = Stream(&[2, 1, b'a', b'b', b'c', 7]);
        assert_eq!(stream.parts::<2>(), [&b"ab"[..], b"c"]);
        assert_eq!((stream.word(), stream.byte()), (7, 0));
    }

    #[test]
    fn a_stretch_only_lengthens() {
        assert_eq!(stretched(b"ab", 239), b"ab");
        assert_eq!(
            stretched(b"ab", 240),
            [b"a".as_slice(), &[b'b'; 299]].concat()
        );
        assert_eq!(stretched(&[1; 400], 240).len(), 400);
    }
}
