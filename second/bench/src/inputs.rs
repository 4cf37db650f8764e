//! The messages that both sides are given.

use std::fs;
use std::path::Path;

use reader::{
    write_authenticate, write_negotiate, AuthenticateParts, NegotiateFlags, NegotiateParts,
    ResponsePairs, MAX_MESSAGE,
};

const UNICODE: u32 = 0x1;
const OEM: u32 = 0x2;
const SIGN: u32 = 0x10;
const REQUEST_TARGET: u32 = 0x4;
const TARGET_INFO: u32 = 0x80_0000;
const VERSION: u32 = 0x200_0000;
const BITS_128: u32 = 0x2000_0000;
const KEY_EXCH: u32 = 0x4000_0000;

/// The flags of a message as boxes send it.
pub const FLAGS: u32 =
    UNICODE | REQUEST_TARGET | SIGN | TARGET_INFO | VERSION | BITS_128 | KEY_EXCH;

/// The Version of every message that is written here.
const VERSION_BYTES: [u8; 8] = [10, 0, 0x61, 0x4A, 0, 0, 0, 15];

pub const TIMESTAMP: u16 = 7;

fn utf16(text: &str) -> Vec<u8> {
    text.encode_utf16().flat_map(u16::to_le_bytes).collect()
}

/// Bytes of an AUTHENTICATE before its fields.
const FIXED: usize = 88;

/// What a box's AUTHENTICATE is written from.
#[derive(Clone, Debug, Default)]
pub struct Account {
    pub lm: Vec<u8>,
    pub nt: Vec<u8>,
    pub domain: Vec<u8>,
    pub user: Vec<u8>,
    pub workstation: Vec<u8>,
    pub key: Vec<u8>,
}

impl Account {
    /// The line of this one has 111 bytes.
    pub fn usual() -> Self {
        Self {
            lm: vec![0; 24],
            nt: vec![0x5A; 220],
            domain: utf16("CLIGROUP"),
            user: utf16("games"),
            workstation: utf16("PEERCLI"),
            key: vec![0x66; 16],
        }
    }

    /// An NT response alone, which makes the message so long.
    pub fn of_message(len: usize) -> Self {
        Self {
            nt: vec![0x5A; len - FIXED],
            ..Self::default()
        }
    }

    pub const fn parts(&self, flags: u32) -> AuthenticateParts<'_> {
        AuthenticateParts {
            flags: NegotiateFlags(flags),
            version: VERSION_BYTES,
            mic: [0xC3; 16],
            lm: self.lm.as_slice(),
            nt: self.nt.as_slice(),
            domain: self.domain.as_slice(),
            user: self.user.as_slice(),
            workstation: self.workstation.as_slice(),
            key: self.key.as_slice(),
        }
    }

    pub fn message(&self, flags: u32) -> Vec<u8> {
        let mut out = vec![0; MAX_MESSAGE];
        let len = write_authenticate(&self.parts(flags), &mut out).expect("a sound message");
        out.truncate(len);
        out
    }
}

/// An AUTHENTICATE of `len` bytes that is one user name, in single bytes.
pub fn authenticate_with_name(len: usize) -> Vec<u8> {
    let account = Account {
        user: vec![b'x'; len - FIXED],
        ..Account::default()
    };
    account.message(OEM)
}

/// Bytes of a NEGOTIATE before its names.
const OPENING_FIXED: usize = 40;

/// What a box's NEGOTIATE is written from.
#[derive(Clone, Debug)]
pub struct Opening {
    pub domain: Vec<u8>,
    pub workstation: Vec<u8>,
}

impl Opening {
    pub fn usual() -> Self {
        Self {
            domain: b"CLIGROUP".to_vec(),
            workstation: b"PEERCLI".to_vec(),
        }
    }

    /// A domain alone, which makes the message so long.
    pub fn of_message(len: usize) -> Self {
        Self {
            domain: vec![b'x'; len - OPENING_FIXED],
            workstation: Vec::new(),
        }
    }

    pub const fn parts(&self, flags: u32) -> NegotiateParts<'_> {
        NegotiateParts {
            flags: NegotiateFlags(flags),
            version: VERSION_BYTES,
            domain: self.domain.as_slice(),
            workstation: self.workstation.as_slice(),
        }
    }

    pub fn message(&self, flags: u32) -> Vec<u8> {
        let mut out = vec![0; MAX_MESSAGE];
        let len = write_negotiate(&self.parts(flags), &mut out).expect("a sound message");
        out.truncate(len);
        out
    }
}

fn put_pair(list: &mut Vec<u8>, id: u16, value: &[u8]) {
    list.extend(id.to_le_bytes());
    list.extend(u16::try_from(value.len()).expect("a length").to_le_bytes());
    list.extend(value);
}

/// Six pairs, the timestamp last, and the end pair.
pub fn six_pairs() -> Vec<u8> {
    let mut list = Vec::new();
    put_pair(&mut list, 2, &utf16("PEER"));
    put_pair(&mut list, 1, &utf16("BOX7DC"));
    put_pair(&mut list, 4, &utf16("peer.example.com"));
    put_pair(&mut list, 3, &utf16("box7dc.peer.example.com"));
    put_pair(&mut list, 5, &utf16("peer.example.com"));
    put_pair(
        &mut list,
        TIMESTAMP,
        &0x01DD_7510_8C11_B278_u64.to_le_bytes(),
    );
    list.extend([0; 4]);
    list
}

/// The same without the end pair.
pub fn cut_pairs() -> Vec<u8> {
    let mut list = six_pairs();
    list.truncate(list.len() - 4);
    list
}

/// A message whose last field ends past it by a byte.
pub fn past_end(mut message: Vec<u8>) -> Vec<u8> {
    message.pop();
    message
}

/// A list of `len` bytes, of target names as long as there is room for them, and
/// a timestamp at its end.
pub fn long_list(len: usize) -> Vec<u8> {
    long_list_of(9, len)
}

/// The same of names with this id, each pair of 20 bytes.
pub fn long_list_of(id: u16, len: usize) -> Vec<u8> {
    let mut list = Vec::new();
    while list.len() + 20 + 4 + 12 + 4 <= len {
        put_pair(&mut list, id, &utf16("computer"));
    }
    let rest = len - list.len() - 4 - 12 - 4;
    put_pair(&mut list, 8, &vec![0x20; rest]);
    put_pair(&mut list, TIMESTAMP, &[7; 8]);
    list.extend([0; 4]);
    list
}

/// A CHALLENGE with this list.
pub fn challenge(list: &[u8]) -> Vec<u8> {
    let target = utf16("PEER");
    let head = |len: usize, offset: usize| {
        let len = u16::try_from(len).expect("a length").to_le_bytes();
        let offset = u32::try_from(offset).expect("an offset").to_le_bytes();
        [&len[..], &len, &offset].concat()
    };
    let mut message = b"NTLMSSP\0\x02\0\0\0".to_vec();
    message.extend(head(target.len(), 56));
    message.extend(FLAGS.to_le_bytes());
    message.extend([1, 2, 3, 4, 5, 6, 7, 8]);
    message.extend([0; 8]);
    message.extend(head(list.len(), 56 + target.len()));
    message.extend([6, 1, 0, 0, 0, 0, 0, 15]);
    message.extend(target);
    message.extend(list);
    message
}

/// What goes back beside the pairs of a challenge.
#[derive(Clone, Debug)]
pub struct Target {
    pub name: Vec<u8>,
    pub bindings: [u8; 16],
}

impl Target {
    pub fn usual() -> Self {
        Self {
            name: utf16("cifs/box7dc"),
            bindings: [0xB1; 16],
        }
    }

    /// The name is marked.
    pub const fn parts(&self) -> ResponsePairs<'_> {
        ResponsePairs {
            target_name: self.name.as_slice(),
            unverified: true,
            bindings: self.bindings,
        }
    }
}

/// Bytes of a CHALLENGE before its list.
pub const BEFORE_LIST: usize = 56 + 8;

/// An NL_AUTH request of `len` bytes with two strings.
pub fn nl_auth(len: usize) -> Vec<u8> {
    let mut message = b"\0\0\0\0\x03\0\0\0PEER\0".to_vec();
    message.resize(len - 1, b'x');
    message.push(0);
    message
}

/// The strings of a domain controller's request.
pub const STRINGS: [&[u8]; 5] = [
    b"DEPOT",
    b"DC1",
    b"depot.example.com",
    b"dc1.depot.example.com",
    b"DC1",
];

/// The same as a message: the host name ends in a jump to the domain name.
pub fn nl_auth_names() -> Vec<u8> {
    let mut message = b"\0\0\0\0\x1F\0\0\0DEPOT\0DC1\0".to_vec();
    message.extend(b"\x05depot\x07example\x03com\0");
    message.extend(b"\x03dc1\xC0\x0A\x03DC1\0");
    message
}

/// Messages of Samba, gss-ntlmssp, impacket and winpr, as files of messages/.
pub const CAPTURED: [&str; 11] = [
    "challenge-smbd.bin",
    "challenge-samba-ad-dc.b64",
    "authenticate-smbclient.bin",
    "authenticate-gssntlmssp-no-key.bin",
    "authenticate-impacket-long-name.bin",
    "negotiate-smbclient.bin",
    "negotiate-gssntlmssp.bin",
    "negotiate-impacket.bin",
    "negotiate-winpr.b64",
    "nl-request-samba.bin",
    "nl-request-samba-dns.bin",
];

/// The message in a file, which is raw or text.
pub fn captured(folder: &Path, file: &str) -> Result<Vec<u8>, String> {
    let content = fs::read(folder.join(file)).map_err(|error| format!("{file}: {error}"))?;
    let (_, message) = depot::form::read(content).map_err(|error| format!("{file}: {error}"))?;
    Ok(message)
}

/// A night of so many entries: NEGOTIATE, CHALLENGE and AUTHENTICATE as boxes have
/// them, one after the other while 65,535 bytes have room for all three. Entries
/// go round.
pub struct Night {
    pub buffer: Vec<u8>,
    /// Start, length and mark.
    pub places: Vec<(usize, usize, u32)>,
}

impl Night {
    pub fn of(entries: usize) -> Self {
        let messages = [
            Opening::usual().message(FLAGS),
            challenge(&six_pairs()),
            Account::usual().message(FLAGS),
        ];
        let round: usize = messages.iter().map(Vec::len).sum();
        let mut buffer = Vec::new();
        let mut standing = Vec::new();
        while buffer.len() + round <= MAX_MESSAGE && standing.len() < entries {
            for (message, mark) in messages.iter().zip(1..) {
                standing.push((buffer.len(), message.len(), mark));
                buffer.extend(message);
            }
        }
        let places = standing.iter().cycle().take(entries).copied().collect();
        Self { buffer, places }
    }
}

/// The exported session key of every sign-in here.
pub const SESSION_KEY: [u8; 16] = [0x4B; 16];

/// The three messages of a sign-in.
#[derive(Clone, Debug)]
pub struct SignIn([Vec<u8>; 3]);

impl SignIn {
    pub fn usual() -> Self {
        Self([
            Opening::usual().message(FLAGS),
            challenge(&six_pairs()),
            Account::usual().message(FLAGS),
        ])
    }

    /// Three messages of `len` bytes each.
    pub fn of_messages(len: usize) -> Self {
        Self([
            Opening::of_message(len).message(FLAGS),
            challenge(&long_list(len - BEFORE_LIST)),
            Account::of_message(len).message(FLAGS),
        ])
    }

    pub fn messages(&self) -> reader::SignIn<'_> {
        let Self([negotiate, challenge, authenticate]) = self;
        reader::SignIn {
            negotiate,
            challenge,
            authenticate,
        }
    }

    /// How many bytes the three have.
    pub fn len(&self) -> usize {
        self.0.iter().map(Vec::len).sum()
    }
}
