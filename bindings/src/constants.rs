//! Names for numbers, the header's without its prefix.

/// The version of this crate, which is the library's.
pub const VERSION: &str = env!("CARGO_PKG_VERSION");

/// Where the bytes of the MIC stand in an AUTHENTICATE that is written;
/// [`place_mic`](crate::place_mic) puts them there.
pub const MIC_AT: usize = 72;
/// How many bytes a MIC has.
pub const MIC_LEN: usize = 16;

// NegotiateFlags (MS-NLMP 2.2.2.5). The library goes by those that the header says; the
// others are read and written as they are.
/// Names are UTF-16LE. It wins over OEM.
pub const FLAG_UNICODE: u32 = 0x1;
/// Names are bytes.
pub const FLAG_OEM: u32 = 0x2;
/// The challenge's target name counts.
pub const FLAG_REQUEST_TARGET: u32 = 0x4;
/// Signing.
pub const FLAG_SIGN: u32 = 0x10;
/// Sealing.
pub const FLAG_SEAL: u32 = 0x20;
/// Without a connection.
pub const FLAG_DATAGRAM: u32 = 0x40;
/// The LM session key.
pub const FLAG_LM_KEY: u32 = 0x80;
/// NTLM.
pub const FLAG_NTLM: u32 = 0x200;
/// No user.
pub const FLAG_ANONYMOUS: u32 = 0x800;
/// The NEGOTIATE's domain counts.
pub const FLAG_DOMAIN_SUPPLIED: u32 = 0x1000;
/// The NEGOTIATE's workstation counts.
pub const FLAG_WORKSTATION_SUPPLIED: u32 = 0x2000;
/// Signing always.
pub const FLAG_ALWAYS_SIGN: u32 = 0x8000;
/// The target is a domain.
pub const FLAG_TARGET_TYPE_DOMAIN: u32 = 0x1_0000;
/// The target is a server.
pub const FLAG_TARGET_TYPE_SERVER: u32 = 0x2_0000;
/// Extended session security.
pub const FLAG_EXTENDED_SESSIONSECURITY: u32 = 0x8_0000;
/// A token to identify with.
pub const FLAG_IDENTIFY: u32 = 0x10_0000;
/// A session key that is not from the NT response.
pub const FLAG_REQUEST_NON_NT_SESSION_KEY: u32 = 0x40_0000;
/// The challenge's pair list counts.
pub const FLAG_TARGET_INFO: u32 = 0x80_0000;
/// Version is written.
pub const FLAG_VERSION: u32 = 0x200_0000;
/// 128-bit.
pub const FLAG_128: u32 = 0x2000_0000;
/// A session key is sent, with SIGN or SEAL.
pub const FLAG_KEY_EXCH: u32 = 0x4000_0000;
/// 56-bit.
pub const FLAG_56: u32 = 0x8000_0000;

/// In the flags pair: the message has a MIC.
pub const PAIR_FLAG_MIC: u32 = 0x2;
/// In the flags pair: the target name is unverified.
pub const PAIR_FLAG_UNVERIFIED: u32 = 0x4;

/// String A: the NetBIOS domain.
pub const NL_AUTH_BIT_A: u32 = 0x1;
/// String B: the NetBIOS computer.
pub const NL_AUTH_BIT_B: u32 = 0x2;
/// String C: the DNS domain.
pub const NL_AUTH_BIT_C: u32 = 0x4;
/// String D: the DNS host.
pub const NL_AUTH_BIT_D: u32 = 0x8;
/// String E: the NetBIOS computer, as a name of labels.
pub const NL_AUTH_BIT_E: u32 = 0x10;

// AvId (MS-NLMP 2.2.2.1): what the value of a pair is.
/// The end of the list.
pub const PAIR_END: u16 = 0;
/// The server's NetBIOS name.
pub const PAIR_NB_COMPUTER: u16 = 1;
/// The domain's NetBIOS name.
pub const PAIR_NB_DOMAIN: u16 = 2;
/// The server's DNS name.
pub const PAIR_DNS_COMPUTER: u16 = 3;
/// The domain's DNS name.
pub const PAIR_DNS_DOMAIN: u16 = 4;
/// The forest's DNS name.
pub const PAIR_DNS_TREE: u16 = 5;
/// Flags, four bytes.
pub const PAIR_FLAGS: u16 = 6;
/// The server's time, eight bytes.
pub const PAIR_TIMESTAMP: u16 = 7;
/// Data of a single host.
pub const PAIR_SINGLE_HOST: u16 = 8;
/// The name of the server that is wanted.
pub const PAIR_TARGET_NAME: u16 = 9;
/// Channel bindings, sixteen bytes.
pub const PAIR_CHANNEL_BINDINGS: u16 = 10;

/// The flags that a box asks for, which are those that `make sign-in` sends: UNICODE,
/// 128-bit, KEY_EXCH with SIGN and SEAL, and what goes with NTLMv2.
pub const FLAGS_WANTED: u32 = FLAG_UNICODE
    | FLAG_REQUEST_TARGET
    | FLAG_SIGN
    | FLAG_SEAL
    | FLAG_NTLM
    | FLAG_ALWAYS_SIGN
    | FLAG_EXTENDED_SESSIONSECURITY
    | FLAG_TARGET_INFO
    | FLAG_VERSION
    | FLAG_128
    | FLAG_KEY_EXCH
    | FLAG_56;
