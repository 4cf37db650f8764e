//! Flags and pairs by name: the names of include/dialtable.h.

/// The bits of NegotiateFlags that have names.
const FLAGS: [(u32, &str); 22] = [
    (0x1, "UNICODE"),
    (0x2, "OEM"),
    (0x4, "REQUEST_TARGET"),
    (0x10, "SIGN"),
    (0x20, "SEAL"),
    (0x40, "DATAGRAM"),
    (0x80, "LM_KEY"),
    (0x200, "NTLM"),
    (0x800, "ANONYMOUS"),
    (0x1000, "DOMAIN_SUPPLIED"),
    (0x2000, "WORKSTATION_SUPPLIED"),
    (0x8000, "ALWAYS_SIGN"),
    (0x1_0000, "TARGET_TYPE_DOMAIN"),
    (0x2_0000, "TARGET_TYPE_SERVER"),
    (0x8_0000, "EXTENDED_SESSIONSECURITY"),
    (0x10_0000, "IDENTIFY"),
    (0x40_0000, "REQUEST_NON_NT_SESSION_KEY"),
    (0x80_0000, "TARGET_INFO"),
    (0x200_0000, "VERSION"),
    (0x2000_0000, "128"),
    (0x4000_0000, "KEY_EXCH"),
    (0x8000_0000, "56"),
];

/// The ids of pairs that have names, from 1 on.
const PAIRS: [&str; 10] = [
    "NB_COMPUTER",
    "NB_DOMAIN",
    "DNS_COMPUTER",
    "DNS_DOMAIN",
    "DNS_TREE",
    "FLAGS",
    "TIMESTAMP",
    "SINGLE_HOST",
    "TARGET_NAME",
    "CHANNEL_BINDINGS",
];

/// The name of a bit.
pub fn flag(bit: u32) -> Option<&'static str> {
    let named = FLAGS.iter().find(|(named, _)| *named == bit);
    named.map(|(_, name)| *name)
}

/// The name of a pair's id.
pub fn pair(id: u16) -> Option<&'static str> {
    PAIRS.get(usize::from(id).checked_sub(1)?).copied()
}

#[cfg(test)]
mod tests {
    use super::{pair, FLAGS, PAIRS};

    fn header() -> String {
        let header = concat!(env!("CARGO_MANIFEST_DIR"), "/../../include/dialtable.h");
        std::fs::read_to_string(header).expect("the header")
    }

    #[test]
    fn the_flags_are_the_headers() {
        let header = header();
        let listed = header.lines().filter_map(|line| {
            let row = line.strip_prefix("#define DIALTABLE_FLAG_")?;
            let (name, bit) = row.strip_suffix('u')?.split_once(" 0x")?;
            Some((u32::from_str_radix(bit, 16).ok()?, name))
        });
        assert!(listed.eq(FLAGS));
    }

    #[test]
    fn the_pairs_are_the_headers() {
        let header = header();
        let listed = header.lines().filter_map(|line| {
            let row = line.trim().strip_prefix("DIALTABLE_PAIR_")?;
            row.trim_end_matches(',').split_once(" = ")
        });
        let listed: Vec<(&str, &str)> = listed.collect();
        assert_eq!(listed.len(), PAIRS.len());
        for (name, id) in listed {
            assert_eq!(pair(id.parse().expect("an id")), Some(name));
        }
    }
}
