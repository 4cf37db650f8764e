"""A message and our own reading of it, as the program `readings` writes it: a line of JSON."""

import json
import re
import struct

UNICODE, OEM, REQUEST_TARGET, TARGET_INFO = 0x1, 0x2, 0x4, 0x800000
VERSION, KEY_EXCH = 0x2000000, 0x40000000
DOMAIN_SUPPLIED, WORKSTATION_SUPPLIED = 0x1000, 0x2000

NEGOTIATE, CHALLENGE, AUTHENTICATE, NL_AUTH = "NEGOTIATE", "CHALLENGE", "AUTHENTICATE", "NL_AUTH"
KINDS = {1: NEGOTIATE, 2: CHALLENGE, 3: AUTHENTICATE}
SIGNATURE = b"NTLMSSP\0"

FLAGS_AT = {NEGOTIATE: 12, CHALLENGE: 20, AUTHENTICATE: 60, NL_AUTH: 4}
# Where each field's head stands, and the flag with which the field counts.
HEADS = {
    NEGOTIATE: {"domain": (16, DOMAIN_SUPPLIED), "workstation": (24, WORKSTATION_SUPPLIED)},
    CHALLENGE: {"target_name": (12, REQUEST_TARGET), "target_info": (40, TARGET_INFO)},
    AUTHENTICATE: {
        "lm": (12, None),
        "nt": (20, None),
        "domain": (28, None),
        "user": (36, None),
        "workstation": (44, None),
        "key": (52, KEY_EXCH),
    },
}
NAMES = {
    NEGOTIATE: ("domain", "workstation"),
    CHALLENGE: ("target_name",),
    AUTHENTICATE: ("domain", "user", "workstation"),
}
STRINGS = "abcde"
TEXT_PAIRS, FLAGS_PAIR, TIME_PAIR = (1, 2, 3, 4, 5, 9), 6, 7


class Message:
    """The bytes of a message, where it comes from, and our reading: names with values."""

    def __init__(self, row):
        self.origin = row.pop("from")
        self.bytes = bytes.fromhex(row.pop("message"))
        self.kind = KINDS.get(row.get("type"), NL_AUTH)
        self.flags = int.from_bytes(self.bytes[FLAGS_AT[self.kind] :][:4], "little")
        self.ours = nl_auth(row) if self.kind == NL_AUTH else ntlm(self.kind, row)

    def head(self, field):
        """The length, MaxLen and offset that stand in a field's head."""
        return struct.unpack_from("<HHI", self.bytes, HEADS[self.kind][field][0])

    def counts(self, field):
        flag = HEADS[self.kind][field][1]
        return flag is None or self.flags & flag != 0

    def at(self, field):
        """The bytes that a field's head points at, as far as the message has them."""
        length, _, offset = self.head(field)
        return self.bytes[offset : offset + length]

    @property
    def unicode(self):
        """Whether names are 16-bit units: NEGOTIATE's are bytes in any case (MS-NLMP 2.2.1.1)."""
        return self.kind != NEGOTIATE and self.flags & UNICODE != 0


def decoded(name, is_unicode):
    """A name as text. A byte of an OEM name stands for the character of its number."""
    return name.decode("utf-16-le", "surrogatepass") if is_unicode else name.decode("latin-1")


def ntlm(kind, row):
    reading = {"type": row["type"], "flags": row["flags"]}
    is_unicode = kind != NEGOTIATE and row["flags"] & UNICODE != 0
    for field in HEADS[kind]:
        offset, length, max_len, value = row[field]
        reading |= {f"{field}.offset": offset, f"{field}.len": length, f"{field}.max": max_len}
        reading[f"{field}.bytes"] = bytes.fromhex(value)
    for field in NAMES[kind]:
        reading[f"{field}.text"] = decoded(reading[f"{field}.bytes"], is_unicode)
    if kind == CHALLENGE:
        reading["server_challenge"] = bytes.fromhex(row["server_challenge"])
        reading["pairs"] = [(number, bytes.fromhex(value)) for number, value in row["pairs"]]
        reading["time"] = row["time"]
    if kind == AUTHENTICATE:
        reading["mic"] = None if row["mic"] is None else bytes.fromhex(row["mic"])
    return reading


def unescaped(text):
    """The bytes of a text of a log line, in which a byte may stand as \\x and two digits."""
    return re.sub(rb"\\x([0-9A-F]{2})", lambda found: bytes.fromhex(found[1].decode()), text)


def nl_auth(row):
    reading = {"nl_type": row["nl_type"], "flags": row["flags"]}
    for letter in STRINGS:
        if row[letter] is not None:
            offset, length, jumps, text = row[letter]
            reading |= {f"{letter}.offset": offset, f"{letter}.len": length, f"{letter}.jumps": jumps}
            reading[f"{letter}.text"] = unescaped(bytes.fromhex(text))
    return reading


def loaded(lines):
    """The messages of our program's lines, and how many it refused."""
    rows = [json.loads(line) for line in lines]
    return [Message(row) for row in rows[:-1]], rows[-1]["refused"]
