"""What impacket reads in a message: impacket.ntlm, and nrpc for NL_AUTH."""

from impacket import ntlm
from impacket.dcerpc.v5 import nrpc

from message import AUTHENTICATE, CHALLENGE, HEADS, NEGOTIATE, NL_AUTH, TIME_PAIR

NAME = "impacket"
PACKAGES = ("python3-impacket",)

# impacket's names of fields, and how it spells a MaxLen.
FIELDS = {
    NEGOTIATE: {"domain": "domain", "workstation": "host"},
    CHALLENGE: {"target_name": "domain", "target_info": "TargetInfoFields"},
    AUTHENTICATE: {
        "lm": "lanman",
        "nt": "ntlm",
        "domain": "domain",
        "user": "user",
        "workstation": "host",
        "key": "session_key",
    },
}
VALUES = {"domain": "domain_name", "host": "host_name", "user": "user_name"}
CLASSES = {
    NEGOTIATE: ntlm.NTLMAuthNegotiate,
    CHALLENGE: ntlm.NTLMAuthChallenge,
    AUTHENTICATE: ntlm.NTLMAuthChallengeResponse,
}


def keys(kind):
    """What impacket hands out of a kind of message. The bytes of a key aren't among it: it
    leaves what its parser had there."""
    if kind == NL_AUTH:
        return ["nl_type", "flags"]
    parts = ("offset", "len", "max", "bytes")
    fields = [f"{field}.{part}" for field in HEADS[kind] for part in parts if (field, part) != ("key", "bytes")]
    more = {NEGOTIATE: [], CHALLENGE: ["server_challenge", "pairs", "time"], AUTHENTICATE: ["mic"]}
    return ["type", "flags"] + fields + more[kind]


def head(read, kind, field):
    name = FIELDS[kind][field]
    max_len = "host_maxlen" if (kind, name) == (NEGOTIATE, "host") else f"{name}_max_len"
    parts = {"offset": f"{name}_offset", "len": f"{name}_len", "max": max_len, "bytes": VALUES.get(name, name)}
    return {f"{field}.{part}": read[theirs] for part, theirs in parts.items()}


def pairs_of(reading):
    """The pairs of a CHALLENGE that has them by its flags: one value for an id, in no order."""
    found = {}
    if reading["flags"] & ntlm.NTLMSSP_NEGOTIATE_TARGET_INFO and reading["target_info.bytes"]:
        found = dict(ntlm.AV_PAIRS(reading["target_info.bytes"]).fields)
        found.pop(ntlm.NTLMSSP_AV_EOL)
    reading["pairs"] = sorted((number, value) for number, (_, value) in found.items())
    time = found.get(TIME_PAIR)
    reading["time"] = time and int.from_bytes(time[1], "little")


def in_form(reading):
    """Our reading in the form that impacket's has."""
    if "pairs" in reading:
        reading["pairs"] = sorted(reading["pairs"])


def read_one(message):
    kind = message.kind
    if kind == NL_AUTH:
        read = nrpc.NL_AUTH_MESSAGE(message.bytes)
        return {"nl_type": read["MessageType"], "flags": read["Flags"]}
    read = CLASSES[kind]()
    read.fromString(message.bytes)
    reading = {"type": read["message_type"], "flags": read["flags"]}
    for field in HEADS[kind]:
        reading |= head(read, kind, field)
    if kind == CHALLENGE:
        reading["server_challenge"] = read["challenge"]
        pairs_of(reading)
    if kind == AUTHENTICATE:
        reading["mic"] = read["MIC"] or None
    return {key: reading[key] for key in keys(kind)}


def read(messages):
    """A reading of each message; none where impacket raises."""
    for message in messages:
        try:
            yield read_one(message)
        except Exception:  # whatever its parser meets
            yield None
