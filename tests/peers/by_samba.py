"""What Samba's NDR reads in a message: samba.dcerpc.ntlmssp, and ndrdump for NL_AUTH."""

import os
import re
import subprocess
from concurrent.futures import ThreadPoolExecutor

from samba.dcerpc import ntlmssp
from samba.ndr import ndr_unpack
from samba.param import LoadParm

from message import AUTHENTICATE, CHALLENGE, FLAGS_PAIR, HEADS, NAMES, NEGOTIATE, NL_AUTH, STRINGS, TEXT_PAIRS, TIME_PAIR, decoded

NAME = "Samba"
PACKAGES = ("python3-samba", "samba-testsuite")

FIELDS = {
    "domain": "DomainName",
    "workstation": "Workstation",
    "user": "UserName",
    "target_name": "TargetName",
    "target_info": "TargetInfo",
    "lm": "LmChallengeResponse",
    "nt": "NtChallengeResponse",
    "key": "EncryptedRandomSessionKey",
}
CLASSES = {
    NEGOTIATE: ntlmssp.NEGOTIATE_MESSAGE,
    CHALLENGE: ntlmssp.CHALLENGE_MESSAGE,
    AUTHENTICATE: ntlmssp.AUTHENTICATE_MESSAGE,
}
# Whatever the machine's own settings are: its OEM character set is then CP850.
NO_SETTINGS = "/dev/null"
SETTINGS = LoadParm()
SETTINGS.load(NO_SETTINGS)
NL_NAMES = ("oem_netbios_domain", "oem_netbios_computer", "utf8_dns_domain", "utf8_dns_host", "utf8_netbios_computer")


def keys(kind):
    """What Samba hands out of a kind of message: names as text, no offset, no MIC."""
    if kind == NL_AUTH:
        return ["nl_type", "flags"] + [f"{letter}.text" for letter in STRINGS]
    fields = [f"{field}.{part}" for field in HEADS[kind] for part in ("len", "max")]
    texts = [f"{field}.text" for field in NAMES[kind]]
    more = {NEGOTIATE: [], CHALLENGE: ["server_challenge", "pairs", "time"], AUTHENTICATE: []}
    return ["type", "flags"] + fields + texts + more[kind]


def pair(av_pair):
    """A pair's id, its length, and its value where Samba gives it as a text or a number."""
    number = av_pair.AvId
    shown = number in TEXT_PAIRS or number in (FLAGS_PAIR, TIME_PAIR)
    return number, av_pair.AvLen, av_pair.Value if shown else None


def pair_in_form(number, length, value):
    if number in TEXT_PAIRS:
        return number, length, decoded(value, True)
    if number in (FLAGS_PAIR, TIME_PAIR):
        return number, length, int.from_bytes(value, "little")
    return number, length, None


def in_form(reading):
    """Our reading in the form that Samba's has."""
    if "pairs" in reading:
        reading["pairs"] = [pair_in_form(number, len(value), value) for number, value in reading["pairs"]]


def read_one(message):
    kind = message.kind
    read = ndr_unpack(CLASSES[kind], message.bytes, allow_remaining=True)
    reading = {"type": int(read.MessageType), "flags": read.NegotiateFlags}
    for field in HEADS[kind]:
        reading[f"{field}.len"] = getattr(read, f"{FIELDS[field]}Len")
        reading[f"{field}.max"] = getattr(read, f"{FIELDS[field]}MaxLen")
    for field in NAMES[kind]:
        reading[f"{field}.text"] = getattr(read, FIELDS[field]) or ""
    if kind == CHALLENGE:
        reading["server_challenge"] = bytes(read.ServerChallenge)
        found = [pair(each) for each in read.TargetInfo.pair] if read.TargetInfo else []
        reading["pairs"] = [each for each in found if each[0] != ntlmssp.MsvAvEOL]
        times = [value for number, _, value in reading["pairs"] if number == TIME_PAIR]
        reading["time"] = times[0] if times else None
    return reading


def nl_auth(message):
    """ndrdump's print of the structure, taken apart."""
    done = subprocess.run(
        ["ndrdump", "-s", NO_SETTINGS, "schannel", "NL_AUTH_MESSAGE", "struct"],
        input=message.bytes,
        capture_output=True,
        check=False,
    )
    shown = done.stdout
    if done.returncode != 0 or b"\ndump OK" not in shown:
        return None
    reading = {
        "nl_type": int(re.search(rb"MessageType +: \w+ \(0x(\w+)\)", shown)[1], 16),
        "flags": int(re.search(rb"Flags +: 0x(\w+)", shown)[1], 16),
    }
    for letter, name in zip(STRINGS, NL_NAMES):
        text = re.search(rb"\n +%s +: '(.*?)'\n(?= +\w+ +: |dump OK)" % name.encode(), shown, re.DOTALL)
        if text:
            reading[f"{letter}.text"] = text[1]
    return reading


def read_any(message):
    if message.kind == NL_AUTH:
        return nl_auth(message)
    try:
        return read_one(message)
    except Exception:  # NTSTATUSError, RuntimeError or UnicodeDecodeError
        return None


def read(messages):
    """A reading of each message; none where Samba refuses it."""
    with ThreadPoolExecutor(os.cpu_count()) as pool:
        yield from pool.map(read_any, messages)
