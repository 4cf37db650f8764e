"""What tshark reads in a message: its dissector of NTLMSSP on bare messages, and that of the
Netlogon secure channel on a DCE/RPC bind, as MS-NRPC 3.3.4.1 sends NL_AUTH."""

import datetime
import json
import re
import struct
import subprocess

from message import AUTHENTICATE, CHALLENGE, HEADS, NAMES, NEGOTIATE, NL_AUTH, STRINGS, TIME_PAIR

NAME = "tshark"
PACKAGES = ("tshark",)

FIELDS = {
    NEGOTIATE: {"domain": "negotiate.domain", "workstation": "negotiate.callingworkstation"},
    CHALLENGE: {"target_name": "challenge.target_name", "target_info": "challenge.target_info"},
    AUTHENTICATE: {
        "lm": "auth.lmresponse",
        "nt": "auth.ntresponse",
        "domain": "auth.domain",
        "user": "auth.username",
        "workstation": "auth.hostname",
        "key": "auth.sesskey",
    },
}
NL_NAMES = ("nb_domain", "nb_host", "dns_domain", "dns_host", "nb_host_utf8")
NL = "netlogon.secchan.nl_auth_message."
# A link type of the user's own, each packet of which is a bare NTLM message.
LINK_USER, LINK_IP = 147, 101
AS_NTLMSSP = ["-o", 'uat:user_dlts:"User 0 (DLT=147)","ntlmssp","0","","0",""']
AS_DCERPC = ["-d", "tcp.port==135,dcerpc"]
# So many messages go to one run of tshark, all of whose output is held.
BATCH = 500
# The largest NL_AUTH message that fits into one IP packet with its DCE/RPC bind.
HEADERS = 40 + 16 + 56 + 8
MOST_NL_AUTH = 65_535 - HEADERS


def keys(kind):
    """What tshark hands out of a kind of message. `whole` is whether it came to the end."""
    if kind == NL_AUTH:
        parts = ("offset", "len", "text")
        return ["nl_type", "flags", "whole"] + [f"{letter}.{part}" for letter in STRINGS for part in parts]
    parts = ("offset", "len", "max", "bytes")
    fields = [f"{field}.{part}" for field in HEADS[kind] for part in parts]
    texts = [f"{field}.text" for field in NAMES[kind]]
    more = {NEGOTIATE: [], CHALLENGE: ["server_challenge", "pairs", "time"], AUTHENTICATE: ["mic"]}
    return ["type", "flags", "whole"] + fields + texts + more[kind]


def pcap(packets, link_type):
    """A capture of packets."""
    parts = [struct.pack("<IHHiIII", 0xA1B2C3D4, 2, 4, 0, 0, 262_144, link_type)]
    for number, packet in enumerate(packets):
        parts += [struct.pack("<IIII", number, 0, len(packet), len(packet)), packet]
    return b"".join(parts)


def bound(number, message):
    """A DCE/RPC bind to Netlogon whose verifier is an NL_AUTH message (auth type 68), in TCP over
    IP, each in a connection of its own."""
    netlogon = bytes.fromhex("785634123412cdabef0001234567cffb") + struct.pack("<I", 1)
    ndr = bytes.fromhex("045d888aeb1cc9119fe808002b104860") + struct.pack("<I", 2)
    body = struct.pack("<HHIB3xHBx", 4280, 4280, 0, 1, 0, 1) + netlogon + ndr
    verifier = struct.pack("<BBBxI", 68, 6, 0, 1) + message
    size = 16 + len(body) + len(verifier)
    bind = struct.pack("<BBBBIHHI", 5, 0, 11, 3, 0x10, size, len(message), 1) + body + verifier
    tcp = struct.pack(">HHIIBBHHH", 1024 + number, 135, 1, 1, 0x50, 0x18, 65_535, 0, 0)
    local = bytes([127, 0, 0, 1])
    ip = struct.pack(">BBHHHBBH4s4s", 0x45, 0, 40 + size, number, 0, 64, 6, 0, local, local)
    return ip + tcp + bind


def dissected(packets, link_type, words):
    """tshark's tree of each packet: lists of names with values, since names repeat."""
    command = ["tshark", "-r", "-", "-n", *words, "-T", "json", "-x", "-J", "ntlmssp dcerpc _ws.malformed"]
    done = subprocess.run(command, input=pcap(packets, link_type), capture_output=True, check=False)
    if done.returncode != 0:
        said = done.stderr.decode(errors="replace").splitlines() or ["no word of why"]
        raise ChildProcessError(f"tshark failed: {said[-1]}")
    trees = layers_in(done.stdout.decode("utf-8", "surrogateescape"))
    if len(trees) != len(packets):
        raise ChildProcessError(f"tshark printed {len(trees)} trees for {len(packets)} packets: is it another version?")
    return trees


def layers_in(shown):
    """The layers of each packet, out of tshark's JSON. What it printed isn't shown: it may hold secrets."""
    try:
        return [dict(dict(packet)["_source"])["layers"] for packet in json.loads(shown, object_pairs_hook=list)]
    except (ValueError, KeyError, TypeError):
        raise ChildProcessError("tshark printed something else than trees of packets: is it another version?") from None


def everything(tree):
    """Each name of a tree with its value, in the order in which tshark shows them."""
    for name, value in tree:
        yield name, value
        if isinstance(value, list) and value and isinstance(value[0], tuple):
            yield from everything(value)


MONTHS = ("Jan", "Feb", "Mar", "Apr", "May", "Jun", "Jul", "Aug", "Sep", "Oct", "Nov", "Dec")
DAYS_OF_400_YEARS = 146_097


def file_time(shown):
    """The FILETIME (MS-DTYP 2.3.3) of a time as tshark shows it. Its years go past those that
    Python has, and the calendar is the same every 400 years. Words for a time stay as they are."""
    parts = re.fullmatch(r"(\w+) +(\d+), (\d+) ([\d:]+)\.(\d+) UTC", shown)
    if not parts:
        return shown
    month, day, year, clock, fraction = parts.groups()
    many, rest = divmod(int(year) - 1601, 400)
    days = (datetime.date(1601 + rest, MONTHS.index(month) + 1, int(day)) - datetime.date(1601, 1, 1)).days
    hours, minutes, seconds = map(int, clock.split(":"))
    whole = ((days + many * DAYS_OF_400_YEARS) * 24 + hours) * 3600 + minutes * 60 + seconds
    return whole * 10_000_000 + int(fraction) // 100


def field(found, field, name):
    """A field with a head; an empty one is shown without one."""
    reading = {}
    if f"{name}_raw" not in found:
        return reading
    tree = found.get(f"{name}_tree") or found.get(name)
    if not isinstance(tree, list):
        return {f"{field}.len": 0, f"{field}.bytes": b"", f"{field}.text": ""}
    for part, value in everything(tree):
        if part.endswith((".length", ".maxlen", ".offset")) and "item" not in part:
            reading[f"{field}.{ {'length': 'len', 'maxlen': 'max', 'offset': 'offset'}[part.rsplit('.', 1)[1]] }"] = int(value)
    reading[f"{field}.bytes"] = bytes.fromhex(found[f"{name}_raw"][0])
    if isinstance(found.get(name), str):
        reading[f"{field}.text"] = found[name]
    return reading


def pairs(tree):
    """The pairs of a CHALLENGE: each is a part of the tree with the pair's id, length and value."""
    found, times = [], []
    for name, part in tree:
        if not name.startswith("Attribute: "):
            continue
        values = dict(part)
        number = int(values["ntlmssp.challenge.target_info.item.type"], 16)
        length = int(values["ntlmssp.challenge.target_info.item.length"])
        raw = [value for each, value in part if each.endswith("_raw") and ".item." not in each]
        found.append((number, length, bytes.fromhex(raw[0][0]) if raw else None))
        times += [file_time(value) for each, value in part if each.endswith(".timestamp")]
    return found, times[0] if times else None


def in_form(reading):
    """Our reading in the form that tshark's has: with a pair's length, and the end pair."""
    reading["whole"] = True
    if reading.get("pairs") or reading.get("target_info.len"):
        reading["pairs"] = [(number, len(value), value or None) for number, value in reading["pairs"]] + [(0, 0, None)]


def ntlm(kind, layers):
    tree = dict(layers)["ntlmssp"]
    found = dict(tree)
    reading = {"whole": "_ws.malformed" not in dict(layers)}
    if "ntlmssp.messagetype" in found:
        reading["type"] = int(found["ntlmssp.messagetype"], 16)
    if "ntlmssp.negotiateflags" in found:
        reading["flags"] = int(found["ntlmssp.negotiateflags"], 16)
    for ours, theirs in FIELDS[kind].items():
        reading |= field(found, ours, f"ntlmssp.{theirs}")
    if kind == CHALLENGE:
        if "ntlmssp.ntlmserverchallenge_raw" in found:
            reading["server_challenge"] = bytes.fromhex(found["ntlmssp.ntlmserverchallenge_raw"][0])
        info = found.get("ntlmssp.challenge.target_info")
        reading["pairs"], reading["time"] = pairs(info) if isinstance(info, list) else ([], None)
    if kind == AUTHENTICATE:
        mic = found.get("ntlmssp.authenticate.mic_raw")
        reading["mic"] = mic and bytes.fromhex(mic[0])
    return {key: value for key, value in reading.items() if key in keys(kind)}


def nl_auth(layers):
    found = dict(everything(layers))
    reading = {"whole": "_ws.malformed" not in found}
    for ours, theirs in (("nl_type", "message_type"), ("flags", "message_flags")):
        if NL + theirs in found:
            reading[ours] = int(found[NL + theirs], 16)
    for letter, name in zip(STRINGS, NL_NAMES):
        if NL + name in found:
            _, offset, length, *_ = found[f"{NL}{name}_raw"]
            text = found[NL + name].encode("utf-8", "surrogateescape")
            reading |= {f"{letter}.offset": offset - HEADERS, f"{letter}.len": length, f"{letter}.text": text}
    return reading


def read_batch(batch):
    """The readings of some messages, all of one kind."""
    if batch[0].kind == NL_AUTH:
        packets = [bound(number, message.bytes) for number, message in enumerate(batch)]
        return [nl_auth(layers) for layers in dissected(packets, LINK_IP, AS_DCERPC)]
    shown = dissected([message.bytes for message in batch], LINK_USER, AS_NTLMSSP)
    return [ntlm(message.kind, layers) for message, layers in zip(batch, shown)]


def read(messages):
    """A reading of each message; none where it has no room in a packet. The kinds go by themselves:
    what tshark makes of an AUTHENTICATE may go by a CHALLENGE before it."""
    fits = [message for message in messages if message.kind != NL_AUTH or len(message.bytes) <= MOST_NL_AUTH]
    readings = {}
    for kind in (NEGOTIATE, CHALLENGE, AUTHENTICATE, NL_AUTH):
        chosen = [message for message in fits if message.kind == kind]
        for start in range(0, len(chosen), BATCH):
            batch = chosen[start : start + BATCH]
            readings |= {id(message): reading for message, reading in zip(batch, read_batch(batch), strict=True)}
    return [readings.get(id(message)) for message in messages]
