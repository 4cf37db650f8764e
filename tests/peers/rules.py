"""The differences between our reading and another program's that the papers make, each a rule: whose
reading, of which kind of message, on what condition, and what that program must then say instead,
which is compared as everything else is. Where that can't be told, ANY stands for it, and it isn't
compared. A rule applies only where our own reading is what the papers say, so that it hides no mistake
of ours.

"Document 01" is the paper that docs/MESSAGES.md has in our own words, "request 5/12" one of those
that came after it.
"""

import array
import re

import by_samba
import by_tshark
import names
from message import AUTHENTICATE, CHALLENGE, FLAGS_PAIR, HEADS, NAMES, NEGOTIATE, NL_AUTH, STRINGS
from message import TEXT_PAIRS, TIME_PAIR, VERSION, decoded

NTLM = (NEGOTIATE, CHALLENGE, AUTHENTICATE)
IMPACKET, TSHARK, SAMBA = "impacket", "tshark", "Samba"
REFUSED, ANY = "refused", "anything"
RULES = []


class Rule:
    def __init__(self, reader, kinds, why, change):
        self.reader, self.kinds, self.why, self.change = reader, kinds, why, change
        self.name = f"{reader}: {change.__name__.replace('_', ' ')}"


def rule(readers, kinds, why):
    """Lists a function that changes what is expected of these readers, or answers REFUSED or ANY."""

    def listed(change):
        RULES.extend(Rule(reader, kinds, why, change) for reader in readers)
        return change

    return listed


def expected(reader, message):
    """What another program must say to a message, and the rules by which that isn't our own
    reading; REFUSED where it must refuse it, ANY where it may say anything."""
    reading = dict(message.ours)
    reader.in_form(reading)
    keys = reader.keys(message.kind)
    view = {key: value for key, value in reading.items() if key in keys}
    used = []
    for each in RULES:
        if each.reader == reader.NAME and message.kind in each.kinds:
            before = dict(view)
            answer = each.change(message, view)
            view = {key: value for key, value in view.items() if key in keys}
            if answer or view != before:
                used.append(each)
            if answer:
                return answer, used
    return view, used


# Fields and their heads


def is_empty(message, field):
    """Whether a field is empty to us, at place 0."""
    parts = (message.ours[f"{field}.{part}"] for part in ("offset", "len", "bytes"))
    return list(parts) == [0, 0, b""] and message.ours.get(f"{field}.text", "") == ""


def uncounted(message):
    """The fields that don't count and are read as empty, MaxLen too."""
    fields = [field for field in HEADS[message.kind] if not message.counts(field)]
    return [field for field in fields if is_empty(message, field) and message.ours[f"{field}.max"] == 0]


def by_head(message, view, field):
    length, max_len, offset = message.head(field)
    view |= {f"{field}.len": length, f"{field}.max": max_len, f"{field}.offset": offset}
    view[f"{field}.bytes"] = message.at(field)


@rule([IMPACKET], NTLM, "document 01: a field that doesn't count is read as empty, whatever its head holds")
def a_field_that_does_not_count(message, view):
    for field in uncounted(message):
        by_head(message, view, field)


@rule([IMPACKET], NTLM, "document 01: an empty field's offset is ignored, and its place is 0")
def the_offset_of_an_empty_field(message, view):
    for field in HEADS[message.kind]:
        length, _, offset = message.head(field)
        if length == 0 and is_empty(message, field):
            view[f"{field}.offset"] = offset


# Version


VERSION_ENDS = {NEGOTIATE: 40, CHALLENGE: 56, AUTHENTICATE: 72}


@rule(
    [IMPACKET],
    (NEGOTIATE,),
    "document 01: Version is ignored; impacket reads it with VERSION where a message has 36 "
    "bytes, and needs 40",
)
def a_version_that_is_cut(message, _):
    return REFUSED if message.flags & VERSION and 36 <= len(message.bytes) < 40 else None


@rule(
    [SAMBA],
    NTLM,
    "document 01: Version is ignored; Samba reads it with VERSION, and refuses a message that "
    "ends before",
)
def a_version_after_the_end(message, _):
    return REFUSED if message.flags & VERSION and len(message.bytes) < VERSION_ENDS[message.kind] else None


# The MIC


def lowest(message):
    """The lowest offset of a nonempty field, or the message's length (document 01)."""
    fields = [field for field in HEADS[AUTHENTICATE] if message.ours[f"{field}.len"]]
    return min([message.ours[f"{field}.offset"] for field in fields], default=len(message.bytes))


def mic_is_right(message):
    return message.ours["mic"] == (message.bytes[72:88] if lowest(message) >= 88 else None)


@rule([IMPACKET], (AUTHENTICATE,), "document 01: a MIC is there by the lowest offset; to impacket by the flag VERSION")
def a_mic_by_the_flag(message, view):
    if mic_is_right(message):
        view["mic"] = message.bytes[72:88] or None if message.flags & VERSION else None


# Pairs


@rule([IMPACKET], (CHALLENGE,), "document 01: if an id occurs twice, the first counts; impacket keeps the last")
def an_id_that_occurs_twice(message, view):
    last = dict(message.ours["pairs"])
    view["pairs"] = sorted(last.items())
    times = [value for number, value in message.ours["pairs"] if number == TIME_PAIR]
    if times and message.ours["time"] == int.from_bytes(times[0], "little"):
        view["time"] = int.from_bytes(last[TIME_PAIR], "little")


# Samba's heads and names


@rule(
    [SAMBA],
    NTLM,
    "document 01: a field that doesn't count and an empty field's offset are ignored; Samba "
    "refuses what passes the end",
)
def a_head_past_the_message(message, _):
    heads = [message.head(field) for field in HEADS[message.kind]]
    past = [offset for length, _, offset in heads if offset != 0 and offset + length > len(message.bytes)]
    return REFUSED if past else None


@rule([SAMBA], NTLM, "document 01: a field that doesn't count is read as empty, whatever its head holds")
def a_field_that_does_not_count_is_read(message, view):
    for field in uncounted(message):
        by_head(message, view, field)
        if field in NAMES[message.kind]:
            # An offset of 0 is no pointer to Samba.
            name = message.at(field) if message.head(field)[2] else b""
            if message.unicode and len(name) % 2:
                return REFUSED
            view[f"{field}.text"] = decoded(name, message.unicode)
    return None


@rule([SAMBA], NTLM, "document 01: a name set as OEM is bytes; Samba takes them for characters of CP850")
def an_oem_name(message, view):
    if not message.unicode:
        for field in NAMES[message.kind]:
            view[f"{field}.text"] = view[f"{field}.text"].encode("latin-1", "replace").decode("cp850")


def is_half(text):
    """Whether a text has half a surrogate pair."""
    return any(0xD800 <= ord(character) < 0xE000 for character in text)


@rule([SAMBA], NTLM, "document 01: a name is units of 16 bits, whatever they are; Samba refuses half a surrogate pair")
def half_a_surrogate_pair(message, view):
    return REFUSED if any(is_half(view[f"{field}.text"]) for field in NAMES[message.kind]) else None


@rule([SAMBA], NTLM, "MS-NLMP 2.2.1: a name is as long as its head says; to Samba a zero ends it")
def a_zero_in_a_name(message, view):
    for field in NAMES[message.kind]:
        view[f"{field}.text"] = view[f"{field}.text"].split("\0")[0]


# Samba's responses


@rule(
    [SAMBA],
    (AUTHENTICATE,),
    "document 01: a response isn't looked into, and MaxLen is ignored; to Samba that is its "
    "size, 24 bytes or 44 and more",
)
def the_size_of_an_nt_response(message, _):
    length, max_len, offset = message.head("nt")
    needed = 0 if length == 0 else 24 if length == 24 else 44
    # After the 44 bytes come pairs: one that has begun must have its four bytes.
    cut = needed == 44 and 44 < max_len < 48
    past = offset != 0 and offset + max_len > len(message.bytes)
    if past or cut or max_len < needed:
        return REFUSED
    # Pairs that begin in the response and end in what comes after it, whatever that is.
    return ANY if needed == 44 and length < 48 <= max_len else None


# Samba's pairs


@rule([SAMBA], (CHALLENGE,), "document 01: a field that doesn't count is read as empty; Samba reads its pairs")
def pairs_that_do_not_count(message, view):
    if "target_info" not in uncounted(message) or message.head("target_info")[2] == 0:
        return None
    if message.ours["pairs"] or message.ours["time"] is not None:
        return None
    found = pairs(message.at("target_info"))
    if found is None:
        return REFUSED
    view["pairs"] = [by_samba.pair_in_form(*each) for each in found]
    times = [value for number, _, value in view["pairs"] if number == TIME_PAIR]
    view["time"] = times[0] if times else None
    return None


def pairs(listed):
    """The pairs of a list up to its end pair, or as far as there are four bytes for one; none where
    there is no room for a first one, or a value is cut short, or too short for its id, or half of a
    unit."""
    found, sizes = [], {FLAGS_PAIR: 4, TIME_PAIR: 8, 10: 16}
    if 0 < len(listed) < 4:
        return None
    while len(listed) >= 4:
        number, length = int.from_bytes(listed[:2], "little"), int.from_bytes(listed[2:4], "little")
        value, listed = listed[4 : 4 + length], listed[4 + length :]
        if len(value) < length or length < sizes.get(number, 0) or number in TEXT_PAIRS and length % 2:
            return None
        if number == 0:
            break
        found.append((number, length, value[: sizes.get(number, length)]))
    return found


@rule(
    [SAMBA],
    (CHALLENGE,),
    "document 01: pair 8 has any size; to Samba it is Single_Host_Data (MS-NLMP 2.2.2.2), of "
    "48 bytes",
)
def a_short_single_host(_, view):
    return REFUSED if any(number == 8 and length < 48 for number, length, _ in view["pairs"]) else None


@rule(
    [SAMBA],
    (CHALLENGE,),
    "document 01: a pair's name is any even number of bytes; Samba refuses half a surrogate "
    "pair",
)
def half_a_surrogate_pair_in_a_pair(_, view):
    return REFUSED if any(number in TEXT_PAIRS and is_half(value) for number, _, value in view["pairs"]) else None


@rule([SAMBA], (CHALLENGE,), "MS-NLMP 2.2.2.1: a value is as long as AvLen says; to Samba a zero ends a name")
def a_zero_in_a_pair(_, view):
    view["pairs"] = [
        (number, length, value.split("\0")[0] if number in TEXT_PAIRS else value)
        for number, length, value in view["pairs"]
    ]


# NL_AUTH


@rule(
    [IMPACKET, TSHARK, SAMBA],
    (NL_AUTH,),
    "MS-NRPC 2.2.1.3.1: other bits are ignored on receipt, and a response's flags (document "
    "01)",
)
def ignored_bits(message, view):
    counted = 0x1F if message.bytes[0] == 0 else 0
    if message.ours["flags"] == message.flags & counted:
        view["flags"] = message.flags


@rule([SAMBA], (NL_AUTH,), "MS-NRPC 2.2.1.3.1: a response's buffer is one zero byte; Samba wants four")
def a_response_of_one_byte(message, _):
    return REFUSED if message.bytes[0] == 1 else None


@rule([SAMBA], (NL_AUTH,), "document 01: A and B are bytes; Samba takes them for characters of CP850")
def an_oem_string(_, view):
    for key in ("a.text", "b.text"):
        if key in view:
            view[key] = view[key].decode("cp850").encode()


def letters(message):
    """The strings that a request has."""
    return [letter for letter in STRINGS if f"{letter}.text" in message.ours]


def has_jump(message):
    return any(message.ours[f"{letter}.jumps"] for letter in letters(message))


def names_are_right(message):
    """Whether our strings are those that the house's rule gives."""
    there = letters(message)
    found = names.strings(message.bytes, there, names.BUFFER, names.whole)
    parts = ("offset", "len", "text")
    return found == {letter: tuple(message.ours[f"{letter}.{part}"] for part in parts) for letter in there}


@rule([SAMBA], (NL_AUTH,), "request 5/12: a jump's place is counted from the buffer; Samba counts from the message")
def a_jump_from_the_message(message, view):
    if not has_jump(message) or not names_are_right(message):
        return None
    there = letters(message)
    found = names.strings(message.bytes, there, names.MESSAGE, names.up_to_zero)
    if found is None:
        return REFUSED
    view |= {f"{letter}.text": found[letter][2] for letter in there if letter not in "ab"}
    return None


@rule([SAMBA], (NL_AUTH,), "request 5/12: a label is any bytes; to Samba a zero ends it")
def a_zero_in_a_label(message, view):
    if not has_jump(message) and names_are_right(message):
        there = letters(message)
        found = names.strings(message.bytes, there, names.MESSAGE, names.up_to_zero)
        view |= {f"{letter}.text": found[letter][2] for letter in there if letter not in "ab"}


# tshark. What it shows of a message comes in this order, and where it can't go on, the rest is missing.


ORDER = {
    NEGOTIATE: ("flags", "domain", "workstation"),
    CHALLENGE: ("target_name", "flags", "server_challenge", "target_info"),
    AUTHENTICATE: ("lm", "nt", "domain", "user", "workstation", "key", "flags", "mic"),
}
SIGNED = 0x7FFF


def ends_at(message, view, last):
    """Takes out a part and all that comes after it."""
    order = ORDER[message.kind]
    gone = order[order.index(last) :]
    for key in list(view):
        if key.split(".")[0] in gone:
            del view[key]
    if message.kind == AUTHENTICATE:
        view["mic"] = None
    if message.kind == CHALLENGE:
        view |= {"pairs": [], "time": None}
    view["whole"] = False


def signed(offset):
    return offset - (offset >> 31 << 32)


def payload_offsets(message):
    """The offsets that tell tshark where an AUTHENTICATE's payload begins. They have a sign."""
    return {field: signed(message.head(field)[2]) for field in HEADS[AUTHENTICATE] if field != "key"}


def payload_start(message):
    """Where tshark takes the payload to begin: at the lowest offset of the responses, and of the names
    whose offset is behind their head."""
    offsets = payload_offsets(message).items()
    return min(at for field, at in offsets if field in ("lm", "nt") or at > HEADS[AUTHENTICATE][field][0] + 8)


def bytes_shown(message, field):
    """What tshark finds where a head points; none past the message. A negative offset is counted from
    the message's end, a name of 16-bit units begins at an even one, and a name's length of 65,535 is
    that of all the rest."""
    length, _, offset = message.head(field)
    if length == 0:
        return b""
    is_name = field in NAMES[message.kind]
    offset = even(offset) if is_name and message.unicode else offset
    start = offset if offset < 1 << 31 else offset - (1 << 32) + len(message.bytes)
    if not 0 <= start < len(message.bytes):
        return None
    if is_name and length == 0xFFFF:
        return message.bytes[start:]
    found = message.bytes[start : start + length]
    return found if len(found) == length else None


def even(offset):
    return offset + offset % 2 & 0xFFFFFFFF


@rule([TSHARK], NTLM, "document 01: a field that doesn't count is read as empty, whatever its head holds")
def a_field_that_does_not_count_is_shown(message, view):
    for field in uncounted(message):
        by_head(message, view, field)
        found = bytes_shown(message, field) or b""
        view[f"{field}.bytes"] = found
        if field in NAMES[message.kind]:
            half = MARK if message.unicode and len(found) % 2 else ""
            view[f"{field}.text"] = decoded(found[: len(found) - len(half)], message.unicode) + half
            if message.unicode:
                view[f"{field}.offset"] = even(view[f"{field}.offset"])
            if view[f"{field}.len"] == 0xFFFF:
                view[f"{field}.len"] = 0xFFFFFFFF


@rule([TSHARK], NTLM, "MS-NLMP 2.2.1: an empty field has a head too; tshark shows nothing of it")
def the_head_of_an_empty_field(message, view):
    for field in HEADS[message.kind]:
        if view[f"{field}.len"] == 0:
            view.pop(f"{field}.offset", None)
            view.pop(f"{field}.max", None)


@rule([TSHARK], NTLM, "MS-NLMP 2.2.1: MaxLen has no sign; tshark shows that of a name over 32,767 as a negative number")
def a_large_max_len_of_a_name(message, view):
    for field in NAMES[message.kind]:
        if view.get(f"{field}.max", 0) > SIGNED:
            view[f"{field}.max"] |= 0xFFFF0000


# A surrogate pair, the first half of one with whatever unit comes after it, the second half alone.
SURROGATES = re.compile("([\ud800-\udbff][\udc00-\udfff])|[\ud800-\udbff].?|[\udc00-\udfff]", re.DOTALL)
MARK = "\ufffd"


def shown(text, is_unicode):
    """A name as tshark shows it: up to a zero, with a mark for what it can't show."""
    if is_unicode:
        units = "".join(map(chr, array.array("H", text.encode("utf-16-le", "surrogatepass"))))
        text = SURROGATES.sub(lambda found: joined(found[1]) if found[1] else MARK, units)
    else:
        text = re.sub("[\x80-\xff]", MARK, text)
    return text.split("\0")[0]


def joined(pair):
    return pair.encode("utf-16-le", "surrogatepass").decode("utf-16-le")


@rule(
    [TSHARK],
    NTLM,
    "document 01: a name is bytes or units of 16 bits, as many as its head says; tshark shows "
    "ASCII or UTF-16, up to a zero",
)
def a_name_that_is_no_text(message, view):
    for field in NAMES[message.kind]:
        view[f"{field}.text"] = shown(view[f"{field}.text"], message.unicode)


@rule([TSHARK], (AUTHENTICATE,), "document 01: the flags stand at 60; where tshark finds none, names are ASCII to it")
def names_without_flags(message, view):
    if message.unicode and min(payload_offsets(message).values()) <= 52:
        for field in NAMES[message.kind]:
            name = message.ours[f"{field}.text"].encode("utf-16-le", "surrogatepass")
            view[f"{field}.text"] = shown(decoded(name, False), False)


@rule(
    [TSHARK],
    (AUTHENTICATE,),
    "document 01: the fixed part has 64 bytes, whatever an empty field's offset is; to tshark "
    "it ends at the lowest of the first five offsets",
)
def what_stands_behind_the_payloads_start(message, view):
    start = payload_start(message)
    if start <= 52:
        for part in ("offset", "len", "max", "bytes"):
            view.pop(f"key.{part}", None)
    if start <= 60:
        view.pop("flags")
    if mic_is_right(message):
        view["mic"] = message.bytes[72:88] if start > 72 else None


@rule(
    [TSHARK],
    NTLM,
    "document 01: a field that doesn't count is read as empty; tshark ends where its head "
    "points past the message",
)
def a_field_past_the_message(message, view):
    for field in uncounted(message):
        if f"{field}.len" in view and bytes_shown(message, field) is None:
            ends_at(message, view, field)
            if field == "target_info":
                # It may come as far as some of the list.
                parts = ("offset", "len", "max", "bytes")
                view |= {f"target_info.{part}": ANY for part in parts} | {"pairs": ANY, "time": ANY, "whole": ANY}


def start_behind(message, fields):
    """Where tshark takes a payload to begin: at the lowest of these fields' offsets, of those that are
    behind their head."""
    heads = [(HEADS[message.kind][field][0] + 8, signed(message.head(field)[2])) for field in fields]
    return min([at for end, at in heads if at > end], default=len(message.bytes))


@rule(
    [TSHARK],
    (CHALLENGE,),
    "document 01: the fixed part has 48 bytes, whatever an empty field's offset is; to tshark "
    "it ends at TargetName's",
)
def a_target_info_behind_the_payloads_start(message, view):
    if start_behind(message, ["target_name"]) <= 40:
        for part in ("offset", "len", "max", "bytes"):
            view.pop(f"target_info.{part}", None)
        view |= {"pairs": [], "time": None}


@rule(
    [TSHARK],
    (NEGOTIATE, CHALLENGE),
    "document 01: Version is ignored; tshark reads it with VERSION, after all the rest, and "
    "may not come to the end where it is cut",
)
def a_version_that_is_cut_short(message, view):
    if message.flags & VERSION and len(message.bytes) < VERSION_ENDS[message.kind]:
        view["whole"] = ANY


@rule([TSHARK], NTLM, "document 01: a field has up to 65,535 bytes; tshark ends at a name of over 32,767")
def a_name_of_over_32767_bytes(message, view):
    for field in NAMES[message.kind]:
        if SIGNED < view.get(f"{field}.len", 0) <= 0xFFFF:
            ends_at(message, view, field)


@rule(
    [TSHARK],
    (CHALLENGE,),
    "document 01: a field that doesn't count is read as empty; tshark shows its pairs, and of "
    "a list with a fault what it can",
)
def pairs_that_do_not_count_are_shown(message, view):
    if "target_info" not in uncounted(message) or message.ours["pairs"] or message.ours["time"] is not None:
        return
    found = view.get("target_info.bytes")
    if found and found is not ANY:
        listed = well_formed(found)
        if listed is None:
            view |= {"pairs": ANY, "time": ANY, "whole": ANY}
            return
        view["pairs"] = [(number, len(value), value or None) for number, value in listed] + [(0, 0, None)]
        times = [value for number, value in listed if number == TIME_PAIR]
        view["time"] = int.from_bytes(times[0], "little") if times else None


def well_formed(listed):
    """The pairs of a list that passes checks 10 to 13; none of another."""
    found, sizes = [], {0: 0, FLAGS_PAIR: 4, TIME_PAIR: 8, 10: 16}
    while len(listed) >= 4:
        number, length = int.from_bytes(listed[:2], "little"), int.from_bytes(listed[2:4], "little")
        value, listed = listed[4 : 4 + length], listed[4 + length :]
        if len(value) < length or length != sizes.get(number, length) or number in TEXT_PAIRS and length % 2:
            return None
        if number == 0:
            return None if listed else found
        found.append((number, value))
    return None


YEAR_1970, FOREVER = 116_444_736_000_000_000, 1 << 63


@rule(
    [TSHARK],
    (CHALLENGE,),
    "MS-DTYP 2.3.3: a FILETIME counts from 1601; tshark shows none before 1970, and the "
    "largest one as no time",
)
def a_time_that_is_not_shown(message, view):
    times = [int.from_bytes(value, "little") for number, value in message.ours["pairs"] if number == TIME_PAIR]
    if times and view["time"] == times[0] and (times[0] < YEAR_1970 or times[0] == FOREVER):
        view["time"] = ANY


@rule(
    [TSHARK],
    (CHALLENGE,),
    "document 01: other ids are passed over, and have a value; tshark shows none of an id that "
    "it doesn't know",
)
def an_id_that_is_not_known(_, view):
    if view["pairs"] is not ANY:
        view["pairs"] = [(number, length, value if number <= 10 else None) for number, length, value in view["pairs"]]


@rule(
    [TSHARK],
    (AUTHENTICATE,),
    "document 01: a response isn't looked into; tshark takes one of over 24 bytes for NTLMv2, "
    "whose 44 bytes it reads in any case",
)
def an_nt_response_that_is_too_short(message, view):
    if 24 < message.head("nt")[0] < 44:
        order = ORDER[AUTHENTICATE]
        behind = order[order.index("domain") :]
        view |= {key: ANY for key in view if key.split(".")[0] in behind} | {"whole": ANY}


@rule(
    [TSHARK],
    (NL_AUTH,),
    "MS-NRPC 3.3.4.1: the message goes in a DCE/RPC bind; a packet of one has no room for the "
    "longest",
)
def a_message_that_has_no_packet(message, _):
    return REFUSED if len(message.bytes) > by_tshark.MOST_NL_AUTH else None


@rule(
    [TSHARK],
    (NL_AUTH,),
    "document 01: A and B are bytes without their zero byte; tshark shows ASCII, and counts "
    "the zero byte",
)
def a_string_with_its_zero_byte(_, view):
    for letter in "ab":
        if f"{letter}.len" in view:
            view[f"{letter}.len"] += 1
            view[f"{letter}.text"] = shown(view[f"{letter}.text"].decode("latin-1"), False).encode()


@rule(
    [TSHARK],
    (NL_AUTH,),
    "request 5/12: a jump's place is counted from the buffer, and a label is any bytes; tshark "
    "counts from the message, and shows text",
)
def a_name_that_is_read_otherwise(message, view):
    there = [letter for letter in letters(message) if letter not in "ab"]
    if there and names_are_right(message):
        names_shown(message, view, there, message.ours[f"{there[0]}.offset"])


@rule(
    [TSHARK],
    (NL_AUTH,),
    "MS-NRPC 2.2.1.3.1: only a request's flags count; tshark shows strings for those of a "
    "response too",
)
def strings_of_a_response(message, view):
    there = [letter for bit, letter in enumerate(STRINGS) if message.flags >> bit & 1]
    if message.bytes[0] == 1 and there and not letters(message):
        # The buffer is one zero byte, which is an empty string.
        view |= {f"{there[0]}.offset": 8, f"{there[0]}.len": 1}
        view[f"{there[0]}.text"] = b"" if there[0] in "ab" else names.ROOT
        view["whole"] = len(there) == 1


def names_shown(message, view, there, at):
    """What tshark shows of the names C, D and E, the first of which stands at a place."""
    for number, letter in enumerate(there):
        try:
            text, length = names.shown_name(message.bytes, at)
        except IndexError:
            parts = ("offset", "len", "text")
            view |= {f"{left}.{part}": ANY for left in there[number:] for part in parts} | {"whole": ANY}
            return
        view |= {f"{letter}.offset": at, f"{letter}.len": length, f"{letter}.text": text}
        at += length
