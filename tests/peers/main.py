"""Holds the readings of tshark, impacket and Samba against ours, on messages that both our programs
take: those of folders, at every boundary, and drawn from a seed. `tools/peers` calls it.

    main.py READINGS SEED N FOLDER..

READINGS is the program that writes our reading. A difference shows numbers and lengths, and no bytes.
"""

import collections
import os
import pathlib
import subprocess
import sys

import by_impacket
import by_samba
import by_tshark
import planted
import rules
from message import loaded

READERS = (by_tshark, by_impacket, by_samba)
# So many differences are shown of each reader.
SHOWN = 20
WHOLE = "the whole message"
PAPER = pathlib.Path(__file__).parent / "README.md"


def our_readings(words):
    """What our program says. Raises its own line where it can't."""
    done = subprocess.run(words, capture_output=True, check=False)
    if done.returncode != 0:
        raise ChildProcessError(done.stderr.decode(errors="replace").strip() or "our own readings can't be written")
    return loaded(done.stdout.splitlines())


def in_words(value):
    """A value as a difference shows it. Of bytes and texts it is the length alone: another program
    may take a secret for a name."""
    if isinstance(value, bytes):
        return f"{len(value)} bytes"
    if isinstance(value, str):
        return f"{len(value)} characters"
    if isinstance(value, list):
        pairs = [f"{pair[0]} of {in_words(pair[-1])}" for pair in value]
        return f"pairs {', '.join(pairs) or 'none'}"
    return str(value)


def where(theirs, expected):
    """From where on two values of one length differ."""
    if isinstance(theirs, (bytes, str)) and isinstance(expected, type(theirs)) and len(theirs) == len(expected):
        place = next(at for at, (one, other) in enumerate(zip(theirs, expected)) if one != other)
        return f", which differ at {place}"
    return ""


def differences(expected, theirs):
    """The names of what isn't as it must be."""
    if expected is rules.ANY:
        return []
    if expected is rules.REFUSED or theirs is None:
        return [] if (expected is rules.REFUSED) == (theirs is None) else [WHOLE]
    keys = sorted(set(expected) | set(theirs))
    return [key for key in keys if expected.get(key) is not rules.ANY and not is_same(expected, theirs, key)]


def is_same(expected, theirs, key):
    return key in expected and key in theirs and expected[key] == theirs[key]


def told(reader, message, expected, theirs, keys):
    """A difference in plain words."""
    start = f"DIFFERENT: {message.origin}, {message.kind}, {len(message.bytes)} bytes"
    if keys == [WHOLE]:
        who = "is to refuse it, and reads it" if theirs is not None else "refuses it"
        return f"{start}: {reader.NAME} {who}"
    said = lambda reading, key: in_words(reading[key]) if key in reading else "not there"
    parts = [
        f"{key} is {said(theirs, key)} to {reader.NAME}, expected {said(expected, key)}"
        + where(theirs.get(key), expected.get(key))
        for key in keys
    ]
    return f"{start}: {'; '.join(parts)}"


class Tally:
    """What one reader came to."""

    def __init__(self):
        self.read = self.refused = self.fields = self.failed = 0
        self.rules = collections.Counter()

    def add(self, reader, message, theirs):
        expected, used = rules.expected(reader, message)
        self.rules.update(rule.name for rule in used)
        keys = differences(expected, theirs)
        if theirs is None:
            self.refused += not keys
        else:
            self.read += 1
            compared = expected.values() if isinstance(expected, dict) else ()
            self.fields += sum(value is not rules.ANY for value in compared)
        if keys:
            self.failed += 1
            if self.failed <= SHOWN:
                print(told(reader, message, expected, theirs, keys))
        return not keys

    def report(self, name):
        print(f"{name}: {self.read} messages read, {self.fields} fields compared, {self.refused} refused by a rule")
        if self.failed > SHOWN:
            print(f"and {self.failed - SHOWN} more that differ to {name}")


def unused(tallies):
    """The rules that no message came to: a list of differences that don't occur would only grow."""
    used = {name for tally in tallies for name in tally.rules}
    return [rule.name for rule in rules.RULES if rule.name not in used]


def unlisted():
    """The rules that the table of tests/peers/README.md doesn't have."""
    rows = PAPER.read_text(encoding="utf-8").splitlines()
    listed = {tuple(row.split(" | ")[:2]) for row in rows if row.startswith("| ")}
    return [rule.name for rule in rules.RULES if tuple(f"| {rule.name}".split(": ")) not in listed]


def print_rules(tallies):
    print("differences by rule, with the number of messages:")
    for rule in rules.RULES:
        count = sum(tally.rules[rule.name] for tally in tallies)
        print(f"    {rule.name}: {count} ({rule.why})")


def main(words):
    messages, refused = our_readings(words)
    print(f"{len(messages)} messages that both our programs take; {refused} that they refuse are left out")
    tallies, read, passed, failed = [], {}, 0, 0
    for reader in READERS:
        tally = Tally()
        read[reader.NAME] = list(zip(messages, reader.read(messages), strict=True))
        for message, theirs in read[reader.NAME]:
            passed += tally.add(reader, message, theirs)
        tally.report(reader.NAME)
        failed += tally.failed
        tallies.append(tally)
    print_rules(tallies)
    missed = [f"NEVER USED: {name}: take the rule out, or give a message that it is for" for name in unused(tallies)]
    missed += [f"NOT IN tests/peers/README.md: {name}: put it into the table there" for name in unlisted()]
    for reader in READERS:
        found, lost = planted.tried(reader, read[reader.NAME], differences)
        print(f"mistakes planted in our reading: {found} found by {reader.NAME}")
        passed += found
        missed += lost
    for line in missed:
        print(line)
    failed += len(missed)
    print(f"{passed} passed, {failed} failed")
    return 1 if failed else 0


def ended(words):
    """The status, and one line where a program fails, isn't there any more, or nothing can be printed."""
    try:
        status = main(words)
        sys.stdout.flush()
        return status
    except OSError as error:
        return failed_by(error)


def failed_by(error):
    try:
        print(f"{error}\n0 passed, 1 failed", flush=True)
    except OSError:
        os.write(2, f"nothing can be printed: {error}\n".encode())
        os.dup2(os.open(os.devnull, os.O_WRONLY), 1)
    return 1


if __name__ == "__main__":
    sys.exit(ended(sys.argv[1:]))
