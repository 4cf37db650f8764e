"""Signs the box in to servers that know nothing of this project, and prints in a table what each answered. A word of the command
is a column that is run, or COLUMN=PACKAGES for one that is left out since Debian's packages are missing. The servers' files stand
in a temporary folder; the messages that were seen, and the servers' logs, are kept in the folder of the programs, which
SIGN_IN_PROGRAMS names. The status is 0 only where every column was run and every trial went as expected, 3 where a column was
left out and the others went as expected, and else 1."""
import importlib
import json
import os
import re
import shutil
import signal
import sys
import tempfile

import box as client
from box import Box, BoxRefused

NO_128 = client.WANTED & ~client.BITS_128
OEM = client.WANTED & ~client.UNICODE | client.OEM
UNSENT = "a name can't be sent whole"
DNS_DOMAIN, DNS_HOST = "depot.example.com", "box7.depot.example.com"


class Trial:
    """A sign-in. expected: "taken", "refused" by the acceptor, or what the box itself says. mic: what the bench's check of the
    MIC says over the messages that the server saw; None where no MIC is due. shows: what the box's log lines must have, besides the
    name. by_list: only a list of users can tell the fault. slug: its messages are kept under this name."""
    kind = "NTLM"

    def __init__(self, what, expected, mic, user=client.LONG, shows="", slug=None, timestamp=True, domain=None,
                 by_list=False, **box):
        self.what, self.expected, self.mic, self.user, self.timestamp = what, expected, mic, user, timestamp
        self.shows, self.domain, self.by_list, self.box, self.slug = shows, domain, by_list, box, slug
        self.bench = mic or ("none due" if expected == "taken" else "nothing sent")

    def box_for(self, acceptor):
        return Box(self.user, acceptor.domain if self.domain is None else self.domain, **self.box)

    def fault_of(self, box):
        """What is wrong with a box's lines and answer, whatever the acceptor says: three lines with the name whole, and the
        server's time in the response where it sent one."""
        units = memoryview(self.user.encode("utf-16-le")).cast("H")
        name = "".join(chr(unit) if unit < 0x80 else "\\u%04X" % unit for unit in units)
        if len(box.lines) != 3 or " user=%s work=BOX7 " % name not in box.lines[2] or self.shows not in box.lines[2]:
            return "logged: %s" % box.lines
        times = [word[5:] for word in box.lines[1].split() if word.startswith("time=")]
        return "another time than the server's" if times and "%016X" % box.response_time() not in times else ""

    def run(self, acceptor, kept):
        """-> (what happened, as a cell of the table; did it go as expected)"""
        if self.by_list and not acceptor.knows_users:
            return "not tried: it has no list of users", True
        box = self.box_for(acceptor)
        try:
            cell, good = self.sign_in(box, acceptor)
        finally:
            kept.sign_in(self, acceptor, box)
        return cell, good

    def sign_in(self, box, acceptor):
        try:
            taken, why = acceptor.sign_in(box, self.timestamp)
        except BoxRefused as refusal:
            return "the box: %s" % refusal, str(refusal) == self.expected
        mic = client.bench(box, "check") if box.mic_is_there() else None
        cell, good = verdict(self.expected, taken, why)
        if mic != self.mic:
            cell += "; MIC on the bench: %s" % mic
        fault = self.fault_of(box)
        return cell + ("; " + fault if fault else ""), good and mic == self.mic and not fault


class NlTrial:
    """A secure channel. names: strings A to E of the NL_AUTH request, None for one that isn't there."""
    kind, bench = "NL_AUTH", "-"

    def __init__(self, what, expected, names):
        self.what, self.expected, self.names = "NL_AUTH: " + what, expected, names

    def run(self, acceptor, kept):
        """-> (what happened, as a cell of the table; did it go as expected)"""
        try:
            taken, why, request = acceptor.bind(self.names)
        except BoxRefused as refusal:
            return "the box: %s" % refusal, False
        kept.message("nl-request-" + "-".join(re.findall("[a-z0-9]+", self.what.lower())[2:]), request)
        return verdict(self.expected, taken, why)


def verdict(expected, taken, why):
    """-> (what the server did, as a cell of the table; did it go as expected). A server that takes has nothing to say."""
    word = "taken" if taken else "refused"
    return word + (": " + why if why else ""), word == expected and not (taken and why)


TRIALS = (
    Trial("short name", "taken", "yes", user=client.SHORT, slug="short"),
    Trial("name of 60 characters, 120 bytes", "taken", "yes", slug="long"),
    Trial("the same, outside ASCII", "taken", "yes", user=client.OUTSIDE_ASCII, slug="outside-ascii"),
    Trial("no domain of its own: the server's is sent", "taken", "yes", domain="", slug="no-domain"),
    Trial("OEM server", "taken", "yes", wanted=OEM, shows=" set=O ", slug="oem"),
    Trial("server without a timestamp", "taken", None, timestamp=False, slug="no-timestamp"),
    Trial("old settings: 128-bit not demanded, not asked for", "taken", "yes", wanted=NO_128, settings=client.NTLMV2,
          slug="old-settings"),
    Trial("no key exchange", "taken", "yes", wanted=client.WANTED & ~client.KEY_EXCH, shows=" key=0 ",
          slug="no-key-exchange"),
    Trial("128-bit not asked for, and demanded", "refused 20 field=0 at=0: 128-bit demanded, not in the flags", None,
          wanted=NO_128),
    Trial("name outside ASCII, OEM server", UNSENT, None, user=client.OUTSIDE_ASCII, wanted=OEM),
    Trial("name of 129 characters: no room in the box", UNSENT, None, user="n" * 129),
    Trial("name clipped to 32 bytes in the box", "refused", "yes", user=client.LONG[:16], by_list=True),
    Trial("name clipped to 32 bytes in the message", "refused", "yes", spoil=client.clip_sent(32), slug="clipped"),
    Trial("one bit of the MIC changed", "refused", "no", spoil=client.turn_mic_bit),
    Trial("challenge altered by a relay: SEAL taken out", "refused", "no", relay=client.drop_seal, slug="relayed"),
    Trial("wrong password", "refused", "yes", password=client.PASSWORD + "?"),
    NlTrial("A and B", "taken", ("DEPOT", "BOX7", None, None, None)),
    NlTrial("A to E", "taken", ("DEPOT", "BOX7", DNS_DOMAIN, DNS_HOST, "BOX7")),
    NlTrial("C and E", "taken", (None, None, DNS_DOMAIN, None, "BOX7")),
    NlTrial("C, D and E, another host in D", "taken", (None, None, DNS_DOMAIN, "box8.depot.example.com", "BOX7")),
    NlTrial("A to E, another domain in C, another computer in E", "taken",
            ("DEPOT", "BOX7", "other.example.com", DNS_HOST, "BOX8")),
    NlTrial("A and B, another domain in A", "refused", ("OTHER", "BOX7", None, None, None)),
    NlTrial("A and B, another computer in B", "refused", ("DEPOT", "BOX8", None, None, None)),
    NlTrial("C and E, another domain in C", "refused", (None, None, "other.example.com", None, "BOX7")),
    NlTrial("C and E, another computer in E", "refused", (None, None, DNS_DOMAIN, None, "BOX8")),
    NlTrial("A alone, no computer", "refused", ("DEPOT", None, None, None, None)),
)


class Kept:
    """The folder of the messages that were seen, as the servers saw them, with the sign-ins' session keys. Its owner alone may
    read any of it."""

    def __init__(self, folder):
        self.folder, self.keys = folder, {}
        shutil.rmtree(folder, ignore_errors=True)
        os.makedirs(os.path.dirname(folder), exist_ok=True)
        os.mkdir(folder, 0o700)

    def _write(self, name, content):
        """A new file that nobody but its owner could ever open, whatever the umask."""
        descriptor = os.open(os.path.join(self.folder, name), os.O_WRONLY | os.O_CREAT | os.O_EXCL, 0o600)
        with os.fdopen(descriptor, "wb") as file:
            file.write(content)

    def message(self, name, message):
        self._write(name + ".bin", message)

    def sign_in(self, trial, acceptor, box):
        if trial.slug and box.sent:
            handshake = "%s-%s" % (acceptor.name, trial.slug)
            self.keys[handshake] = box.key.hex()
            for kind, message in (("negotiate", box.first), ("challenge", box.challenge), ("authenticate", box.sent)):
                self.message("%s-%s" % (kind, handshake), message)
        if trial.slug == "long":
            print("\n".join(["%s's sign-in with a name of 60 characters:" % acceptor.name]
                            + ["    " + line for line in box.lines]))

    def end(self):
        self._write("keys.json", json.dumps(self.keys, indent=1).encode())


def run(acceptors, kept):
    """-> the rows of the table, and how many trials went other than expected"""
    rows, bad = [["Trial", "MIC on the bench"] + [acceptor.name for acceptor in acceptors]], 0
    for trial in TRIALS:
        if all(acceptor.kind != trial.kind for acceptor in acceptors):
            continue
        row = [trial.what, trial.bench]
        for acceptor in acceptors:
            if acceptor.kind != trial.kind:
                row.append("-")
                continue
            try:
                cell, good = trial.run(acceptor, kept)
            except Exception as error:
                cell, good = "broke off: %s: %s" % (type(error).__name__, error), False
            row.append(cell if good else cell + " (NOT AS EXPECTED)")
            bad += not good
        rows.append(row)
    return rows, bad


def show(rows):
    widths = [max(len(row[i]) for row in rows) for i in range(len(rows[0]))]
    rows.insert(1, ["-" * width for width in widths])
    for row in rows:
        print("| " + " | ".join(cell.ljust(width) for cell, width in zip(row, widths)) + " |")


LEGEND = """taken: ntlm_auth has the box's name and session key; gss-ntlmssp has them too, and bytes went sealed both ways;
through smbd a file was written to the share and read back, and is the user's; to Apache a file went up by PUT, which it has whole
and logged as the user's; with the domain controller a secure channel was bound, and a sealed call answered.
-: the server isn't tried with such messages. MIC on the bench: what dialtable_check_mic says to the messages as the server saw them."""
COLUMNS = {"ntlm_auth": ("ntlm_auth", "NtlmAuth"), "gss-ntlmssp": ("gss", "Gss"), "smbd": ("smbd", "Smbd"),
           "Apache": ("apache", "Apache"), "domain-controller": ("domain_controller", "DomainController")}
LIMIT = 300  # seconds; a run takes ten


def on_signals(action):
    for number in (signal.SIGINT, signal.SIGTERM, signal.SIGHUP, signal.SIGALRM):
        signal.signal(number, action)


def stop(number, frame):
    on_signals(signal.SIG_IGN)  # what was started is ended in peace
    sys.exit("ended by signal %d" % number)


def run_ended(acceptors, kept):
    """As run; from then on no signal ends what is left to do."""
    try:
        return run(acceptors, kept)
    finally:
        on_signals(signal.SIG_IGN)


def acceptor_of(column, folder):
    module, name = COLUMNS[column]
    return getattr(importlib.import_module(module), name)(folder)


def main(programs, words):
    on_signals(stop)
    signal.alarm(LIMIT)
    left_out = ["%s (%s)" % tuple(word.split("=", 1)) for word in words if "=" in word]
    kept = Kept(os.path.join(programs, "messages"))
    with tempfile.TemporaryDirectory(prefix="sign-in.") as folder:
        os.chmod(folder, 0o755)  # the users of the share go through it
        acceptors = [acceptor_of(column, folder) for column in words if "=" not in column]
        try:
            rows, bad = run_ended(acceptors, kept)
        finally:
            for acceptor in acceptors:
                acceptor.end(programs)
        kept.end()
    print()
    show(rows)
    print(LEGEND)
    print("; ".join("%s: %s" % (acceptor.name, acceptor.version()) for acceptor in acceptors))
    for acceptor in acceptors:
        if hasattr(acceptor, "tell"):
            print(acceptor.tell(kept))
    if left_out:
        print("left out, since Debian's packages are missing: " + ", ".join(left_out))
    print("%d went other than expected; the servers' logs are in %s" % (bad, programs) if bad
          else "every trial of the others went as expected, and the status is 3" if left_out else "every trial went as expected")
    return 1 if bad else 3 if left_out else 0


if __name__ == "__main__":
    sys.exit(main(os.environ["SIGN_IN_PROGRAMS"], sys.argv[1:]))
