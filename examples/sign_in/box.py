"""The box: the program sign_in or upload at the other end of a pipe, and what may happen to its messages on the way."""
import os
import subprocess

UNICODE, OEM, REQUEST_TARGET, SIGN, SEAL, NTLM = 0x1, 0x2, 0x4, 0x10, 0x20, 0x200
ALWAYS_SIGN, EXTENDED, TARGET_INFO, VERSION = 0x8000, 0x80000, 0x800000, 0x2000000
BITS_128, KEY_EXCH, BITS_56 = 0x20000000, 0x40000000, 0x80000000
WANTED = (UNICODE | REQUEST_TARGET | SIGN | SEAL | NTLM | ALWAYS_SIGN | EXTENDED | TARGET_INFO | VERSION | BITS_128
          | KEY_EXCH | BITS_56)
DEMAND_128, NTLMV2 = 1, 2
DEFAULTS = DEMAND_128 | NTLMV2
MIC_AT = 72

SHORT = "box7"
LONG = "bench-operator-of-the-northern-depot-number-seven-hall-b-2nd"
OUTSIDE_ASCII = "Jürgen-Żółć-" * 5
PASSWORD = "Tr0ub4dor & 3"
assert len(LONG) == len(OUTSIDE_ASCII) == 60

PROGRAMS = os.environ["SIGN_IN_PROGRAMS"]


class BoxRefused(Exception):
    """The box itself would not go on; the text says why."""


class Box:
    """relay: what becomes of the server's challenge before the box has it. spoil: what becomes of the box's answer."""

    def __init__(self, user, domain, password=PASSWORD, wanted=WANTED, settings=DEFAULTS, relay=None, spoil=None):
        self.user, self.domain, self.password = user, domain, password
        self.wanted, self.settings = wanted, settings
        self.relay = relay or (lambda challenge: challenge)
        self.spoil = spoil or (lambda box, answer: answer)
        self.program, self.key, self.key_pipe, self.lines = None, None, None, []
        self.first = self.challenge = self.sent = b""

    def start(self, program, target, *more, key_to=None):
        """program: sign_in or upload; more: its words behind those of the settings; key_to: the descriptor for upload's key"""
        self.end()
        named = {} if key_to is None else {"pass_fds": (key_to,), "env": dict(os.environ, SIGN_IN_KEY_FD=str(key_to))}
        command = [PROGRAMS + "/" + program, self.user, self.domain, "BOX7", target, hex(self.wanted), str(self.settings),
                   *more]
        self.program = subprocess.Popen(command, stdin=subprocess.PIPE, stdout=subprocess.PIPE, stderr=subprocess.PIPE,
                                        **named)
        self._say(self.password)

    def start_upload(self, path, file):
        """The server is at upload's standard output, so its key comes through a pipe of its own."""
        from_box, key_to = os.pipe()
        try:
            self.start("upload", "HTTP/localhost", path, file, key_to=key_to)
        finally:
            os.close(key_to)
            self.key_pipe = os.fdopen(from_box)

    def negotiate(self):
        self.start("sign_in", "cifs/localhost")
        return self.note_first(self._hear("negotiate"))

    def answer(self, challenge):
        """The AUTHENTICATE that goes to the server."""
        self._say(self.note_challenge(challenge).hex())
        answer = self._hear("authenticate")
        self.hear_key()
        self.end()
        return self.note_sent(answer)

    def hear_key(self):
        self.key = self._hear("key")

    def hear_key_apart(self):
        """The key of upload. Where there is none, standard output has the reason."""
        line = self.key_pipe.readline()
        if not line.startswith("key "):
            raise BoxRefused(self.end())
        self.key = bytes.fromhex(line[4:])

    def note_first(self, negotiate):
        self.first = negotiate
        return negotiate

    def note_challenge(self, challenge):
        """What the server sent -> what the box has of it"""
        self.challenge = challenge
        return self.relay(challenge)

    def note_sent(self, answer):
        """What the box sent -> what the server has of it"""
        self.sent = self.spoil(self, answer)
        return self.sent

    def mic_is_there(self):
        """A MIC that was due: the sixteen bytes are zeros where it was not."""
        return any(self.sent[MIC_AT:MIC_AT + 16])

    def response_time(self):
        """The Time of the NTLMv2 response that was sent (MS-NLMP 2.2.1.3, 2.2.2.8)."""
        response = int.from_bytes(self.sent[24:28], "little")
        return int.from_bytes(self.sent[response + 24:response + 32], "little")

    def end(self):
        """Ends its program, which has nothing more to read. -> what it still said"""
        if not self.program:
            return ""
        program, self.program = self.program, None
        if self.key_pipe:
            self.key_pipe.close()
            self.key_pipe = None
        said, log = program.communicate()
        self.lines = log.decode().splitlines()
        return said.decode().strip()

    def _say(self, line):
        self.program.stdin.write(line.encode() + b"\n")
        self.program.stdin.flush()

    def _hear(self, word):
        line = self.program.stdout.readline().decode().strip()
        if not line.startswith(word + " "):
            self.end()
            raise BoxRefused(line)
        return bytes.fromhex(line[len(word) + 1:])


def bench(box, *command):
    """The bench's program over what the server saw."""
    seen = "".join(part.hex() + "\n" for part in (box.key, box.first, box.challenge, box.sent))
    done = subprocess.run([PROGRAMS + "/bench", *command], input=seen, capture_output=True, text=True)
    return done.stdout.strip() or done.stderr.strip()


def clip_sent(length):
    """The user name clipped in the message alone, with a MIC that fits it: the response is over the whole name."""
    def spoil(box, answer):
        box.sent = answer
        return bytes.fromhex(bench(box, "clip", str(length)).split()[1])
    return spoil


def turn_mic_bit(box, answer):
    answer = bytearray(answer)
    answer[MIC_AT + 5] ^= 1
    return bytes(answer)


def drop_seal(challenge):
    """A relay that wants to read along takes SEAL out of the server's flags."""
    flags = int.from_bytes(challenge[20:24], "little") & ~SEAL
    return challenge[:20] + flags.to_bytes(4, "little") + challenge[24:]
