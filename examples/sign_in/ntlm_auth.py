"""Samba's ntlm_auth, by the protocol of squid's helpers, with a password of its own. It has no list of users: it takes any
name that the response was worked out over."""
import base64
import os
import subprocess

import box as client

CONF = """[global]
 workgroup = DEPOT
 netbios name = ACCEPTOR
 lock directory = {folder}
 state directory = {folder}
 cache directory = {folder}
 private dir = {folder}
 logging = file
 ntlmssp_server:force_old_spnego = {old}
"""


class NtlmAuth:
    name, kind, domain, knows_users = "ntlm_auth", "NTLM", "DEPOT", False

    def __init__(self, folder):
        self.folder = folder

    def version(self):
        return "Samba " + subprocess.run(["ntlm_auth", "--version"], capture_output=True, text=True).stdout.split()[-1]

    def end(self, logs):
        """Nothing of it runs on: each sign-in has a helper of its own."""

    def _start(self, timestamp):
        conf = os.path.join(self.folder, "smb.conf")
        with open(conf, "w") as file:
            file.write(CONF.format(folder=self.folder, old="no" if timestamp else "yes"))
        return subprocess.Popen(["ntlm_auth", "--configfile=" + conf, "--helper-protocol=squid-2.5-ntlmssp",
                                 "--username=any", "--password=" + client.PASSWORD, "--domain=DEPOT"],
                                stdin=subprocess.PIPE, stdout=subprocess.PIPE, stderr=subprocess.DEVNULL)

    def sign_in(self, box, timestamp=True):
        """-> (taken, what is wrong all the same or why it is refused). Where it is taken the session key is compared too."""
        helper = self._start(timestamp)

        def ask(word, message=None):
            line = word if message is None else word + " " + base64.b64encode(message).decode()
            helper.stdin.write(line.encode() + b"\n")
            helper.stdin.flush()
            return helper.stdout.readline().decode().strip()
        try:
            said = ask("YR", box.negotiate())
            if not said.startswith("TT "):
                return False, "no challenge: " + said
            said = ask("KK", box.answer(base64.b64decode(said[3:])))
            if not said.startswith("AF "):
                return False, said.split(" ", 1)[-1]
            if said != "AF %s\\%s" % (box.domain or "ACCEPTOR", box.user):
                return True, "another name: " + said
            same = ask("GK") == "GK " + base64.b64encode(box.key).decode()
            return True, "" if same else "another session key"
        finally:
            box.end()
            helper.stdin.close()
            helper.stdout.close()
            helper.wait()
