"""smbd as a classic primary domain controller of the domain DEPOT (depot.example.com), with an account for the computer BOX7. A
Netlogon secure channel is bound with the NL_AUTH request that the library writes (nl_auth.c), and a sealed call is made."""
import os
import subprocess

from impacket.dcerpc.v5.rpcrt import DCERPCException

import box as client
import secure_channel
import server

CONF = """ realm = DEPOT.EXAMPLE.COM
 netbios name = PDC
 server role = classic primary domain controller
 reject md5 clients = yes
 allow nt4 crypto = no
"""
LIBEXEC = "/usr/libexec/samba"
COMPUTER = "BOX7"
PASSWORD = "box7"  # smbpasswd gives a computer its name in small letters


def nl_auth(*words, said=""):
    done = subprocess.run([client.PROGRAMS + "/nl_auth", *words], input=said, capture_output=True, text=True)
    return done.stdout.strip() or done.stderr.strip()


class DomainController:
    name, kind = "domain controller", "NL_AUTH"

    def __init__(self, folder):
        self.folder, self.server = os.path.join(folder, "domain-controller"), None
        self.response = None

    def version(self):
        return server.samba_version()

    def end(self, logs):
        if self.server:
            self.server.end(os.path.join(logs, "domain-controller.log"))

    def _start(self):
        self.server = server.Samba(self.folder, CONF, {COMPUTER.lower() + "$": 20001})
        self.server.add(["-m", COMPUTER])
        self._start_rpc()
        self.server.start()

    def _start_rpc(self):
        """What serves Netlogon to smbd, which would start it as a daemon that goes on when smbd has ended. It closes a file that
        it is lent when it is ready. Its part for Netlogon is told here where to log: it isn't always."""
        logs = "--log-basename=" + self.folder
        netlogon = self.server.write("rpcd_lsad", "#!/bin/sh\nexec %s/rpcd_lsad %s \"$@\"\n" % (LIBEXEC, logs), 0o755)
        heard, lent = os.pipe()
        self.server.spawn([LIBEXEC + "/samba-dcerpcd", "--foreground", "--no-process-group", "--np-helper",
                           "--ready-signal-fd=%d" % lent, "--configfile=" + self.server.conf, logs, netlogon],
                          self.server.env, pass_fds=[lent])
        os.close(lent)
        with open(heard, "rb") as closed:
            closed.read()

    def bind(self, names):
        """names: strings A to E, None for one that isn't there -> (taken, what is wrong all the same or why it is refused, the
        request). Where it is taken a sealed call was answered with the flags of the channel."""
        if not self.server:
            self._start()
        flags = sum(1 << place for place, name in enumerate(names) if name is not None)
        written = nl_auth("request", str(flags), *(name or "" for name in names))
        if not written.startswith("request "):
            raise client.BoxRefused(written)
        request = bytes.fromhex(written[8:])
        channel = secure_channel.SecureChannel(self.server.port, "\\\\PDC", COMPUTER, "DEPOT", PASSWORD)
        try:
            self.response = channel.bind(request)
        except DCERPCException as error:
            return False, str(error), request
        same = channel.capabilities() == channel.flags
        return True, "" if same else "a sealed call has other flags", request

    def tell(self, kept):
        """Keeps the server's NL_AUTH response. -> what the library says to it"""
        if self.response is None:
            return "%s: no NL_AUTH response came" % self.name
        kept.message("nl-response", self.response)
        return "%s's NL_AUTH response, whose buffer has %d bytes, as the library reads it: %s" % (
            self.name, len(self.response) - 8, nl_auth("line", said=self.response.hex() + "\n"))
