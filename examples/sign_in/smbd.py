"""A real smbd on the loopback address, with users of its own. impacket speaks SMB, with the box's messages in the place of
its own; after the sign-in a file is written to the share and read back."""
import os
from unittest import mock

from impacket import smb3
from impacket.smb3structs import SMB2_DIALECT_311
from impacket.smbconnection import SessionError, SMBConnection

import box as client
import server
import signing

CONF = """ netbios name = FILESRV
 server role = standalone server
 restrict anonymous = 2
 ntlm auth = ntlmv2-only
 server signing = mandatory
 ntlmssp_server:force_old_spnego = {old}
[depot]
 path = {{folder}}/share
 read only = no
"""
USERS = {client.SHORT: 20001, client.LONG: 20002, client.OUTSIDE_ASCII: 20003}


def der(tag, body):
    length = bytes([len(body)]) if len(body) < 128 else b"\x82" + len(body).to_bytes(2, "big")
    return bytes([tag]) + length + body


class Token:
    """One of the box's messages, as impacket hands its own about."""

    def __init__(self, message):
        self.message = message

    def getData(self):
        return self.message


class SignedList(smb3.SPNEGO_NegTokenResp):
    """A client whose answer has a MIC signs SPNEGO's list of mechanisms too (RFC 4178, section 5; smbd waits for it), which
    impacket doesn't. The list that it sends is NTLMSSP alone."""
    LIST = der(0x30, der(6, bytes.fromhex("2b06010401823702020a")))
    box = None

    def getData(self):
        if "NegState" in self.fields or not SignedList.box.mic_is_there():
            return super().getData()
        signature = signing.Sealed(SignedList.box, "Client").sign(SignedList.LIST)
        return der(0xA1, der(0x30, der(0xA2, der(4, self["ResponseToken"])) + der(0xA3, der(4, signature))))


class Smbd:
    name, kind, domain, knows_users = "smbd", "NTLM", "FILESRV", True

    def __init__(self, folder):
        self.servers = {}
        self.folder = folder

    def version(self):
        return server.samba_version()

    def _server(self, timestamp):
        if timestamp not in self.servers:
            folder = os.path.join(self.folder, "smbd-with" if timestamp else "smbd-without")
            started = server.Samba(folder, CONF.format(old="no" if timestamp else "yes"), USERS)
            self.servers[timestamp] = started
            os.chmod(os.path.join(folder, "share"), 0o777)
            for user in USERS:
                started.add([user], client.PASSWORD)
            started.start()
        return self.servers[timestamp]

    def end(self, logs):
        for started in self.servers.values():
            started.end(os.path.join(logs, os.path.basename(started.folder) + "-timestamp.log"))

    def sign_in(self, box, timestamp=True):
        """-> (taken, what is wrong all the same or why it is refused). Where it is taken a file is written and read back."""
        started = self._server(timestamp)
        SignedList.box = box
        connection = SMBConnection("FILESRV", "127.0.0.1", sess_port=started.port, preferredDialect=SMB2_DIALECT_311)
        try:
            smb = connection._SMBConnection  # impacket 0.10.0 leaves this out of its NTLM sign-in, and 3.1.1 wants it
            smb._Session["PreauthIntegrityHashValue"] = smb._Connection["PreauthIntegrityHashValue"]
            try:
                self._login(connection, box)
            except SessionError as error:
                return False, error.getErrorString()[0]
            if connection.isGuestSession():
                return True, "signed in as guest"
            return True, self._file(connection, started, USERS.get(box.user))
        finally:
            box.end()
            connection.close()

    def _login(self, connection, box):
        """impacket's sign-in, with the box's messages in the place of its own."""
        own = {"getNTLMSSPType1": lambda *a, **k: Token(box.negotiate()),
               "getNTLMSSPType3": lambda first, challenge, *a, **k: (Token(box.answer(bytes(challenge))), box.key)}
        with mock.patch.multiple(smb3.ntlm, **own), mock.patch.object(smb3, "SPNEGO_NegTokenResp", SignedList):
            connection.login(box.user, "not known to impacket", box.domain)

    def _file(self, connection, started, owner):
        """Writes a file and reads it back. -> what is wrong"""
        text, name = os.urandom(30000), "file-%s.bin" % os.urandom(4).hex()
        tree = connection.connectTree("depot")
        file = connection.createFile(tree, name)
        connection.writeFile(tree, file, text)
        connection.closeFile(tree, file)
        file = connection.openFile(tree, name)
        back = b""
        while len(back) < len(text):
            part = connection.readFile(tree, file, len(back), 16384)
            if not part:
                break
            back += part
        connection.closeFile(tree, file)
        path = os.path.join(started.folder, "share", name)
        with open(path, "rb") as there:
            if not back == there.read() == text:
                return "the file differs"
        return "" if os.stat(path).st_uid == owner else "the file is another user's"
