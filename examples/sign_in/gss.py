"""gss-ntlmssp as acceptor, through GSS-API, with the users of a file."""
import os
import re
import subprocess

import gssapi.raw as raw

import box as client
import signing

NTLMSSP = raw.OID.from_int_seq("1.3.6.1.4.1.311.2.2.10")
SESSION_KEY = raw.OID.from_int_seq("1.2.840.113554.1.2.2.5.5")


class Gss:
    name, kind, domain, knows_users = "gss-ntlmssp", "NTLM", "DEPOT", True

    def __init__(self, folder):
        users = os.path.join(folder, "users")
        with open(users, "w") as file:
            for user in (client.SHORT, client.LONG, client.OUTSIDE_ASCII):
                file.write("DEPOT:%s:%s\n" % (user, client.PASSWORD))
        os.environ.update(NTLM_USER_FILE=users, NETBIOS_COMPUTER_NAME="ACCEPTOR", NETBIOS_DOMAIN_NAME="DEPOT",
                          LM_COMPAT_LEVEL="5")
        self.credentials = raw.acquire_cred(None, mechs=[NTLMSSP], usage="accept").creds

    def version(self):
        return "gss-ntlmssp " + subprocess.run(["dpkg-query", "-W", "-f", "${Version}", "gss-ntlmssp"],
                                               capture_output=True, text=True).stdout

    def end(self, logs):
        """It is a library, and nothing of it runs."""

    def sign_in(self, box, timestamp=True):
        """-> (taken, what is wrong all the same or why it is refused). Where it is taken the session key is compared and bytes
        go sealed both ways. A challenge without a timestamp is had by asking for no target."""
        if not timestamp:
            box.wanted &= ~(client.REQUEST_TARGET | client.TARGET_INFO)
        try:
            first = raw.accept_sec_context(box.negotiate(), acceptor_creds=self.credentials)
            done = raw.accept_sec_context(box.answer(first.token), acceptor_creds=self.credentials,
                                          context=first.context)
        except raw.GSSError as error:
            return False, "; ".join(re.findall(r"\(\d+\): ([^.,]*)", " ".join(str(error).split())))
        finally:
            box.end()
        name = raw.display_name(done.initiator_name, False).name.decode()
        if box.user not in name:
            return True, "another name: " + name
        if raw.inquire_sec_context_by_oid(done.context, SESSION_KEY)[0] != box.key:
            return True, "another session key"
        return True, "" if self._talk(box, done.context) else "sealed bytes differ"

    def _talk(self, box, context):
        """The server seals and we open; we seal and the server opens."""
        plain = b"what one says to the other" * 3
        heard = signing.Sealed(box, "Server").open(raw.wrap(context, plain, True).message)
        told = raw.unwrap(context, signing.Sealed(box, "Client").seal(plain)).message
        return heard == told == plain
