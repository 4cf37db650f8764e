"""Apache httpd on the loopback address, whose mod_auth_gssapi signs in by gss-ntlmssp, with the users of a file. The box uploads
a file by PUT: its program (upload.c) writes the requests and reads the responses, with the messages in header lines. What goes
between the two is passed on here, as a relay would."""
import base64
import os
import re
import shutil
import socket
import subprocess
import time
from http.client import responses

import box as client
import server

CONF = """ServerRoot {folder}
ServerName localhost
PidFile {folder}/httpd.pid
DefaultRuntimeDir {folder}
ErrorLog {folder}/log
LogLevel info
Listen 127.0.0.1:{port}
User www-data
Group www-data
{modules}
LogFormat "%U %u" who
CustomLog {folder}/users.log who
DocumentRoot {folder}/www
DavLockDB {folder}/lock/dav
<Directory {folder}/www>
 Require all granted
 Dav On
</Directory>
<Location /depot>
 AuthType GSSAPI
 AuthName depot
 GssapiSSLonly Off
 GssapiAllowedMech ntlmssp
 GssapiConnectionBound On
 Require valid-user
</Location>
"""
MODULES = ("mpm_prefork", "authn_core", "authz_core", "authz_user", "auth_gssapi", "dav", "dav_fs")
CARRIED = re.compile(rb"(?i)((?:authorization|authenticate): ntlm )([a-z0-9+/]+=*)")


def read_http(stream):
    """-> a head, and the body that its Content-Length tells"""
    head = b""
    while not head.endswith(b"\r\n\r\n"):
        line = stream.readline()
        if not line:
            raise RuntimeError("no whole request or response")
        head += line
    length = re.search(rb"(?i)\ncontent-length: *(\d+)", head)
    return head, stream.read(int(length[1])) if length else b""


def pass_on(head, body, stream, change):
    """Sends a request or a response on, with its message as change leaves it."""
    def changed(line):
        return line[1] + base64.b64encode(change(base64.b64decode(line[2], validate=True)))
    stream.write(CARRIED.sub(changed, head) + body)
    stream.flush()


def as_it_is(message):
    return message


class Apache:
    name, kind, domain, knows_users = "Apache", "NTLM", "DEPOT", True

    def __init__(self, folder):
        self.folder, self.server = os.path.join(folder, "apache"), None

    def version(self):
        httpd = subprocess.run(["apache2", "-v"], capture_output=True, text=True).stdout.split()[2]
        module = subprocess.run(["dpkg-query", "-W", "-f", "${Version}", "libapache2-mod-auth-gssapi"], capture_output=True,
                                text=True).stdout
        return "%s, mod_auth_gssapi %s" % (httpd, module)

    def end(self, logs):
        if self.server:
            self.server.end(os.path.join(logs, "apache.log"))

    def _start(self):
        self.server = server.Server(self.folder, ("www/depot", "lock"))
        users = self.server.write("users", "".join("DEPOT:%s:%s\n" % (user, client.PASSWORD)
                                                   for user in (client.SHORT, client.LONG, client.OUTSIDE_ASCII)), 0o600)
        modules = "\n".join("LoadModule %s_module /usr/lib/apache2/modules/mod_%s.so" % (name, name) for name in MODULES)
        conf = self.server.write("httpd.conf", CONF.format(folder=self.folder, port=self.server.port, modules=modules))
        for part in ("users", "www/depot", "lock"):  # what httpd's own user reads and writes
            shutil.chown(os.path.join(self.folder, part), "www-data", "www-data")
        self.server.run(["apache2", "-f", conf, "-DFOREGROUND"],
                        dict(os.environ, NTLM_USER_FILE=users, NETBIOS_COMPUTER_NAME="WEBSRV", NETBIOS_DOMAIN_NAME="DEPOT",
                             LM_COMPAT_LEVEL="5", LD_PRELOAD=client.PROGRAMS + "/utf8_locale.so"))  # utf8_locale.c says why

    def sign_in(self, box, timestamp=True):
        """-> (taken, what is wrong all the same or why it is refused). Where it is taken the file is there, and the user is the
        box's. A challenge without a timestamp is had by asking for no target."""
        if not self.server:
            self._start()
        if not timestamp:
            box.wanted &= ~(client.REQUEST_TARGET | client.TARGET_INFO)
        name, text = "night-" + os.urandom(4).hex(), os.urandom(30000)
        with open(os.path.join(self.folder, "night"), "wb") as file:
            file.write(text)
        box.start_upload("/depot/" + name, file.name)
        try:
            with socket.create_connection(("127.0.0.1", self.server.port), 10) as connection:
                status = self._talk(box, connection.makefile("rwb"))
            said = box.end()
        finally:
            box.end()
        if said != ("" if status == 201 else "the server doesn't take it"):
            raise RuntimeError("the server's status is %d, and the box says: %s" % (status, said))
        return (True, self._stored(box, name, text)) if status == 201 else (False, "%d %s" % (status, responses[status]))

    def _talk(self, box, stream):
        """-> the status by which the server answers the AUTHENTICATE"""
        for request, response in ((as_it_is, as_it_is), (box.note_first, box.note_challenge)):
            pass_on(*read_http(box.program.stdout), stream, request)
            pass_on(*read_http(stream), box.program.stdin, response)
        box.hear_key_apart()
        pass_on(*read_http(box.program.stdout), stream, box.note_sent)
        head, body = read_http(stream)
        pass_on(head, body, box.program.stdin, as_it_is)
        return int(head.split()[1])

    def _stored(self, box, name, text):
        """-> what is wrong with the file or with the user that it is logged for"""
        with open(os.path.join(self.folder, "www/depot", name), "rb") as file:
            if file.read() != text:
                return "another file"
        who = self._user_of("/depot/" + name)
        return "" if who == (box.domain or "DEPOT") + "\\" + box.user else "another name: " + who

    def _user_of(self, path):
        """A request is logged after it is answered, with a backslash and bytes outside ASCII escaped. The two before the
        sign-in are nobody's."""
        for _ in range(100):
            with open(self.folder + "/users.log") as log:
                users = [line.split(" ", 1)[1].rstrip("\n") for line in log if line.startswith(path + " ")]
            if len(users) == 3:
                return users[2].encode().decode("unicode_escape").encode("latin-1").decode()
            time.sleep(0.05)
        return "nobody's is logged"
