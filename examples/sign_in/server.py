"""A server's program on the loopback address, in a folder of its own, and Samba's smbd as one."""
import ctypes
import glob
import os
import shutil
import signal
import socket
import subprocess
import time

PR_SET_PDEATHSIG, PR_SET_CHILD_SUBREAPER = 1, 36


def free_port():
    with socket.socket() as probe:
        probe.bind(("127.0.0.1", 0))
        return probe.getsockname()[1]


def end_with_parent():
    ctypes.CDLL(None).prctl(PR_SET_PDEATHSIG, signal.SIGTERM)


def reap(group):
    while True:
        os.waitpid(-group, 0)


def end_group(process):
    """Asks the first process of a group to end, and ends what is then left of the group."""
    process.terminate()
    try:
        process.wait(10)
    except subprocess.TimeoutExpired:
        pass
    for end_of in (lambda: os.killpg(process.pid, signal.SIGKILL), lambda: reap(process.pid)):
        try:
            end_of()
        except (ProcessLookupError, ChildProcessError):
            pass


class Server:
    """Its programs, each with all that it starts, are process groups that end with us."""
    LOGS = "log*"  # in its folder

    def __init__(self, folder, parts):
        self.folder, self.port, self.processes = folder, free_port(), []
        for part in parts:
            os.makedirs(os.path.join(folder, part))
        ctypes.CDLL(None).prctl(PR_SET_CHILD_SUBREAPER, 1)

    def write(self, name, text, mode=0o644):
        path = os.path.join(self.folder, name)
        with open(path, "w", opener=lambda name, flags: os.open(name, flags, mode)) as file:
            file.write(text)
        return path

    def spawn(self, command, env, **more):
        """Starts a program in a process group of its own."""
        with open(self.folder + "/stderr", "a") as errors:
            self.processes.append(subprocess.Popen(command, env=env, stdin=subprocess.DEVNULL, stdout=errors, stderr=errors,
                                                   start_new_session=True, preexec_fn=end_with_parent, **more))

    def run(self, command, env):
        """Starts the server, and waits until it answers on its port."""
        self.spawn(command, env)
        for _ in range(100):
            try:
                socket.create_connection(("127.0.0.1", self.port), 1).close()
                return
            except OSError:
                time.sleep(0.1)
        with open(self.folder + "/stderr") as errors:
            raise RuntimeError("%s doesn't answer: %s" % (command[0], errors.read()))

    def end(self, log):
        """Ends what was started and all that this started, which come back to us as their parent ends, and keeps the log."""
        while self.processes:
            end_group(self.processes.pop())
        for path in glob.glob(os.path.join(self.folder, self.LOGS)):
            shutil.copy(path, log)


class Samba(Server):
    """smbd. Its users stand in files of its folder, by nss_wrapper: the system's are not touched, and no clipped name is
    anybody's."""
    FOLDERS = ("private", "lock", "state", "cache", "pid", "ncalrpc", "bind", "winbindd", "share")
    CONF = """[global]
 workgroup = DEPOT
 map to guest = never
 interfaces = 127.0.0.1/8
 bind interfaces only = yes
 smb ports = {port}
 disable netbios = yes
 disable spoolss = yes
 load printers = no
 multicast dns register = no
 logging = file
 usershare max shares = 0
 passdb backend = tdbsam:{folder}/private/passdb.tdb
 private dir = {folder}/private
 lock directory = {folder}/lock
 state directory = {folder}/state
 cache directory = {folder}/cache
 pid directory = {folder}/pid
 ncalrpc dir = {folder}/ncalrpc
 binddns dir = {folder}/bind
 winbindd socket directory = {folder}/winbindd
 log file = {folder}/log
 log level = 3
 rpc start on demand helpers = no
"""

    def __init__(self, folder, conf, users):
        """conf: what stands in smb.conf besides; users: their numbers by name"""
        super().__init__(folder, self.FOLDERS)
        self.conf = self.write("smb.conf", (self.CONF + conf).format(folder=folder, port=self.port))
        group = self.write("group", "root:x:0:\nnogroup:x:65534:\ndepot:x:20000:\n")
        passwd = self.write("passwd", "root:x:0:0:root:/root:/bin/sh\nnobody:x:65534:65534:nobody:/nonexistent:/bin/false\n"
                            + "".join("%s:x:%d:20000:x:/nonexistent:/bin/false\n" % user for user in users.items()))
        self.env = dict(os.environ, LD_PRELOAD=glob.glob("/usr/lib/*/libnss_wrapper.so")[0], NSS_WRAPPER_PASSWD=passwd,
                        NSS_WRAPPER_GROUP=group)

    def add(self, words, password=""):
        """smbpasswd's words for a new account, and its password where it has one of its own"""
        subprocess.run(["smbpasswd", "-c", self.conf, "-s", "-a", *words], env=self.env, check=True,
                       input=(password + "\n") * 2, text=True, capture_output=True)

    def start(self):
        self.run(["smbd", "--foreground", "--no-process-group", "--configfile=" + self.conf,
                  "--log-basename=" + self.folder], self.env)


def samba_version():
    return "Samba " + subprocess.run(["smbd", "--version"], capture_output=True, text=True).stdout.split()[-1]
