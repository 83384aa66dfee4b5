"""What the trials of this folder share: a server to try, nginx before it, options, and hearing many sessions at once.

The server is `./tlcpd serve` on ports that the system chooses. The environment variable TLCPD names another program,
with its first words, in place of ./tlcpd.
"""

import argparse
import os
import resource
import select
import shlex
import shutil
import signal
import socket
import subprocess
import sys
import tempfile
import time

from tlcp import Address, Closed, Wrong

HERE = os.path.dirname(os.path.realpath(__file__))
TOP = os.path.dirname(os.path.dirname(HERE))
PROGRAM = shlex.split(os.environ.get("TLCPD", "")) or [os.path.join(TOP, "tlcpd")]


def options(description, ws=False, nginx=False, **more):
    """The options of a trial. It ends, with status 0, where something that is asked for isn't there."""
    parser = argparse.ArgumentParser(description=description, formatter_class=argparse.RawDescriptionHelpFormatter)
    if nginx:
        parser.add_argument("--nginx", action="store_true", help="put nginx with TLS before the server")
    if ws:
        parser.add_argument("--ws", action="store_true", help="over WebSocket in place of HTTP")
    for name, (default, text) in more.items():
        parser.add_argument("--" + name, type=type(default), default=default, help=f"{text} (default {default})")
    chosen = parser.parse_args()
    if nginx and chosen.nginx and (nginx_program() is None or shutil.which("openssl") is None):
        skip("nginx or openssl isn't installed")
    return chosen


def skip(why):
    """Says that nothing was tried, and ends with status 0."""
    print(f"skipped: {why}")
    sys.exit(0)


def need_files(wanted):
    """Allows this process, and the server that it starts, so many open files. Where the system refuses, the trial is
    skipped."""
    now, most = resource.getrlimit(resource.RLIMIT_NOFILE)
    if most != resource.RLIM_INFINITY and most < wanted:
        skip(f"only {most} open files are allowed, and {wanted} are needed")
    if now != resource.RLIM_INFINITY and now < wanted:
        resource.setrlimit(resource.RLIMIT_NOFILE, (wanted, most))


# Whom a server runs as that may have only so many threads, where this process is root's: root's aren't limited.
NOBODY = 61234


class Server:
    """A server with a config, and where it is asked for a proxy before it. For the ports 0 the system chooses some. It
    may open so many files, or as many as this process where `files` is None, and have so many threads, or as many as
    the system gives where `threads` is None. What it says on standard error goes into the file `errors`, or where this
    process says it."""

    def __init__(self, config, nginx=False, ports=(0, 0), files=None, threads=None, errors=None):
        self.config = config
        self.most_files = files
        self.most_threads = threads
        self.errors = errors
        self.ports = ports
        self.nginx = nginx
        self.process = None
        self.proxy = None
        self.killed = False

    def __enter__(self):
        # The program is built here where that is due, so that nobody waits for it below.
        subprocess.run(PROGRAM + ["--version"], check=True, stdin=subprocess.DEVNULL, stdout=subprocess.DEVNULL)
        words = PROGRAM + ["serve"] + [str(port) for port in self.ports]
        pipe = subprocess.PIPE
        user = {}
        if self.most_threads is not None and os.getuid() == 0:
            user = {"user": NOBODY, "group": NOBODY, "extra_groups": []}
        try:
            self.process = subprocess.Popen(words, stdin=pipe, stdout=pipe, stderr=self.errors,
                                            preexec_fn=self._limit, **user)
        except PermissionError:
            skip("the program can't be run as another user")
        try:
            self._begin()
        except BaseException:
            self._stop()
            raise
        return self

    def _limit(self):
        if self.most_files is not None:
            resource.setrlimit(resource.RLIMIT_NOFILE, (self.most_files, self.most_files))
        if self.most_threads is not None:
            most = self.most_threads + (0 if os.getuid() == 0 else threads_of(os.getuid()))
            resource.setrlimit(resource.RLIMIT_NPROC, (most, most))

    def _begin(self):
        self.process.stdin.write(self.config.encode())
        self.process.stdin.close()
        said = self.process.stdout.readline().decode().split()
        if len(said) != 3 or said[0] != "listening":
            raise Wrong(f"the server said {said}")
        self.port, self.feed_port = int(said[1]), int(said[2])
        self.address = Address("127.0.0.1", self.port)
        if self.nginx:
            self.proxy = Proxy(self.port)
            self.address = self.proxy.address

    def _stop(self):
        if self.proxy is not None:
            self.proxy.stop()
        if self.process.poll() is None:
            self.process.send_signal(signal.SIGTERM)
        try:
            self.process.wait(5)
        except subprocess.TimeoutExpired:
            self.process.kill()
            self.process.wait()
        self.process.stdout.close()

    def __exit__(self, *_):
        ended = self.process.poll()
        self._stop()
        if ended is not None and not self.killed:
            raise Wrong(f"the server ended by itself, with status {ended}")

    def memory(self):
        """Its resident memory in KiB, and its number of threads."""
        with open(f"/proc/{self.process.pid}/status", encoding="ascii") as status:
            told = dict(line.split(":", 1) for line in status)
        return int(told["VmRSS"].split()[0]), int(told["Threads"])

    def processor_seconds(self):
        """How long it has used a processor."""
        with open(f"/proc/{self.process.pid}/stat", encoding="ascii") as stat:
            told = stat.read().rsplit(")", 1)[1].split()
        return (int(told[11]) + int(told[12])) / os.sysconf("SC_CLK_TCK")

    def files(self):
        """How many files it has open, sockets among them."""
        return len(os.listdir(f"/proc/{self.process.pid}/fd"))

    def mappings(self):
        """How many mappings of memory it has, stacks of threads among them."""
        with open(f"/proc/{self.process.pid}/maps", encoding="ascii") as maps:
            return sum(1 for _ in maps)

    def kill(self):
        """Kills it where it stands."""
        self.process.kill()
        self.process.wait()
        self.killed = True


def threads_of(user):
    """How many threads a user has."""
    count = 0
    for number in filter(str.isdigit, os.listdir("/proc")):
        try:
            if os.stat(f"/proc/{number}").st_uid == user:
                count += len(os.listdir(f"/proc/{number}/task"))
        except OSError:
            pass
    return count


class Proxy:
    """An nginx with TLS before a server. Its configuration is nginx.conf beside this file."""

    def __init__(self, port):
        self.folder = tempfile.mkdtemp(prefix="tlcpd-nginx-")
        own = free_port()
        with open(os.path.join(HERE, "nginx.conf"), encoding="utf-8") as template:
            text = template.read()
        text = (text.replace("listen 443 ssl", f"listen 127.0.0.1:{own} ssl")
                .replace("127.0.0.1:8080", f"127.0.0.1:{port}").replace("/etc/tlcpd/", self.folder + "/")
                .replace("http {", "http {\n" + self._temporary()))
        os.chmod(self.folder, 0o755)
        self._write("nginx.conf", f"pid {self.folder}/nginx.pid;\ndaemon off;\n" + text)
        subprocess.run(["openssl", "req", "-x509", "-newkey", "rsa:2048", "-nodes", "-days", "2", "-subj",
                        "/CN=localhost", "-keyout", self.folder + "/key.pem", "-out", self.folder + "/certificate.pem"],
                       check=True, stdout=subprocess.DEVNULL, stderr=subprocess.DEVNULL)
        words = [nginx_program(), "-c", self.folder + "/nginx.conf", "-e", self.folder + "/error"]
        self.process = subprocess.Popen(words)
        self.address = Address("127.0.0.1", own, tls=True)
        self._wait()

    def _temporary(self):
        """Folders of its own for what it sets aside, so that any user may start it."""
        kinds = ("client_body", "proxy", "fastcgi", "uwsgi", "scgi")
        return "".join(f"    {kind}_temp_path {self.folder}/{kind};\n" for kind in kinds)

    def _write(self, name, text):
        with open(os.path.join(self.folder, name), "w", encoding="utf-8") as file:
            file.write(text)

    def _wait(self):
        for _ in range(100):
            try:
                self.address.connected(5.0).close()
                return
            except OSError:
                time.sleep(0.05)
        self.stop()
        raise Wrong("nginx doesn't listen")

    def stop(self):
        self.process.terminate()
        self.process.wait()
        shutil.rmtree(self.folder, ignore_errors=True)


def nginx_program():
    """The path of nginx, or None where it isn't installed. A root's folders are often not on a user's PATH."""
    return shutil.which("nginx", path=os.environ.get("PATH", "") + ":/usr/sbin:/sbin:/usr/local/sbin")


def free_port():
    """A port on which nothing listens."""
    with socket.socket() as sock:
        sock.bind(("127.0.0.1", 0))
        return sock.getsockname()[1]


def hear_all(sessions, done, seconds):
    """Hears what comes for all these sessions until `done` is so, at most that many seconds. Gives those whose
    connections were closed."""
    poll = select.poll()
    by_number = {session.lines.fileno(): session for session in sessions}
    closed = []
    for number, session in by_number.items():
        session.lines.sock.settimeout(20.0)
        poll.register(number, select.POLLIN)
    until = time.monotonic() + seconds
    while by_number and not done() and time.monotonic() < until:
        for number, _ in poll.poll(50):
            session = by_number[number]
            if not hear_ready(session):
                poll.unregister(number)
                del by_number[number]
                closed.append(session)
    return closed


def hear_ready(session):
    """Reads once for a session and hears what came. Says whether the connection is still open."""
    try:
        session.lines.receive()
    except Closed:
        pass
    while session.lines.ready:
        session.heard(session.lines.ready.popleft())
    return not session.lines.over
