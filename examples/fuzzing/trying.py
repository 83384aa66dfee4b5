"""What the kinds of cases share: the program, a server of a unit, what differs, and bytes sent over sockets."""

import contextlib
import os
import socket
import subprocess
import tempfile
import threading
import time

import trial
from tlcp import Feed, Session, Wrong

# The longest that anything may take, in seconds.
HANG = 10.0
WITNESS = "witness MERGE n\n"
PIECE = 65536


class Differs(Exception):
    """A case whose outcome isn't that of the rules: its name, what was sent, what was wanted, and what came."""

    def __init__(self, name, sent, wanted, got):
        super().__init__(name, sent, wanted, got)
        self.name, self.sent, self.wanted, self.got = name, sent, wanted, got


def build():
    """Builds the program where that is due, and finds it, so that each run needn't ask for that."""
    subprocess.run(trial.PROGRAM + ["--version"], check=True, stdin=subprocess.DEVNULL, stdout=subprocess.DEVNULL)
    if "TLCPD" not in os.environ:
        folder = subprocess.check_output([os.path.join(trial.TOP, "build-folder")], text=True).strip()
        trial.PROGRAM[:] = [os.path.join(folder, "tlcpd")]


def program():
    return trial.PROGRAM


@contextlib.contextmanager
def serving(config):
    """A server with this config and an item `witness`. It has to live to the end, and to say nothing on standard
    error. A client and a feed go on beside what is tried."""
    with tempfile.TemporaryFile() as errors:
        try:
            with trial.Server(config + WITNESS, errors=errors) as server, Witness(server):
                yield server
        except Wrong as wrong:
            if isinstance(wrong.__context__, Differs):
                wrong.__context__.got = f"{wrong.__context__.got!r}, and {wrong}"
                raise wrong.__context__ from wrong
            raise Differs("the server", config.encode(), "a server that goes on", str(wrong)) from wrong
        errors.seek(0)
        said = errors.read()
        if said:
            raise Differs("the server", config.encode(), "nothing on standard error", said)


class Witness:
    """A client and a feed that go on while something is tried: each update has to come once, and in order."""

    def __init__(self, server):
        self.session = Session(server.address)
        self.session.add(1, ["witness"], ["n"], "RAW")
        self.feed = Feed(server.feed_port, adapter=64)
        self.published = self.heard = 0
        self.stop = False
        self.faults = []
        self.session.watch = self._check
        self.threads = [threading.Thread(target=self._in_thread, args=(work,)) for work in (self._publish, self._hear)]

    def __enter__(self):
        for thread in self.threads:
            thread.start()
        return self

    def __exit__(self, kind, *_):
        self.stop = True
        for thread in self.threads:
            thread.join()
        self.feed.close()
        self.session.close()
        if self.faults and kind is None:
            raise Wrong(f"the client beside: {self.faults[0]!r}")

    def _in_thread(self, work):
        try:
            work()
        except Exception as fault:
            self.faults.append(fault)

    def _publish(self):
        while not self.stop and not self.faults:
            self.feed.publish("witness", n=self.published + 1)
            self.published += 1
            time.sleep(0.01)

    def _hear(self):
        until = None
        while not self.stop or self.threads[0].is_alive() or self.heard < self.published:
            try:
                self.session.hear(1.0)
                until = None
            except TimeoutError:
                until = until or time.monotonic() + HANG
                if time.monotonic() > until:
                    raise

    def _check(self, session, line):
        if line.startswith("U,"):
            self.heard += 1
            if session.told.row(1, 1) != [str(self.heard)]:
                raise Wrong(f"{line} comes as number {self.heard}")
        elif line.startswith("OV,"):
            raise Wrong(line)


# Sockets


def connected(port):
    sock = socket.create_connection(("127.0.0.1", port), timeout=HANG)
    sock.setsockopt(socket.IPPROTO_TCP, socket.TCP_NODELAY, 1)
    return sock


def send(sock, pieces, ends, pause=0):
    """Sends bytes in pieces, and perhaps ends what is sent. Gives whether the peer was gone before all was sent, which
    may then be told here alone."""
    try:
        for piece in pieces:
            sock.sendall(piece)
            if pause and len(pieces) > 1:
                time.sleep(pause)
        if ends:
            sock.shutdown(socket.SHUT_WR)
        return False
    except TimeoutError:
        raise
    except OSError:
        return True


def receive(sock, until):
    """The bytes that come next; none at the end. TimeoutError where none come before a moment."""
    sock.settimeout(max(0.001, until - time.monotonic()))
    return sock.recv(PIECE)


def all_of(sock, seconds=HANG):
    """What comes until the end, and whether that is a reset. A server that ends a connection before it has read all
    that was sent resets it, and what it had answered may then be lost from some place on."""
    got, until = b"", time.monotonic() + seconds
    try:
        while piece := receive(sock, until):
            got += piece
        return got, False
    except ConnectionError:
        return got, True


def answer_to(port, pieces, ends=True, pause=0):
    """What comes until the end, to bytes that are sent in pieces on a new connection. TimeoutError where there is no
    end."""
    with connected(port) as sock:
        send(sock, pieces, ends, pause)
        return all_of(sock)[0]
