"""Runs of the program `node`: what is tried, and what is got."""
import contextlib
import functools
import os
import re
import signal
import socket
import struct
import subprocess
import threading
import time
from pathlib import Path
from typing import Callable, NamedTuple

ROOT = Path(__file__).resolve().parent.parent.parent
# The program that is tested; the command line may name another.
PROGRAM = str(ROOT / "crates" / "node" / "out" / "node")

# How many seconds a run of the program may take, and anything else that is waited for.
PATIENCE = 30

ZERO_KEY = "080112200000000000000000000000000000000000000000000000000000000000000000"
ZERO_ID = "bafzaajaiaejcaaaaaaaaaaaaaaaaaaaaaaaaaaaaaaaaaaaaaaaaaaaaaaaaaaaa"
ONES_KEY = "08011220ffffffffffffffffffffffffffffffffffffffffffffffffffffffffffffffff"
ONES_ID = "bafzaajaiaejcb777777777777777777777777777777777777777777777777777"
# The ids of the keys of 32 bytes 0a, 0b, 11 and 22.
ID_0A = "bafzaajaiaejcacqkbifaucqkbifaucqkbifaucqkbifaucqkbifaucqkbifaucqk"
ID_0B = "bafzaajaiaejcacylbmfqwcylbmfqwcylbmfqwcylbmfqwcylbmfqwcylbmfqwcyl"
ID_11 = "bafzaajaiaejcaeirceirceirceirceirceirceirceirceirceirceirceirceir"
ID_22 = "bafzaajaiaejcairceirceirceirceirceirceirceirceirceirceirceirceirc"
# The key by which a node listens where none is given, and its id; and the id of the key by which it dials.
LISTENER_KEY = bytes.fromhex("d75a980182b10ab7d54bfed3c964073a0ee172f3daa62325af021a68f707511a")
LISTENER = "bafzaajaiaejcbv22taayfmikw7kux7wtzfsaooqo4fzphwvgems26aq2nd3qoui2"
DIALER = "bafzaajaiaejcapkac7b6qq4jlkjlocvhjunx5pe4tawm6lwes2gmbtkv6evpizqm"

KEY_11 = bytes([0x11]) * 32
KEY_22 = bytes([0x22]) * 32
HELLO = b"\x13/multistream/1.0.0\n"


def upgrade(key):
    """The whole of what an end with this Ed25519 key says until it is up: it dials or listens."""
    message = b"\x08\x01\x12\x20" + key
    body = b"\x0a\x26\x00\x24" + message + b"\x12\x24" + message
    return HELLO + b"\x11/plaintext/2.0.0\n" + bytes([len(body)]) + body + HELLO + b"\x0d/yamux/1.0.0\n"


# How many bytes that is.
UP = 151


def frame(kind, flags, stream, length):
    """The head of a frame (yamux, "Framing")."""
    return struct.pack(">BBHII", 0, kind, flags, stream, length)


# ---- what is tried, and what is got


class Missed(Exception):
    """Something else was got."""


class Row(NamedTuple):
    """A test, which raises where it misses."""

    name: str
    test: Callable
    # Whether it waits for seconds, and takes no processor time.
    is_patient: bool = False


class Ran(NamedTuple):
    """What came of a run."""

    status: int
    output: bytes
    faults: bytes


def shown(got):
    """The text of what was got, in one line that isn't too long."""
    text = str(got) if isinstance(got, str) else repr(got)
    text = text.replace("\n", " ")
    return text if len(text) <= 600 else f"{text[:400]} .. {text[-190:]}"


def expect(is_so, got):
    if not is_so:
        raise Missed(shown(got))


def expect_ran(ran, status, output, faults=""):
    """It has this status, and printed exactly this, and this on its faults."""
    expect(ran == Ran(status, output.encode(), faults.encode()), ran)


def await_that(is_so, told):
    """Waits until something is so."""
    end = time.monotonic() + PATIENCE
    while not is_so():
        expect(time.monotonic() < end, f"within {PATIENCE} s it came not to: {told}")
        time.sleep(0.005)


# ---- runs of the program

LIVING = set()


@contextlib.contextmanager
def started(words, redirected="", **streams):
    """A run of the program by these words, which is ended with the block. What is redirected is told as in a shell."""
    command = [PROGRAM, *words]
    if redirected:
        command = ["/bin/sh", "-c", f'exec "$0" "$@" {redirected}', *command]
    pipes = dict.fromkeys(["stdin", "stdout", "stderr"], subprocess.PIPE)
    process = subprocess.Popen(command, **{**pipes, **streams})
    LIVING.add(process)
    timer = threading.Timer(PATIENCE, process.kill)
    timer.daemon = True
    timer.start()
    try:
        yield process
    finally:
        timer.cancel()
        process.kill()
        process.wait()
        LIVING.discard(process)
        for pipe in (process.stdin, process.stdout, process.stderr):
            with contextlib.suppress(OSError):
                if pipe:
                    pipe.close()


def end_all():
    """Ends each run that stands."""
    for process in list(LIVING):
        process.kill()


def outcome(process, given=None):
    """What comes of a run that is given this, and then no more."""
    output, faults = process.communicate(given)
    expect(process.returncode != -signal.SIGKILL, f"it was ended after {PATIENCE} s, behind {output} {faults}")
    return Ran(process.returncode, output or b"", faults or b"")


def run(words, given=b"", redirected="", **streams):
    with started(words, redirected, **streams) as process:
        return outcome(process, given if process.stdin else None)


def run_unread(words, given=b"", **streams):
    """A run whose output is a pipe that nobody reads."""
    reading, writing = os.pipe()
    os.close(reading)
    try:
        return run(words, given, **{"stdout": writing, **streams})
    finally:
        os.close(writing)


class Listener:
    """A run of `node listen`, whose input stands open until it is to end."""

    def __init__(self, process, peer):
        self.process = process
        self.peer = peer
        self.lines = []
        self.is_over = False
        self.changed = threading.Condition()
        self.reader = threading.Thread(target=self._read, daemon=True)
        self.reader.start()

    def _read(self):
        for line in self.process.stdout:
            with self.changed:
                text = line.decode(errors="replace")
                self.lines.append(text[:-1] if text.endswith("\n") else f"{text}, and no end of a line")
                self.changed.notify_all()
        with self.changed:
            self.is_over = True
            self.changed.notify_all()

    def await_line(self, line):
        """Waits for this line."""
        with self.changed:
            self.changed.wait_for(lambda: line in self.lines or self.is_over, PATIENCE)
        expect(line in self.lines, f"{self.lines} without a line {line}")

    @functools.cached_property
    def addr(self):
        """Where it listens, with its id: its first line tells it."""
        with self.changed:
            self.changed.wait_for(lambda: self.lines or self.is_over, PATIENCE)
        expect(self.lines, "it doesn't listen")
        found = re.fullmatch(rf"listening ((/ip4/127[.]0[.]0[.]1|/ip6/::1)/tcp/[1-9]\d*/p2p/{self.peer})", self.lines[0])
        expect(found, self.lines)
        return found[1]

    @property
    def place(self):
        """Where it listens, without its id."""
        return self.addr.partition("/p2p/")[0]

    @property
    def port(self):
        return int(self.place.rpartition("/")[2])

    def dialed(self):
        """A connection of a peer of the test's own."""
        return socket.create_connection(("127.0.0.1", self.port), PATIENCE)

    def descriptors(self):
        """How many descriptors it has open."""
        return len(os.listdir(f"/proc/{self.process.pid}/fd"))

    def processor_time(self):
        """How many seconds of processor time it has taken, its own and the system's."""
        words = Path(f"/proc/{self.process.pid}/stat").read_text().rpartition(")")[2].split()
        return (int(words[11]) + int(words[12])) / os.sysconf("SC_CLK_TCK")

    def end(self):
        """Ends its input, and gives its status and its lines once it has ended. It tells no faults."""
        self.process.stdin.close()
        faults = self.process.stderr.read()
        self.reader.join(PATIENCE)
        self.process.wait(PATIENCE)
        expect(faults == b"", faults)
        return self.process.returncode, self.lines

    def expect_end(self, *lines):
        """It ends with status 0 and has printed these lines behind its first one: lines of agents may stand anywhere."""
        status, got = self.end()
        told = [line for line in got[1:] if not line.startswith("agent ")]
        expect((status, told) == (0, [*lines, "end"]), f"status {status}, {got}")


@contextlib.contextmanager
def listening(*words, peer=LISTENER):
    """A node of this peer that listens by these words; it is ended with the block."""
    with started(["listen", *words]) as process:
        node = Listener(process, peer)
        try:
            expect(node.addr, node.lines)
            yield node
        finally:
            process.kill()
            node.reader.join(PATIENCE)


def interrupt(process):
    """Stops a process, and has it go on: what waits in the system is interrupted by that."""
    process.send_signal(signal.SIGSTOP)
    stat = Path(f"/proc/{process.pid}/stat")
    await_that(lambda: stat.read_text().rpartition(")")[2].split()[0] == "T", "stopped")
    process.send_signal(signal.SIGCONT)


def pongs(count):
    """What a node prints that pings a listener so often."""
    return f"peer {LISTENER}\n" + "".join(f"pong {number}\n" for number in range(1, count + 1))
