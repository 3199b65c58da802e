"""Rows of `node` beside others: programs that talk by its words, and peers that are played here."""
import contextlib
import functools
import re
import resource
import socket
import subprocess
import threading
import time
from concurrent.futures import ThreadPoolExecutor
from typing import NamedTuple

from node_tests.runs import (
    DIALER,
    ID_0B,
    ID_11,
    ID_22,
    KEY_11,
    KEY_22,
    LISTENER,
    LISTENER_KEY,
    Missed,
    PATIENCE,
    Row,
    UP,
    await_that,
    expect,
    expect_ran,
    frame,
    listening,
    outcome,
    pongs,
    run,
    shown,
    started,
    upgrade,
)
from node_tests.words import listens_and_ends


# ---- programs that talk


def two_programs_talk():
    with listening("--agent", "a b") as node:
        expect_ran(run(["ping", node.addr, "--count", "3"]), 0, pongs(3))
        node.await_line("gone 1")
        said = f"peer {LISTENER}\nversion node/1.0.0\nagent a b\n" + "".join(
            f"protocol {name}\n" for name in ("/ipfs/id/1.0.0", "/ipfs/id/push/1.0.0", "/ipfs/ping/1.0.0")
        )
        expect_ran(run(["identify", node.addr]), 0, said)
        node.await_line("gone 2")
        lines = [(f"conn {number} listener {DIALER}", f"gone {number}") for number in (1, 2)]
        node.expect_end(*lines[0], *lines[1])


def an_address_without_its_id():
    with listening() as node:
        expect_ran(run(["ping", node.place, "--count", "2"]), 0, pongs(2))


def a_hundred_pings_of_one_call():
    with listening() as node:
        expect_ran(run(["ping", node.addr, "--count", "100"]), 0, pongs(100))
        node.await_line("gone 1")
        # A ping takes longer than the question what the dialer is.
        node.await_line("agent 1 node/0.1.0")
        node.expect_end(f"conn 1 listener {DIALER}", "gone 1")


def a_hundred_calls_of_one_ping():
    with listening() as node:
        for _ in range(100):
            expect_ran(run(["ping", node.addr]), 0, pongs(1))
        status, lines = node.end()
        expect(status == 0 and f"conn 100 listener {DIALER}" in lines and lines[-1] == "end", f"{status} {lines}")


def eight_programs_ping_at_once():
    with listening() as node, ThreadPoolExecutor(8) as lanes:
        words = ["ping", node.addr, "--count", "20"]
        for ran in lanes.map(run, [words] * 8):
            expect_ran(ran, 0, pongs(20))
        for number in range(1, 9):
            node.await_line(f"gone {number}")
        status, lines = node.end()
        told = sorted(line for line in lines if line.startswith("conn "))
        expect(status == 0 and told == [f"conn {number} listener {DIALER}" for number in range(1, 9)], f"{status} {lines}")


class Barred(NamedTuple):
    """A listener's words, and whether the peer is refused that pings it."""

    name: str
    listener: list
    is_refused: bool


BARRED = [
    Barred("one that is blocked", ["--block", DIALER], True),
    Barred("others are blocked", ["--block", ID_0B, "--block", "@11"], False),
    Barred("nobody is allowed", ["--allow-only"], True),
    Barred("one that is allowed", ["--allow-only", "--allow", ID_0B, "--allow", DIALER], False),
    Barred("a full table", ["--inbound", "0"], True),
    Barred("the same peer twice, one after the other", ["--conns", "1"], False),
]


def bars(barred):
    with listening(*barred.listener) as node:
        if barred.is_refused:
            is_kept_out(node)
            node.expect_end()
            return
        for number in (1, 2):
            expect_ran(run(["ping", node.addr]), 0, pongs(1))
            node.await_line(f"gone {number}")
        node.expect_end(*sum(([f"conn {number} listener {DIALER}", f"gone {number}"] for number in (1, 2)), []))


def is_kept_out(node):
    """A peer pings this node, and is refused in a line of one word: it may have been told who the node is."""
    ran = run(["ping", node.addr])
    expect(ran.status == 1 and ran.output.decode() in ("", f"peer {LISTENER}\n"), ran)
    expect(re.fullmatch(rb"refused \w+\n", ran.faults), ran)


class Refused(NamedTuple):
    """Words that are refused. The word PORT is a port of the host at which nobody listens."""

    name: str
    words: list
    status: int
    faults: str
    host: str = "127.0.0.1"


REFUSED = [
    Refused("ping: nobody listens", ["ping", "/ip4/127.0.0.1/tcp/PORT"], 1, "refused NoConnection"),
    Refused("identify: nobody listens", ["identify", "/ip6/::1/tcp/PORT"], 1, "refused NoConnection", "::1"),
    Refused("ping: no address", ["ping", ""], 1, "refused Empty"),
    Refused("ping: a port that is none", ["ping", "/ip4/127.0.0.1/tcp/99999"], 1, "refused BadValue"),
    Refused("ping: no port", ["ping", "/ip4/127.0.0.1"], 1, "refused NoSocket"),
    Refused("identify: a name", ["identify", "/dns4/example.org/tcp/4001"], 1, "refused NeedsLookup"),
    Refused("listen: no TCP", ["listen", "/ip4/127.0.0.1/udp/4001"], 1, "refused UnknownProtocol"),
    Refused("listen: as another", ["listen", f"/ip4/127.0.0.1/tcp/0/p2p/{ID_0B}"], 1, "refused Mismatch"),
    Refused("listen: none can be blocked", ["listen", "--blocked", "0", "--block", "@11"], 1, "refused BlockFull"),
    Refused("listen: none can be allowed", ["listen", "--allowed", "0", "--allow", "@11"], 1, "refused AllowFull"),
    Refused(
        "ping: no key",
        ["ping", "/ip4/127.0.0.1/tcp/PORT", "--key", "00"],
        2,
        "error: the value of '--key' is no key message in hexadecimal",
    ),
    Refused(
        "listen: no agent",
        ["listen", "--agent", ""],
        2,
        "error: the value of '--agent' is not 1 to 64 printable ASCII characters",
    ),
    Refused(
        "listen: no peer", ["listen", "--allow", "b"], 2, "error: the value of '--block' or '--allow' is no peer"
    ),
    Refused("ping: a count with a sign", ["ping", "", "--count", "+1"], 2, "error: a number is digits alone"),
]


@contextlib.contextmanager
def bound(host):
    """A socket at a port of this host, which doesn't listen yet."""
    with socket.socket(socket.AF_INET6 if ":" in host else socket.AF_INET) as sock:
        try:
            sock.bind((host, 0))
        except OSError as error:
            raise Missed(f"this machine has no loopback address {host}: {error}") from error
        sock.settimeout(PATIENCE)
        yield sock


def is_refused(row):
    """It is refused with its line, and prints nothing."""
    with bound(row.host) as sock:
        port = str(sock.getsockname()[1])
        words = [word.replace("PORT", port) for word in row.words]
        expect_ran(run(words), row.status, "", row.faults + "\n")


def listen_whose_input_ends_at_once():
    with bound("::1"):
        listens_and_ends(run(["listen", "/ip6/::1/tcp/0"]), "/ip6/::1")


def two_programs_talk_over_ip6():
    with bound("::1"), listening("/ip6/::1/tcp/0") as node:
        expect_ran(run(["ping", node.addr]), 0, pongs(1))
        node.await_line("gone 1")
        node.expect_end(f"conn 1 listener {DIALER}", "gone 1")


def keys_of_their_own():
    listener, dialer = ("08011220" + key.hex() for key in (KEY_11, KEY_22))
    with listening("--key", listener, peer=ID_11) as node:
        expect_ran(run(["ping", node.addr, "--key", dialer]), 0, f"peer {ID_11}\npong 1\n")
        node.await_line("gone 1")
        node.expect_end(f"conn 1 listener {ID_22}", "gone 1")


def one_who_meets_itself():
    """It is refused, whether the address names it or not."""
    with listening() as node:
        own = ["--key", "08011220" + LISTENER_KEY.hex()]
        for addr in (node.addr, node.place):
            expect_ran(run(["ping", addr, *own]), 1, "", "refused SelfPeer\n")
        node.expect_end()


def a_table_that_is_full_for_a_while():
    with listening("--conns", "1") as node:
        with node.dialed() as sock:
            sock.sendall(upgrade(KEY_11))
            node.await_line(f"conn 1 listener {ID_11}")
            is_kept_out(node)
        node.await_line("gone 1")
        expect_ran(run(["ping", node.addr]), 0, pongs(1))
        status, lines = node.end()
        expect(status == 0 and re.fullmatch(rf"conn \d+ listener {DIALER}", lines[3]), f"{status} {lines}")


def a_table_of_descriptors_that_is_full_for_a_while():
    """Who comes then waits, and the node doesn't spin. Once a descriptor is free it is served."""
    with listening() as node:
        with node.dialed() as first:
            first.sendall(upgrade(KEY_11))
            node.await_line(f"conn 1 listener {ID_11}")
            most = node.descriptors()
            resource.prlimit(node.process.pid, resource.RLIMIT_NOFILE, (most, most))
            with node.dialed() as second:
                second.sendall(upgrade(KEY_11))
                before = node.processor_time()
                time.sleep(1)
                spent = node.processor_time() - before
                expect(spent < 0.2 and node.descriptors() == most, f"{spent} s, {node.lines}")
                first.close()
                node.await_line(f"conn 2 listener {ID_11}")
        node.await_line("gone 2")
        node.expect_end(f"conn 1 listener {ID_11}", "gone 1", f"conn 2 listener {ID_11}", "gone 2")


def listen_as_itself():
    listens_and_ends(run(["listen", f"/ip4/127.0.0.1/tcp/0/p2p/{LISTENER}"]), "/ip4/127[.]0[.]0[.]1")


def another_peer_and_an_address_in_use():
    with listening() as node:
        expect_ran(run(["ping", f"{node.place}/p2p/{ID_0B}"]), 1, "", "refused Mismatch\n")
        expect_ran(run(["listen", node.place]), 1, "", "refused AddrInUse\n")
        status, lines = node.end()
        expect(status == 0 and lines[-1] == "end", f"{status} {lines}")


def an_address_right_behind_its_use():
    """Who listened there was pinged, and has shut the connection first."""
    with listening() as node:
        place = node.place
        expect_ran(run(["ping", node.addr]), 0, pongs(1))
        with node.dialed() as sock:
            sock.sendall(upgrade(KEY_11))
            node.await_line(f"conn 2 listener {ID_11}")
            node.process.stdin.close()
            hear(sock)
        status, lines = node.end()
        expect((status, lines[-1]) == (0, "end"), f"{status} {lines}")
    with listening(place) as node:
        expect(node.place == place, node.place)
        expect_ran(run(["ping", node.addr]), 0, pongs(1))


# ---- peers of the test's own


def hear(sock, is_enough=lambda heard: False):
    """What comes until that is enough, or no more comes."""
    heard = b""
    while not is_enough(heard):
        try:
            more = sock.recv(1 << 16)
        except ConnectionError:
            break
        if not more:
            break
        heard += more
    return heard


class Manner(NamedTuple):
    """What a listening peer does with the one connection that it takes, what it is dialed for, and what comes of that."""

    name: str
    # How much of its upgrade it says at once; behind how many bytes that it heard it says what then.
    upgrade: int = UP
    heard: int = 0
    says: bytes = b""
    # Whether it goes away behind that. Else it stays until the other end goes.
    leaves: bool = False
    errand: str = "ping"
    status: int = 1
    output: str = f"peer {ID_11}\n"
    faults: str = ""
    is_patient: bool = False


MANNERS = [
    Manner("says nothing", upgrade=0, output="", faults="refused NoAnswer\n", is_patient=True),
    Manner("says half", upgrade=80, errand="identify", output="", faults="refused NoAnswer\n", is_patient=True),
    Manner("is up, and silent", faults="refused NoAnswer\n", is_patient=True),
    Manner(
        "goes away within its upgrade", upgrade=80, heard=117, leaves=True, output="", faults="refused EarlyEnd\n"
    ),
    Manner("says garbage in its upgrade", upgrade=20, says=b"\x05fine\n", output="", faults="refused Select\n"),
    Manner("says garbage behind its upgrade", heard=UP + 12, says=b"\xff" * 12, faults="refused Mux\n"),
    Manner(
        "doesn't know the protocol",
        heard=UP + 24,
        says=b"\x00\x01\x00\x02\x00\x00\x00\x01\x00\x00\x00\x00"
        b"\x00\x00\x00\x00\x00\x00\x00\x01\x00\x00\x00\x18\x13/multistream/1.0.0\n\x03na\n",
        faults="refused NotSpoken\n",
    ),
    Manner(
        "acknowledges with its first data, and echoes other bytes",
        heard=UP + 24,
        says=b"\x00\x00\x00\x02\x00\x00\x00\x01\x00\x00\x00\x46\x13/multistream/1.0.0\n\x11/ipfs/ping/1.0.0\n"
        b"01234567890123456789012345678901",
        faults="refused WrongEcho\n",
    ),
    Manner(
        "resets the stream",
        heard=UP + 24,
        says=b"\x00\x01\x00\x08\x00\x00\x00\x01\x00\x00\x00\x00",
        errand="identify",
        faults="refused Reset\n",
    ),
    Manner(
        "says what it is in odd bytes, and ends the stream with its data",
        heard=UP + 24,
        says=b"\x00\x00\x00\x06\x00\x00\x00\x01\x00\x00\x00\x44\x13/multistream/1.0.0\n\x0f/ipfs/id/1.0.0\n"
        b"\x1f\x32\x04a\n\\\xff\x2a\x01v\x1a\x02/x\x12\x08\x04\x7f\x00\x00\x01\x06\x0f\xa1\x12\x02\xff\x01"
        b"\x22\x02\x01\x02",
        errand="identify",
        status=0,
        output=f"peer {ID_11}\nversion v\nagent a\\x0a\\\\\\xff\nprotocol /x\nlisten /ip4/127.0.0.1/tcp/4001\n"
        "listen ff01\nobserved 0102\n",
    ),
    Manner(
        "takes no more but goes on, and goes away between two frames",
        heard=UP + 24,
        says=b"\x00\x03\x00\x00\x00\x00\x00\x00\x00\x00\x00\x00",
        leaves=True,
        faults="refused Shut\n",
    ),
]


def taken(listener, process):
    """The connection of a run that dials here."""
    listener.settimeout(0.05)
    for _ in range(20 * PATIENCE):
        with contextlib.suppress(socket.timeout):
            sock, _addr = listener.accept()
            sock.settimeout(PATIENCE)
            return sock
        if process.poll() is not None:
            break
    raise Missed(shown(f"it didn't dial: {outcome(process)}"))


@contextlib.contextmanager
def dialed_by(words, redirected=""):
    """A run by these words and the address of a peer, and the connection of that peer."""
    with bound("127.0.0.1") as listener:
        listener.listen()
        addr = f"/ip4/127.0.0.1/tcp/{listener.getsockname()[1]}"
        with started([words[0], addr, *words[1:]], redirected) as process:
            with taken(listener, process) as sock:
                yield process, sock


def speak(sock, manner):
    """Speaks in this manner, and gives what was heard."""
    heard = b""
    with sock, contextlib.suppress(ConnectionError):
        sock.sendall(upgrade(KEY_11)[: manner.upgrade])
        heard = hear(sock, lambda heard: len(heard) >= manner.heard)
        sock.sendall(manner.says)
        if not manner.leaves:
            heard += hear(sock)
    return heard


def meets(manner):
    with dialed_by([manner.errand, "--key", "08011220" + KEY_22.hex()]) as (process, sock):
        heard = speak(sock, manner)
        expect_ran(outcome(process), manner.status, manner.output, manner.faults)
    is_up = bool(manner.output)
    says = upgrade(KEY_22)
    expect(heard.startswith(says) if is_up else says.startswith(heard), heard)


class Middle:
    """Takes one connection, and passes on byte by byte what it and the node at a port say to one another. Behind so many bytes
    of that node it waits until it is released."""

    def __init__(self, port, held_behind):
        self.listener = socket.create_server(("127.0.0.1", 0))
        self.listener.settimeout(PATIENCE)
        self.port = port
        self.held_behind = held_behind
        self.released = threading.Event()
        self.addr = f"/ip4/127.0.0.1/tcp/{self.listener.getsockname()[1]}"
        self.run = threading.Thread(target=self._pass, daemon=True)
        self.run.start()

    def _pass(self):
        with contextlib.suppress(OSError), self.listener:
            near, _ = self.listener.accept()
            far = socket.create_connection(("127.0.0.1", self.port), PATIENCE)
            with near, far:
                near.settimeout(PATIENCE)
                back = threading.Thread(target=self._pass_on, args=(far, near, self.held_behind), daemon=True)
                back.start()
                self._pass_on(near, far, None)
                back.join(PATIENCE)

    def _pass_on(self, source, sink, held_behind):
        sink.setsockopt(socket.IPPROTO_TCP, socket.TCP_NODELAY, 1)
        passed = 0
        with contextlib.suppress(OSError):
            for some in iter(lambda: source.recv(32), b""):
                for byte in some:
                    if passed == held_behind:
                        self.released.wait(PATIENCE)
                    sink.sendall(bytes([byte]))
                    passed += 1
        with contextlib.suppress(OSError):
            sink.shutdown(socket.SHUT_WR)

    def end(self):
        """It ends once both ends have."""
        self.released.set()
        self.run.join(PATIENCE)
        expect(not self.run.is_alive(), "bytes are still passed on")


def a_peer_that_answers_in_single_bytes():
    with listening() as node:
        middle = Middle(node.port, None)
        expect_ran(run(["ping", middle.addr, "--count", "2"]), 0, pongs(2))
        node.await_line("gone 1")
        node.expect_end(f"conn 1 listener {DIALER}", "gone 1")
        middle.end()


def ping_behind_head():
    """It ends with status 1 and no line, once nobody reads its lines."""
    with listening() as node:
        middle = Middle(node.port, UP)
        with started(["ping", middle.addr, "--count", "2"]) as process:
            expect(process.stdout.readline() == f"peer {LISTENER}\n".encode(), "another line")
            process.stdout.close()
            middle.released.set()
            faults = process.stderr.read()
            process.wait()
            expect((process.returncode, faults) == (1, b""), f"{process.returncode} {faults}")
        middle.end()
        status, lines = node.end()
        expect(status == 0 and lines[-1] == "end", f"{status} {lines}")


def listen_behind_head():
    """Behind `head -1` it ends with status 1 and no line: once its input ends, or a peer comes."""
    for comes_peer in (False, True):
        with started(["listen"]) as process:
            with subprocess.Popen(["head", "-1"], stdin=process.stdout, stdout=subprocess.PIPE) as head:
                process.stdout.close()
                line = head.communicate()[0].decode()
            addr = line.partition("listening ")[2].strip()
            if comes_peer:
                ping = run(["ping", addr])
                expect(ping.status in (0, 1), ping)
            else:
                process.stdin.close()
            faults = process.stderr.read()
            process.wait()
            expect((process.returncode, faults) == (1, b"") and LISTENER in line, f"{process.returncode} {faults} {line}")


def a_peer_hears_no_line_of_a_closed_output():
    """Where outputs were closed before the program began, a connection doesn't take the place of one."""
    for command in ("ping", "identify"):
        for redirected in (">&-", "<&- >&-", ">&- 2>&-", "<&- >&- 2>&-"):
            with dialed_by([command], redirected) as (process, sock):
                sock.sendall(upgrade(KEY_11))
                heard = hear(sock, lambda heard: b"peer " in heard)
                sock.close()
                ran = outcome(process)
            expect(ran.status == 1 and b"peer " not in heard, f"{command} {redirected}: {ran}, and its peer heard {heard}")


# What peers of other makes say behind their upgrade: a ping of the session, a stream that is opened by its first data and ended
# with its last, windows of any size, a stream that is opened and reset, and that they go away.
SAYS = (
    b"\x00\x02\x00\x01\x00\x00\x00\x00\x00\x00\x00\x07"
    b"\x00\x00\x00\x01\x00\x00\x00\x01\x00\x00\x00\x26\x13/multistream/1.0.0\n\x11/ipfs/ping/1.0.0\n"
    b"\x00\x01\x00\x00\x00\x00\x00\x01\x00\x00\x00\x00\x00\x01\x00\x00\x00\x00\x00\x01\x00\x10\x00\x00"
    b"\x00\x01\x00\x01\x00\x00\x00\x03\x00\x00\x00\x00\x00\x01\x00\x08\x00\x00\x00\x03\x00\x00\x00\x00"
    b"\x00\x00\x00\x04\x00\x00\x00\x01\x00\x00\x00\x2001234567890123456789012345678901"
    b"\x00\x03\x00\x00\x00\x00\x00\x00\x00\x00\x00\x00"
)
# What they hear: the answer of the ping, and the echo.
AWAITS = [b"\x00\x02\x00\x02\x00\x00\x00\x00\x00\x00\x00\x07", b"01234567890123456789012345678901"]


def peers_of_other_makes_are_served():
    with listening() as node:
        with node.dialed() as sock:
            sock.sendall(upgrade(KEY_11) + SAYS)
            heard = hear(sock, lambda heard: all(part in heard for part in AWAITS))
        expect(heard.startswith(upgrade(LISTENER_KEY)), heard)
        expect(all(part in heard for part in AWAITS), heard)
        node.await_line("gone 1")
        node.expect_end(f"conn 1 listener {ID_11}", "gone 1")


def pings_of(turn):
    return b"".join(frame(2, 1, 0, count) for count in range(1000))


def openings_of(turn):
    return b"".join(frame(1, 1, 2000 * turn + 2 * count + 1, 0) for count in range(1000))


# How many thousands of frames a flood has at most: 96 million bytes.
MOST_FLOODS = 8000


def is_dropped(sock, flood):
    """Floods and never reads. Answers whether the other end has dropped the connection."""
    sock.sendall(upgrade(KEY_11))
    for turn in range(MOST_FLOODS):
        try:
            sock.sendall(flood(turn))
        except ConnectionError:
            return True
    return False


def outlives(flood):
    """A flood is dropped, and the next peer is served."""
    with listening() as node:
        with node.dialed() as sock:
            expect(is_dropped(sock, flood), "the flood was not dropped")
        expect_ran(run(["ping", node.addr]), 0, pongs(1))
        node.await_line("gone 1")
        node.await_line("gone 2")
        node.expect_end(f"conn 1 listener {ID_11}", "gone 1", f"conn 2 listener {DIALER}", "gone 2")


def a_flood_of_pings_is_dropped():
    outlives(pings_of)


def a_flood_of_openings_is_dropped():
    outlives(openings_of)


class Client(NamedTuple):
    """A client of a node: how much of its upgrade it says, what behind that, and how its connection ends."""

    name: str
    upgrade: int
    behind: bytes = b""
    # Whether the node answers all of the upgrade, and how many bytes it answers else at least.
    is_up: bool = False
    answered: int = 0
    # Whether the node ends the connection.
    is_ended: bool = False


CLIENTS = [
    Client("all of an upgrade", UP, is_up=True),
    Client("nothing", 0),
    Client("half of an upgrade", 80, answered=38),
    *(Client(f"garbage behind {front} bytes", front, b"\xff" * 64, is_ended=True) for front in (137, 117, 60, 38, 20, 0)),
    Client("garbage behind an upgrade", UP, b"\xff" * 64, is_ended=True),
    Client("a flood of openings", UP, openings_of(0) + openings_of(1), is_up=True),
    Client("all of an upgrade again", UP, is_up=True),
]


def is_served(node, client):
    """A client comes, speaks and goes away, and its connection ends."""
    before = node.descriptors()
    answer = upgrade(LISTENER_KEY)
    with node.dialed() as sock:
        await_that(lambda: node.descriptors() > before, f"{client.name}: taken")
        sock.sendall(upgrade(KEY_11)[: client.upgrade] + client.behind)
        enough = UP if client.is_up else client.answered
        heard = hear(sock, lambda heard: len(heard) >= enough and not client.is_ended)
    is_answered = heard.startswith(answer) if client.is_up else answer.startswith(heard[:UP])
    expect(is_answered and len(heard) >= enough, f"{client.name}: {heard}")
    await_that(lambda: node.descriptors() == before, f"{client.name}: gone")


def each_client_ends_alone():
    with listening() as node:
        for client in CLIENTS:
            is_served(node, client)
        node.await_line("gone 12")
        status, lines = node.end()
        # Whether garbage behind an upgrade came before it was looked at the connection isn't said.
        told = [line for line in lines[1:] if line not in (f"conn 10 listener {ID_11}", "gone 10")]
        shown = sum(([f"conn {number} listener {ID_11}", f"gone {number}"] for number in (1, 11, 12)), [])
        expect((status, told) == (0, [*shown, "end"]), f"{status} {lines}")


# Tests that are no rows of a table.
TESTS = [
    two_programs_talk,
    an_address_without_its_id,
    a_hundred_pings_of_one_call,
    a_hundred_calls_of_one_ping,
    eight_programs_ping_at_once,
    listen_whose_input_ends_at_once,
    two_programs_talk_over_ip6,
    keys_of_their_own,
    one_who_meets_itself,
    a_table_that_is_full_for_a_while,
    a_table_of_descriptors_that_is_full_for_a_while,
    listen_as_itself,
    another_peer_and_an_address_in_use,
    an_address_right_behind_its_use,
    a_peer_that_answers_in_single_bytes,
    ping_behind_head,
    listen_behind_head,
    a_peer_hears_no_line_of_a_closed_output,
    peers_of_other_makes_are_served,
    a_flood_of_pings_is_dropped,
    a_flood_of_openings_is_dropped,
    each_client_ends_alone,
]


def rows():
    """All rows of programs that talk, and of peers."""
    for barred in BARRED:
        yield Row(f"barred: {barred.name}", functools.partial(bars, barred))
    for row in REFUSED:
        yield Row(f"refused: {row.name}", functools.partial(is_refused, row))
    for manner in MANNERS:
        yield Row(f"a peer that {manner.name}", functools.partial(meets, manner), manner.is_patient)
    yield from (Row(test.__name__.replace("_", " "), test) for test in TESTS)
