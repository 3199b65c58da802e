"""Rows of `node trace`: what one end of a connection tells and writes, whole and cut, and what becomes of one whose input ends early.

What each prints stands in traces.txt, below its name, as it was reckoned by hand."""
import functools
from pathlib import Path
from typing import NamedTuple

from node_tests.runs import HELLO, Row, expect, expect_ran, frame, run, upgrade

# The sizes of the pieces in which rows are cut.
SIZES = (1, 7, 13)

OWN_KEY = b"B" * 32
UPGRADE = upgrade(OWN_KEY)


# ---- what the other end sends


class Flags:
    NONE = 0
    SYN = 1
    ACK = 2
    FIN = 4
    RST = 8


IDENTIFY = HELLO + b"\x0f/ipfs/id/1.0.0\n"
PUSH = HELLO + b"\x14/ipfs/id/push/1.0.0\n"
PING = HELLO + b"\x11/ipfs/ping/1.0.0\n"
REFUSES = HELLO + b"\x03na\n"
ROUND = b"0123456789abcdef0123456789abcdef"
HALF = ROUND[:16]
ZEROS = bytes(32)


def says(key):
    """An identify message with this key, version `v` and agent `x`."""
    return b"\x2c\x0a\x24\x08\x01\x12\x20" + key + b"\x2a\x01v\x32\x01x"


def data(flags, stream, payload):
    return frame(0, flags, stream, len(payload)) + payload


def opens(stream):
    return frame(1, Flags.SYN, stream, 0)


def accepts(stream):
    return frame(1, Flags.ACK, stream, 0)


def ends(stream):
    return frame(1, Flags.FIN, stream, 0)


def resets(stream):
    return frame(1, Flags.RST, stream, 0)


SESSION_PING = frame(2, Flags.SYN, 0, 7)
GOES_AWAY = frame(3, Flags.NONE, 0, 0)


# ---- rows


class Trace(NamedTuple):
    """An end, and the lines of its script; bytes are fed."""

    name: str
    role: str
    lines: list
    status: int = 0


# Played whole and cut: a listener that serves a ping, a dialer that pings, and one that is refused. Before it is up the dialer
# asks in vain.
CUT = [
    Trace(
        "serves a ping",
        "listener",
        ["out", UPGRADE, "out", opens(1) + data(Flags.NONE, 1, PING + ROUND), "out", ends(1), "out", "out", "end", "end", "ask 2"],
    ),
    Trace(
        "pings",
        "dialer",
        [
            "ask 2",
            "out",
            UPGRADE,
            "ask 3",
            "ask 2",
            "out",
            data(Flags.NONE, 1, PING),
            "out",
            data(Flags.FIN, 1, ZEROS),
            "out",
            "end",
        ],
    ),
    Trace("is refused", "dialer", [UPGRADE, "ask 2", data(Flags.NONE, 1, REFUSES), "out"]),
]

# All that comes to the listener that serves a ping.
TO_A_LISTENER = UPGRADE + opens(1) + data(Flags.NONE, 1, PING + ROUND) + ends(1)

STREAMS = [
    Trace(
        "a stream of the listener's parity",
        "listener",
        [UPGRADE, "out", opens(1) + data(Flags.NONE, 1, PING + ROUND) + opens(2) + ends(1), "out", "out", "ask 2", "end"],
    ),
    Trace(
        "a talk that breaks its stream alone, in the frame that opens it",
        "listener",
        [
            UPGRADE,
            "out",
            opens(1) + data(Flags.NONE, 1, PING + HALF) + data(Flags.SYN, 3, HELLO + b"\0"),
            "out",
            data(Flags.FIN, 1, HALF),
            "out",
            "end",
        ],
    ),
    Trace(
        "a name that nobody knows, then ping",
        "listener",
        [UPGRADE, "out", opens(1) + data(Flags.NONE, 1, HELLO + b"\x03/x\n" + PING.removeprefix(HELLO) + ROUND), "out"],
    ),
    Trace("300 openings", "listener", [UPGRADE, "out", b"".join(opens(2 * at + 1) for at in range(300)), "out"]),
    Trace(
        "a reset before the work is done, and the number again",
        "listener",
        [
            UPGRADE,
            "out",
            opens(1) + data(Flags.NONE, 1, PING + ROUND) + resets(1),
            "out",
            opens(1) + data(Flags.NONE, 1, PING + ROUND) + ends(1),
            "out",
        ],
    ),
    Trace("a reset in the talk", "listener", [UPGRADE, opens(1) + resets(1) + resets(1), "end"]),
    Trace("a reset in the frame that ends the talk", "listener", [UPGRADE, opens(1) + data(Flags.RST, 1, IDENTIFY), "out"]),
    Trace(
        "an end, and behind it a reset in one piece",
        "listener",
        [UPGRADE, "out", opens(1) + data(Flags.NONE, 1, PING + ROUND) + ends(1) + resets(1), "out"],
    ),
    Trace(
        "an end and a reset in one frame",
        "listener",
        [UPGRADE, "out", opens(1) + data(Flags.FIN | Flags.RST, 1, PING + ROUND), "out"],
    ),
    Trace(
        "a reset behind the work",
        "listener",
        [UPGRADE, opens(1) + data(Flags.NONE, 1, IDENTIFY), "out", resets(1), "out"],
    ),
]

MESSAGES = [
    Trace(
        "an identify stream that the other end opens, twice in one piece",
        "listener",
        [UPGRADE, "out", opens(1) + data(Flags.NONE, 1, IDENTIFY) + ends(1) + opens(1) + data(Flags.FIN, 1, IDENTIFY), "out"],
    ),
    Trace(
        "an identify stream that this end opens",
        "dialer",
        [UPGRADE, "out", "ask 0", "out", accepts(1) + data(Flags.NONE, 1, IDENTIFY) + data(Flags.FIN, 1, says(OWN_KEY)), "out"],
    ),
    Trace(
        "an identify message with another key",
        "dialer",
        [UPGRADE, "ask 0", data(Flags.FIN, 1, IDENTIFY + says(b"C" * 32)), "out"],
    ),
    Trace(
        "a push of the other end's",
        "listener",
        [UPGRADE, "out", opens(1) + data(Flags.FIN, 1, PUSH + says(OWN_KEY)), "out"],
    ),
    Trace(
        "a push of this end's",
        "listener",
        [UPGRADE, "out", "ask 1", "out", data(Flags.NONE, 2, PUSH), "out"],
    ),
    Trace(
        "a handler that faults as it takes data",
        "listener",
        [UPGRADE, "out", opens(1) + data(Flags.NONE, 1, PUSH + b"\x81\x80\x01"), "out"],
    ),
    Trace(
        "a handler that faults at the end",
        "listener",
        [UPGRADE, "out", opens(1) + data(Flags.FIN, 1, PUSH + b"\x05\x2a"), "out"],
    ),
]

ASKS = [
    Trace(
        "an echo with one bit wrong",
        "dialer",
        [UPGRADE, "ask 2", data(Flags.NONE, 1, PING + ZEROS[1:] + b"\x01"), "out"],
    ),
    Trace(
        "an end in the talk of this end's stream",
        "dialer",
        [UPGRADE, "out", "ask 2", data(Flags.FIN, 1, HELLO), "out"],
    ),
    Trace("a reset of this end's stream", "dialer", [UPGRADE, "ask 2", "ask 2", resets(1), "ask 2", "out"]),
    Trace("a reset right behind its ask", "dialer", [UPGRADE, "out", "ask 2", resets(1), "out", "ask 2"]),
    Trace("going away", "dialer", [UPGRADE, GOES_AWAY, "ask 2", "ask 3", "end"]),
    Trace(
        "asks for no protocol, before it is up and behind the end",
        "dialer",
        ["ask 3", UPGRADE, "ask 3", "end", "ask 3"],
    ),
    Trace("257 asks", "dialer", [UPGRADE, *["ask 0"] * 257]),
    Trace("a ping of the session's", "dialer", [UPGRADE, "out", SESSION_PING, "out"]),
    Trace(
        "an end with a ping half echoed",
        "listener",
        [UPGRADE, "out", opens(1) + data(Flags.NONE, 1, PING + HALF), "end", "out"],
    ),
]

ENDS = [
    Trace(
        "an end of the stream with a ping half echoed",
        "listener",
        [UPGRADE, "out", opens(1) + data(Flags.FIN, 1, PING + HALF), "out"],
    ),
    Trace(
        "an end of the stream in its talk",
        "listener",
        [UPGRADE, "out", opens(1) + data(Flags.FIN, 1, HELLO), "out"],
    ),
    Trace("no talk", "listener", [b"\0", "out"]),
    Trace("no exchange", "listener", [HELLO + b"\x11/plaintext/2.0.0\n\x02\x12\0", "out"]),
    Trace("no name is left", "dialer", [REFUSES, "out", "ask 2"]),
    Trace("lines of other forms", "dialer", ["", "out", "cut 1 ", "cut 0 00"], status=1),
]


# ---- how they are played


@functools.cache
def printed():
    """What each row prints: its output, and behind it what it says on its faults."""
    text = (Path(__file__).parent / "traces.txt").read_text()
    blocks = [block.partition("\n") for block in text.removeprefix("== ").split("\n== ")]
    return {name: lines.rstrip("\n") + "\n" if lines else "" for name, _, lines in blocks}


def script_of(lines, feed):
    return "".join(f"{line}\n" if isinstance(line, str) else f"{feed} {line.hex()}\n" for line in lines).encode()


def plays(trace, feed, name):
    """Plays a row, whose bytes are fed so."""
    wanted = printed()[name]
    faults = wanted[wanted.index("refused line") :] if trace.status else ""
    expect_ran(run(["trace", trace.role], script_of(trace.lines, feed)), trace.status, wanted.removesuffix(faults), faults)


def ends_early():
    """Ends the input of a listener behind each front of what comes to it."""
    last, changes = "", ""
    for at in range(len(TO_A_LISTENER)):
        ran = run(["trace", "listener"], script_of([TO_A_LISTENER[:at], "end"], "feed"))
        expect((ran.status, ran.faults) == (0, b""), ran)
        told = ran.output.decode().rstrip("\n").rpartition("\n")[2]
        if told != last:
            changes += f"the input ends behind byte {at}: {told}\n"
            last = told
    expect(changes == printed()["ends early"], changes)


def rows():
    """All rows of traces."""
    for trace in CUT:
        for feed, name in [("feed", trace.name), *[(f"cut {size}", f"{trace.name}, cut in pieces of {size}") for size in SIZES]]:
            yield Row(f"trace: {name}", functools.partial(plays, trace, feed, name))
    for trace in (*STREAMS, *MESSAGES, *ASKS, *ENDS):
        yield Row(f"trace: {trace.name}", functools.partial(plays, trace, "feed", trace.name))
    yield Row("trace: ends early", ends_early)
