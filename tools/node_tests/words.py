"""Rows of `node` alone: words, inputs, outputs, signals."""
import functools
import os
import re
import signal
import subprocess
from concurrent.futures import ThreadPoolExecutor
from typing import NamedTuple

from node_tests.runs import (
    DIALER,
    HELLO,
    ID_0A,
    ID_0B,
    ID_11,
    KEY_11,
    KEY_22,
    LISTENER,
    ONES_ID,
    ONES_KEY,
    Ran,
    Row,
    ZERO_ID,
    ZERO_KEY,
    expect,
    expect_ran,
    frame,
    interrupt,
    listening,
    outcome,
    pongs,
    run,
    run_unread,
    started,
    upgrade,
)


# ---- rows of words and an input


class Case(NamedTuple):
    """Words and an input, and what comes of them."""

    name: str
    words: list
    given: bytes = b""
    status: int = 0
    output: str = ""
    faults: str = ""


def refused(name, words, fault):
    return Case(name, words, status=1, faults=f"refused {fault}\n")


IDS = [
    Case("id: a key of zeros", ["id", ZERO_KEY], output=f"{ZERO_ID}\n"),
    Case("id: a key of ones", ["id", ONES_KEY], output=f"{ONES_ID}\n"),
    refused("id: an odd digit", ["id", "0"], "NotHex"),
    refused("id: no digit", ["id", "0g"], "NotHex"),
    refused("id: an empty word", ["id", ""], "NoType"),
    refused("id: no type", ["id", "120100"], "NoType"),
    refused("id: no data", ["id", "0801"], "NoData"),
    refused("id: a type that is unknown", ["id", "08041200"], "UnknownType"),
    refused("id: a key of a bad length", ["id", "08011200"], "BadLength"),
    refused("id: no message", ["id", "0b"], "Wire"),
    Case("hash: of a key of zeros", ["hash", ZERO_ID], output=f"0024{ZERO_KEY}\n"),
    Case("hash: of a key of ones", ["hash", ONES_ID], output=f"0024{ONES_KEY}\n"),
    Case("hash: of nothing", ["hash", "bafzaaaa"], output="0000\n"),
    refused("hash: without its b", ["hash", "afzaaaa"], "NotB"),
    refused("hash: in capitals", ["hash", "bAFZAAAA"], "NotBase32"),
    refused("hash: of a bad length", ["hash", "ba"], "BadLength"),
    refused("hash: bits behind its end", ["hash", "bafzaaab"], "TrailingBits"),
    refused("hash: of a bad prefix", ["hash", "baa"], "BadPrefix"),
    refused("hash: cut", ["hash", "bafzaa"], "BadHash"),
    Case(
        "addr: of IPv4",
        ["addr", "/ip4/127.0.0.1/tcp/4001"],
        output="047f000001060fa1\n/ip4/127.0.0.1/tcp/4001\n",
    ),
    Case(
        "addr: of IPv6",
        ["addr", "/ip6/0:0:1:0:0:1:0:0/tcp/80"],
        output="2900000000000100000000000100000000060050\n/ip6/::1:0:0:1:0:0/tcp/80\n",
    ),
    Case(
        "addr: of a name",
        ["addr", "/dns4/localhost/tcp/80"],
        output="36096c6f63616c686f7374060050\n/dns4/localhost/tcp/80\n",
    ),
    refused("addr: an empty word", ["addr", ""], "Empty"),
    refused("addr: a protocol that is unknown", ["addr", "/quic/1"], "UnknownProtocol"),
    refused("addr: cut", ["addr", "/ip4"], "Cut"),
    refused("addr: a bad value", ["addr", "/ip4/127.0.0.1/tcp/04001"], "BadValue"),
    Case("--version", ["--version"], output="node 0.1.0\n"),
]

OF_ONE = ["replay", "--conns", "2", "--per-peer", "1", "--streams", "1", "--blocked", "1"]
LAST_FRONT = ["replay", "--first-front", "18446744073709551614"]


def bad_line(name, given, number=1, output=""):
    """A script that is refused at a line, behind which it isn't read."""
    return Case(f"replay: {name}", ["replay"], given, 1, output, f"refused line {number}\n")


REPLAYS = [
    Case(
        "replay: each refusal of a small table",
        OF_ONE,
        b"dial @11\ndial @11\naccept\naccept\nsettle 2 @11\nsettle 1 @22\nsettle 1 @11\nsettle 1 @11\nask 1 2\n"
        b"ask 1 2\ndone 1 0\ndone 1 2\nask 2 0\nblock @22\nblock @33\nblock @22\nsettle 2 @22\nhangup @11\nask 1 2\n"
        b"unblock @22\ngone 1\ngone 1\ndial @00\nlist\n",
        output="conn 1\nrefused 12 PeerFull\nconn 2\nrefused 11 Full\nrefused 12 PeerFull\nrefused 9 Mismatch\nok\n"
        "refused 5 NotPending\nok\nrefused 13 StreamsFull\nrefused 14 NothingAsked\nok\nrefused 6 NotLive\ncount 0\n"
        "refused 15 BlockFull\ncount 0\nrefused 10 Blocked\ncount 1\nrefused 4 Closing\ncount 1\nok\nrefused 3 NoConn\n"
        "refused 8 SelfPeer\nfront 23\nconn 2 listener pending - 0/0 0/0 0/0\nend\n",
    ),
    Case(
        "replay: a connection that is gone",
        OF_ONE,
        b"dial @11\ndial @11\naccept\naccept\nsettle 2 @11\nsettle 1 @22\nsettle 1 @11\nsettle 1 @11\ngone 1\n"
        b"gone 1\ndial @00\nlist\n",
        output="conn 1\nrefused 12 PeerFull\nconn 2\nrefused 11 Full\nrefused 12 PeerFull\nrefused 9 Mismatch\nok\n"
        "refused 5 NotPending\nok\nrefused 3 NoConn\nrefused 8 SelfPeer\nfront 11\n"
        "conn 2 listener pending - 0/0 0/0 0/0\nend\n",
    ),
    Case(
        "replay: a peer that is blocked",
        ["replay"],
        b"dial @11\naccept\nblock @11\nsettle 1 @11\nsettle 2 @11\nlist\nhangup @22\nhangup @00\nsettle 2 @22\nask 2 3\n",
        output="conn 1\nconn 2\ncount 1\nrefused 4 Closing\nrefused 10 Blocked\nfront 5\n"
        f"conn 1 dialer closing {ID_11} 0/0 0/0 0/0\nconn 2 listener pending - 0/0 0/0 0/0\nblocked {ID_11}\nend\n"
        "count 0\nrefused 8 SelfPeer\nok\nrefused 7 BadProtocol\n",
    ),
    Case(
        "replay: the last front, and a script that ends within a line",
        LAST_FRONT,
        b"dial -\nblock @11\nlist",
        output="conn 1\nrefused 1 Spent\nfront 18446744073709551615\nconn 1 dialer pending - 0/0 0/0 0/0\nend\n",
    ),
    Case(
        "replay: the last front, and a call that is accepted no more",
        LAST_FRONT,
        b"dial -\naccept\nlist\n",
        output="conn 1\nrefused 1 Spent\nfront 18446744073709551615\nconn 1 dialer pending - 0/0 0/0 0/0\nend\n",
    ),
    Case(
        "replay: the last number of a connection",
        ["replay", "--first-conn", "4294967295"],
        b"accept\naccept\n",
        output="conn 4294967295\nrefused 16 IdsExhausted\n",
    ),
    Case(
        "replay: peers that are allowed",
        ["replay", "--inbound", "1", "--allow-only", "--allowed", "1"],
        b"accept\naccept\ndial @11\nallow @11\nallow @11\nallow @22\ndial @11\nsettle 1 @22\nsettle 1 @11\n"
        b"disallow @11\nsettle 2 @11\nlist\n",
        output="conn 1\nrefused 17 SideFull\nrefused 18 NotAllowed\ncount 1\ncount 0\nrefused 19 AllowFull\nconn 2\n"
        "refused 18 NotAllowed\nok\ncount 2\nrefused 4 Closing\nfront 11\n"
        f"conn 1 listener closing {ID_11} 0/0 0/0 0/0\nconn 2 dialer closing {ID_11} 0/0 0/0 0/0\nend\n",
    ),
    Case(
        "replay: agents",
        ["replay"],
        b"dial -\nnote 1 x\nsettle 1 @11\nnote 1 a b\nlist\nnote 2 x\nhangup @11\nnote 1 y\n",
        output=f"conn 1\nrefused 6 NotLive\nok\nok\nfront 4\nconn 1 dialer live {ID_11} 0/0 0/0 0/0 agent a b\nend\n"
        "refused 3 NoConn\ncount 1\nrefused 4 Closing\n",
    ),
    bad_line("a dial of nobody", b"dial\n"),
    bad_line("a peer of one digit behind empty lines", b"accept\n\n\ndial @1\naccept\n", 4, "conn 1\n"),
    bad_line("a word too many", b"accept now\n"),
    bad_line("a space at the end", b"list \n"),
    bad_line("a number with a sign", b"ask 1 +1\n"),
    bad_line("a protocol that is too large", b"ask 1 256\n"),
    bad_line("a connection that is too large", b"gone 4294967296\n"),
    bad_line("a connection below zero", b"gone -1\n"),
    bad_line("an empty agent", b"note 1 \n"),
    bad_line("a settling without a peer", b"settle 1\n"),
    bad_line("a space at the beginning", b" accept\n"),
    bad_line("a line that is no UTF-8", b"accept\n\xff\n", 2, "conn 1\n"),
    Case("replay: an empty script", ["replay"]),
    Case("replay: the longest script", ["replay"], b"\n" * 1_048_576),
    Case("replay: too long a script", ["replay"], b"\n" * 1_048_577, 1, "", "refused input\n"),
    Case(
        "replay: the script of the README",
        ["replay"],
        b"dial @11\naccept\nlist\n",
        output=f"conn 1\nconn 2\nfront 2\nconn 1 dialer pending {ID_11} 0/0 0/0 0/0\n"
        "conn 2 listener pending - 0/0 0/0 0/0\nend\n",
    ),
]

def at_a_default(option, given, output):
    """As much as an option lets stand where it isn't given, and one more."""
    return Case(f"replay: the default of {option}", ["replay"], given, output=output)


def peers(count):
    """So many peer words, none of which is the node's own."""
    return [f"@{number:02x}" for number in range(1, count + 1)]


def conns(count):
    return "".join(f"conn {number}\n" for number in range(1, count + 1))


DEFAULTS = [
    at_a_default("--conns", b"accept\n" * 65, conns(64) + "refused 11 Full\n"),
    at_a_default("--per-peer", b"dial @11\n" * 9, conns(8) + "refused 12 PeerFull\n"),
    at_a_default(
        "--streams",
        b"accept\nsettle 1 @11\n" + b"ask 1 2\n" * 65,
        conns(1) + "ok\n" * 65 + "refused 13 StreamsFull\n",
    ),
    at_a_default(
        "--blocked",
        "".join(f"block {peer}\n" for peer in peers(65)).encode(),
        "count 0\n" * 64 + "refused 15 BlockFull\n",
    ),
    at_a_default(
        "--allowed",
        "".join(f"allow {peer}\n" for peer in peers(65)).encode(),
        "count 1\n" * 64 + "refused 19 AllowFull\n",
    ),
    Case(
        "replay: the default of --outbound",
        ["replay", "--conns", "256"],
        b"dial -\n" * 257,
        output=conns(256) + "refused 11 Full\n",
    ),
    Case(
        "replay: the default of --inbound",
        ["replay", "--conns", "256"],
        b"accept\n" * 257,
        output=conns(256) + "refused 11 Full\n",
    ),
    at_a_default("--own, --first-conn and --first-front", b"dial @00\ndial -\n", "refused 8 SelfPeer\nconn 1\n"),
    Case(
        "replay: the least numbers",
        ["replay", "--conns", "1", "--per-peer", "1", "--streams", "1", "--blocked", "0", "--inbound", "0", "--outbound", "0"]
        + ["--allowed", "0", "--first-conn", "0", "--first-front", "0"],
        b"accept\ndial -\nblock @11\nallow @11\nlist\n",
        output="refused 17 SideFull\nrefused 17 SideFull\nrefused 15 BlockFull\nrefused 19 AllowFull\nfront 4\nend\n",
    ),
]

# Listings that are far longer than what a pipe or a buffer holds.
FULL = "".join(f"conn {number} listener pending - 0/0 0/0 0/0\n" for number in range(1, 257))
LONG = Case(
    "replay: listings of half a million bytes",
    ["replay", "--conns", "256"],
    b"accept\n" * 256 + b"list\n" * 50,
    output=conns(256) + f"front 256\n{FULL}end\n" * 50,
)


def goes(case):
    expect_ran(run(case.words, case.given), case.status, case.output, case.faults)


# ---- command lines

LIMITS = ["--conns", "--per-peer", "--streams", "--blocked", "--inbound", "--outbound", "--allowed", "--allow-only"]
# What is shown of each subcommand: its usage and its options.
SUBCOMMANDS = {
    "id": ("<HEX>", []),
    "hash": ("<TEXT>", []),
    "addr": ("<TEXT>", []),
    "replay": ("[OPTIONS]", ["--own", "--first-conn", "--first-front", *LIMITS]),
    "trace": ("[OPTIONS] <ROLE>", ["--key", "--payload"]),
    "run": ("", []),
    "listen": ("[OPTIONS] [ADDR]", ["--key", "--agent", "--block", "--allow", *LIMITS]),
    "ping": ("[OPTIONS] <ADDR>", ["--key", "--count"]),
    "identify": ("[OPTIONS] <ADDR>", ["--key"]),
}


def helps(words, *parts):
    """It prints a text with these parts, and nothing on its faults."""
    ran = run(words)
    text = ran.output.decode()
    expect((ran.status, ran.faults) == (0, b"") and text.endswith("\n"), ran)
    for part in parts:
        expect(part in text, f"{text} without {part}")


BAD = [
    ["replay", "--conns", "0"],
    ["replay", "--conns", "+5"],
    ["replay", "--first-front", "+5"],
    ["replay", "--conns", "257"],
    ["replay", "--per-peer", "0"],
    ["replay", "--per-peer", "9"],
    ["replay", "--streams", "0"],
    ["replay", "--streams", "65"],
    ["replay", "--blocked", "65"],
    ["replay", "--inbound", "257"],
    ["replay", "--outbound", "257"],
    ["replay", "--allowed", "65"],
    ["replay", "--first-conn", "4294967296"],
    ["ping", "/ip4/127.0.0.1/tcp/1", "--count", "0"],
    ["ping", "/ip4/127.0.0.1/tcp/1", "--count", "4294967296"],
    ["replay", "--own", "@"],
    ["replay", "--first-front", "18446744073709551616"],
    ["replay", "now"],
    [],
    ["id"],
    ["hash"],
    ["id", "00", "00"],
    ["fly"],
    ["id", "--fast", "00"],
]


def is_bad(words):
    """It is no command line: that is told on its faults, and nothing is printed."""
    ran = run(words)
    expect((ran.status, ran.output) == (2, b"") and ran.faults.startswith(b"error: "), ran)
    expect(ran.faults.endswith(b"\n"), ran)


def command_rows():
    """Rows of command lines."""
    for words in (["--help"], ["-h"]):
        yield Row(f"help: {words[0]}", functools.partial(helps, words, "Usage: node", *SUBCOMMANDS))
    for name, (usage, options) in SUBCOMMANDS.items():
        line = f"Usage: node {name} {usage}".rstrip() + "\n"
        yield Row(f"help: {name} --help", functools.partial(helps, [name, "--help"], line, *options))
    for words in BAD:
        yield Row(f"bad words: {' '.join(words) or 'none'}", functools.partial(is_bad, words))


def words_that_are_no_utf_8():
    for words in ([b"id", b"\xff"], [b"\xff"]):
        expect_ran(run(words), 2, "", "error: the command line is no UTF-8\n")


# ---- outputs that fail


class Output(NamedTuple):
    """Words whose output can't be written, and an input."""

    name: str
    words: list
    given: bytes = b""


OUTPUTS = [
    Output("an id", ["id", ZERO_KEY]),
    Output("help", ["--help"]),
    Output("a listing", ["replay"], b"list\n"),
    Output("lines of two nodes", ["run"], b"b listen\na dial\na await live 1\na list\n"),
    Output("listings that are longer than a buffer", LONG.words, LONG.given),
]


def fails_to_print(output):
    """It has status 1 and no line, whether its output is full or unread, and its faults stand open or fail too."""
    silent = Ran(1, b"", b"")
    for redirected in (">/dev/full", ">/dev/full 2>&1", ">/dev/full 2>&-"):
        ran = run(output.words, output.given, redirected)
        expect(ran == silent, f"{redirected}: {ran}")
    for streams in ({}, {"stderr": subprocess.STDOUT}):
        ran = run_unread(output.words, output.given, **streams)
        expect(ran == silent, f"unread, {streams}: {ran}")


def fails_where_it_is_closed(output):
    """An output that was closed before the program began is one that can't be written."""
    ran = run(output.words, output.given, ">&-")
    expect(ran == Ran(1, b"", b""), ran)


def faults_that_cannot_be_told():
    """A bad command line has status 1 where that can't be told."""
    for redirected in ("2>/dev/full", "2>&-", ">/dev/full 2>&1"):
        ran = run(["fly"], b"", redirected)
        expect(ran == Ran(1, b"", b""), f"{redirected}: {ran}")
    reading, writing = os.pipe()
    os.close(reading)
    with os.fdopen(writing, "wb") as unread:
        expect_ran(run(["fly"], stderr=unread), 1, "")


def output_rows():
    """Rows of outputs that fail."""
    for output in OUTPUTS:
        yield Row(f"output that fails: {output.name}", functools.partial(fails_to_print, output))
        yield Row(f"output that is closed: {output.name}", functools.partial(fails_where_it_is_closed, output))


# ---- scripts of two nodes


def script(name, given, output, status=0, faults=""):
    return Case(f"run: {name}", ["run"], given, status, output, faults)


CALL = b"b listen\na dial\na await live 1\n"
BOTH = CALL + b"b await live 1\n"
CALLED = "b listening\na conn 1\na live 1\nb live 1\n"
TWO_NODES = script(
    "two nodes, of which one blocks the other",
    BOTH + b"a ask 1 2\na await done 2 1\na list\nb block\nb await none\na await none\na list\nb list\n",
    f"{CALLED}a ok\na done 2 1\na front 4\na conn 1 dialer live {ID_0B} 0/0 0/0 1/1\na end\n"
    f"b count 1\nb none\na none\na front 5\na end\nb front 4\nb blocked {ID_0A}\nb end\n",
)
GIVES_UP = script("an await that gives up", b"a await live 1", "", 3, "await gave up\n")
RUNS = [
    TWO_NODES,
    script(
        "agents, by identify and then by the push of the other end",
        BOTH + b"a ask 1 0\na await done 0 1\na list\na ask 1 1\nb await agent 1\nb list\n",
        f"{CALLED}a ok\na done 0 1\na front 5\na conn 1 dialer live {ID_0B} 1/1 0/0 0/0 agent node/0.1.0\na end\n"
        f"a ok\nb agent 1\nb front 3\nb conn 1 listener live {ID_0A} 0/0 0/0 0/0 agent node/0.1.0\nb end\n",
    ),
    script("one who doesn't listen can't be dialed", b"a dial\n", "", 1, "refused input\n"),
    script(
        "a hang up",
        BOTH + b"a hangup\na await none\nb await none\n",
        f"{CALLED}a count 1\na none\nb none\n",
    ),
    script("an empty script", b"", ""),
    script(
        "a peer that is blocked by the one who dials",
        b"b listen\na block\na dial\n",
        "b listening\na count 0\na refused 10 Blocked\n",
    ),
    script(
        "a peer that is blocked by the one who is dialed",
        b"b listen\nb block\na dial\na await none\nb await none\nb list\n",
        f"b listening\nb count 0\na conn 1\na none\nb none\nb front 4\nb blocked {ID_0A}\nb end\n",
    ),
    script(
        "both dial at once",
        b"a listen\nb listen\na dial\nb dial\na await live 2\nb await live 2\na ask 1 2\nb ask 1 2\n"
        b"a await done 2 1\nb await done 2 1\na hangup\na await none\nb await none\n",
        "a listening\nb listening\na conn 1\nb conn 1\na live 2\nb live 2\na ok\nb ok\na done 2 1\nb done 2 1\n"
        "a count 2\na none\nb none\n",
    ),
    script("a line that is none", b"b listen\n\nb fly\na list\n", "b listening\n", 1, "refused line 3\n"),
    script("a line that is no UTF-8", b"b listen\nb \xff\n", "b listening\n", 1, "refused line 2\n"),
    script(
        "eight connections with sixty streams each, and a ninth dial",
        b"b listen\n"
        + b"a dial\n" * 8
        + b"a await live 8\nb await live 8\na dial\n"
        + b"".join(b"a ask %d 2\n" % conn for conn in range(1, 9)) * 60
        + b"a await done 2 480\n",
        "b listening\n"
        + "".join(f"a conn {number}\n" for number in range(1, 9))
        + "a live 8\nb live 8\na refused 12 PeerFull\n"
        + "a ok\n" * 480
        + "a done 2 480\n",
    ),
    script(
        "a ping, as the README has it",
        CALL + b"a ask 1 2\na await done 2 1\na list\n",
        "b listening\na conn 1\na live 1\na ok\na done 2 1\na front 4\n"
        f"a conn 1 dialer live {ID_0B} 0/0 0/0 1/1\na end\n",
    ),
    script("the longest script", b"\n" * 65_536, ""),
    script("too long a script", b"\n" * 65_537, "", 1, "refused input\n"),
]


def a_second_run_right_behind_the_first():
    for _ in range(5):
        goes(TWO_NODES)


def runs_beside_each_other():
    with ThreadPoolExecutor(4) as lanes:
        list(lanes.map(goes, [TWO_NODES] * 4))


# ---- inputs


def an_input_in_pieces():
    """A script is read to its end, however it comes, and whatever interrupts that."""
    for case in (TWO_NODES, REPLAYS[0]):
        with started(case.words) as process:
            for at in range(0, len(case.given), 40):
                process.stdin.write(case.given[at : at + 40])
                process.stdin.flush()
                if at % 80 == 0:
                    interrupt(process)
            expect_ran(outcome(process), 0, case.output)


READERS = (["run"], ["replay"], ["trace", "listener"])


def an_input_that_cannot_be_read():
    """It can't be read where it is a folder, was opened for writing, or has no end."""
    for words in READERS:
        for redirected in ("</", "0>/dev/null", "</dev/zero"):
            ran = run(words, None, redirected)
            expect(ran == Ran(1, b"", b"refused input\n"), f"{words} {redirected}: {ran}")


def an_input_that_is_closed():
    """It is an empty one."""
    for words in READERS:
        expect_ran(run(words, None, "<&-"), 0, "")


def listens_and_ends(ran, host):
    """A node has told where it listens, and that it ends, and nothing else."""
    told = re.fullmatch(rf"listening {host}/tcp/[1-9]\d*/p2p/{LISTENER}\nend\n", ran.output.decode())
    expect(ran.status == 0 and told and not ran.faults, ran)


def listen_where_the_input_has_ended():
    for redirected in ("<&-", "</dev/null", "</", "0>/dev/null"):
        listens_and_ends(run(["listen"], None, redirected), "/ip4/127[.]0[.]0[.]1")


def listen_with_an_input_that_is_not_read():
    """What comes on its input is dropped, and doesn't end it."""
    with listening() as node:
        node.process.stdin.write(b"go on\n" * 50_000)
        node.process.stdin.flush()
        expect_ran(run(["ping", node.addr]), 0, pongs(1))
        node.await_line("gone 1")
        node.expect_end(f"conn 1 listener {DIALER}", "gone 1")


def listen_at_a_terminal():
    """The key of an ended input ends it."""
    keyboard, terminal = os.openpty()
    with os.fdopen(keyboard, "wb", 0) as keys, os.fdopen(terminal, "rb", 0) as keyed:
        with started(["listen"], stdin=keyed) as process:
            first = process.stdout.readline()
            keys.write(b"hello\n\x04")
            rest, faults = process.communicate()
            listens_and_ends(Ran(process.returncode, first + rest, faults), "/ip4/127[.]0[.]0[.]1")


def listen_that_is_interrupted():
    """It goes on where it was stopped for a while, and serves."""
    with listening() as node:
        for number in range(1, 6):
            interrupt(node.process)
            expect_ran(run(["ping", node.addr]), 0, pongs(1))
            node.await_line(f"gone {number}")
        told = [[f"conn {number} listener {DIALER}", f"gone {number}"] for number in range(1, 6)]
        node.expect_end(*sum(told, []))


def listen_that_is_ended_by_a_signal():
    for number in (signal.SIGINT, signal.SIGTERM):
        with listening() as node:
            node.process.send_signal(number)
            status, lines = node.end()
            expect((status, lines) == (-number, [f"listening {node.addr}"]), f"{status} {lines}")


# ---- traces


def trace(name, words, given, output="", status=0, faults=""):
    return Case(f"trace: {name}", ["trace", *words], given, status, output, faults)


# A dialer that pings as soon as it is up.
PAYLOAD = bytes(range(32))
BAD_PAYLOAD = "error: the value of '--payload' is not 32 bytes in hexadecimal\n"
PINGS = b"feed %s\nout\nask 2\nout\n" % upgrade(KEY_11).hex().encode()


def pinged(payload):
    """What it prints: it opens stream 1, and sends its proposal and these bytes on it."""
    sent = HELLO + b"\x11/ipfs/ping/1.0.0\n" + payload
    written = frame(1, 1, 1, 0) + frame(0, 0, 1, len(sent)) + sent
    return f"upgraded {ID_11}\nout {upgrade(bytes(32)).hex()}\nstream 1\nout {written.hex()}\n"


TRACES = [
    trace(
        "a dialer that comes up",
        ["dialer"],
        b"feed %s\nout\nout\n" % upgrade(KEY_11).hex().encode(),
        f"upgraded {ID_11}\nout {upgrade(bytes(32)).hex()}\nout -\n",
    ),
    trace(
        "a listener that comes up, cut, by a key of its own",
        ["listener", "--key", "08011220" + KEY_22.hex()],
        b"cut 1 %s\nout" % upgrade(KEY_11).hex().encode(),
        f"upgraded {ID_11}\nout {upgrade(KEY_22).hex()}\n",
    ),
    trace("what a ping of this end sends", ["dialer", "--payload", PAYLOAD.hex()], PINGS, pinged(PAYLOAD)),
    trace("what it sends where nothing is given", ["dialer"], PINGS, pinged(bytes(32))),
    trace("a payload of 31 bytes", ["dialer", "--payload", PAYLOAD[1:].hex()], b"", "", 2, BAD_PAYLOAD),
    trace("a line that is none", ["dialer"], b"\nfly\n", "", 1, "refused line 2\n"),
    trace("too long a script", ["listener"], b"\n" * 1_048_577, "", 1, "refused input\n"),
    trace("no end", ["both"], b"", "", 2, "error: the role is 'dialer' or 'listener'\n"),
]


# Tests that are no rows of a table.
TESTS = [
    words_that_are_no_utf_8,
    faults_that_cannot_be_told,
    a_second_run_right_behind_the_first,
    runs_beside_each_other,
    an_input_in_pieces,
    an_input_that_cannot_be_read,
    an_input_that_is_closed,
    listen_where_the_input_has_ended,
    listen_with_an_input_that_is_not_read,
    listen_at_a_terminal,
    listen_that_is_interrupted,
    listen_that_is_ended_by_a_signal,
]


def rows():
    """All rows of words and inputs."""
    for case in (*IDS, *REPLAYS, *DEFAULTS, LONG, *RUNS, *TRACES):
        yield Row(case.name, functools.partial(goes, case))
    yield Row(GIVES_UP.name, functools.partial(goes, GIVES_UP), is_patient=True)
    yield from command_rows()
    yield from output_rows()
    yield from (Row(test.__name__.replace("_", " "), test) for test in TESTS)
