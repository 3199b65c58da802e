"""Rows of the launcher `node`, in a small repository of the test's own and with an `rt` that proves nothing."""
import contextlib
import os
import pty
import shutil
import signal
import subprocess
import tempfile
import time
from pathlib import Path

from node_tests.runs import PATIENCE, ROOT, Row, await_that, expect

# `high` uses `low`, and `node` uses both. Each proof takes a second, and one that finds a file `fails` fails.
CRATES = "low:\nside:\nhigh: low\nnode may_wait=1: high side\n"
RT = """#!/bin/sh
name=$(basename "$PWD")
case "$1" in
version) cat "$(dirname "$0")/version" ;;
lib) echo "$name begins" | tee -a "$(dirname "$0")/begun"; sleep 1
    [ ! -e src/fails ] || { echo "no proof of $name"; exit 1; }
    mkdir -p out/rlib; echo "$name" | tee -a "$(dirname "$0")/proved" "$(dirname "$0")/begun" ;;
run) mkdir -p out; printf '#!/bin/sh\\necho "ran $*"\\n' > out/node; chmod +x out/node ;;
try) shift 4; echo "tried $*"; cat; exit 7 ;;
esac
"""


class Place:
    """A repository with a launcher, whose program isn't built."""

    def __init__(self, root):
        self.root = Path(root)
        for it in ("tools", "bin", "docs"):
            (self.root / it).mkdir()
        for it in ("node", "tools/build-node"):
            shutil.copy(ROOT / it, self.root / it)
        (self.root / "docs" / "MEASURED.md").write_text("# Measured\n\n- first build: 9 minutes on 4 cores\n")
        (self.root / "crates.txt").write_text(CRATES)
        (self.root / "HANDLES").write_text("Handles allowed: none.\n")
        for name in ("low", "side", "high", "node"):
            (self.root / "crates" / name / "src").mkdir(parents=True)
            (self.root / "crates" / name / "src" / "lib.rt").write_text("")
        self.version("rattle-kit logic dac8208d650f15bf")
        (self.root / "bin" / "rt").write_text(RT)
        (self.root / "bin" / "rt").chmod(0o755)

    def version(self, text):
        (self.root / "bin" / "version").write_text(f"{text}\n")

    def proved(self):
        """The crates that were proved, in order."""
        file = self.root / "bin" / "proved"
        return file.read_text().split() if file.exists() else []

    def started(self, *words, path=None, **streams):
        environment = {**os.environ, "PATH": path or f"{self.root}/bin:{os.environ['PATH']}"}
        pipes = {it: subprocess.PIPE for it in ("stdin", "stdout", "stderr")}
        return subprocess.Popen([self.root / "node", *words], env=environment, text=True, **{**pipes, **streams})

    def ran(self, *words, given="", path=None):
        process = self.started(*words, path=path)
        output, faults = process.communicate(given, PATIENCE)
        return process.returncode, output, faults


def row(name, is_patient=True):
    def made(test):
        def in_place():
            with tempfile.TemporaryDirectory() as root:
                test(Place(root))

        return Row(f"launcher: {name}", in_place, is_patient)

    return made


@row("libraries are proved side by side, and each is said")
def side_by_side(place):
    status, output, faults = place.ran("id", "00")
    lines = faults.splitlines()
    expect((status, output) == (0, "ran id 00\n"), (status, output, faults))
    expect(lines[0].startswith("node: 4 crates to prove; first build: 9 minutes on 4 cores; the logs are in "), lines)
    expect([it.split(" in ")[0] for it in lines[-2:]] == ["node: proved 3 of 4", "node: proved 4 of 4"], lines)
    steps = (place.root / "bin" / "begun").read_text().splitlines()
    expect(sorted(steps[:2]) == ["low begins", "side begins"] and steps[-2:] == ["high begins", "high"], steps)
    expect(place.ran("id") == (0, "ran id\n", ""), "the program is built anew")


@row("a changed source is proved again")
def changed(place):
    place.ran()
    later = time.time() + 5
    os.utime(place.root / "crates" / "low" / "src" / "lib.rt", (later, later))
    expect("4 crates to prove" in place.ran()[2], "it is not built anew")


@row("an interrupt ends the build, keeps what is proved, and the next call goes on")
def interrupted(place):
    process = place.started(start_new_session=True)
    await_that(lambda: len(place.proved()) >= 2, "two crates proved")
    time.sleep(0.3)
    os.killpg(process.pid, signal.SIGINT)
    began = time.monotonic()
    process.communicate(timeout=PATIENCE)
    expect(process.returncode == 130 and time.monotonic() - began < 5, process.returncode)
    kept = [name for name in ("low", "side") if (place.root / "crates" / name / "out" / "rlib").is_dir()]
    expect(kept == ["low", "side"], kept)
    expect(place.ran()[0] == 0, "the next call fails")


@row("a second call waits for the first, and then runs")
def two_calls(place):
    first = place.started("first")
    await_that((place.root / "bin" / "begun").exists, "a first build")
    status, output, faults = place.ran("second")
    first.communicate(timeout=PATIENCE)
    expect((status, output) == (0, "ran second\n"), (status, output, faults))
    expect(faults == "node: another call is building the program; this one waits for it\n", faults)
    expect(sorted(place.proved()) == ["high", "low", "side"], place.proved())


@row("a failure says which crate, and the end of its log")
def failure(place):
    (place.root / "crates" / "low" / "src" / "fails").write_text("")
    status, _, faults = place.ran()
    expect(status == 1 and "node: low was not proved; its log, " in faults, faults)
    expect(faults.endswith("ends:\nlow begins\nno proof of low\n"), faults)
    expect(not (place.root / "crates" / "node" / "out" / "node").exists(), "the program is there")


@row("on a terminal one line is written over")
def terminal(place):
    ours, theirs = pty.openpty()
    process = place.started(stderr=theirs)
    process.communicate("", PATIENCE)
    os.close(theirs)
    told = b""
    with contextlib.suppress(OSError):
        while more := os.read(ours, 4096):
            told += more
    os.close(ours)
    expect(process.returncode == 0 and told.count(b"\n") == 2 and told.count(b"\r\x1b[Knode: proved") > 2, told)


@row("no toolchain, and another one, are refused in a line")
def toolchain(place):
    tools = place.root / "tools"
    for it in ("bash", "python3", "dirname", "readlink"):
        (tools / it).symlink_to(shutil.which(it))
    absent = "node: the program isn't built, and rt, which proves and builds it, is not on PATH\n"
    expect(place.ran(path=str(tools)) == (1, "", absent), place.ran(path=str(tools)))
    place.version("rattle-kit logic 00")
    other = "node: the program needs an rt of the logic dac8208d650f15bf; the one on PATH says: rattle-kit logic 00\n"
    expect(place.ran() == (1, "", other), place.ran())


@row("--unproved runs the sources, says that nothing is proved, and passes input and status")
def unproved(place):
    said = "node: nothing is proved of this run; it begins in some three minutes\n"
    expect(place.ran("--unproved", "id", "00", given="more") == (7, "tried id 00\nmore", said), place.ran("--unproved"))
    expect(place.proved() == [], place.proved())


@row("--help of what isn't built is the launcher's")
def helped(place):
    for words in (["--help"], ["--unproved"], ["--unproved", "--help"]):
        status, output, faults = place.ran(*words)
        expect((status, faults) == (0, "") and output.startswith("./node WORDS.."), (output, faults))


def rows():
    return [side_by_side, changed, interrupted, two_calls, failure, terminal, toolchain, unproved, helped]
