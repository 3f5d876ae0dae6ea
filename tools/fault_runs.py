"""Runs of the built program for tools/faults.py: their words and inputs, how one is run, and what it answers."""
import functools
import os
import pathlib
import random
import re
import socket
import subprocess
import tempfile
import threading
from typing import NamedTuple

TOP = pathlib.Path(__file__).resolve().parent.parent
PROGRAM = str(pathlib.Path(os.environ.get("EPERFTOOL", TOP / "build" / "eperftool")).resolve())
EXAMPLE = str(TOP / "build" / "one_block")
# A run that takes longer is killed, and counts as one that hangs.
SECONDS = 120


class Run(NamedTuple):
    name: str
    words: list
    data: bytes
    program: str = PROGRAM


class Answer(NamedTuple):
    """The exit status, or the number of a signal below 0; what standard output and standard error hold."""

    status: int
    output: bytes
    report: bytes

    def __str__(self):
        shown = self.output.hex() if len(self.output) <= 40 else f"{self.output[:20].hex()}.."
        return f"status {self.status}, report {self.report[-300:]!r}, {len(self.output)} bytes of output: {shown}"


def pieces(data):
    """An input as it is handed in, a piece a read: small ones within the header of a packet file, then larger ones."""
    step, at = max(7, len(data) // 40), 0
    while at < len(data):
        length = 3 if at < 30 else step
        yield data[at : at + length]
        at += length


def bytewise(data):
    return (data[at : at + 1] for at in range(len(data)))


def feed(data, parts):
    """A descriptor of which each read gets one piece, and no more."""
    ours, theirs = socket.socketpair(socket.AF_UNIX, socket.SOCK_SEQPACKET)

    def hand_in():
        try:
            for piece in parts(data):
                ours.send(piece)
        except OSError:
            # The program has ended before it read all.
            pass
        ours.close()

    threading.Thread(target=hand_in, daemon=True).start()
    return theirs.detach()


class Started:
    """A program that was started, and is killed where it doesn't end in time. It takes the descriptors over."""

    def __init__(self, words, given, output, report, env=None):
        environment = None if env is None else os.environ | env
        self.child = subprocess.Popen(words, stdin=given, stdout=output, stderr=report, env=environment)
        self.timer = threading.Timer(SECONDS, self.child.kill)
        self.timer.start()
        for descriptor in {given, output, report}:
            if isinstance(descriptor, int):
                os.close(descriptor)

    def status(self):
        status = self.child.wait()
        self.timer.cancel()
        return status


def answer(run, before=(), given=None, output=None, report=None, env=None, parts=pieces):
    """What the program answers, with words in front of its name. A descriptor that is handed in is taken in place of
    the run's own; what goes there isn't seen, and counts as nothing."""
    with tempfile.TemporaryFile() as held, tempfile.TemporaryFile() as told:
        started = Started(
            [*before, run.program, *run.words], feed(run.data, parts) if given is None else given,
            held if output is None else output, told if report is None else report, env,
        )
        status = started.status()
        held.seek(0)
        told.seek(0)
        return Answer(status, held.read(), told.read())


CALL = re.compile(r"^(read|write)\((\d+), .*\) += (-?\d+)")


def traced(run, inject=None):
    """The answer under strace, where a call may be answered in the system's place; and the reads and the writes, each
    with its place among those of its name, its descriptor and its result."""
    with tempfile.NamedTemporaryFile("r") as trace:
        before = ["strace", "-s0", "-o", trace.name, "-e", "trace=read,write", "-e", "signal=none"]
        got = answer(run, before + (["-e", f"inject={inject}"] if inject else []))
        found = [match for match in map(CALL.match, trace) if match]
    calls = {"read": [], "write": []}
    for name, descriptor, result in (match.groups() for match in found):
        calls[name].append((len(calls[name]) + 1, int(descriptor), int(result)))
    return got, calls["read"], calls["write"]


@functools.cache
def refusing():
    """A folder that lasts until the end, and in it the library that refuses requests for memory."""
    folder = tempfile.TemporaryDirectory()
    library = f"{folder.name}/refuse_nth.so"
    words = ["-O2", "-shared", "-fPIC", "-o", library, TOP / "tools" / "refuse_nth.c", "-ldl"]
    subprocess.run([os.environ.get("CC", "cc"), *words], check=True)
    return folder, library


def refusal(first, last, count=None):
    """What the environment has to say so that these requests for memory are refused, and their number is written."""
    numbers = {"LD_PRELOAD": refusing()[1], "REFUSE_FIRST": f"{first}", "REFUSE_LAST": f"{last}"}
    return numbers | ({"REFUSE_COUNT": f"{count}"} if count else {})


def count_requests(give):
    """What is given in an environment where none is refused, and how many requests for memory there were."""
    count = pathlib.Path(refusing()[0].name, "count")
    got = give(refusal(0, 0, count))
    return got, int(count.read_text())


def told_lines(report):
    """The lines of a `decode` that come before its report."""
    return re.match(rb"(?:rebuilt \d+\n)*", report)[0]


def lost_until(sure, file):
    """What a loss leaves of the file, the first one by which a `decode` reports this."""
    for seed in range(1, 200):
        for share in (250, 350, 450):
            lost = answer(Run("", ["lose", f"--loss=even:{share}", f"--seed={seed}"], file)).output
            if sure in answer(Run("", ["decode"], lost)).report:
                return lost
    raise SystemExit(f"No loss of those tried makes a decode report {sure}.")


def chosen(file, packets, size):
    """The packets of these numbers, of so many bytes each, behind the header."""
    return file[:26] + b"".join(file[26 + size * p : 26 + size * (p + 1)] for p in packets)


def worked_runs():
    """The small worked examples of the pages, with symbols of one byte."""
    shape, grid = ["--symbol=1", "--block=3", "--max-n=7"], ["--codec=2d", "--width=3", "--block=5", "--symbol=1"]
    three, five = bytes([1, 2, 4]), bytes([1, 2, 4, 8, 16])
    file = answer(Run("", ["encode", *shape], three)).output
    corner = ["--codec=2d-corner", *grid[1:]]
    square = answer(Run("", ["encode", *grid], five)).output
    cornered = answer(Run("", ["encode", *corner], five)).output
    one = ["--codec=2d", "--width=2", "--block=3", "--symbol=2"]
    two = [*one, "--format=2"]
    padded = answer(Run("", ["encode", *one], five)).output
    short = answer(Run("", ["encode", *two], five)).output
    small = ["perf", "--k=3", "--n=7", "--symbol=1", "--order=sent"]
    return [
        Run("encode, three of seven", ["encode", *shape], three),
        Run("encode, a triangle of seven", ["encode", "--codec=triangle", *shape], three),
        Run("decode, seven of seven", ["decode"], file),
        Run("decode, the last four of seven", ["decode"], chosen(file, range(3, 7), 5)),
        Run("decode, one of seven", ["decode"], chosen(file, [3], 5)),
        Run("decode, none of seven", ["decode"], file[:26]),
        Run("encode, a grid of ten", ["encode", *grid], five),
        Run("decode, six of a grid of ten", ["decode"], chosen(square, [2, 5, 6, 7, 8, 9], 5)),
        Run("encode, version 2", ["encode", *two], five),
        Run("upgrade", ["upgrade"], padded),
        Run("upgrade, padding", ["upgrade"], padded[:26] + bytes.fromhex("00 00 00 02 10 01")),
        Run("decode, a wrong length", ["decode"], short[:26] + bytes.fromhex("00 00 00 02 00 02 10 00")),
        Run("encode, a grid with a corner", ["encode", *corner], five),
        Run("decode, eight of a grid with a corner", ["decode"], chosen(cornered, [1, 2, 3, 4, 6, 8, 9, 10], 5)),
        Run("perf, seven of seven", small, b""),
        Run("perf, four of seven", [*small, "--loss=first:3"], b""),
    ]


def stream_of(lengths, chance):
    """A datagram stream: a flow, a length in two bytes, and so many bytes, for each length."""
    return b"".join(chance.randbytes(1) + n.to_bytes(2, "big") + chance.randbytes(n) for n in lengths)


def frame_runs():
    """Datagrams into frames and back: some, many, and such as are refused."""
    chance = random.Random(2)
    some = stream_of([0, 1, 37, 37, 0, 5, 30], chance)
    many = stream_of([chance.randint(0, 1021) for _ in range(400)], chance)
    short, long = ["--symbol=40"], ["--symbol=1024"]
    frames = answer(Run("", ["frame", *short], some)).output
    changed = frames[:-1] + b"\1"
    return [
        Run("frame", ["frame", *short], some),
        Run("frame, much", ["frame", *long], many),
        Run("frame, a cut datagram", ["frame", *short], some[:-1]),
        Run("frame, a long datagram", ["frame", "--symbol=39"], some),
        Run("unframe", ["unframe", *short], frames),
        Run("unframe, much", ["unframe", *long], answer(Run("", ["frame", *long], many)).output),
        Run("unframe, a cut frame", ["unframe", *short], frames[:-1]),
        Run("unframe, padding", ["unframe", *short], changed),
    ]


def all_runs():
    """The runs that meet with faults. A further command is one line more."""
    chance = random.Random(1)
    small, long = chance.randbytes(5000), chance.randbytes(700_000)
    shape, grid = ["--symbol=180", "--block=12", "--max-n=20"], ["--codec=2d", "--width=5", "--symbol=99"]
    large = ["--symbol=60000", "--block=5"]

    def encoded(data, words):
        return answer(Run("", ["encode", *words], data)).output

    file, wide = encoded(small, shape), encoded(long, large)
    many = encoded(small[:4000], ["--symbol=2", "--block=2000", "--max-n=6000"])
    half = answer(Run("", ["lose", "--loss=even:400"], many)).output
    changed = file[-184:-1] + bytes([file[-1] ^ 1])
    second = encoded(small, [*shape, "--format=2"])
    return [
        Run("usage", ["encode", "--width=3"], small),
        Run("encode", ["encode", *shape], small),
        Run("encode, a triangle", ["encode", "--codec=triangle", *shape], small),
        Run("encode, a grid", ["encode", *grid], small),
        Run("encode, much", ["encode", *large], long),
        Run("encode, too few draws", ["encode", "--draws=9", *shape], small),
        Run("decode, peeled", ["decode"], file),
        Run("decode, early", ["decode", "--early=yes"], file),
        Run("decode, a grid", ["decode"], encoded(small, grid)),
        Run("decode, solved", ["decode"], lost_until(b"solved", file)),
        Run("decode, undetermined", ["decode"], file[: 26 + 20 * 184]),
        Run("decode, contradicted", ["decode"], file + changed),
        Run("decode, much", ["decode"], wide),
        Run("decode, much told", ["decode"], half),
        Run("decode, a cut packet", ["decode"], file[:-1]),
        Run("decode, a cut header", ["decode"], file[:25]),
        Run("salvage", ["salvage"], file[: 26 + 20 * 184]),
        Run("salvage, all of it", ["salvage"], file),
        Run("salvage, contradicted", ["salvage"], file + changed),
        Run("lose", ["lose", "--loss=even:300"], file),
        Run("lose, much", ["lose", "--loss=burst:300:500"], wide),
        Run("lose, a cut packet", ["lose"], file[:-1]),
        Run("show", ["show"], file),
        Run("show, too many packets", ["show", "--packets=9"], file),
        Run("encode, version 2", ["encode", "--format=2", *shape], small),
        Run("decode, version 2", ["decode"], second),
        Run("decode, a cut payload", ["decode"], second[:-1]),
        Run("lose, version 2", ["lose", "--loss=even:300"], second),
        Run("show, version 2", ["show"], second),
        Run("upgrade", ["upgrade"], file),
        Run("upgrade, much", ["upgrade"], wide),
        Run("upgrade, version 2", ["upgrade"], second),
        Run("upgrade, a cut packet", ["upgrade"], file[:-1]),
        Run("perf", ["perf", "--k=200", "--symbol=1", "--loss=even:250", "--runs=6"], b""),
    ] + frame_runs() + worked_runs()
