#!/usr/bin/env python3
"""Drives the built program through the system's own faults, and holds status, output and report against
docs/COMMANDS.md.

    faults.py [KIND ..]     KIND is a name of `KINDS` at the end; all of them where none is given

It prints for each kind how many faults were tried and how many were answered wrongly, and each wrong one with its
words, and ends with status 1 if there is one. EPERFTOOL names another program than build/eperftool. It wants strace,
prlimit and a C compiler.
"""
import concurrent.futures
import fcntl
import os
import select
import shutil
import signal
import subprocess
import sys
import tempfile
import threading
from functools import partial
from typing import Any, Callable, NamedTuple

from fault_runs import EXAMPLE, PROGRAM, Answer, Run, Started, all_runs, answer, bytewise, count_requests, feed, pieces
from fault_runs import refusal, told_lines, traced

MEMORY, READ, WRITE, WATCH = (f"fault: {cause}\n".encode() for cause in ("memory", "read", "write", "watch"))


class Case(NamedTuple):
    """A fault that a run meets with, what gives the answer, and which is right: an answer, or what says of one whether
    it is."""

    run: Run
    fault: str
    give: Callable[[], Answer]
    right: Any


# ---- what is right


def read_failed(run, taken):
    """The input fails after so many bytes: what the packets that came whole have brought by then stays."""
    came = answer(Run(run.name, run.words, run.data[:taken]))
    output = came.output if run.words[0] in ("lose", "show", "upgrade", "frame", "unframe") else b""
    return Answer(3, output, told_lines(came.report) + READ)


def write_failed(whole, taken, report_works=True):
    """The output fails after so many bytes, of which there would be more."""
    if taken >= len(whole.output):
        return whole
    return Answer(4, whole.output[:taken], told_lines(whole.report) + WRITE * report_works)


def report_failed(whole, taken, works_again=False):
    """Standard error fails after so many bytes, of which there would be more."""
    if taken >= len(whole.report):
        return whole
    if taken < len(told_lines(whole.report)):
        return Answer(10, b"", whole.report[:taken] + WATCH * works_again)
    return Answer(whole.status or 4, whole.output, whole.report[:taken])


def memory_lacked(run, whole, got, may_be_silent=True):
    """Memory lacked somewhere: the run did without, or it ended with status 1, and what it may have written by then.
    Before it began, nothing is reported."""
    if got.status != 1:
        return got == whole
    is_front = run.words[0] in ("encode", "perf") and whole.output.startswith(got.output)
    if may_be_silent and not got.report:
        return not got.output
    return (is_front or not got.output) and got.report in (MEMORY, told_lines(whole.report) + MEMORY)


def at_bytes(data, places):
    """Each place of few bytes, and else these."""
    return range(len(data) + 1) if len(data) <= 300 else places


def some(things, count):
    """At most so many of the things: the first and the last ones, and others at even distances between."""
    if len(things) <= count:
        return things
    third = count // 3
    between = things[third:-third]
    return things[:third] + [between[i * len(between) // third] for i in range(third)] + things[-third:]


# ---- kinds of faults


def reads(runs):
    """Each read of the input fails, is interrupted, or is told that the input ends there."""
    for run in runs:
        places, taken = [], 0
        for number, descriptor, got in traced(run)[1]:
            if descriptor == 0:
                places.append((number, taken))
                taken += got
        for number, taken in some(places, 45):
            wrong, ended = read_failed(run, taken), answer(Run(run.name, run.words, run.data[:taken]))
            for how, right in (("error=EIO", wrong), ("error=EINTR", wrong), ("retval=0", ended)):
                fault = f"read:{how}:when={number}"
                yield Case(run, fault, partial(injected, run, fault), right)


def writes(runs):
    """Each write fails, is interrupted or takes nothing, this one alone or all from this one on."""
    for run in runs:
        whole, _, calls = traced(run)
        places, taken = [], {1: 0, 2: 0}
        for number, descriptor, got in calls:
            places.append((number, descriptor, taken[descriptor]))
            taken[descriptor] += got
        for number, descriptor, taken in some(places, 45):
            for how, once in (("error=EIO", 1), ("error=EINTR", 1), ("retval=0", 1), ("error=ENOSPC", 0)):
                fault = f"write:{how}:when={number}{'' if once else '+'}"
                failed = write_failed if descriptor == 1 else report_failed
                yield Case(run, fault, partial(injected, run, fault), failed(whole, taken, once))


def injected(run, fault):
    return traced(run, fault)[0]


def full_devices(runs):
    """The output, the report, or both go to a full device."""
    for run in runs:
        whole = answer(run)
        lacking = write_failed(whole, 0)
        yield Case(run, "a full output", partial(into, run, full, None), lacking)
        unsaid = report_failed(whole, 0)._replace(report=b"")
        yield Case(run, "a full report", partial(into, run, None, full), unsaid)
        status = 10 if unsaid.status == 10 else lacking.status or unsaid.status
        yield Case(run, "both full", partial(into, run, full, full), Answer(status, b"", b""))


def full():
    return os.open("/dev/full", os.O_WRONLY)


def into(run, output, report):
    """The answer where output or report go to what is opened so."""
    return answer(run, output=output and output(), report=report and report())


def readers_gone(runs):
    """Nobody reads the pipe that the output or the report goes to, from the start or after some bytes."""
    for run in runs:
        whole = answer(run)
        yield Case(run, "no reader", partial(into, run, broken, None), write_failed(whole, 0))
        right = report_failed(whole, 0)._replace(report=b"")
        yield Case(run, "no reader of the report", partial(into, run, None, broken), right)
        for taken in (1, 26, 1500, 300_000):
            # What is more than the pipe has room for can't have been taken.
            if taken + 4096 < len(whole.output):
                fault = f"a reader that goes after {taken} bytes"
                yield Case(run, fault, partial(piped, run, taken), write_failed(whole, taken))


def broken():
    ours, theirs = os.pipe()
    os.close(ours)
    # A child that another thread has just forked holds the reading end until it has begun its own program.
    ends = select.poll()
    ends.register(theirs, 0)
    while not any(event & select.POLLERR for _, event in ends.poll(10)):
        pass
    return theirs


def narrow_pipe():
    """A pipe with room for 4,096 bytes."""
    ours, theirs = os.pipe()
    fcntl.fcntl(theirs, fcntl.F_SETPIPE_SZ, 4096)
    return ours, theirs


def piped(run, most=1 << 30, step=4096, stops=0, parts=pieces):
    """The answer over a narrow pipe of which at most so many bytes are read, so many at a time. So often the program is
    stopped, and goes on, as it waits for room: then its writes take a part of what they are given."""
    (ours, theirs), held = narrow_pipe(), b""
    with tempfile.TemporaryFile() as told:
        started = Started([PROGRAM, *run.words], feed(run.data, parts), theirs, told)
        while piece := os.read(ours, min(step, most - len(held))):
            held += piece
            if stops:
                stops -= 1
                started.child.send_signal(signal.SIGSTOP)
                started.child.send_signal(signal.SIGCONT)
        os.close(ours)
        status = started.status()
        told.seek(0)
        return Answer(status, held, told.read())


def size_limits(runs):
    """A file may only grow so far. Where the signal for that isn't ignored it ends the program without a report."""
    for run in runs:
        whole = answer(run)
        for limit in at_bytes(whole.output, (0, 1, 26, 500, len(whole.output) - 1, len(whole.output))):
            if 0 <= limit <= len(whole.output):
                right = write_failed(whole, limit)
                yield Case(run, f"an output of {limit} bytes", partial(limited, run, limit, 1), right)
                if right != whole:
                    right = Answer(-signal.SIGXFSZ, right.output, told_lines(whole.report))
                fault = f"an output of {limit} bytes, with the signal"
                yield Case(run, fault, partial(limited, run, limit, 1, True), right)
        for limit in some(list(range(len(whole.report) + 1)), 24):
            right = report_failed(whole, limit)
            yield Case(run, f"a report of {limit} bytes", partial(limited, run, limit, 2), right)


def limited(run, limit, which, with_signal=False):
    """The answer where output (1) or report (2) is a file of limited size, and the other one a pipe."""
    ours, theirs = os.pipe()
    other = []
    drain = threading.Thread(target=lambda: other.append(read_all(ours)))
    drain.start()
    before = ["prlimit", "--core=0", f"--fsize={limit}"]
    if not with_signal:
        before = ["sh", "-c", "trap '' XFSZ; exec \"$@\"", "sh", *before]
    got = answer(run, before, **{"report" if which == 1 else "output": theirs})
    drain.join()
    return got._replace(report=other[0]) if which == 1 else got._replace(output=other[0])


def read_all(descriptor):
    with os.fdopen(descriptor, "rb") as file:
        return file.read()


def closed_streams(runs):
    """A stream is closed, the input is a folder, or all three streams are closed."""
    for run in runs:
        whole, takes, _ = traced(run)
        unread = read_failed(run, 0) if any(descriptor == 0 for _, descriptor, _ in takes) else whole
        ends = {"<&-": unread, ">&-": write_failed(whole, 0), "2>&-": report_failed(whole, 0)}
        for words, right in ends.items():
            yield Case(run, words, partial(answer, run, ["sh", "-c", f'exec "$@" {words}', "sh"]), right)
        yield Case(run, "a folder as input", partial(from_folder, run), unread)
        status, words = report_failed(write_failed(unread, 0), 0).status, "<&- >&- 2>&-"
        give = partial(answer, run, ["sh", "-c", f'exec "$@" {words}', "sh"])
        yield Case(run, words, give, Answer(status, b"", b""))


def from_folder(run):
    return answer(run, given=os.open("/", os.O_RDONLY))


def no_waiting(runs):
    """A pipe that doesn't wait: it has no more bytes to give yet, or no room."""
    for run in runs:
        whole, takes, _ = traced(run)
        if any(descriptor == 0 for _, descriptor, _ in takes):
            for given in at_bytes(run.data, (0, 10, 26, 400)):
                if given < len(run.data):
                    # Where these bytes decide it, no more are asked for.
                    is_enough = answer(Run(run.name, run.words, run.data[:given])) == whole
                    fault, right = f"an input of {given} bytes and no more yet", read_failed(run, given)
                    yield Case(run, fault, partial(starved, run, given), whole if is_enough else right)
        if len(whole.output) > 4096:
            yield Case(run, "no room in the output", partial(choked, run), partial(is_front, whole))


def is_front(whole, got):
    """The output failed somewhere."""
    return got == write_failed(whole, len(got.output))


def starved(run, count):
    ours, theirs = os.pipe()
    os.write(theirs, run.data[:count])
    os.set_blocking(ours, False)
    got = answer(run, given=ours)
    os.close(theirs)
    return got


def choked(run):
    ours, theirs = narrow_pipe()
    os.set_blocking(theirs, False)
    got = answer(run, output=theirs)
    return got._replace(output=read_all(ours))


def slow_pipes(runs):
    """Input and output go byte by byte, or the program is stopped and goes on while it writes: no fault at all."""
    for run in runs:
        whole = answer(run)
        if len(run.data) < 30_000:
            yield Case(run, "byte by byte", partial(piped, run, step=1, parts=bytewise), whole)
        if len(whole.output) > 4096:
            yield Case(run, "stopped at times", partial(piped, run, step=1000, stops=300), whole)


def little_memory(runs):
    """The program's memory is limited, from too little to start it up to enough."""
    refused = Run("usage", ["no"], b"")
    starts = least_pages(lambda pages: under(refused, pages).status == 2, 0)
    # Below this the system may end the program before it runs, with a status and words of the system's own.
    for pages in range(max(1, starts - 12), starts):
        fault = f"{pages} pages of memory, where {starts} are enough to start"
        yield Case(refused, fault, partial(under, refused, pages), lambda got: got.status and not got.output)
    for run in runs:
        whole = answer(run)
        enough = least_pages(lambda pages, r=run, w=whole: under(r, pages) == w, starts)
        for pages in some(list(range(starts, enough + 2)), 45):
            right = partial(memory_lacked, run, whole)
            yield Case(run, f"{pages} pages of memory", partial(under, run, pages), right)


def under(run, pages):
    return answer(run, ["prlimit", "--core=0", f"--as={4096 * pages}"])


def least_pages(is_enough, low, high=1 << 17):
    """The least number of pages that is enough, above one that isn't."""
    while high - low > 1:
        middle = (low + high) // 2
        low, high = (low, middle) if is_enough(middle) else (middle, high)
    return high


def refused_memory(runs):
    """Each request for memory is refused in turn, this one alone or all from this one on."""
    for run in runs:
        whole, requests = count_requests(lambda env, r=run: answer(r, env=env))
        # Each word takes a few requests, before the run begins; the first one that is reported was later.
        ends = 4 * len(run.words) + 8
        begins = next((n for n in range(1, ends) if answer(run, env=refusal(n, n)).report), ends)
        for first in some(list(range(1, requests + 2)), 300):
            for last, words in ((first, ""), (1 << 40, " and all later")):
                right = partial(memory_lacked, run, whole, may_be_silent=first < begins)
                give = partial(answer, run, env=refusal(first, last))
                yield Case(run, f"request {first}{words} refused", give, right)


def long_objects(_):
    """An object is longer than it may be: it is refused, and no more of it is read than shows that."""
    run, right = Run("a long object", ["encode"], b""), Answer(7, b"", b"fault: limit length\n")
    for size in (268_435_457, 1 << 30):
        yield Case(run, f"an object of {size} bytes", partial(over_zeros, run, size), (right, True))


def over_zeros(run, size):
    """The answer over a file of so many zero bytes, and whether at most a piece and a buffer more were read of it than an
    object may have."""
    with tempfile.TemporaryFile() as file:
        file.truncate(size)
        got = answer(run, given=os.dup(file.fileno()))
        return got, file.tell() <= 268_435_456 + 65_536 + 262_144


def long_frames(_):
    """Frames are more than an object may be long: as many as may be are written, and one more is read. One less is no
    fault."""
    run = Run("long frames", ["unframe", "--symbol=65535"], b"")
    right = Answer(7, bytes(3 * 4096), b"fault: limit length\n")
    yield Case(run, "frames of 1 GiB", partial(over_zeros, run, 1 << 30), (right, True))
    run = Run("long frames", ["frame", "--symbol=65535"], b"")
    for count, status, report in ((4096, 0, b"datagrams 4096\n"), (4097, 7, b"fault: limit length\n")):
        right = (Answer(status, bytes(4096 * 65535), report), True)
        yield Case(run, f"{count} empty datagrams", partial(over_zeros, run, 3 * count), right)


def handed_back(_):
    """Each request for memory of the example of the library is refused in turn. Where that hands its session back, it
    asks once more, and then prints all that it prints where nothing is refused."""
    run = Run("the example", [], b"", EXAMPLE)
    whole, requests = count_requests(lambda env: answer(run, env=env))
    alone = [partial(answer, run, env=refusal(n, n)) for n in range(1, requests + 1)]
    for number, give in enumerate(alone, 1):
        yield Case(run, f"request {number} refused", give, partial(goes_on, whole))
    yield Case(run, "some refused requests are asked again", lambda: any(give() == whole for give in alone), True)


def goes_on(whole, got):
    """All was printed, or a front of it with a status that isn't 0."""
    return got == whole or (got.status > 0 and whole.output.startswith(got.output))


KINDS = {
    "reads": reads,
    "writes": writes,
    "full": full_devices,
    "gone": readers_gone,
    "limits": size_limits,
    "closed": closed_streams,
    "waits": no_waiting,
    "slow": slow_pipes,
    "memory": little_memory,
    "refused": refused_memory,
    "long": long_objects,
    "framed": long_frames,
    "back": handed_back,
}


def tried(case):
    got = case.give()
    return got, case.right(got) if callable(case.right) else got == case.right


def try_kind(name, runs):
    """How many faults of the kind there were, and how many were answered wrongly."""
    count, wrong = 0, 0
    with concurrent.futures.ThreadPoolExecutor(os.cpu_count()) as pool:
        cases = list(KINDS[name](runs))
        for case, (got, is_right) in zip(cases, pool.map(tried, cases)):
            count += 1
            if not is_right:
                wrong += 1
                words = " ".join([os.path.basename(case.run.program), *case.run.words])
                print(f"wrong: {case.run.name} ({words}), {name}: {case.fault}")
                if not callable(case.right):
                    print(f"  wanted: {case.right}")
                print(f"  got:    {got}", flush=True)
    print(f"{name:8}{count:6} faults, {wrong} answered wrongly", flush=True)
    return count, wrong


def main():
    names = sys.argv[1:] or list(KINDS)
    for tool in (PROGRAM, EXAMPLE, "strace", "prlimit", os.environ.get("CC", "cc")):
        if not shutil.which(tool):
            sys.exit(f"{tool} is wanted, and isn't there.")
    runs = all_runs()
    results = [try_kind(name, runs) for name in names]
    count, wrong = (sum(result[i] for result in results) for i in (0, 1))
    print(f"{count} faults tried, {wrong} answered wrongly")
    return 1 if wrong else 0


if __name__ == "__main__":
    sys.exit(main())
