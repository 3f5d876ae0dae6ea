#!/usr/bin/env python3
"""Times one job of bench/run.sh, and prints its line.

    measure.py TURNS NAME INPUT PROGRAM PLAIN WORDS..

Runs `PROGRAM WORDS` and `PLAIN WORDS` in turns over the file INPUT, TURNS times each. The line has the least
processor time (user and system) of each, their ratio, the least time that passed for PROGRAM, and the peaks of
memory, which are never below that of this script, some 14 MiB. Where PLAIN is empty, PROGRAM runs alone.

Both have to end alike, with status 0 or, undetermined, 8, and with the same output and report. PROGRAM's output
stays in the file `made`. A run that takes too long is stopped. All else than a line ends with status 1.
"""
import filecmp
import os
import signal
import subprocess
import sys
import time

SECONDS = 300


def run(words, given, made, told):
    """The status, the processor time, the time that passed, and the peak of memory in MiB."""
    with open(given, "rb") as source, open(made, "wb") as sink, open(told, "wb") as report:
        start = time.monotonic()
        child = subprocess.Popen(words, stdin=source, stdout=sink, stderr=report)
        signal.signal(signal.SIGALRM, lambda number, frame: child.kill())
        signal.alarm(SECONDS)
        _, status, usage = os.wait4(child.pid, 0)
        passed = time.monotonic() - start
        signal.alarm(0)
    return status, usage.ru_utime + usage.ru_stime, passed, usage.ru_maxrss / 1024


def main():
    turns, name, given, program, plain = sys.argv[1:6]
    programs = [[program, "made", "report"]] + ([[plain, "made.plain", "report.plain"]] if plain else [])
    runs = [[] for _ in programs]
    for turn in range(int(turns)):
        for of, (path, made, told) in zip(runs, programs):
            of.append(run([path] + sys.argv[6:], given, made, told))
            status = of[-1][0]
            if os.WIFSIGNALED(status) or os.WEXITSTATUS(status) not in (0, 8):
                sys.exit(f"  {name}: {path} was stopped or ended with the wait status {status}")
        alike = all(filecmp.cmp(one, one + ".plain", shallow=False) for one in ("made", "report")) if plain else True
        if not alike or len({of[-1][0] for of in runs}) > 1:
            sys.exit(f"  {name}: the plain program ended otherwise than eperftool")
    own, passed, peak = (min(one[at] for one in runs[0]) for at in (1, 2, 3))
    other, ratio, other_peak = "-", "-", "-"
    if plain:
        least, other_peak = (min(one[at] for one in runs[1]) for at in (1, 3))
        other, ratio, other_peak = f"{least:.3f}", f"{own / max(least, 0.001):.2f}", f"{other_peak:.0f}"
    print(f"  {name:8}{own:9.3f}{other:>9}{ratio:>7}{passed:9.3f}{peak:9.0f}{other_peak:>7}", flush=True)


main()
