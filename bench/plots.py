#!/usr/bin/env python3
"""Measures what bench/plots.sh draws, by runs of build/eperftool, which `make build` makes.

    plots.py FOLDER [--quick]

It writes shares.dat, needed.dat, bursts.dat and speed.dat into the folder. All but the times of speed.dat are the same
each time: each run of `perf` begins with the run seed 1. `--quick` takes few and small runs, to try the scripts out.
EPERFTOOL names another program.
"""
import concurrent.futures
import os
import pathlib
import random
import subprocess
import sys
import tempfile
import time
from typing import NamedTuple, Optional

TOP = pathlib.Path(__file__).resolve().parent.parent
PROGRAM = os.environ.get("EPERFTOOL", TOP / "build" / "eperftool")
QUICK = "--quick" in sys.argv

# A name, the words of the code, and its encoding symbols for each source symbol.
CODES = [
    ("staircase, N1 = 3", ["--n1=3"]),
    ("staircase, N1 = 5", ["--n1=5"]),
    ("staircase, N1 = 7", ["--n1=7"]),
    ("triangle, N1 = 3", ["--codec=triangle", "--n1=3"]),
]
# Of the same rate, 2 / 3: a source symbol is in a row of two and in one of two long columns, or in a small square. A
# corner is one packet more.
GRIDS = [
    ("grid of width 2", ["--codec=2d", "--width=2"]),
    ("grid of 4 by 4", ["--codec=2d", "--width=4", "--k=16"]),
    ("4 by 4 with a corner", ["--codec=2d-corner", "--width=4", "--k=16"]),
]
K = 30 if QUICK else 1000
RUNS = 5 if QUICK else 100


class Run(NamedTuple):
    kept: int
    needed: Optional[int]
    verdict: str


def perf(*words):
    """The number of encoding symbols, and the runs."""
    # Of options that come twice the last one stands.
    options = dict(word.split("=", 1) for word in words)
    words = [f"{name}={value}" for name, value in options.items()]
    done = subprocess.run([PROGRAM, "perf", *words], stdin=subprocess.DEVNULL, capture_output=True, check=False)
    if done.returncode:
        sys.exit(f"perf {' '.join(words)} ended with status {done.returncode}: {done.stderr.decode()}")
    code, *lines, _ = [line.split() for line in done.stdout.decode().splitlines()]
    runs = [Run(int(line[3]), None if line[5] == "none" else int(line[5]), line[6]) for line in lines]
    return int(code[5]), runs


def share(runs, *verdicts):
    return sum(run.verdict in verdicts for run in runs) / len(runs)


def written(folder, name, head, blocks):
    """A file of gnuplot's: blocks with a name each, two empty lines between them."""
    text = "".join(f"# {line}\n" for line in head)
    for title, rows in blocks:
        lines = "\n".join(" ".join(f"{value:.6g}" for value in row) for row in rows)
        text += f'\n\n"{title}"\n{lines}\n'
    (folder / name).write_text(text)


# ---- how many runs peel, are solved, or stay open


def shares(pool):
    head = [
        f"perf --k={K} --symbol=1 --loss=even:P --runs={RUNS}, and --n={K * 3 // 2} but for grids",
        "columns: share received in percent (mean of the runs); share of runs peeled, solved, undetermined",
    ]
    losses = range(150, 500, 50) if QUICK else range(0, 405, 10)

    def point(words, loss):
        n, runs = perf(f"--k={K}", "--symbol=1", f"--runs={RUNS}", f"--loss=even:{loss}", *words)
        received = 100 * sum(run.kept for run in runs) / (n * len(runs))
        return [received, *(share(runs, verdict) for verdict in ("peeled", "solved", "undetermined"))]

    made = [(name, [pool.submit(point, words, loss) for loss in losses]) for name, words in CODES + GRIDS]
    return "shares.dat", head, [(name, [point.result() for point in points]) for name, points in made]


# ---- how many packets are needed


def needed(pool):
    head = [
        "perf --k=K --n=3K/2 --symbol=1 --runs=R in random order",
        "columns: k; packets above k that peeling needs, in percent of k, mean and greatest of the runs; packets",
        "above k with which half of the runs, and 95 of 100, are peeled or solved (nan: not measured)",
    ]
    sizes = [10, 20, 30] if QUICK else [50, 100, 200, 500, 1000, 2000, 5000, 10000, 20000]
    most_solved = 20 if QUICK else 2000

    def point(words, k):
        words = [f"--k={k}", f"--n={k * 3 // 2}", "--symbol=1", *words]
        counts = [run.needed - k for run in perf(*words, f"--runs={RUNS if k <= 2000 else 20}")[1]]
        above = [sum(counts) / len(counts), max(counts)]
        for part in (0.5, 0.95):
            above.append(least_solved(words, k, part) if k <= most_solved else float("nan"))
        return [k, *(100 * count / k for count in above)]

    made = [(name, [pool.submit(point, words, k) for k in sizes]) for name, words in CODES]
    return "needed.dat", head, [(name, [point.result() for point in points]) for name, points in made]


def least_solved(words, k, part):
    """With how many packets above k such a part of the runs has its source. More packets are never worse for a run."""
    low, high = -1, k // 2
    while high - low > 1:
        middle = (low + high) // 2
        # Of the random order the first ones are lost, so that so many are left.
        _, runs = perf(*words, f"--runs={RUNS}", f"--loss=first:{k * 3 // 2 - k - middle}")
        low, high = (low, middle) if share(runs, "peeled", "solved") >= part else (middle, high)
    return high


# ---- bursts against single losses


def bursts(pool):
    head = [
        f"perf --k={K} --symbol=1 --order=sent --runs={RUNS} --loss=L, and --n={K * 3 // 2} but for grids",
        "columns: mean loss of L in percent; share of runs that are peeled or solved",
    ]
    single = [(f"even:{loss}", loss / 10) for loss in range(50, 410, 90 if QUICK else 10)]

    def kinds(back):
        """Bursts of 1000 / back packets in the mean."""
        good = [(p, 100 * p / (p + back)) for p in range(1, back)]
        few = max(1, back // (10 if QUICK else 50))
        return [(f"burst:{p}:{back}", loss) for p, loss in good if 4 <= loss <= 41][::few]

    losses = [("single losses", single), ("bursts of 10", kinds(100)), ("bursts of 50", kinds(20))]

    def point(words, loss, mean):
        words = [f"--k={K}", "--symbol=1", "--order=sent", f"--runs={RUNS}", f"--loss={loss}", *words]
        return [mean, share(perf(*words)[1], "peeled", "solved")]

    made = [
        (f"{name}: {kind}", [pool.submit(point, words, *loss) for loss in points])
        for name, words in [CODES[0], CODES[1], CODES[3], GRIDS[0]] for kind, points in losses
    ]
    return "bursts.dat", head, [(name, [point.result() for point in points]) for name, points in made]


# ---- speed


def speed(folder):
    head = [
        "columns: length of a symbol, or greatest number of source symbols of a block; megabytes of the object a",
        "second of encode, of decode with all packets, and of decode with a fifth of them lost, the best of three",
        "runs (nan: not measured, or a block stays open)",
    ]
    size = 1 << (18 if QUICK else 24)
    symbols = [(symbol, symbol, 1000) for symbol in (16, 64, 256, 1024, 4096, 16384, 65535)]
    blocks = [(block, 256, block) for block in (20, 50, 100, 300, 1000, 3000, 10000, 43000)]
    with tempfile.TemporaryDirectory() as name:
        here = pathlib.Path(name)
        (here / "object").write_bytes(random.Random(1).randbytes(size))
        made = [
            (title, [[x, *speeds(here, size, symbol, block)] for x, symbol, block in points])
            for title, points in (("length of a symbol", symbols), ("length of a block", blocks))
        ]
    written(folder, "speed.dat", head, made)


def speeds(here, size, symbol, block):
    shape = [f"--symbol={symbol}", f"--block={block}", f"--max-n={block * 3 // 2}"]
    encode = timed(here, ["encode", *shape], "object", "packets")
    timed(here, ["lose", "--loss=even:200", "--seed=1"], "packets", "some", times=1)
    decode = [timed(here, ["decode"], given, "again") for given in ("packets", "some")]
    return [size / 1e6 / seconds for seconds in (encode, *decode)]


def timed(here, words, given, made, times=3):
    """The least time of some runs, or nan where one doesn't end with status 0."""
    best = float("inf")
    for _ in range(times):
        with open(here / given, "rb") as source, open(here / made, "wb") as sink:
            start = time.monotonic()
            done = subprocess.run([PROGRAM, *words], stdin=source, stdout=sink, stderr=subprocess.DEVNULL, check=False)
            best = min(best, time.monotonic() - start) if done.returncode == 0 else float("nan")
    return best


def main():
    folder = pathlib.Path(sys.argv[1])
    with concurrent.futures.ThreadPoolExecutor(os.cpu_count()) as pool:
        for measure in (shares, needed, bursts):
            written(folder, *measure(pool))
    # Nothing else runs beside what is timed.
    speed(folder)


if __name__ == "__main__":
    main()
