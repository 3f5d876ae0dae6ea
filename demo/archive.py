#!/usr/bin/env python3
"""Keeps repair packets of a file apart, and rebuilds the file from what of it is as it was.

    archive.py protect FILE [PERCENT]    writes FILE.parity, with so many repair packets in a hundred (10), and
                                         FILE.sums
    archive.py restore FILE              writes FILE.restored from the sectors of FILE and the repair packets that can
                                         be read and are as they were; FILE stays as it is

FILE.parity is a packet file without its source packets, which are the sectors of FILE, the last one filled up with
zeros. A line of FILE.sums is a digest, as `b2sum -l 64` gives it: that of the header, and then of each symbol, the
sectors and behind them the repair packets. A symbol whose digest isn't its line is left out: so a line that was hurt
costs a symbol and no more. A header that was hurt is made again by `protect` of any file of the same length. Keep both
files elsewhere than FILE. EPERFTOOL is the program (eperftool).
"""
import contextlib
import hashlib
import os
import subprocess
import sys

SECTOR, HEADER, LINE = 4096, 26, 17
MOST = 65536  # symbols of a block
PROGRAM = os.environ.get("EPERFTOOL", "eperftool")


def line_of(symbol):
    return hashlib.blake2b(symbol, digest_size=8).hexdigest().encode() + b"\n"


def sectors(path):
    """The sectors of a file, each filled up to its length; one that can't be read is empty."""
    with open(path, "rb") as file:
        for at in range(0, os.stat(path).st_size, SECTOR):
            try:
                yield os.pread(file.fileno(), SECTOR, at).ljust(SECTOR, b"\0")
            except OSError:
                yield b""


def packets(file):
    """The packets behind a header: identifier and symbol."""
    while packet := file.read(4 + SECTOR):
        yield packet[:4], packet[4:]


def protect(path, percent):
    k = -(-os.stat(path).st_size // SECTOR)
    n = k + -(-k * percent // 100)
    if not 1 <= k <= n <= MOST:
        sys.exit(f"archive.py: {n} symbols, and a block has 1 to {MOST}: cut the file into shorter ones")
    words = [f"--symbol={SECTOR}", f"--block={k}", f"--max-n={n}", "--n1=5"]
    with open(path, "rb") as file, open(f"{path}.parity", "wb") as parity, open(f"{path}.sums", "wb") as sums:
        made = subprocess.Popen([PROGRAM, "encode", *words], stdin=file, stdout=subprocess.PIPE)
        header = made.stdout.read(HEADER)
        parity.write(header)
        sums.write(line_of(header))
        for number, (identifier, symbol) in enumerate(packets(made.stdout)):
            sums.write(line_of(symbol))
            if number >= k:
                parity.write(identifier + symbol)
    return made.wait()


def symbols(path):
    """All that is there: the number of a symbol, and its bytes."""
    yield from enumerate(sectors(path))
    with open(f"{path}.parity", "rb") as parity:
        parity.seek(HEADER)
        for identifier, symbol in packets(parity):
            yield int.from_bytes(identifier, "big"), symbol


def restore(path):
    with open(f"{path}.parity", "rb") as parity, open(f"{path}.sums", "rb") as sums:
        header, (header_line, *lines) = parity.read(HEADER), iter(lambda: sums.read(LINE), b"")
    if line_of(header) != header_line:
        sys.exit(f"archive.py: the first {HEADER} bytes of {path}.parity are hurt, or the first line of {path}.sums")
    k, good = -(-int.from_bytes(header[8:14], "big") // SECTOR), [False] * len(lines)
    part = f"{path}.restored.part"
    with open(part, "wb") as restored:
        decode = subprocess.Popen([PROGRAM, "decode"], stdin=subprocess.PIPE, stdout=restored)
    with contextlib.suppress(BrokenPipeError), decode.stdin as sink:
        sink.write(header)
        for number, symbol in symbols(path):
            if number < len(lines) and line_of(symbol) == lines[number]:
                good[number] = True
                sink.write(number.to_bytes(4, "big") + symbol)
    status = decode.wait()
    print(f"sectors {k} hurt {good[:k].count(False)}, repair packets {len(lines) - k} hurt {good[k:].count(False)}")
    if status:
        os.remove(part)
    else:
        os.replace(part, f"{path}.restored")
    return status


if __name__ == "__main__":
    if sys.argv[1:2] == ["protect"] and len(sys.argv) in (3, 4):
        sys.exit(protect(sys.argv[2], int((sys.argv + ["10"])[3])))
    elif sys.argv[1:2] == ["restore"] and len(sys.argv) == 3:
        sys.exit(restore(sys.argv[2]))
    sys.exit(__doc__)
