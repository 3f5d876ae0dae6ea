#!/usr/bin/env python3
"""Holds the built program against tools/second_reading.py, a plain second reading of the pages, on random files.

    fuzz.py [CASES [SEED]]

First come runs that were worked out by hand and the packet files of tools/vectors, and then random cases, on all
processors: which cases they are goes by the seed alone.

Each case is an `encode` of a random object with random words, and a `decode`, a `lose` and a `show` of its packet
file after packets were lost, repeated, shuffled, changed or cut, or header bytes were changed; a `frame` of a random
datagram stream, and an `unframe` of random frames, changed or cut at times; and a `perf` with random words. Output,
report and status have to be those of the second reading. A difference is printed with its words and its input in
hexadecimal, and ends the run with status 1. EPERFTOOL names another program than build/eperftool.
"""
import collections
import hashlib
import multiprocessing
import os
import pathlib
import random
import subprocess
import sys

import second_reading as reading
from second_reading import Ends, Header

PROGRAM = os.environ.get("EPERFTOOL", pathlib.Path(__file__).resolve().parent.parent / "build" / "eperftool")

# A header that was changed may ask for blocks of many thousand symbols, over which the second reading takes hours. Files
# of more symbols than these are shown and thinned, and not decoded.
MOST_DECODED = 400

# How many cases one process takes at a time.
AT_ONCE = 50

# Of `perf` with the code k = 3, n = 7, N1 = 3, seed 1 and symbols of one byte: further words, and the last two lines,
# which were worked out by hand.
PERF_BY_HAND = [
    ({"order": "sent"}, "run 1 kept 7 needed 3 peeled\nruns 1 peeled 1 solved 0 undetermined 0\n"),
    (
        {"order": "sent", "loss": "first:3"},
        "run 1 kept 4 needed none solved\nruns 1 peeled 0 solved 1 undetermined 0\n",
    ),
    (
        {"order": "sent", "loss": "first:6"},
        "run 1 kept 1 needed none undetermined\nruns 1 peeled 0 solved 0 undetermined 1\n",
    ),
    ({"order": "random"}, "run 1 kept 7 needed 4 peeled\nruns 1 peeled 1 solved 0 undetermined 0\n"),
]


def random_shape(chance):
    """The words that choose a code, its number, N1, and its seed or width."""
    codec = chance.choice(["staircase", "staircase", "triangle", "2d", "2d-corner"])
    if codec in ("2d", "2d-corner"):
        width = chance.randint(1, 9)
        return [f"--codec={codec}", f"--width={width}"], 200 if codec == "2d" else 201, 3, width
    n1, seed = chance.randint(3, 10), chance.choice([1, 7, chance.randint(1, 2147483646)])
    number = {"staircase": 3, "triangle": 4}[codec]
    return [f"--codec={codec}", f"--n1={n1}", f"--seed={seed}"], number, n1, seed


def random_words(chance):
    words, codec, n1, seed = random_shape(chance)
    symbol, block, limit = chance.choice([1, 1, 2, 3, 8, 33]), chance.randint(1, 24), None
    words += [f"--symbol={symbol}", f"--block={block}"]
    if codec in reading.GRIDS:
        max_n = reading.grid_size(codec, block, seed)
    else:
        max_n = block + chance.randint(0, 24)
        words.append(f"--max-n={max_n}")
        if chance.random() < 0.1:
            limit = chance.randint(0, 200)
            words.append(f"--draws={limit}")
    version = chance.choice([1, 1, 2])
    if version == 2 or chance.random() < 0.1:
        words.append(f"--format={version}")
    return words, limit, lambda size: Header(codec, size, symbol, n1 - 3, 1, block, max_n, seed, version)


def random_loss(chance):
    few, many = chance.randint(0, 40), chance.choice([0, 1000, chance.randint(0, 1000)])
    return chance.choice(["none", f"first:{few}", f"even:{many}", f"burst:{chance.randint(0, 1000)}:{many}"])


def random_perf(chance):
    """Words of a `perf`, and what the second reading is given for them."""
    words, codec, n1, seed = random_shape(chance)
    given = {"codec": codec, "n1": n1, "seed": seed, "k": chance.randint(1, 24), "symbol": 16}
    if codec in reading.GRIDS:
        given["n"] = reading.grid_size(codec, given["k"], seed)
    else:
        given["n"] = given["k"] * 3 // 2
        if chance.random() < 0.02:
            # Above the limit of a block's bytes by one symbol.
            given |= {"n": 4097, "symbol": 65535}
            words.append("--symbol=65535")
        elif chance.random() < 0.7:
            given["n"] = given["k"] + chance.randint(0, 24)
        if given["n"] != given["k"] * 3 // 2:
            words.append(f"--n={given['n']}")
        if chance.random() < 0.1:
            given["limit"] = chance.randint(0, 200)
            words.append(f"--draws={given['limit']}")
    words.append(f"--k={given['k']}")
    if given["symbol"] == 65535:
        return words, given
    choices = {
        "symbol": chance.choice([1, 1, 2, 33, 257]), "loss": random_loss(chance), "runs": chance.randint(1, 4),
        "order": chance.choice(["sent", "random"]), "threshold": chance.choice(["yes", "no"]), "run_seed": chance.choice([1, chance.randint(1, 2147483646)]),
    }
    for name, value in choices.items():
        if chance.random() < 0.7:
            given[name] = value
            words.append(f"--{name.replace('_', '-')}={value}")
    chance.shuffle(words)
    return words, given


def damaged(chance, file):
    header = bytearray(file[:26])
    packets = [piece for _, _, _, piece, _ in reading.packets(file, reading.read_header(file), 16777216)]
    share = chance.choice([0, 0.1, 0.3, 0.5, 0.9])
    packets = [packet for packet in packets if chance.random() >= share]
    if packets and chance.random() < 0.5:
        packets += [chance.choice(packets) for _ in range(chance.randint(0, 4))]
    if chance.random() < 0.6:
        chance.shuffle(packets)
    if packets and chance.random() < 0.25:
        at = chance.randrange(len(packets))
        packet = bytearray(packets[at])
        packet[chance.choice([1, 3, chance.randrange(4, len(packet))])] ^= 1 << chance.randrange(8)
        packets[at] = bytes(packet)
    if chance.random() < 0.05:
        header[chance.randrange(26)] ^= 1 << chance.randrange(8)
    data = bytes(header) + b"".join(packets)
    return data[: chance.randint(0, len(data))] if chance.random() < 0.1 else data


def program(words, data):
    done = subprocess.run([PROGRAM, *words], input=data, capture_output=True, check=False)
    lines = done.stderr.decode().splitlines(True)
    return done.returncode, done.stdout, "".join(line for line in lines if not line.startswith("rebuilt "))


def expected(call, *given, **named):
    try:
        return call(*given, **named)
    except Ends as end:
        return end.status, end.output, end.report


class Difference(Exception):
    """The program and the second reading differ."""


def check(words, data, wanted, seen):
    got = program(words, data)
    seen[got[0]] += 1
    if got != wanted:
        raise Difference(
            f"words:  {' '.join(words)}\ninput:  {data.hex()}\n"
            f"wanted: status {wanted[0]}, {wanted[2]!r}, {wanted[1].hex()}\n"
            f"got:    status {got[0]}, {got[2]!r}, {got[1].hex()}"
        )
    return got


def check_perf_by_hand(seen):
    """The second reading gives the lines that were worked out by hand, and the program gives those of the reading."""
    for more, lines in PERF_BY_HAND:
        wanted = expected(reading.perf, 3, 1, 3, 1, 3, 7, **more)
        text = f"code staircase k 3 n 7 entries 16 draws 12\n{lines}".encode()
        if wanted != (0, text, ""):
            sys.exit(f"The second reading of perf gives {wanted}, and not {text}.")
        words = ["--k=3", "--n=7", "--symbol=1", *(f"--{name}={value}" for name, value in more.items())]
        check(["perf", *words], b"", wanted, seen)


def check_extra_columns_by_hand(seen):
    """The codeword of a staircase whose rows gain both extra columns, worked out in docs/CODES.md."""
    words = ["encode", "--symbol=1", "--block=2", "--max-n=9"]
    symbols = bytes.fromhex("01 02 03 00 03 00 03 00 03")
    packets = b"".join(esi.to_bytes(4, "big") + symbols[esi : esi + 1] for esi in range(9))
    wanted = (0, Header(3, 2, 1, 0, 1, 2, 9, 1).spelled() + packets, "blocks 1\npackets 9\n")
    check(words, b"\x01\x02", wanted, seen)


def check_frames_by_hand(seen):
    """Two datagrams in frames of six bytes, as docs/FORMAT.md has them, and back; and frames that are none."""
    stream, frames = bytes.fromhex("07 00 02 aa bb 01 00 00"), bytes.fromhex("07 00 02 aa bb 00 01 00 00 00 00 00")
    check(["frame", "--symbol=6"], stream, (0, frames, "datagrams 2\n"), seen)
    check(["unframe", "--symbol=6"], frames, (0, stream, "datagrams 2\n"), seen)
    for spelled, fault in (("07 00 04 aa bb 00", "length 4"), ("07 00 01 aa bb 00", "padding")):
        check(["unframe", "--symbol=6"], bytes.fromhex(spelled), (5, b"", f"fault: symbol 0 {fault}\n"), seen)
    check(["frame", "--symbol=4"], stream[:5], (5, b"", "fault: datagram 0 long 2\n"), seen)


def check_vectors(seen):
    """The packet files of tools/vectors/encodes.txt, which a second implementation computed."""
    for line in (pathlib.Path(__file__).parent / "vectors" / "encodes.txt").read_text().splitlines():
        if line.startswith("#"):
            continue
        words, size, digest, length, report = [part.strip() for part in line.split("|")]
        words = [] if words == "(none)" else words.split()
        got = program(["encode", *words], bytes((i * 7 + i // 256) % 256 for i in range(int(size))))
        seen[got[0]] += 1
        if (hashlib.sha256(got[1]).hexdigest(), len(got[1]), got[2].split("\n")) != (
            digest,
            int(length),
            [*report.split(", "), ""],
        ):
            sys.exit(f"encode {' '.join(words)}: another packet file than that of tools/vectors/encodes.txt")


def symbols_of(file):
    """How many encoding symbols the blocks of a packet file have, where its header has no fault."""
    try:
        return sum(reading.read_header(file).counts)
    except Ends:
        return 0


def check_file(chance, file, seen):
    """What comes out of a packet file that met with something on the way."""
    file = damaged(chance, file)
    options, early, most, limit = ["decode"], chance.random() < 0.3, 16777216, None
    if early:
        options.append("--early=yes")
    if chance.random() < 0.1:
        most = chance.randint(0, 40)
        options.append(f"--packets={most}")
    if chance.random() < 0.05:
        limit = chance.randint(0, 300)
        options.append(f"--draws={limit}")
    if symbols_of(file) <= MOST_DECODED:
        check(options, file, expected(reading.decode, file, limit, early, most), seen)
        options = ["salvage", *(word for word in options[1:] if not word.startswith("--early"))]
        check(options, file, expected(reading.salvage, file, limit, most), seen)
    most, loss = chance.randint(0, 60), random_loss(chance)
    start = chance.choice([1, chance.randint(1, 2147483646)])
    options = [f"--loss={loss}", f"--seed={start}", f"--packets={most}"]
    check(["lose", *options], file, expected(reading.lose, file, loss, start, most), seen)
    check(["show", f"--packets={most}"], file, expected(reading.show, file, most), seen)
    check(["upgrade", f"--packets={most}"], file, expected(reading.upgrade, file, most), seen)
    check_upgraded(file, seen)


def check_upgraded(file, seen):
    """An upgraded file is decoded as the file itself."""
    status, upgraded, _ = check(["upgrade"], file, expected(reading.upgrade, file, 16777216), seen)
    if not status and symbols_of(file) <= MOST_DECODED:
        wanted = expected(reading.decode, file, None, False, 16777216)
        check(["decode"], upgraded, wanted, seen)


def random_stream(chance, size):
    """Datagrams, each behind its flow and its length, of which seldom one is longer than a frame of `size` bytes holds."""
    stream = b""
    for _ in range(chance.choice([0, 1, 2, chance.randint(0, 12)])):
        most = size - 3 + (chance.random() < 0.05)
        length = chance.choice([0, most, chance.randint(0, most)])
        stream += chance.randbytes(1) + length.to_bytes(2, "big") + chance.randbytes(length)
    return stream


def hurt(chance, data, size):
    """Bytes that are as they were, or of which a bit is changed, some are lost at the end, or put in or left out
    between; or the length of a datagram or a byte behind it is another one. Or other bytes altogether, small ones or
    any."""
    data, how = bytearray(data), chance.choice("same same bit cut in out length padding small any".split())
    at = chance.randrange(len(data) + 1)
    if how == "bit" and at < len(data):
        data[at] ^= 1 << chance.randrange(8)
    elif how == "cut":
        del data[at:]
    elif how == "in":
        data[at:at] = chance.randbytes(chance.randint(1, size))
    elif how == "out":
        del data[at : at + chance.randint(1, size)]
    elif how in ("length", "padding") and len(data) >= size:
        at -= at % size if at + size <= len(data) else at
        length = chance.choice([size - 3, size - 2, chance.randint(0, size), chance.randint(0, 65535)])
        if how == "length":
            data[at + 1 : at + 3] = length.to_bytes(2, "big")
        else:
            data[at + chance.randrange(size)] = chance.choice([0, 1, 255])
    elif how in ("small", "any"):
        most = 255 if how == "any" else 2
        data = bytes(chance.randint(0, most) for _ in range(chance.randint(0, 4 * min(size, 60))))
    return bytes(data)


def check_datagrams(chance, seen):
    """A datagram stream in frames, and frames that were hurt or not, back into datagrams."""
    size = chance.choice([3, 4, 5, 6, 16, 1024, chance.randint(3, 300), chance.randint(3, 5000)])
    words = [f"--symbol={size}"] if size != 1024 or chance.random() < 0.5 else []
    stream = random_stream(chance, size)
    whole = expected(reading.frame, stream, size)
    if not whole[0]:
        check(["unframe", *words], whole[1], expected(reading.unframe, whole[1], size), seen)
    stream, frames = hurt(chance, stream, size), hurt(chance, whole[1], size)
    check(["frame", *words], stream, expected(reading.frame, stream, size), seen)
    check(["unframe", *words], frames, expected(reading.unframe, frames, size), seen)


def check_cases(seed, first, count):
    """Some cases, as their seed and the number of the first decide. Says how many runs ended with each status."""
    chance, seen = random.Random(f"{seed} {first}"), collections.Counter()
    for _ in range(count):
        words, limit, header_of = random_words(chance)
        data = chance.randbytes(chance.choice([0, 1, chance.randint(1, 60), chance.randint(1, 300)]))
        header = header_of(len(data))
        status, file, _ = check(
            ["encode", *words], data, expected(reading.encode, header, data, limit), seen
        )
        if not status:
            check_file(chance, file, seen)
        check_datagrams(chance, seen)
        words, given = random_perf(chance)
        check(["perf", *words], b"", expected(reading.perf, **given), seen)
    return seen


def main():
    cases = int(sys.argv[1]) if len(sys.argv) > 1 else 2000
    seed = int(sys.argv[2]) if len(sys.argv) > 2 else random.randrange(2**32)
    seen = collections.Counter()
    parts = [(seed, first, min(AT_ONCE, cases - first)) for first in range(0, cases, AT_ONCE)]
    try:
        check_perf_by_hand(seen)
        check_extra_columns_by_hand(seen)
        check_frames_by_hand(seen)
        check_vectors(seen)
        with multiprocessing.Pool() as processes:
            for of_part in processes.starmap(check_cases, parts, chunksize=1):
                seen += of_part
    except Difference as difference:
        sys.exit(f"{difference}\nseed:   {seed}")
    statuses = ", ".join(f"{count} of status {status}" for status, count in sorted(seen.items()))
    print(f"{seen.total()} runs from seed {seed}, no difference: {statuses}")


if __name__ == "__main__":
    main()
