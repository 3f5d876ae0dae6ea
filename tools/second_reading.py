"""A plain, slow second reading of docs/FORMAT.md, docs/CODES.md and docs/COMMANDS.md: what each command gives.

`encode`, `decode`, `lose`, `show`, `frame`, `unframe` and `perf` answer status, output and report, or raise `Ends` with
them. No code of the program is used here, and no table of it: tools/fuzz.py holds the program against this.
"""
import bisect


NAMES = {3: "staircase", 4: "triangle", 200: "2d", 201: "2d-corner"}
GRIDS = (200, 201)


class Ends(Exception):
    """A run that ends with a status, a report, and what it wrote by then."""

    def __init__(self, status, report, output=b""):
        super().__init__(report)
        self.status, self.report, self.output = status, report, output


# ---- codes


class Draws:
    def __init__(self, seed, limit):
        self.state, self.limit, self.used = seed, limit, 0

    def draw(self, below):
        if self.used == self.limit:
            raise OverflowError
        self.used += 1
        self.state = 16807 * self.state % 2147483647
        return below * self.state // 2147483647


def left_side(k, n, n1, draws):
    rows = [set() for _ in range(n - k)]
    if not rows:
        return rows
    rest = [h % (n - k) for h in range(n1 * k)]
    for column in range(k):
        for _ in range(min(n1, n - k)):
            if any(column not in rows[row] for row in rest):
                while column in rows[rest[at := draws.draw(len(rest))]]:
                    pass
                rows[rest[at]].add(column)
                rest[at] = rest[0]
                rest = rest[1:]
            else:
                while column in rows[row := draws.draw(n - k)]:
                    pass
                rows[row].add(column)
    for row in rows:
        if not row:
            row.add(draws.draw(k))
        if len(row) == 1 and k >= 2:
            while (column := draws.draw(k)) in row:
                pass
            row.add(column)
    return rows


def matrix(codec, k, n, n1, seed, limit):
    """The rows, and how many draws they took."""
    if codec in GRIDS:
        width, height = seed, -(-k // seed)
        grid = [[c for c in range(k) if c // width == i] + [k + i] for i in range(height)]
        down = [[c for c in range(k) if c % width == j] for j in range(min(width, k))]
        corner = [list(range(k)) + [n - 1]] if codec == 201 else []
        return grid + [row + [k + height + j] for j, row in enumerate(down)] + corner, 0
    if limit is None:
        limit = 64 * (n1 * k + 2 * (n - k)) + 65536
    draws = Draws(seed, limit)
    rows = left_side(k, n, n1, draws)
    for i, row in enumerate(rows):
        row.add(k + i)
        if i:
            row.add(k + i - 1)
    if codec == 4:
        for i in range(1, n - k):
            j, links = i - 1, 0
            while links < j:
                j = draws.draw(j)
                rows[i].add(k + j)
                links += 1
    return [sorted(row) for row in rows], draws.used


def xor(a, b):
    return bytes(x ^ y for x, y in zip(a, b))


# ---- files


def grid_size(codec, k, width):
    return k + -(-k // width) + min(width, k) + (codec == 201)


class Header:
    def __init__(self, codec, length, symbol, n1m3, group, block, max_n, seed, version=1):
        self.codec, self.length, self.symbol, self.n1, self.version = codec, length, symbol, n1m3 + 3, version
        self.n1m3, self.group, self.block, self.max_n, self.seed = n1m3, group, block, max_n, seed

    def name(self):
        return NAMES[self.codec]

    def spelled(self):
        return (
            b"OFPK" + bytes([self.version, self.codec, 0, 0]) + self.length.to_bytes(6, "big") + self.symbol.to_bytes(2, "big")
            + bytes([self.n1m3 << 5 | self.group]) + (self.block << 20 | self.max_n).to_bytes(5, "big")
            + self.seed.to_bytes(4, "big")
        )

    def field_fault(self):
        grid = self.codec in GRIDS
        faults = [
            self.symbol == 0, self.group != 1, self.block == 0, self.max_n < self.block, self.max_n > 65536,
            not grid and not 1 <= self.seed <= 2147483646, grid and self.seed == 0,
        ]
        if any(faults):
            return faults.index(True) + 1
        fixed = not grid or self.n1m3 == 0 and self.max_n == grid_size(self.codec, self.block, self.seed)
        return None if fixed else 8

    def check_sizes(self):
        if self.length > 268435456:
            raise Ends(7, "fault: limit length\n")
        sources = -(-self.length // self.symbol)
        count = -(-sources // self.block)
        if count > 4096:
            raise Ends(7, "fault: limit blocks\n")
        large, small = (-(-sources // count), sources // count) if count else (0, 0)
        first = sources - small * count
        self.sizes = [large] * first + [small] * (count - first)
        self.counts = [
            grid_size(self.codec, k, self.seed) if self.codec in GRIDS else k * self.max_n // self.block
            for k in self.sizes
        ]
        if any(n * self.symbol > 268435456 for n in self.counts):
            raise Ends(7, "fault: limit block-bytes\n")
        if sum(self.counts) > 4194304:
            raise Ends(7, "fault: limit symbols\n")
        if sum(self.counts) * self.symbol > 536870912:
            raise Ends(7, "fault: limit bytes\n")

    def true_len(self, block, position):
        """How many bytes of a symbol are no padding."""
        if block == len(self.sizes) - 1 and position == self.sizes[-1] - 1:
            return self.length - self.symbol * (-(-self.length // self.symbol) - 1)
        return self.symbol

    def packet(self, block, position, symbol):
        """A packet as the version spells it."""
        identifier = (block << 20 | position).to_bytes(4, "big")
        if self.version == 1:
            return identifier + symbol
        length = self.true_len(block, position)
        return identifier + length.to_bytes(2, "big") + symbol[:length]

    def codes(self, limit):
        built, codes = {}, []
        for block, (k, n) in enumerate(zip(self.sizes, self.counts)):
            if k not in built:
                try:
                    built[k], _ = matrix(self.codec, k, n, self.n1, self.seed, limit)
                except OverflowError:
                    raise Ends(6, f"fault: draws block {block}\n") from None
            codes.append(built[k])
        return codes


def read_header(data):
    if len(data) < 26:
        raise Ends(5, f"fault: header short {len(data)}\n")
    if data[:4] != b"OFPK":
        raise Ends(5, "fault: header magic\n")
    if data[4] not in (1, 2):
        raise Ends(5, f"fault: header version {data[4]}\n")
    if data[5] not in NAMES:
        raise Ends(5, f"fault: header codec {data[5]}\n")
    if data[6] or data[7]:
        raise Ends(5, "fault: header reserved\n")
    wide = int.from_bytes(data[17:22], "big")
    header = Header(
        data[5], int.from_bytes(data[8:14], "big"), int.from_bytes(data[14:16], "big"), data[16] >> 5, data[16] & 31,
        wide >> 20, wide & 0xFFFFF, int.from_bytes(data[22:26], "big"), data[4],
    )
    if fault := header.field_fault():
        raise Ends(5, f"fault: header field {fault}\n")
    header.check_sizes()
    return header


def encode(header, data, limit):
    header.check_sizes()
    codes = header.codes(limit)
    size, at, out, packets = header.symbol, 0, [header.spelled()], 0
    for block, (k, rows) in enumerate(zip(header.sizes, codes)):
        word = [data[(at + i) * size : (at + i + 1) * size].ljust(size, b"\0") for i in range(k)]
        at += k
        for row in rows:
            total = bytes(size)
            for column in row[:-1]:
                total = xor(total, word[column])
            word.append(total)
        for position, symbol in enumerate(word):
            out.append(header.packet(block, position, symbol))
        packets += len(word)
    return 0, b"".join(out), f"blocks {len(codes)}\npackets {packets}\n"


# ---- what arrivals determine


def reduced(rows, sums, unknowns):
    """The rows by the unknown that each gives, the unknowns that no row gives, and whether a sum is left over."""
    pivots, left = {}, [(set(row), total) for row, total in zip(rows, sums)]
    for unknown in unknowns:
        at = next((i for i, (row, _) in enumerate(left) if unknown in row), None)
        if at is None:
            continue
        row, total = left.pop(at)
        left = [(r ^ row, xor(t, total)) if unknown in r else (r, t) for r, t in left]
        pivots = {p: ((r ^ row), xor(t, total)) if unknown in r else (r, t) for p, (r, t) in pivots.items()}
        pivots[unknown] = (row, total)
    return pivots, [unknown for unknown in unknowns if unknown not in pivots], any(any(total) for _, total in left)


def null_set(pivots, last):
    """The one that ends at this unknown and has no other one that no row gives."""
    return sorted([last] + [p for p, (row, _) in pivots.items() if last in row])


def eliminate(rows, sums, unknowns):
    """None where nothing solves the rows; else the symbols of the unknowns, or the first null set."""
    pivots, free, clash = reduced(rows, sums, unknowns)
    if clash:
        return None, None
    if not free:
        return {unknown: pivots[unknown][1] for unknown in unknowns}, None
    return None, null_set(pivots, free[0])


def closure(rows, known):
    known, more = set(known), True
    while more:
        more = [o[0] for row in rows if len(o := [c for c in row if c not in known]) == 1]
        known |= set(more)
    return known


def residue(rows, n, arrivals, size):
    """What came by position, the other positions, and the rows with these alone and the sums of the others; or None
    where one position came with two symbols."""
    symbols = {}
    for position, symbol in arrivals:
        if symbols.setdefault(position, symbol) != symbol:
            return None
    unknowns = [c for c in range(n) if c not in symbols]
    open_rows, sums = [], []
    for row in rows:
        total = bytes(size)
        for column in row:
            if column in symbols:
                total = xor(total, symbols[column])
        open_rows.append([c for c in row if c not in symbols])
        sums.append(total)
    return symbols, unknowns, open_rows, sums


def outcome(rows, k, n, arrivals, size):
    """The words of the report, and the source or None."""
    if not (rest := residue(rows, n, arrivals, size)):
        return " contradicted\n", None
    symbols, unknowns, open_rows, sums = rest
    values, null = eliminate(open_rows, sums, unknowns)
    if null:
        return " undetermined" + "".join(f" {c}" for c in null) + "\n", None
    if values is None:
        return " contradicted\n", None
    symbols.update(values)
    peeled = set(range(k)) <= closure(rows, [position for position, _ in arrivals])
    return " peeled\n" if peeled else " solved\n", b"".join(symbols[c] for c in range(k))


def packets(data, header, most, over=lambda: False):
    """Number, block, position, bytes and symbol of each packet behind the header, until it is over."""
    lead, at, count = 4 + header.symbol if header.version == 1 else 6, 26, 0
    while not over() and at < len(data):
        piece = data[at : at + lead]
        if count == most:
            raise Ends(7, "fault: limit packets\n")
        if len(piece) < lead:
            raise Ends(5, f"fault: packet {count} short {len(piece)}\n")
        identifier = int.from_bytes(piece[:4], "big")
        block, position = identifier >> 20, identifier & 0xFFFFF
        if block >= len(header.counts):
            raise Ends(5, f"fault: packet {count} block {block}\n")
        if position >= header.counts[block]:
            raise Ends(5, f"fault: packet {count} symbol {position}\n")
        symbol = piece[4:]
        if header.version == 2:
            length = int.from_bytes(piece[4:], "big")
            if length != header.true_len(block, position):
                raise Ends(5, f"fault: packet {count} length {length}\n")
            piece = data[at : at + 6 + length]
            if len(piece) < 6 + length:
                raise Ends(5, f"fault: packet {count} short {len(piece)}\n")
            symbol = piece[6:].ljust(header.symbol, b"\0")
        yield count, block, position, piece, symbol
        at, count = at + len(piece), count + 1


def decode(data, limit, early, most):
    header = read_header(data)
    codes = header.codes(limit)
    count, arrivals = 0, [[] for _ in codes]

    def whole():
        return early and all(
            set(range(k)) <= closure(rows, [p for p, _ in came])
            for k, rows, came in zip(header.sizes, codes, arrivals)
        )

    for _, block, position, _, symbol in packets(data, header, most, whole):
        arrivals[block].append((position, symbol))
        count += 1
    report, sources = "", []
    for block, (rows, k, n, came) in enumerate(zip(codes, header.sizes, header.counts, arrivals)):
        words, source = outcome(rows, k, n, came, header.symbol)
        report += f"block {block}{words}"
        sources.append(source)
    report += f"packets {count}\n"
    if "contradicted" in report:
        return 9, b"", report
    if None in sources:
        return 8, b"", report
    return 0, b"".join(sources)[: header.length], report


def saved(rows, k, n, arrivals, size):
    """The words of the report, the source with zeros in the place of what is open, and how many symbols are open."""
    if not (rest := residue(rows, n, arrivals, size)):
        return " contradicted\n", None, 0
    symbols, unknowns, open_rows, sums = rest
    pivots, free, clash = reduced(open_rows, sums, unknowns)
    if clash:
        return " contradicted\n", None, 0
    words = [null_set(pivots, last) for last in free]
    through = {e: next((word for word in words if e in word), None) for e in range(k)}
    source = b"".join(
        bytes(size) if through[e] else symbols[e] if e in symbols else pivots[e][1] for e in range(k)
    )
    lines = [f"symbol {e} through {' '.join(map(str, word))}\n" for e, word in through.items() if word]
    if not lines:
        return " whole\n", source, 0
    return f" partial {k - len(lines)} of {k}\n" + "".join(lines), source, len(lines)


def salvage(data, limit, most):
    header = read_header(data)
    codes = header.codes(limit)
    count, arrivals = 0, [[] for _ in codes]
    for _, block, position, _, symbol in packets(data, header, most):
        arrivals[block].append((position, symbol))
        count += 1
    report, sources, left = "", [], 0
    for block, (rows, k, n, came) in enumerate(zip(codes, header.sizes, header.counts, arrivals)):
        words, source, lines = saved(rows, k, n, came, header.symbol)
        report, left = report + f"block {block}{words}", left + lines
        sources.append(source)
    report += f"packets {count}\n"
    if None in sources:
        return 9, b"", report
    return 8 if left else 0, b"".join(sources)[: header.length], report


def keeper(loss, draws):
    """Whether the next packet is kept, by the packet's number."""
    kind, *numbers = loss.split(":")
    numbers, state = [int(number) for number in numbers], {"good": True}

    def burst(_):
        value = draws.draw(1000)
        state["good"] = value >= numbers[0] if state["good"] else value < numbers[1]
        return state["good"]

    return {
        "none": lambda _: True,
        "first": lambda count: count >= numbers[0],
        "even": lambda _: draws.draw(1000) >= numbers[0],
        "burst": burst,
    }[kind]


def lose(data, loss, seed, most):
    header, keep = read_header(data), keeper(loss, Draws(seed, None))
    read, kept, text = 0, 0, data[:26]
    try:
        for count, _, _, piece, _ in packets(data, header, most):
            read += 1
            if keep(count):
                kept, text = kept + 1, text + piece
    except Ends as end:
        raise Ends(end.status, end.report, text) from None
    return 0, text, f"read {read} kept {kept}\n"


def show(data, most):
    h = read_header(data)
    code = f"{h.name()} width {h.seed}" if h.codec in GRIDS else f"{h.name()} n1 {h.n1} seed {h.seed}"
    text = f"codec {code} length {h.length} symbol {h.symbol} block {h.block} max {h.max_n} blocks {len(h.counts)}\n"
    try:
        for count, block, position, piece, _ in packets(data, h, most):
            payload = piece[4:] if h.version == 1 else piece[6:]
            text += f"packet {count} block {block} symbol {position} bytes {payload[:16].hex()}\n"
    except Ends as end:
        raise Ends(end.status, end.report, text.encode()) from None
    return 0, text.encode(), ""


def upgrade(data, most):
    header, upgraded, read = read_header(data), read_header(data), 0
    upgraded.version = 2
    text = upgraded.spelled()
    try:
        for count, block, position, _, symbol in packets(data, header, most):
            if any(symbol[header.true_len(block, position) :]):
                raise Ends(5, f"fault: packet {count} padding\n")
            text += upgraded.packet(block, position, symbol)
            read += 1
    except Ends as end:
        raise Ends(end.status, end.report, text) from None
    return 0, text, f"packets {read}\n"


# ---- datagrams

MOST_FRAMED = 268435456


def frame(data, size):
    """A datagram stream, cut into datagrams, each in a frame of so many bytes."""
    at, count, out = 0, 0, b""

    def fault(status, words):
        return Ends(status, f"fault: {words}\n", out)

    while head := data[at : at + 3]:
        if len(head) < 3:
            raise fault(5, f"datagram {count} short {len(head)}")
        if (count + 1) * size > MOST_FRAMED:
            raise fault(7, "limit length")
        length = int.from_bytes(head[1:], "big")
        if length > size - 3:
            raise fault(5, f"datagram {count} long {length}")
        datagram = data[at : at + 3 + length]
        if len(datagram) < 3 + length:
            raise fault(5, f"datagram {count} short {len(datagram)}")
        out += datagram.ljust(size, b"\0")
        at, count = at + 3 + length, count + 1
    return 0, out, f"datagrams {count}\n"


def unframe(data, size):
    """Frames of so many bytes, and the datagram stream of what they hold."""
    count, out = 0, b""

    def fault(status, words):
        return Ends(status, f"fault: {words}\n", out)

    while symbol := data[count * size : (count + 1) * size]:
        if (count + 1) * size > MOST_FRAMED:
            raise fault(7, "limit length")
        if len(symbol) < size:
            raise fault(5, f"symbol {count} short {len(symbol)}")
        length = int.from_bytes(symbol[1:3], "big")
        if length > size - 3:
            raise fault(5, f"symbol {count} length {length}")
        if any(symbol[3 + length :]):
            raise fault(5, f"symbol {count} padding")
        out += symbol[: 3 + length]
        count += 1
    return 0, out, f"datagrams {count}\n"


# ---- perf


def sending_order(n, order, draws):
    """All positions as they are, or exchanged: from the last place down, each with one drawn from those up to it."""
    places = list(range(n))
    if order == "random":
        for last in range(n - 1, 0, -1):
            other = draws.draw(last + 1)
            places[last], places[other] = places[other], places[last]
    return places


def needed(rows, k, kept):
    """How many of the packets, in order, peeling needs for the whole source, or None. More packets never undo it."""
    source = set(range(k))
    least = bisect.bisect_left(
        range(len(kept) + 1), True, key=lambda count: source <= closure(rows, kept[:count])
    )
    return least if least <= len(kept) else None


def determining(rows, n, kept):
    """How many of the packets, in order, leave no null word, or None. More packets never bring one back."""
    def open_at(count):
        rest = residue(rows, n, [(position, b"\0") for position in kept[:count]], 1)
        return bool(reduced(rest[2], rest[3], rest[1])[1])

    least = bisect.bisect_left(range(len(kept) + 1), True, key=lambda count: not open_at(count))
    return least if least <= len(kept) else None


def perf(
    codec, symbol, n1, seed, k, n, limit=None, loss="none", order="random", runs=1, run_seed=1, threshold="no"
):
    """`seed` is the width where the codec is a grid, and `limit` None where the formula gives it."""
    if n * symbol > 268435456:
        raise Ends(7, "fault: limit block-bytes\n")
    try:
        rows, used = matrix(codec, k, n, n1, seed, limit)
    except OverflowError:
        raise Ends(6, "fault: draws block 0\n") from None
    draws, tally = Draws(run_seed, None), {"peeled": 0, "solved": 0, "undetermined": 0}
    for _ in range(k * symbol):
        # A byte of the source. Neither what is needed nor the verdict depends on it.
        draws.draw(256)
    entries = sum(len(row) for row in rows)
    text = f"code {NAMES[codec]} k {k} n {n} entries {entries} draws {used}\n"
    for run in range(1, runs + 1):
        order_of_run, keep = sending_order(n, order, draws), keeper(loss, draws)
        kept = [position for index, position in enumerate(order_of_run) if keep(index)]
        least = needed(rows, k, kept)
        verdict = outcome(rows, k, n, [(position, b"\0") for position in kept], 1)[0].split()[0]
        tally[verdict] += 1
        text += f"run {run} kept {len(kept)} needed {'none' if least is None else least} {verdict}"
        if threshold == "yes":
            enough = determining(rows, n, kept)
            text += f" least {'none' if enough is None else enough}"
        text += "\n"
    text += f"runs {runs}" + "".join(f" {verdict} {count}" for verdict, count in tally.items()) + "\n"
    return 0, text.encode(), ""
