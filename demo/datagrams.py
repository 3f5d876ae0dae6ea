#!/usr/bin/env python3
"""Carries a packet file of version 1 in datagrams, one packet each.

    datagrams.py send HOST PORT [MBIT]          reads a packet file; sends each packet once, in a mixed order, and the
                                                header behind every 50, at MBIT (50) million bits a second
    datagrams.py receive [GROUP:]PORT SECONDS   writes what comes as a packet file, until nothing more has come for so
                                                long; the first datagram may take as long as it likes
    datagrams.py stream COUNT [MOST]            writes a datagram stream: so many datagrams of 0 to MOST (253) bytes,
                                                four flows
    datagrams.py same STREAM STREAM             compares two datagram streams, one datagram after the other

HOST may be a broadcast address or a multicast group; a receiver joins GROUP. The system's routes choose the interface.
One port carries one object: packets don't tell whose they are. A header has 26 bytes and begins with OFPK, which no
packet's identifier does. Datagrams of another length are dropped: they are no packets of this object.
"""
import contextlib
import itertools
import random
import socket
import sys
import time

HEADER = 26
MAGIC = b"OFPK"
AGAIN = 50  # the header is sent again behind so many packets
ON_THE_WAY = 42  # bytes of Ethernet, IP and UDP before a datagram
ROUTERS = 8  # that a multicast datagram may pass
BEHIND = 0.01  # seconds that a sender which was kept waiting makes up for; a longer burst would fill the receiver
SO_RCVBUFFORCE = 33  # Linux: past the system's limit, for who may
BUFFER = 1 << 25


def packet_len(header):
    """An identifier of four bytes, and a symbol of as many as bytes 14 and 15 say."""
    return 4 + int.from_bytes(header[14:16], "big")


def is_header(datagram):
    return len(datagram) == HEADER and datagram[:4] == MAGIC


def mixed(file):
    """The datagrams of a packet file. In a mixed order a run of losses hits many blocks, each a little."""
    header, size = file[:HEADER], packet_len(file)
    places = list(range(HEADER, len(file) - size + 1, size))
    random.Random(1).shuffle(places)
    for number, place in enumerate(places):
        if number % AGAIN == 0:
            yield header
        yield file[place : place + size]
    yield header


def send(host, port, mbit):
    file = memoryview(sys.stdin.buffer.read())
    if not is_header(file[:HEADER]) or file[4] != 1:
        sys.exit("datagrams.py: standard input is no packet file of version 1")
    link = socket.socket(socket.AF_INET, socket.SOCK_DGRAM)
    link.setsockopt(socket.IPPROTO_IP, socket.IP_MULTICAST_TTL, ROUTERS)
    link.setsockopt(socket.SOL_SOCKET, socket.SO_BROADCAST, 1)
    due = time.monotonic()
    for datagram in mixed(file):
        now = time.monotonic()
        time.sleep(max(0, due - now))
        link.sendto(datagram, (host, port))
        due = max(due, now - BEHIND) + 8 * (len(datagram) + ON_THE_WAY) / (mbit * 1e6)
    print(f"sent {(len(file) - HEADER) // packet_len(file)}", file=sys.stderr)


def arrivals(group, port, seconds):
    link = socket.socket(socket.AF_INET, socket.SOCK_DGRAM)
    for option in (socket.SO_RCVBUF, SO_RCVBUFFORCE):
        with contextlib.suppress(OSError):
            link.setsockopt(socket.SOL_SOCKET, option, BUFFER)
    if group:
        link.setsockopt(socket.SOL_SOCKET, socket.SO_REUSEADDR, 1)
        link.setsockopt(socket.IPPROTO_IP, socket.IP_ADD_MEMBERSHIP, socket.inet_aton(group) + bytes(4))
    link.bind((group, port))
    yield link.recv(1 << 16)
    link.settimeout(seconds)
    with contextlib.suppress(TimeoutError):
        while True:
            yield link.recv(1 << 16)


def receive(group, port, seconds):
    coming, early, came = arrivals(group, port, seconds), [], 0
    for header in coming:
        if is_header(header):
            break
        early.append(header)
    else:
        sys.exit("datagrams.py: no header came")
    # Without a buffer: the decoder gets each packet as it comes, and nothing is left to be written where it ends.
    with open(1, "wb", buffering=0, closefd=False) as sink, contextlib.suppress(BrokenPipeError):
        sink.write(header)
        for datagram in itertools.chain(early, coming):
            if len(datagram) == packet_len(header) and not is_header(datagram):
                sink.write(datagram)
                came += 1
    print(f"came {came}", file=sys.stderr)


def stream(count, most=253):
    chance = random.Random(1)
    for _ in range(count):
        length = chance.randint(0, most)
        sys.stdout.buffer.write(bytes([chance.randrange(4)]) + length.to_bytes(2, "big") + chance.randbytes(length))


def datagrams(path):
    """The datagrams of a stream, each with its flow."""
    with open(path, "rb") as file:
        while head := file.read(3):
            yield head[0], file.read(int.from_bytes(head[1:], "big"))


def same(one, other):
    sent, came = list(datagrams(one)), list(datagrams(other))
    for number, (ours, theirs) in enumerate(zip(sent, came)):
        if ours != theirs:
            sys.exit(f"datagram {number} is another one")
    if len(sent) != len(came):
        sys.exit(f"{len(sent)} datagrams were sent, and {len(came)} came")
    print(f"The {len(sent)} datagrams came through, each with its flow and its length.")


if __name__ == "__main__":
    words = sys.argv[2:]
    if sys.argv[1:2] == ["send"] and len(words) in (2, 3):
        send(words[0], int(words[1]), float(words[2]) if words[2:] else 50)
    elif sys.argv[1:2] == ["receive"] and len(words) == 2:
        joined, _, number = words[0].rpartition(":")
        receive(joined, int(number), float(words[1]))
    elif sys.argv[1:2] == ["stream"] and len(words) in (1, 2):
        stream(*map(int, words))
    elif sys.argv[1:2] == ["same"] and len(words) == 2:
        same(*words)
    else:
        sys.exit(__doc__)
