#!/usr/bin/env python3
"""A link between network interfaces, on which datagrams get lost in runs.

    link.py P Q FROM TO..    frames that come in by FROM go out by each TO, and those that come in by a TO by FROM

On the way to each TO a chain of two states of its own loses datagrams of UDP, as `eperftool lose --loss=burst:P:Q`
does: before each a good state turns bad with a chance of P thousandths, and a bad one good with Q; a bad one loses it.
"""
import random
import select
import socket
import sys

EVERY_KIND = socket.htons(3)
SOL_PACKET, PACKET_VNET_HDR = 263, 15  # before each frame stands what the kernel knows of its checksum
KNOWN = 10  # the bytes of that
BUFFER = 1 << 25


def opened(interface):
    end = socket.socket(socket.AF_PACKET, socket.SOCK_RAW, EVERY_KIND)
    end.setsockopt(socket.SOL_SOCKET, socket.SO_RCVBUF, BUFFER)
    end.setsockopt(SOL_PACKET, PACKET_VNET_HDR, 1)
    end.bind((interface, 0))
    return end


def is_datagram(frame):
    return frame[KNOWN + 12 : KNOWN + 14] == b"\x08\x00" and frame[KNOWN + 23] == socket.IPPROTO_UDP


class Side:
    """One TO: its end, its chance and its state."""

    def __init__(self, interface, seed):
        self.end, self.chance, self.is_bad = opened(interface), random.Random(seed), False

    def loses(self, p, q):
        self.is_bad = self.chance.randrange(1000) >= q if self.is_bad else self.chance.randrange(1000) < p
        return self.is_bad


def carry(p, q, begin, sides):
    while True:
        for end in select.select([begin, *(side.end for side in sides)], [], [])[0]:
            frame, (_, _, kind, *_) = end.recvfrom(1 << 17)
            if kind == socket.PACKET_OUTGOING:
                continue
            for side in sides if end is begin else []:
                if not (is_datagram(frame) and side.loses(p, q)):
                    side.end.send(frame)
            if end is not begin:
                begin.send(frame)


if __name__ == "__main__":
    if len(sys.argv) < 5:
        sys.exit(__doc__)
    turns_bad, turns_good, first, *others = sys.argv[1:]
    carry(int(turns_bad), int(turns_good), opened(first), [Side(name, seed) for seed, name in enumerate(others)])
