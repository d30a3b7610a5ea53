#!/usr/bin/env python3
"""Writes a stream and a priority file that are large enough to measure on: make_stream.py GROUPS SEED STREAM PRIORITY.

Each group has a sequence header, a group header, an I picture, and three times a P picture and two B pictures: 71,961 bytes.
The pictures are filled with bytes that look random and are never 0, so they hold no start code. It is no playable video.
"""
import sys

PRIORITY = """\
packets = 100
[[layer]]
name = "base"
kinds = ["head", "I"]
need = 60
[[layer]]
name = "P"
kinds = ["P"]
need = 80
[[layer]]
name = "B"
kinds = ["B"]
need = 95
"""
HEADS = bytes.fromhex("000001b3 160120c3 ffffe0a0 000001b8 00080040")
I, P, B = 0x0F, 0x17, 0x1F
PICTURES = [(I, 19_941)] + 2 * [(P, 10_000), (B, 3_667), (B, 3_667)] + [(P, 10_000), (B, 3_667), (B, 3_665)]


def filler(state):
    """Bytes without end: the high byte of a linear congruential generator of 64 bits, made odd."""
    while True:
        state = (state * 6364136223846793005 + 1442695040888963407) % 2**64
        yield state >> 56 | 1


def picture(kind, size, fill):
    head = bytes([0, 0, 1, 0, 0, kind, 0xFF, 0xF8, 0, 0, 1, 1])
    return head + bytes(next(fill) for _ in range(size - len(head)))


def main(groups, seed, stream, priority):
    fill = filler(int(seed))
    with open(stream, "wb") as file:
        for _ in range(int(groups)):
            file.write(HEADS + b"".join(picture(kind, size, fill) for kind, size in PICTURES))
    with open(priority, "w", newline="\n") as file:
        file.write(PRIORITY)


if __name__ == "__main__":
    if len(sys.argv) != 5:
        sys.exit("usage: make_stream.py GROUPS SEED STREAM PRIORITY")
    main(*sys.argv[1:])
