#!/usr/bin/env python3
"""Loses packets of a datagram file: lose.py RATE SEED FROM TO [BURST] writes each datagram of FROM to TO, but for RATE percent.

Each datagram is lost or not by itself, by a generator that begins at SEED, so that a run can be made again. With BURST they are
lost in runs of so many on the mean, as examples/needs.py computes them.
"""
import random
import sys


def datagrams(file):
    """The entries of a datagram file: two bytes of length, the higher first, and so many bytes."""
    while head := file.read(2):
        yield head + file.read(int.from_bytes(head, "big"))


def each_by_itself(rate, chance):
    while True:
        yield chance.random() * 100 < rate


def in_bursts(rate, burst, chance):
    """Whether each packet is lost, where a run of lost ones has `burst` packets on the mean."""
    ends, loss = 1 / burst, rate / 100
    begins = ends * loss / (1 - loss) if loss < 1 else 1
    is_lost = chance.random() < loss
    while True:
        yield is_lost
        is_lost = chance.random() >= ends if is_lost else chance.random() < begins


def main(rate, seed, source, target, burst=None):
    chance, rate = random.Random(int(seed)), float(rate)
    lost = in_bursts(rate, float(burst), chance) if burst else each_by_itself(rate, chance)
    with open(source, "rb") as file, open(target, "wb") as out:
        for entry in datagrams(file):
            if not next(lost):
                out.write(entry)


if __name__ == "__main__":
    if len(sys.argv) not in (5, 6):
        sys.exit("usage: lose.py RATE SEED FROM TO [BURST]")
    try:
        main(*sys.argv[1:])
    except (OSError, ValueError) as fault:
        sys.exit(f"lose.py: {fault}")
