#!/usr/bin/env python3
"""Totals what `pet plan` prints: pet plan STREAM PRIORITY | totals.py

Prints the bytes of all layers, the bytes of all packets and by how many percent these are more, the longest datagram, and how
many groups have datagrams that are cut on the way: over Ethernet a packet of IPv4 has room for 1,472 bytes of a datagram, and
one of IPv6 for 1,452. The bytes of layers are those of the stream and of a run table for each group.
"""
import sys

ROOM = {"IPv4": 1_472, "IPv6": 1_452}


def main(lines):
    words = [line.split() for line in lines]
    if not words or words[0][:1] != ["session"]:
        sys.exit("totals.py: this is not what pet plan prints")
    packets = int(words[0][words[0].index("packets") + 1])
    datagrams = [int(row[row.index("datagram") + 1]) for row in words if row[0] == "group"]
    layers = sum(int(row[4]) for row in words if row[0] == "layer")
    sent = packets * sum(datagrams)
    print(f"groups {len(datagrams)} packets {packets * len(datagrams)} longest datagram {max(datagrams)}")
    print(f"bytes of layers {layers} of packets {sent}, {100 * sent / layers - 100:.1f} % more")
    for name, room in ROOM.items():
        print(f"groups whose datagrams are cut over {name}: {sum(datagram > room for datagram in datagrams)}")


if __name__ == "__main__":
    main(sys.stdin.read().splitlines())
