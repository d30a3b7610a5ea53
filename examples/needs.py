#!/usr/bin/env python3
"""Prints which need holds how often at a rate of loss, and what it costs: needs.py LOSS PACKETS [SHARE..]

LOSS is in percent, PACKETS how many packets a group has, and each SHARE in how many of 100 groups the layer shall be there: 90,
99 and 99.9 if left out. For each share it prints the largest need that holds so often, and by how many percent a layer of that
need grows. The first line is for packets that are lost each by itself. The others are for losses in bursts, of so many packets
on the mean as the line says, 2, 5 and 10; BURSTS="3 8" takes others. The chances are computed and not tried: after a packet
that came, each next one is lost with one chance, and after a lost one with another, which make the rate and the mean.

DEPTH=8 prints a line more under each of these, for packets that examples/interleave sends in turn for so many groups: of one group
only every eighth packet on the way is.
"""
import os
import sys


def counts_lost(packets, loss, burst):
    """The chances that 0, 1, 2, .. packets of a group are lost. `burst` is the mean length of a run of lost packets."""
    ends = 1 / burst
    begins = ends * loss / (1 - loss)
    came, lost = [1 - loss] + [0.0] * packets, [0.0, loss] + [0.0] * (packets - 1)
    for _ in range(packets - 1):
        came, lost = (
            [good * (1 - begins) + bad * ends for good, bad in zip(came, lost)],
            [0.0] + [good * begins + bad * (1 - ends) for good, bad in zip(came[:-1], lost[:-1])],
        )
    return [good + bad for good, bad in zip(came, lost)]


def burst_in_turn(loss, burst, depth):
    """The mean length of a run of lost packets among every `depth`-th packet: the chances of as many steps, taken as one."""
    keeps = 1 - 1 / burst / (1 - loss)
    return 1 / ((1 - loss) * (1 - keeps**depth))


def largest_need(chances, share):
    """The largest need that is met with this chance, or 0 where there is none."""
    packets, sum_so_far = len(chances) - 1, 0.0
    for count, chance in enumerate(chances[:-1]):
        sum_so_far += chance
        if sum_so_far >= share:
            return packets - count
    return 0


def cell(need, packets):
    return f"need {need}, {100 * packets / need - 100:.0f} % more" if need else "no need"


def main(loss, packets, *shares):
    loss, packets = float(loss) / 100, int(packets)
    shares = [float(share) for share in shares or ("90", "99", "99.9")]
    bursts = [float(burst) for burst in os.environ.get("BURSTS", "2 5 10").split()]
    depth = int(os.environ.get("DEPTH", "1"))
    most = loss / (1 - loss) if 0 < loss < 1 else 0
    if not 0 < loss < 1 or packets not in range(1, 4097) or not all(0 < share < 100 for share in shares):
        raise ValueError("LOSS and each SHARE are above 0 and below 100, and PACKETS is from 1 to 4096")
    if not all(burst >= max(1, most) for burst in bursts):
        raise ValueError(f"at this loss a burst has at least {max(1, most):.1f} packets on the mean")
    if depth < 1:
        raise ValueError("DEPTH is how many groups are sent in turn, at least 1")
    rows = [("each by itself", 1 / (1 - loss))]
    for burst in bursts:
        rows.append((f"in bursts of {burst:g}", burst))
        if depth > 1:
            rows.append((f"  {depth} groups in turn", burst_in_turn(loss, burst, depth)))
    wide = max(18, *(len(name) + 2 for name, _ in rows))
    print(f"{'packets lost':<{wide}}" + "".join(f"{f'{share:g} of 100 groups':<24}" for share in shares).rstrip())
    for name, burst in rows:
        chances = counts_lost(packets, loss, burst)
        needs = (largest_need(chances, share / 100) for share in shares)
        print(f"{name:<{wide}}" + "".join(f"{cell(need, packets):<24}" for need in needs).rstrip())


if __name__ == "__main__":
    if len(sys.argv) < 3:
        sys.exit("usage: needs.py LOSS PACKETS [SHARE..]")
    try:
        main(*sys.argv[1:])
    except ValueError as fault:
        sys.exit(f"needs.py: {fault}")
