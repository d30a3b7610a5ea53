"""Reads the packets of a store, and counts how many show each layer: a module of measure and report, which stand beside it."""
import collections
import hashlib

MARK, FRAME_MARK = b"PTS2", b"PET2"
FRONT, TAG = 16, 16
# No store is longer.
LIMIT = 603_979_776
# A frame up to its table, an entry of the table, and the shortest frame.
HEAD, ENTRY, SHORTEST = 25, 6, 47


def number(data):
    return int.from_bytes(data, "big")


def fits(frame):
    """Whether a frame's numbers are in their ranges."""
    in_range = number(frame[16:20]) < number(frame[12:16]) <= 65_535 and number(frame[22:24]) < number(frame[20:22]) <= 4_096
    return in_range and frame[24] > 0 and len(frame) >= 41 + ENTRY * frame[24] and all(need for _, need in layers_of(frame))


def frames(data):
    """The frames of a store, which is refused where it is none."""
    if data[:4] == b"PETS":
        raise ValueError("the store is of the first version; `pet migrate STORE OUT` makes one of today")
    if data[:4] != MARK or len(data) < FRONT + TAG:
        raise ValueError("this is no store; `pet receive` and `pet merge` write one")
    if len(data) > LIMIT or hashlib.sha256(data[:-TAG]).digest()[:TAG] != data[-TAG:]:
        raise ValueError("the store is damaged; receive or merge it once more, or copy it anew")
    at, end = FRONT, len(data) - TAG
    for _ in range(number(data[12:16])):
        size = number(data[at:at + 2])
        frame = data[at + 2:at + 2 + size]
        at += 2 + size
        if size < SHORTEST or at > end or frame[:12] != FRAME_MARK + data[4:12] or not fits(frame):
            raise ValueError("the store has an entry that is no packet of it; `pet video STORE /dev/null` tells where")
        yield frame
    if at != end:
        raise ValueError("the store does not end with its packets; `pet video STORE /dev/null` tells where")


def layers_of(frame):
    """The words and the need of each layer of a frame's group."""
    table = (frame[at:at + ENTRY] for at in range(HEAD, HEAD + ENTRY * frame[24], ENTRY))
    return [((number(entry[:4]) + 1) // 2, number(entry[4:])) for entry in table]


def counts_of(layers):
    """How many packets show each layer: the longest stripe that has a word of it, as the plan cuts the words."""
    counts = [1] * len(layers)
    length, room, has = 0, 0, []

    def close():
        for layer in has:
            counts[layer] = max(counts[layer], length)

    for layer, (words, need) in enumerate(layers):
        if length and words:
            room = min(room, need)
            taken = min(words, max(0, room - length))
            length, words, has = length + taken, words - taken, has + [layer] * bool(taken)
            if not words:
                continue
            close()
        if words:
            counts[layer] = max(counts[layer], need if words >= need else 1)
            length, room, has = words % need, need, [layer]
    close()
    return counts


def read(data):
    """How many groups there are, the numbers of the packets that have come of each, its packets and its layers."""
    groups, came, tables = 0, collections.defaultdict(set), {}
    for frame in frames(data):
        groups, group = number(frame[12:16]), number(frame[16:20])
        came[group].add(number(frame[22:24]))
        tables[group] = number(frame[20:22]), layers_of(frame)
    if not groups:
        raise ValueError("the store has no packet, so it does not tell how many were sent; receive some, with the right SESSION")
    return groups, came, tables


def losses(groups, came, packets_of):
    """How many packets were sent, and the lengths of the bursts of lost ones."""
    sent, after, gaps = 0, 0, []
    for group in range(groups):
        for place in sorted(came.get(group, ())):
            gaps.append(sent + place - after)
            after = sent + place + 1
        sent += packets_of(group)
    return sent, [gap for gap in gaps + [sent - after] if gap]
