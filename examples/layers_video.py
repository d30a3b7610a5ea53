#!/usr/bin/env python3
"""Writes the video of the layers that receive has shown so far: layers_video.py LAYERS [OUT]

LAYERS is what `pet receive` writes, also while it writes it, and also what it left when it was stopped: a record that is not
whole ends the reading. The video goes to OUT, or to standard output where none is given. Of a file all groups are written, in
order, at its end: that is what `pet video` writes of the store. Of a pipe a group is written as soon as all layers that its run
table names are there, or else once a layer of a later group comes, so that a player shows it at once:

    : > layers
    pet receive udp:0.0.0.0:4000 SESSION layers store &
    tail --pid=$! -c +1 -f layers | layers_video.py /dev/stdin | ffplay -f mpegvideo -

There `layers` is a file, so receive does not wait for the player, and goes on where that ends; --pid ends tail with receive.

HOLD=3 waits for a layer of the third group behind it, where packets come so much out of order. A layer that comes after its
group was written is told on standard error, and left out.
"""
import os
import stat
import sys

HEAD = 13
ENTRY = 5
# A layer's number is one byte.
MOST_LAYERS = 256


def number(data):
    return int.from_bytes(data, "big")


def records_of(file):
    """The records that are whole, in their order: the arrival at which the layer was shown, the group, the layer, and its bytes."""
    while len(head := file.read(HEAD)) == HEAD:
        size = number(head[9:])
        data = file.read(size)
        if len(data) < size:
            return
        yield number(head[:4]), number(head[4:8]), head[8], data


def table_of(layer):
    """The run table of a group: its runs, each a layer and a length, in the order of the stream, and the bytes of each layer."""
    end = 4 + ENTRY * number(layer[:4])
    table = layer[4:end]
    runs = [(table[at], number(table[at + 1:at + ENTRY])) for at in range(0, len(table), ENTRY)]
    lengths = {0: end}
    for named, size in runs:
        lengths[named] = lengths.get(named, 0) + size
    return runs, lengths


def is_whole(layers):
    """Whether all layers that the run table of a group names are there. Others have no bytes."""
    return 0 in layers and all(len(layers.get(layer, b"")) == size for layer, size in table_of(layers[0])[1].items())


def video_of(layers):
    """The video of a group: the runs of its leading layers, in the order of the stream."""
    if 0 not in layers:
        return b""
    runs, lengths = table_of(layers[0])
    lost = min((layer for layer in lengths if layer not in layers), default=MOST_LAYERS)
    if any(len(data) != lengths.get(layer, 0) for layer, data in layers.items() if layer < lost):
        raise ValueError("layer 0 has no run table that fits")
    at = {layer: 0 for layer in lengths} | {0: 4 + ENTRY * len(runs)}
    video = []
    for layer, size in runs:
        if layer < lost:
            video.append(layers[layer][at[layer]:at[layer] + size])
            at[layer] += size
    return b"".join(video)


def write_groups(groups, below, out):
    """Writes the groups below a number, in order, and forgets them."""
    for group in sorted(group for group in groups if group < below):
        try:
            out.write(video_of(groups.pop(group)))
        except ValueError as fault:
            sys.exit(f"layers_video.py: group {group}: {fault}")
    out.flush()


def main(layers, out, hold):
    groups, written = {}, 0
    with open(layers, "rb") as file:
        at_once = not stat.S_ISREG(os.fstat(file.fileno()).st_mode)
        for _, group, layer, data in records_of(file):
            if group >= written:
                groups.setdefault(group, {})[layer] = data
            elif data:
                print(f"layers_video.py: layer {layer} of group {group} came too late", file=sys.stderr)
            if not at_once:
                continue
            below = max(written, group - hold + 1)
            while is_whole(groups.get(below, {})):
                below += 1
            if below > written:
                write_groups(groups, below, out)
                written = below
    write_groups(groups, max(groups, default=0) + 1, out)


def hold_of(text):
    if not text.isdecimal() or int(text) == 0:
        raise ValueError(f"HOLD is a number of groups from 1 on, and not {text}")
    return int(text)


if __name__ == "__main__":
    if len(sys.argv) not in (2, 3):
        sys.exit("usage: layers_video.py LAYERS [OUT]")
    try:
        with open(sys.argv[2], "wb") if len(sys.argv) == 3 else sys.stdout.buffer as target:
            main(sys.argv[1], target, hold_of(os.environ.get("HOLD", "1")))
    except BrokenPipeError:
        sys.exit("layers_video.py: the player has ended")
    except (OSError, ValueError) as fault:
        sys.exit(f"layers_video.py: {fault}")
    except KeyboardInterrupt:
        sys.exit(130)
