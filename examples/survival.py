#!/usr/bin/env python3
"""Draws which frames survive which loss: survival.py STREAM PRIORITY SEED > survival.svg, run where files may be made.

The stream is sent to a file of packets. At each loss rate each packet is lost or not, the rest is received, and the pictures
are counted of the video that can be shown. Beside it the stream is sent once more, as one layer with one need for all, the
smallest whose packets have no more bytes, and loses the same packets. Two more curves are of a way of two halves, each of which
loses so many packets: without and with a relay in the middle. Where ffmpeg decodes the stream, the frames that are
wrong are counted too (wrong_frames.py), and drawn as a share of all. Nothing in the picture is made up: its curves are these
counts, and its dashed lines the counts of packets that the plan prints.
"""
import collections
import pathlib
import subprocess
import sys

# The module beside this script is not compiled into a folder there, which ./install would not know.
sys.dont_write_bytecode = True
import wrong_frames

HERE = pathlib.Path(__file__).resolve().parent
PET = HERE.parent / "pet"
if not PET.is_file():
    PET = HERE.parents[2] / "bin/pet"
RATES = range(0, 91, 2)
KINDS = {1: "I", 2: "P", 3: "B"}
COLOURS = {"I": "#1b6ca8", "P": "#2e8b57", "B": "#c1440e", "one": "#7d3c98", "wrong": "#d4a017"}
COLOURS |= {"twice": "#999999", "relay": "#222222"}
NAMES = {"I": "I frames", "P": "P frames", "B": "B frames", "one": "all frames, one need", "wrong": "wrong frames"}
NAMES |= {"twice": "all, lost twice", "relay": "all, lost twice, a relay"}
LEFT, TOP, WIDTH, HEIGHT = 60, 50, 600, 260
INCOMPLETE = 12


def pet(*words):
    """What the program prints."""
    run = subprocess.run([PET, *words], stdout=subprocess.PIPE, text=True)
    if run.returncode not in (0, INCOMPLETE):
        sys.exit(f"pet {' '.join(words)}: {run.stdout}")
    return run.stdout


def pictures(path):
    """How many pictures of each kind a video stream has."""
    stream, counts = pathlib.Path(path).read_bytes(), collections.Counter()
    at = stream.find(b"\0\0\1\0")
    while at >= 0:
        counts[KINDS.get(stream[at + 5] >> 3 & 7)] += 1
        at = stream.find(b"\0\0\1\0", at + 4)
    return counts


def lose(rate, seed, sent, came):
    subprocess.run([sys.executable, HERE / "lose.py", str(rate), str(seed), sent, came], check=True)


def survivors(rate, seed, session, sent):
    """The pictures that can be shown of what is left at a loss rate."""
    lose(rate, seed, sent, "came")
    pet("receive", "file:came", session, "layers", "store")
    pet("video", "store", "shown")
    return pictures("shown")


def survivors_of_two(rate, seed, session, has_relay):
    """The pictures that can be shown behind two halves of a way, each of which loses so many packets."""
    lose(rate, seed, "sent", "half")
    if has_relay:
        pet("relay", "file:half", session, "file:relayed")
    return survivors(rate, int(seed) + 1, session, "relayed" if has_relay else "half")


def bytes_sent(plan):
    """The bytes of all packets of a plan."""
    return int(plan[0].split()[-1]) * sum(int(line.split()[-1]) for line in plan if line.startswith("group"))


def plan_of_one(stream, packets, need):
    """The plan of the stream as one layer with this need, whose priorities are left in the file `one`."""
    kinds = '["head", "I", "P", "B"]'
    pathlib.Path("one").write_text(f'packets = {packets}\n[[layer]]\nname = "all"\nkinds = {kinds}\nneed = {need}\n')
    return pet("plan", stream, "one").splitlines()


def send_as_one(stream, plan):
    """Sends the stream as one layer with the smallest need of which the packets have no more bytes than those of a plan."""
    packets, most = int(plan[0].split()[-1]), bytes_sent(plan)
    low, high = 1, packets
    while low < high:
        middle = (low + high) // 2
        if bytes_sent(plan_of_one(stream, packets, middle)) <= most:
            high = middle
        else:
            low = middle + 1
    sent = bytes_sent(plan_of_one(stream, packets, low))
    print(f"one need for all: {low} of {packets}, {sent} bytes of packets, and {most} of the layers", file=sys.stderr)
    return pet("send", stream, "one", "file:sent-as-one").split()[1]


def limits(plan):
    """For each layer of the first group its name and the share of packets that may be lost, in percent."""
    packets = int(plan[0].split()[-1])
    group = plan[2:next(i for i, line in enumerate(plan) if line.startswith("lengths"))]
    return [(line.split()[2], 100 - 100 * int(line.split()[-1]) / packets) for line in group]


def across(rate):
    return LEFT + WIDTH * rate / RATES[-1]


def up(share):
    return TOP + HEIGHT * (1 - share)


def text(x, y, words, anchor="middle", colour="#333"):
    return f'<text x="{x:.1f}" y="{y:.1f}" text-anchor="{anchor}" fill="{colour}">{words}</text>'


def line(x1, y1, x2, y2, style):
    return f'<line x1="{x1:.1f}" y1="{y1:.1f}" x2="{x2:.1f}" y2="{y2:.1f}" {style}/>'


def axes():
    for rate in range(0, RATES[-1] + 1, 10):
        yield line(across(rate), up(0), across(rate), up(0) + 5, 'stroke="#333"')
        yield text(across(rate), up(0) + 20, f"{rate} %")
    for share in (0, 0.25, 0.5, 0.75, 1):
        yield line(LEFT, up(share), LEFT + WIDTH, up(share), 'stroke="#ddd"')
        yield text(LEFT - 8, up(share) + 4, f"{100 * share:.0f} %", "end")
    yield text(LEFT + WIDTH / 2, up(0) + 42, "packets lost")
    words = "frames that can be shown; dashed: the most packets of which each layer stands the loss"
    yield text(LEFT, TOP - 32, words, "start")


def curves(shares):
    for at, kind in enumerate(shares[0][1]):
        points = " ".join(f"{across(rate):.1f},{up(share[kind]):.1f}" for rate, share in shares)
        yield f'<polyline points="{points}" fill="none" stroke="{COLOURS[kind]}" stroke-width="2.5"/>'
        yield text(LEFT + WIDTH + 14, TOP + 20 + 22 * at, NAMES[kind], "start", COLOURS[kind])


def main(stream, priority, seed):
    plan = pet("plan", stream, priority).splitlines()
    session = pet("send", stream, priority, "file:sent").split()[1]
    session_as_one = send_as_one(stream, plan)
    whole = pictures(stream)
    frames = wrong_frames.frames(stream) if wrong_frames.is_video(stream) else []
    shares = []
    for rate in RATES:
        share = {
            "one": survivors(rate, seed, session_as_one, "sent-as-one").total() / whole.total(),
            "twice": survivors_of_two(rate, seed, session, False).total() / whole.total(),
            "relay": survivors_of_two(rate, seed, session, True).total() / whole.total(),
        }
        shown = survivors(rate, seed, session, "sent")
        share = {kind: shown[kind] / whole[kind] for kind in KINDS.values() if whole[kind]} | share
        if frames:
            share["wrong"] = wrong_frames.wrong(frames, wrong_frames.frames("shown")) / len(frames)
        shares.append((rate, share))
        print(rate, *(f"{kind} {shown[kind]}/{whole[kind]}" for kind in KINDS.values()), end=" ", file=sys.stderr)
        print(*(f"{kind} {100 * share[kind]:.1f} %" for kind in ("one", "twice", "relay", "wrong") if kind in share), file=sys.stderr)
    style = 'stroke="#888" stroke-dasharray="5 4"'
    print(f'<svg xmlns="http://www.w3.org/2000/svg" viewBox="0 0 {LEFT + WIDTH + 170} {TOP + HEIGHT + 60}"', end="")
    print(' font-family="sans-serif" font-size="13">', '<rect width="100%" height="100%" fill="white"/>', *axes(), sep="\n")
    for name, most in limits(plan):
        print(line(across(most), TOP, across(most), up(0), style), text(across(most), TOP - 8, name), sep="\n")
    print(*curves(shares), "</svg>", sep="\n")


if __name__ == "__main__":
    if len(sys.argv) != 4:
        sys.exit("usage: survival.py STREAM PRIORITY SEED")
    main(*sys.argv[1:])
