#!/usr/bin/env python3
"""Puts a repeated picture in the place of each one that is lost: conceal.py SHOWN OUT [FRAMES]

SHOWN is an MPEG-1 video that `pet video` wrote of what came. Its pictures tell by their numbers which pictures of a group are
not there, and the time codes of the groups which groups are not. For each of these OUT has a picture that repeats the picture
before it (or the one behind it, where none is before it in its group), so OUT is as long as the video that was sent, and its sound
fits. It prints `frames N repeated M`.

A time code that goes back begins a new part of the film, as where two films stand on end, and the groups behind it are counted
from there. What is lost between two parts no time code tells, so it is not repeated there.

FRAMES is how many frames were sent: with it OUT has exactly so many. Those before the first group are there, since time codes are
taken from 0 on, as ffmpeg counts them, and what is missing beside stands at the end. A time code that goes on by more frames than
are missing begins a new part as well, which one line on standard error tells. A film with more frames than FRAMES is refused.
"""
import math
import re
import sys

I, P, B, D = 1, 2, 3, 4
START = re.compile(b"\x00\x00\x01[\x00\xb3\xb7\xb8]")
# How many bytes a picture header, a sequence header, an end code and a group header have at least.
SHORTEST = {0: 8, 0xB3: 12, 0xB7: 4, 0xB8: 8}
RATES = {1: 24, 2: 24, 3: 25, 4: 30, 5: 30, 6: 50, 7: 60, 8: 60}
ESCAPE = "00000001000"
# How far the next macroblock lies, from 1 to 33, in the code of ISO/IEC 11172-2.
INCREMENTS = """1 011 010 0011 0010 00011 00010 0000111 0000110 00001011 00001010 00001001 00001000 00000111 00000110 0000010111
0000010110 0000010101 0000010100 0000010011 0000010010 00000100011 00000100010 00000100001 00000100000 00000011111 00000011110
00000011101 00000011100 00000011011 00000011010 00000011001 00000011000""".split()
# A macroblock that is predicted without a motion and without a rest, by the picture before or by the one behind.
STILL = {(P, False): "00111", (B, False): "001011", (B, True): "01011"}
MOST_NUMBERS = 1024


class Group:
    """The headers of a group of pictures, its first frame by its time code, its size, and its pictures: number, type and bytes."""

    def __init__(self, heads, start, size):
        self.heads, self.start, self.size, self.pictures = heads, start, size, []

    def most(self):
        """How many pictures it has at least, by the highest number."""
        return max((number for number, _, _ in self.pictures), default=-1) + 1

    def missing(self, count):
        """The numbers below `count` of which no picture is there."""
        there = {number for number, _, _ in self.pictures}
        return [number for number in range(count) if number not in there]

    def first(self):
        """Its first I picture, or None."""
        return next((data for _, kind, data in self.pictures if kind == I), None)

    def length(self):
        """How many pictures it has, with those that are lost between them."""
        return len(self.pictures) + len(self.missing(self.most()))


def pieces(stream):
    """The bytes from each start code of a picture or a header to the next."""
    starts = [found.start() for found in START.finditer(stream)]
    return [stream[at:end] for at, end in zip(starts, starts[1:] + [len(stream)])]


def frame_of(head, rate):
    """The frame that the time code of a group header tells. Where it drops numbers, each minute but each tenth begins with 2."""
    code = int.from_bytes(head[4:8], "big")
    minutes, seconds, pictures = (code >> 26 & 31) * 60 + (code >> 20 & 63), code >> 13 & 63, code >> 7 & 63
    dropped = 2 * (minutes - minutes // 10) if code >> 31 else 0
    return (minutes * 60 + seconds) * rate + pictures - dropped


def read(stream):
    """The groups of a video, each with its width and height in macroblocks, and its end code."""
    groups, heads, end, size, rate = [], b"", b"", None, 25
    for piece in pieces(stream):
        code = piece[3]
        if len(piece) < SHORTEST[code]:
            raise ValueError("a header is cut")
        if code == 0xB7:
            end = piece
        elif code == 0:
            if not groups or heads:
                raise ValueError("a picture stands before any group header")
            groups[-1].pictures.append((piece[4] << 2 | piece[5] >> 6, piece[5] >> 3 & 7, piece))
        elif code == 0xB3:
            if b"\x00\x00\x01\xb5" in piece:
                raise ValueError("this is a video of MPEG-2")
            width, height = piece[4] << 4 | piece[5] >> 4, (piece[5] & 15) << 8 | piece[6]
            size, rate = ((width + 15) // 16, (height + 15) // 16), RATES.get(piece[7] & 15, 25)
            heads, end = heads + end + piece, b""
        elif size is None:
            raise ValueError("a group of pictures stands before any sequence header")
        else:
            groups.append(Group(heads + end + piece, frame_of(piece, rate), size))
            heads, end = b"", b""
    if not groups:
        raise ValueError("this has no group of pictures")
    return groups, end


def to_bytes(bits):
    bits += "0" * (-len(bits) % 8)
    return int(bits, 2).to_bytes(len(bits) // 8, "big")


def repeat(number, kind, behind, size):
    """A picture that repeats the reference picture before it, or the one behind."""
    head = f"{number % MOST_NUMBERS:010b}{kind:03b}{0xFFFF:016b}0001" + ("0001" if kind == B else "") + "0"
    still = STILL[kind, behind]
    row = "000010" + "1" + still
    if size[0] > 1:
        escapes, rest = divmod(size[0] - 2, len(INCREMENTS))
        row += ESCAPE * escapes + INCREMENTS[rest] + still
    slices = (b"\x00\x00\x01" + bytes([line]) + to_bytes(row) for line in range(1, size[1] + 1))
    return b"\x00\x00\x01\x00" + to_bytes(head) + b"".join(slices)


def by_reference(pictures):
    """The pictures of a group as they come: each reference picture with the B pictures behind it, which are shown before it."""
    parts = []
    for picture in pictures:
        if picture[1] != B or not parts:
            parts.append([])
        parts[-1].append(picture)
    return parts


def whole_group(group, behind):
    """The pictures of a group in the order of the stream, with a repeated one for each that is lost, and for so many behind it."""
    missing = group.missing(group.most() + behind)
    out, last = [], -1
    for (number, _, data), *others in by_reference(group.pictures):
        lost = [(other, repeat(other, B, last < 0, group.size)) for other in missing if last < other < number]
        out.append(data)
        out.extend(picture for _, picture in sorted(lost + [(other, picture) for other, _, picture in others]))
        last = max(last, number)
    return out + [repeat(number, P, False, group.size) for number in missing if number > last]


def lost_frames(groups, frames):
    """How many frames are lost before the first group and behind each one, and how many time codes go on by more than are missing."""
    lengths = [group.length() for group in groups]
    if frames is not None and sum(lengths) > frames:
        raise ValueError(f"this has {sum(lengths)} frames, and FRAMES is {frames}; give as many as were sent")
    left = math.inf if frames is None else frames - sum(lengths)
    lost, jumps = [groups[0].start if frames is not None and groups[0].first() and groups[0].start <= left else 0], 0
    left -= lost[0]
    for group, later, length in zip(groups, groups[1:], lengths):
        gap = later.start - group.start - length
        jumps += gap > left
        lost.append(gap if 0 < gap <= left else 0)
        left -= lost[-1]
    return lost + [0 if frames is None else left], jumps


def before_first(group, lost):
    """A group of as many pictures as are lost before the first group: its I picture, and that again."""
    if not lost:
        return []
    first, at = group.first(), group.heads.rindex(b"\x00\x00\x01\xb8")
    heads = group.heads[:at + 4] + bytes([0, 8, 0, 0x40]) + group.heads[at + 8:]
    first = first[:4] + bytes([0, first[5] & 63]) + first[6:]
    return [heads + first] + [repeat(number, P, False, group.size) for number in range(1, lost)]


def main(shown, out, frames=None):
    if frames is not None and not frames.isdecimal():
        raise ValueError(f"FRAMES is a number of frames, as 250, and not {frames}")
    with open(shown, "rb") as file:
        groups, end = read(file.read())
    (front, *behind), jumps = lost_frames(groups, None if frames is None else int(frames))
    if jumps:
        print(f"conceal.py: time codes that go on by more frames than are missing, so that nothing is repeated: {jumps}", file=sys.stderr)
    with open(out, "wb") as file:
        pictures = before_first(groups[0], front)
        file.write(b"".join(pictures))
        total = len(pictures)
        for group, lost in zip(groups, behind):
            pictures = whole_group(group, lost)
            file.write(group.heads + b"".join(pictures))
            total += len(pictures)
        file.write(end or b"\x00\x00\x01\xb7")
    print(f"frames {total} repeated {total - sum(len(group.pictures) for group in groups)}")


if __name__ == "__main__":
    if len(sys.argv) not in (3, 4):
        sys.exit("usage: conceal.py SHOWN OUT [FRAMES]")
    try:
        main(*sys.argv[1:])
    except (OSError, ValueError) as fault:
        sys.exit(f"conceal.py: {fault}")
    except KeyboardInterrupt:
        sys.exit(130)
