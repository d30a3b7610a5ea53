"""Cuts a video into sessions of some groups, and knows how long its pictures last: a module of live-send and live-receive.

A group begins where docs/FORMATS.md says: at a sequence header or a group of pictures, once the one before has a picture.
"""
import functools
import os
import re
import subprocess

# What live-send sends behind its last packet. It is no packet, so `pet receive` passes over it.
END = b"PETL end"
# The starts of pieces: a picture, a sequence header, the end of a sequence, a group of pictures.
STARTS = re.compile(rb"\x00\x00\x01([\x00\xb3\xb7\xb8])")
PICTURE, HEADS = b"\0", (b"\xb3", b"\xb8")
# Pictures a second, by the code in a sequence header.
RATES = {1: 24000 / 1001, 2: 24, 3: 25, 4: 30000 / 1001, 5: 30, 6: 50, 7: 60000 / 1001, 8: 60}
PORTION = 65_536
# The longest stream that `pet send` takes.
MOST = 268_435_456


class Fault(Exception):
    """What stops a script, in words for its user."""


@functools.cache
def pet():
    """The program: in a checkout that of the checkout, which is built where that has to be, and else the installed one."""
    here = os.path.dirname(os.path.realpath(__file__))
    script = os.path.join(here, "..", "pet")
    if not os.path.exists(script):
        return os.path.join(here, "..", "..", "..", "libexec", "cembority", "pet")
    if subprocess.run([script, "build"], stdin=subprocess.DEVNULL).returncode:
        raise Fault("the program is not built; ./pet build says why")
    return os.path.join(here, "..", "crates", "pet", "out", "pet")


def said(text):
    """The last line that a program printed."""
    lines = text.splitlines()
    return f"`{lines[-1]}`" if lines else "no line"


def number_in(text):
    """A word that is a number from 1 to 1,000."""
    if not re.fullmatch("[0-9]{1,4}", text) or not 0 < int(text) <= 1000:
        raise ValueError(f"{text} is no number from 1 to 1000")
    return int(text)


def groups_of(file, groups):
    """The video of each so many groups, as it comes."""
    data, looked, begun, has_picture = bytearray(), 0, 0, False
    while portion := file.read1(PORTION):
        data += portion
        while found := STARTS.search(data, looked):
            looked = found.end()
            if found[1] == PICTURE:
                has_picture = True
            elif found[1] in HEADS and has_picture:
                has_picture, begun = False, begun + 1
                if begun == groups:
                    yield bytes(data[:found.start()])
                    del data[:found.start()]
                    looked, begun = found.end() - found.start(), 0
        looked = max(looked, len(data) - 3)
        if len(data) > MOST:
            raise Fault(f"{groups} groups have more than {MOST} bytes; is this an MPEG-1 video elementary stream?")
    if data:
        yield bytes(data)


def seconds_of(video):
    """How long the pictures of a video last, by the rate of its first sequence header, or 25 a second."""
    header = video.find(b"\x00\x00\x01\xb3")
    code = video[header + 7] & 15 if 0 <= header < len(video) - 7 else 3
    return video.count(b"\x00\x00\x01\x00") / RATES.get(code, 25)
