"""Opens a datagram file, looks whether it is one, and gives its datagrams: a module of pace and interleave, which stand beside it.

A datagram file has each datagram after its length in two bytes, the higher first (docs/FORMATS.md). One that `pet send` or
`pet bsend` has written begins with a frame, and so with a mark.
"""
import os
import shutil
import sys
import tempfile

HEAD = 2
MARKS = (b"PET2", b"PET8")


def opened(name):
    """A file by its name, or standard input as -. What can be read only once, as a pipe, is copied to a file without a name first."""
    file = sys.stdin.buffer if name == "-" else open(name, "rb")
    if file.seekable():
        return file
    with file:
        copy = tempfile.TemporaryFile()
        shutil.copyfileobj(file, copy)
    copy.seek(0)
    return copy


def look(file, name):
    """The lengths of the datagrams from here on. What is no datagram file is refused; of the datagrams one mark alone is read."""
    at, end, lengths = file.tell(), os.fstat(file.fileno()).st_size, []
    if os.pread(file.fileno(), len(MARKS[0]), at + HEAD) not in MARKS:
        raise ValueError(f"{name} does not begin with a packet; `pet send STREAM PRIORITY file:NAME` writes a file of packets")
    while at < end:
        head = os.pread(file.fileno(), HEAD, at)
        lengths.append(int.from_bytes(head, "big"))
        at += HEAD + lengths[-1]
        if len(head) < HEAD or at > end:
            raise ValueError(f"{name} ends in the middle of its datagram {len(lengths)}; write or copy it once more, whole")
    return lengths


def datagrams(file, lengths):
    """The datagrams of these lengths from here on."""
    for length in lengths:
        yield file.read(HEAD + length)[HEAD:]
