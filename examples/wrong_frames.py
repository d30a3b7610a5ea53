#!/usr/bin/env python3
"""Counts the frames that ffmpeg decodes of what is shown of a video, and the wrong ones: wrong_frames.py WHOLE SHOWN

WHOLE is the video that was sent, and SHOWN what `pet video` wrote of what came. Both are decoded. A frame of SHOWN is right where
it is a frame of WHOLE, to the last bit, and comes behind the right ones before it; else it is wrong: a picture that was decoded by
pictures that are lost. Prints `frames N wrong M`.
"""
import shutil
import subprocess
import sys


def decode(path):
    """What ffmpeg prints of a video: a line for each frame, in the order in which they are shown, and its complaints."""
    words = ["ffmpeg", "-v", "error", "-f", "mpegvideo", "-i", path, "-f", "framemd5", "-"]
    run = subprocess.run(words, stdin=subprocess.DEVNULL, stdout=subprocess.PIPE, stderr=subprocess.PIPE, text=True)
    return run.stdout.splitlines(), run.stderr


def frames(path):
    """A digest of each frame that ffmpeg decodes of a video."""
    return [line.split()[-1] for line in decode(path)[0] if not line.startswith("#")]


def is_video(path):
    """Whether ffmpeg is there and decodes a whole video without complaint."""
    return shutil.which("ffmpeg") is not None and not decode(path)[1]


def wrong(whole, shown):
    """How many frames of `shown` are not, in their order, among those of `whole`."""
    at = count = 0
    for frame in shown:
        try:
            at = whole.index(frame, at) + 1
        except ValueError:
            count += 1
    return count


def main(whole, shown):
    decoded = frames(shown)
    print(f"frames {len(decoded)} wrong {wrong(frames(whole), decoded)}")


if __name__ == "__main__":
    if len(sys.argv) != 3:
        sys.exit("usage: wrong_frames.py WHOLE SHOWN")
    try:
        main(*sys.argv[1:])
    except OSError as fault:
        sys.exit(f"wrong_frames.py: {fault}")
