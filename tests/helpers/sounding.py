#!/usr/bin/env python3
"""Compares what a cut sounds like, or shows, with the file that it was recorded from, as ffmpeg decodes both.

    sounding.py sound WHOLE CUT all|within
    sounding.py frames WHOLE CUT all|within

A cut of all has each sample and frame. A cut of a time within has those of WHOLE up to the position of its last page,
which tells where its samples lie: Vorbis and FLAC are the same from the second packet on. Opus takes some packets until
what was before no longer counts, and then differs by rounding alone. Frames are the same from the first key frame on.
"""
import array
import os
import subprocess
import sys

sys.path.insert(0, os.path.dirname(os.path.abspath(__file__)))
from finishing import pages_of


def decoded(path, *words):
    return subprocess.run(["ffmpeg", "-nostdin", "-loglevel", "error", "-i", path, *words, "-"], capture_output=True, check=True).stdout


def samples(path):
    found = array.array("f")
    found.frombytes(decoded(path, "-map", "0:a", "-f", "f32le", "-ac", "1"))
    return found


def frames(path):
    lines = decoded(path, "-map", "0:v", "-fps_mode", "passthrough", "-f", "framemd5").decode().splitlines()
    return [line.split(",")[-1].strip() for line in lines if not line.startswith("#")]


def sound_pages(path):
    """The pages of the stream that sounds, and how many samples its decoder leaves out at the front."""
    pages = pages_of(open(path, "rb").read())
    for one in pages:
        if one[0] & 2 and one[5][1:7] == b"vorbis" or one[0] & 2 and one[5][1:5] == b"FLAC":
            return [other for other in pages if other[2] == one[2]], 0
        if one[0] & 2 and one[5][:8] == b"OpusHead":
            return [other for other in pages if other[2] == one[2]], int.from_bytes(one[5][10:12], "little")
    raise AssertionError("no stream sounds")


def position(path):
    pages, skip = sound_pages(path)
    return [one[1] for one in pages if one[4]][-1] - skip, skip


def compare_sound(whole, cut, part):
    one, other = samples(whole), samples(cut)
    if part == "all":
        assert len(one) == len(other) and one == other, (len(one), len(other))
        return
    end, skip = position(cut)
    assert 2 * 48000 < len(other) <= end <= len(one), (len(other), end, len(one))
    # What comes before the decoder knows enough.
    settle, most = (48000 // 2, 1e-3) if skip else (4096, 0)
    for at in range(settle, len(other)):
        want, found = one[end - len(other) + at], other[at]
        assert abs(want - found) <= most, (at, want, found)


def compare_frames(whole, cut, part):
    one, other = frames(whole), frames(cut)
    if part == "all":
        assert one == other, (len(one), len(other))
        return
    # The last frames are those of the whole up to some frame.
    ends = [at for at, frame in enumerate(one) if frame == other[-1]]
    same = 0
    for end in ends:
        count = 0
        while count < len(other) and count <= end and other[-1 - count] == one[end - count]:
            count += 1
        same = max(same, count)
    assert same >= len(other) - 25 and same > 25, (same, len(other))


if __name__ == "__main__":
    if sys.argv[1] == "sound":
        compare_sound(*sys.argv[2:])
    else:
        compare_frames(*sys.argv[2:])
