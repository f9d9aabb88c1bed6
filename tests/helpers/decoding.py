#!/usr/bin/env python3
"""Whether the files of an archive play as the encoder's own file does: decoding.py CODEC WHOLE FILE ..

WHOLE was recorded into the files, in this order. Each is decoded by ffmpeg alone, as a player does that gets one file
after the other. Its samples are those of WHOLE up to the position at which the file ends, but for the first ones: a
decoder needs something to begin with. For each file a line says how many samples are missing at its front, and after how
many more it plays exactly what WHOLE does. Opus predicts from what came before, so there it is the place from which on no
sample differs by more than a thousandth of full scale.
"""
import struct
import subprocess
import sys

from archiving import links_of

# The most samples that may be missing at the front of a file, and that may differ after that. Vorbis: the first packet
# gives none, and with the second come at most half of two long blocks. Opus: the pre-skip of its header, which encoders
# set to 312; after the 80 ms that RFC 7845 (section 4.6) asks a decoder to run before it sounds alike, and within 200 ms
# its samples are near. FLAC: none.
MOST = {"vorbis": (2048, 0), "opus": (312, 9600), "flac": (0, 0)}
NEAR = {"vorbis": 0, "opus": 33, "flac": 0}


def samples_of(path):
    words = ["ffmpeg", "-nostdin", "-loglevel", "error", "-i", path, "-f", "s16le", "-ac", "1", "-ar", "48000", "-"]
    data = subprocess.run(words, capture_output=True, check=True, timeout=60).stdout
    return struct.unpack(f"<{len(data) // 2}h", data)


def end_of(path, codec):
    """The position at which a file ends, in samples that are played."""
    last = skip = 0
    with open(path, "rb") as file:
        data = file.read()
    where = 0
    while data[where : where + 4] == b"OggS":
        position = struct.unpack_from("<q", data, where + 6)[0]
        if position > 0:
            last = position
        where += 27 + data[where + 26] + sum(data[where + 27 : where + 27 + data[where + 26]])
    if codec == "opus":
        link = links_of(data)[0]
        skip = struct.unpack_from("<H", next(iter(link.values()))[0][0], 10)[0]
    return last - skip


def main():
    codec, whole, *files = sys.argv[1:]
    wanted, start, wrong = samples_of(whole), 0, 0
    for path in files:
        heard, end = samples_of(path), end_of(path, codec)
        # The last file ends where the encoder's own does, which may be before its last page's position.
        end = min(end, len(wanted))
        heard = heard[: end - start]
        part = wanted[end - len(heard) : end]
        missing = end - start - len(heard)
        differs = [at for at, (one, other) in enumerate(zip(part, heard)) if abs(one - other) > NEAR[codec]]
        after = differs[-1] + 1 if differs else 0
        first = not start
        most = (0, 0) if first else MOST[codec]
        bad = not len(heard) or missing < 0 or missing > most[0] or after > most[1]
        wrong += bad
        print(f"{path.rsplit('/', 1)[-1]}: {end - start} samples, {missing} missing at the front, exact after {after}{': WRONG' if bad else ''}")
        start = end
    print(f"{len(files)} files, {wrong} wrong")
    return 1 if wrong or len(files) < 3 or start != len(wanted) else 0


if __name__ == "__main__":
    sys.exit(main())
