#!/usr/bin/env python3
"""Packs and unpacks GLBs with one large buffer view, and tells the time and the memory of each.

    python3 tools/bench_views.py [MIB] [RUNS]

MIB is the length of the view in units of 2^20 bytes (64), RUNS the number of runs of which the best is told (5). The
view is read by one accessor of four floats an element, with a `byteStride` of 16, and no primitive uses it: so it may be
stored as a stream of attributes, and nothing of it moves. Its bytes are

    smooth   each 16-bit number of an element goes at most 12 up or down to the next element, so the stream is shorter
    random   random bytes, whose stream is longer than the view, so that `pack` encodes it and keeps it plain

Each is packed and unpacked from plain bytes, and unpacked from its stream, which is made by `gp_coders` (build it by
`rt run` in its folder). A copy of the same file by `cat` stands beside each. A line tells the length of the file, the
least time, the most memory and the report of the program, which has the length of the output. The program is the one that
was built last (`./glbpack` builds it).
"""
import os
import random
import struct
import subprocess
import tempfile

from measuring import best
from options import reader

TOP = os.path.dirname(os.path.dirname(os.path.abspath(__file__)))
PROGRAM = os.path.join(TOP, "crates", "glbpack", "out", "glbpack")
CODERS = os.path.join(TOP, "crates", "gp_coders", "out", "gp_coders")
STRIDE = 16


def smooth(count):
    values = [1000 * i for i in range(STRIDE // 2)]
    steps = random.Random(1)
    rows = bytearray()
    # A block of 65,536 elements, again and again: making more by hand takes long.
    for _ in range(min(count, 1 << 16)):
        values = [(v + steps.randrange(-12, 13)) % 65536 for v in values]
        rows += struct.pack("<%dH" % len(values), *values)
    return (bytes(rows) * (count * STRIDE // len(rows) + 1))[: count * STRIDE]


def randomly(count):
    return random.Random(2).randbytes(count * STRIDE)


def glb(json, bin_chunk):
    text = json.encode()
    text += b" " * (-len(text) % 4)
    bin_chunk += bytes(-len(bin_chunk) % 4)
    length = 12 + 8 + len(text) + 8 + len(bin_chunk)
    return struct.pack("<IIIII", 0x46546C67, 2, length, len(text), 0x4E4F534A) + text + struct.pack(
        "<II", len(bin_chunk), 0x004E4942) + bin_chunk


# The file of a view of so many bytes, with its buffers, the other members of the view and the BIN chunk.
def file_of(length, buffers, view, bin_chunk):
    accessor = '{"bufferView":0,"componentType":5126,"count":%d,"type":"VEC4"}' % (length // STRIDE)
    return glb('{"asset":{"version":"2.0"},"buffers":[%s],"bufferViews":[{%s,"byteLength":%d,"byteStride":%d}],"accessors":[%s]}' % (
        buffers, view, length, STRIDE, accessor), bin_chunk)


def plain(data):
    return file_of(len(data), '{"byteLength":%d}' % len(data), '"buffer":0', data)


def packed(data):
    count = len(data) // STRIDE
    stream = subprocess.run([CODERS, "attributes", "encode", str(count), str(STRIDE)], input=data, capture_output=True, check=True).stdout
    buffers = '{"byteLength":%d},{"byteLength":%d,"extensions":{"EXT_meshopt_compression":{"fallback":true}}}' % (len(stream), len(data))
    extension = '{"buffer":0,"byteLength":%d,"byteStride":%d,"count":%d,"mode":"ATTRIBUTES"}' % (len(stream), STRIDE, count)
    return file_of(len(data), buffers, '"buffer":1,"extensions":{"EXT_meshopt_compression":%s}' % extension, stream)


def main():
    parser = reader(__doc__)
    parser.add_argument("length", nargs="?", type=int, default=64)
    parser.add_argument("runs", nargs="?", type=int, default=5)
    asked = parser.parse_args()
    length, runs = asked.length, asked.runs
    count = length * (1 << 20) // STRIDE
    commands = {"pack": [PROGRAM, "pack"], "unpack": [PROGRAM, "unpack"], "copy": ["cat"]}
    forms = (("plain", plain, ("pack", "unpack", "copy")), ("stream", packed, ("unpack", "copy")))
    for name, make in (("smooth", smooth), ("random", randomly)):
        for form, whole, asked in forms:
            with tempfile.NamedTemporaryFile() as kept:
                # Made in a process of its own, since a child that is measured begins with the memory of its parent.
                making = os.fork()
                if making == 0:
                    kept.write(whole(make(count)))
                    kept.flush()
                    os._exit(0)
                os.waitpid(making, 0)
                size = os.path.getsize(kept.name)
                for command in asked:
                    run = best(commands[command], kept.name, runs)
                    print("%s %s %s: %.1f MB in, %.2f s, %.0f MiB; %s" % (name, form, command, size / 1e6, run.seconds, run.memory, run.told))


if __name__ == "__main__":
    main()
