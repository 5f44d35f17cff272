#!/usr/bin/env python3
"""Packs glTF texts with many items, and tells the time and the memory of each.

    python3 tools/bench_assets.py [COUNT] [RUNS]

COUNT is the number of items of each array (100,000), RUNS the number of runs of which the best is told (5). Each text
is packed with COUNT and with twice as many items. `whole` has that many buffer views, accessors and primitives over one
buffer in a data URI, `accessors` accessors without views and primitives, `buffers` buffers in data URIs with one view
each. The first two have primitives of triangles, so they are read and checked whole, and refused as `not yet`; the third
is packed.
"""
import base64
import os
import subprocess
import tempfile

from measuring import best
from options import reader

TOP = os.path.dirname(os.path.dirname(os.path.abspath(__file__)))
PROGRAM = os.path.join(TOP, "crates", "glbpack", "out", "glbpack")


def joined(item, count):
    return ",".join(item(i) for i in range(count))


def primitives(count):
    return '"meshes":[{"primitives":[%s]}]' % joined(
        lambda i: '{"attributes":{"POSITION":%d,"NORMAL":%d},"indices":%d}' % (i, (i + 1) % count, (i + 2) % count), count)


def whole(count):
    uri = "data:application/octet-stream;base64," + base64.b64encode(bytes(4 * count)).decode()
    views = joined(lambda i: '{"buffer":0,"byteOffset":%d,"byteLength":4}' % (4 * i), count)
    accessors = joined(lambda i: '{"bufferView":%d,"componentType":5126,"count":1,"type":"SCALAR"}' % i, count)
    return '{"buffers":[{"byteLength":%d,"uri":"%s"}],"bufferViews":[%s],"accessors":[%s],%s}' % (
        4 * count, uri, views, accessors, primitives(count))


def accessors_alone(count):
    accessors = joined(lambda i: '{"componentType":5126,"count":1,"type":"SCALAR"}', count)
    return '{"accessors":[%s],%s}' % (accessors, primitives(count))


def buffers(count):
    items = joined(lambda i: '{"byteLength":4,"uri":"data:application/octet-stream;base64,AAAAAA=="}', count)
    views = joined(lambda i: '{"buffer":%d,"byteLength":4}' % i, count)
    return '{"buffers":[%s],"bufferViews":[%s]}' % (items, views)


def main():
    parser = reader(__doc__)
    parser.add_argument("count", nargs="?", type=int, default=100000)
    parser.add_argument("runs", nargs="?", type=int, default=5)
    asked = parser.parse_args()
    count, runs = asked.count, asked.runs
    subprocess.run([os.path.join(TOP, "glbpack")], stderr=subprocess.DEVNULL, check=False)  # builds it where it is missing
    with tempfile.TemporaryDirectory() as folder:
        for name, made in (("whole", whole), ("accessors", accessors_alone), ("buffers", buffers)):
            for items in (count, 2 * count):
                path = os.path.join(folder, "text")
                text = made(items)
                with open(path, "w", encoding="ascii") as out:
                    out.write(text)
                run = best([PROGRAM, "pack"], path, runs)
                print("%s, %d items, %.1f MB: %.2f s, %.0f MiB, %s" % (name, items, len(text) / 1e6, run.seconds, run.memory, run.told))


if __name__ == "__main__":
    main()
