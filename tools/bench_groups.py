#!/usr/bin/env python3
"""Times a program that packs texts of many primitives, and beside it a copy of the same bytes by cat.

    python3 tools/bench_groups.py [BYTES] [PROGRAM WORD..]
    python3 tools/bench_groups.py --write SHAPE BYTES > text

A text is a glTF of at most so many bytes with one mesh, whose primitives are triangles of three vertices:

    apart    each primitive has an accessor of its own, so there are as many groups as primitives
    shared   all primitives have one accessor, so there is one group of many primitives
    chain    each primitive shares one accessor with the next, so there is one group, and its first and last
             primitive are joined through all others

Each text is made of half of BYTES and of BYTES (2^26 - 16 where none are given), and put through the program
(`crates/glbpack/out/glbpack pack` where none is given) five times. One table in Markdown: the primitives, the best time
on the clock and in the program itself, the most memory at once, how time and memory grow from the half to the whole, the
best time of cat, and what the program told. The second form writes one text; the same words give the same bytes.
"""
import base64
import itertools
import os
import pathlib
import struct
import subprocess
import sys
import tempfile

from measuring import best
from options import reader

SHAPES = ("apart", "shared", "chain")
TURNS = 5
TOOLS = pathlib.Path(__file__).resolve().parent
PROGRAM = TOOLS.parent / "crates" / "glbpack" / "out" / "glbpack"

# Three corners of a triangle, of which no two are equal.
VERTICES = struct.pack("<9f", 0, 0, 0, 1, 0, 0, 0, 1, 0)
ACCESSOR = '{"bufferView":0,"componentType":5126,"count":3,"type":"VEC3"}'


def primitive_with(shape, i):
    """The numbers of the accessors of primitive i."""
    numbers = {"apart": (i,), "shared": (0,), "chain": (i, i + 1)}[shape]
    names = ("POSITION", "NORMAL")
    return '{"attributes":{%s}}' % ",".join('"%s":%d' % pair for pair in zip(names, numbers))


def text(shape, size):
    """The text, and how many primitives it has."""
    uri = "data:application/octet-stream;base64," + base64.b64encode(VERTICES).decode()
    front = '{"asset":{"version":"2.0"},"buffers":[{"byteLength":%d,"uri":"%s"}],"bufferViews":[{"buffer":0,"byteLength":%d}],"accessors":[' % (
        len(VERTICES), uri, len(VERTICES))
    middle = '],"meshes":[{"primitives":['
    behind = ']}]}'
    accessors = [] if shape == "apart" else [ACCESSOR]
    primitives = []
    left = size - len(front) - len(middle) - len(behind) - len(",".join(accessors))
    for i in itertools.count():
        one = primitive_with(shape, i)
        left -= len(one) + 1 + (0 if shape == "shared" else len(ACCESSOR) + 1)
        if left < 0:
            return front + ",".join(accessors) + middle + ",".join(primitives) + behind, len(primitives)
        primitives.append(one)
        if shape != "shared":
            accessors.append(ACCESSOR)


def main():
    parser = reader(__doc__)
    parser.add_argument("--write", nargs=2, metavar=("SHAPE", "SIZE"))
    parser.add_argument("words", nargs="*", help="the size of the texts, and the program that reads them")
    asked = parser.parse_args()
    if asked.write:
        if asked.write[0] not in SHAPES or not asked.write[1].isdigit():
            parser.error(f"a shape is one of {', '.join(SHAPES)}, and a size is a number")
        sys.stdout.write(text(asked.write[0], int(asked.write[1]))[0])
        return
    arguments = asked.words
    size = int(arguments.pop(0)) if arguments and arguments[0].isdigit() else 2**26 - 16
    program = arguments or [str(PROGRAM), "pack"]
    print("| text | primitives | s | user s | memory MiB | time ×2 | memory ×2 | cat s | told |")
    print("|---|---|---|---|---|---|---|---|---|")
    with tempfile.TemporaryDirectory() as folder:
        for shape in SHAPES:
            runs = []
            for part in (size // 2, size):
                path = os.path.join(folder, f"{shape}.{part}.gltf")
                # Made in a process of its own, since a child that is measured begins with the memory of its parent.
                with open(path, "wb") as sink:
                    subprocess.run([sys.executable, __file__, "--write", shape, str(part)], stdout=sink, check=True)
                run = best(program, path, TURNS)
                if run.status != 0:
                    sys.exit(f"{program} ended with {run.status} on {shape} of {part} bytes: {run.told}")
                runs.append(run)
            half, whole = runs
            with open(path, "rb") as source:
                primitives = sum(block.count(b'{"attributes"') for block in source)
            copied = best(["cat"], path, TURNS)
            print(
                f"| {shape} | {primitives} | {whole.seconds:.2f} | {whole.user:.2f} | {whole.memory:.0f} "
                f"| {whole.seconds / half.seconds:.2f} | {whole.memory / half.memory:.2f} | {copied.seconds:.2f} | {whole.told} |",
                flush=True,
            )


if __name__ == "__main__":
    main()
