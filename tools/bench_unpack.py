#!/usr/bin/env python3
"""Unpacks large streams with the built program, beside libmeshoptimizer's decoder of the same streams where that is installed.

    tools/bench_unpack.py [--turns N]

The models are a terrain of two million triangles and one whose triangles are shuffled, packed by the program, and an index sequence of
64 MiB. The times are the best of N turns (5 where nothing is said), in seconds: of the whole program from file to file, of `cat` of its
output, and of the decoder alone for each stream of the file.
"""

import array
import json
import pathlib
import random
import shutil
import struct
import subprocess
import sys
import tempfile

from bench_meshes import INT, MODELS, PROGRAM, TOP, Model, shuffled
from measuring import best
from options import reader


def sequence(count: int, seed: int = 17) -> bytes:
    """A strip of lines through so many vertices, which jumps now and then; nothing else is in the file."""
    steps = random.Random(seed)
    at, walk = 0, array.array("I")
    for _ in range(count):
        at = steps.randrange(1 << 20) if steps.randrange(16) == 0 else (at + steps.randrange(1, 4)) % (1 << 20)
        walk.append(at)
    model = Model()
    indices = model.accessor(walk, INT, "SCALAR", 34963)
    return model.glb([{"primitives": [{"attributes": {}, "indices": indices, "mode": 3}]}])


def streams(glb: bytes) -> list[tuple[str, int, int, bytes]]:
    """The mode, count, stride and bytes of each stream of a packed file."""
    length = struct.unpack_from("<I", glb, 12)[0]
    views, start = json.loads(glb[20:20 + length])["bufferViews"], 20 + length + 8
    packed = [view["extensions"]["EXT_meshopt_compression"] for view in views if "extensions" in view]
    return [
        (form["mode"], form["count"], form["byteStride"], glb[start + form["byteOffset"]:start + form["byteOffset"] + form["byteLength"]])
        for form in packed
    ]


SOURCES = {"terrain": MODELS["terrain"], "shuffled terrain": lambda: shuffled(1024), "index sequence": lambda: sequence(1 << 24)}


def make(path: pathlib.Path, name: str) -> None:
    """Writes a model in a process of its own, so that its memory isn't told for that of the program."""
    code = f"import sys; sys.path.insert(0, {str(TOP / 'tools')!r}); import bench_unpack as b; open({str(path)!r}, 'wb').write(b.SOURCES[{name!r}]())"
    subprocess.run([sys.executable, "-c", code], check=True)


def by_library(folder: pathlib.Path, packed: bytes) -> str:
    decoder = folder / "decode"
    if not decoder.exists():
        return "-"
    told = []
    for at, (mode, count, stride, stream) in enumerate(streams(packed)):
        path = folder / f"stream{at}"
        path.write_bytes(stream)
        seconds = subprocess.run([decoder, mode, str(count), str(stride), path], capture_output=True, text=True, check=True).stdout.strip()
        told.append(f"{mode} {float(seconds):.3f}")
    return ", ".join(told)


def main() -> None:
    parser = reader(__doc__)
    parser.add_argument("--turns", type=int, default=5)
    turns = parser.parse_args().turns
    print("| model | packed, MB | unpacked, MB | unpack, s | memory | cat, s | libmeshoptimizer, s |\n|---|---|---|---|---|---|---|")
    with tempfile.TemporaryDirectory() as made:
        folder = pathlib.Path(made)
        if shutil.which("g++"):
            subprocess.run(
                ["g++", "-O2", "-o", folder / "decode", TOP / "tools/bench/decode.cc", "-lmeshoptimizer"], stderr=subprocess.DEVNULL)
        for name in SOURCES:
            path, packed, unpacked = folder / "model.glb", folder / "packed.glb", folder / "unpacked.glb"
            make(path, name)
            with open(path, "rb") as source, open(packed, "wb") as sink:
                subprocess.run([PROGRAM, "pack"], stdin=source, stdout=sink, stderr=subprocess.DEVNULL, check=True)
            with open(packed, "rb") as source, open(unpacked, "wb") as sink:
                subprocess.run([PROGRAM, "unpack"], stdin=source, stdout=sink, stderr=subprocess.DEVNULL, check=True)
            run = best([PROGRAM, "unpack"], packed, turns)
            copy = best(["cat"], unpacked, turns)
            print(f"| {name} | {packed.stat().st_size / 1e6:.1f} | {unpacked.stat().st_size / 1e6:.1f} | {run.seconds:.2f} | {run.memory:.0f}"
                  f" | {copy.seconds:.2f} | {by_library(folder, packed.read_bytes())} |", flush=True)


if __name__ == "__main__":
    main()
