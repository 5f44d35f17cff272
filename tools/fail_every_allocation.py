#!/usr/bin/env python3
"""Runs every command on files again and again, each time with another allocation made to fail.

    python3 tools/fail_every_allocation.py FILE..

A text that has its buffers in files beside it is bundled and paired, in a copy of its folder; any other file is the input of the commands that
read one. The built program runs with tools/failing_malloc.c before the C library. Each run must end as it does with memory (an allocation may
be tried a second time, or do without), or with `want of memory`, status 4 and nothing written, but that a pair may have its BIN file. Any
other ending is told, and the status is 1.
"""

import json
import os
import pathlib
import shutil
import subprocess
import sys
import tempfile

from options import reader

TOOLS = pathlib.Path(__file__).resolve().parent
PROGRAM = TOOLS.parent / "crates" / "glbpack" / "out" / "glbpack"
WANT = (4, b"", b"want of memory\n")
READING = ("pack", "unpack", "analyse", "lists", "meshlets")


class Case:
    """One command on one file."""

    def __init__(self, path, words, in_folder):
        self.path, self.words, self.in_folder = path, words, in_folder
        self.content = b"" if in_folder else path.read_bytes()

    def run(self, shim, at, count):
        """How a run ends, as its status, output and line, and the files that it put."""
        surroundings = dict(os.environ, LD_PRELOAD=str(shim), FAIL_AT=str(at), FAIL_COUNT=str(count))
        with tempfile.TemporaryDirectory() as top:
            folder = pathlib.Path(top) / "files"
            shutil.copytree(self.path.parent, folder) if self.in_folder else folder.mkdir()
            done = subprocess.run([PROGRAM, *self.words], input=self.content, capture_output=True, env=surroundings, cwd=folder)
            put = {name: (folder / name).read_bytes() for name in ("put.bin", "put.gltf") if (folder / name).exists()}
        return (done.returncode, done.stdout, done.stderr), put


def cases_of(path):
    if path.suffix == ".gltf" and any(not item.get("uri", "data:").startswith("data:") for item in json.loads(path.read_bytes()).get("buffers", [])):
        return [Case(path, ["bundle", path.name], True), Case(path, ["pair", path.name, "put"], True)]
    return [Case(path, [word], False) for word in READING]


def is_right(ended, wanted):
    (end, put), (end_with_memory, put_with_memory) = ended, wanted
    if end == WANT:
        return "put.gltf" not in put and all(put[name] == put_with_memory.get(name) for name in put)
    return end == end_with_memory and put == put_with_memory


def main():
    parser = reader(__doc__)
    parser.add_argument("files", nargs="+", metavar="FILE", type=pathlib.Path)
    failed = 0
    with tempfile.TemporaryDirectory() as folder:
        shim, count = pathlib.Path(folder) / "failing_malloc.so", pathlib.Path(folder) / "count"
        subprocess.run(["cc", "-O2", "-shared", "-fPIC", "-o", shim, TOOLS / "failing_malloc.c", "-ldl"], check=True)
        for case in [case for path in parser.parse_args().files for case in cases_of(path.resolve())]:
            name = f"{case.path.name}, {' '.join(case.words)}"
            wanted = case.run(shim, 2**62, count)
            asked, refused = int(count.read_text()), 0
            for at in range(1, asked + 1):
                ended = case.run(shim, at, count)
                refused += ended[0] == WANT
                if not is_right(ended, wanted):
                    print(f"{name}, allocation {at}: ended with {ended[0][0]}, {ended[0][2]!r}, files {', '.join(ended[1]) or 'none'}")
                    failed = 1
            print(f"{name}: {asked} allocations, {refused} runs ended with want of memory and the others with status {wanted[0][0]}")
    sys.exit(failed)


if __name__ == "__main__":
    main()
