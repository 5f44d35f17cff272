#!/usr/bin/env python3
"""Times a program that packs a text, and beside it a copy of the same bytes by cat.

    python3 tools/bench_texts.py [BYTES] [PROGRAM WORD..]

Each text of tools/make_texts.py is made of at most half of BYTES and of BYTES (2^26 - 16 where none
are given), and put through the program (`./glbpack pack` where none is given) five times. One table
in Markdown: the best time on the clock and in the program itself, the most memory at once, how time
and memory grow from the half to the whole, and the best time of cat.
"""

import os
import pathlib
import subprocess
import sys
import tempfile

from measuring import best
from options import reader

SHAPES = ["objects", "string", "digits", "keys"]
TURNS = 5
TOOLS = pathlib.Path(__file__).resolve().parent


def measured(words, text):
    """Seconds on the clock, seconds of the processor in user mode, and the most memory."""
    run = best(words, text, TURNS)
    if run.status != 0:
        sys.exit(f"{words} ended with {run.status} on {text}")
    return run.seconds, run.user, run.memory


def main():
    parser = reader(__doc__)
    parser.add_argument("words", nargs="*", help="the size of the texts, and the program that reads them")
    arguments = parser.parse_args().words
    size = int(arguments.pop(0)) if arguments and arguments[0].isdigit() else 2**26 - 16
    program = arguments or [str(TOOLS.parent / "glbpack"), "pack"]
    print("| text | s | MB/s | user s | memory MB | time ×2 | memory ×2 | cat s |")
    print("|---|---|---|---|---|---|---|---|")
    with tempfile.TemporaryDirectory() as folder:
        for shape in SHAPES:
            rows = []
            for part in (size // 2, size):
                text = os.path.join(folder, f"{shape}.{part}")
                with open(text, "wb") as sink:
                    subprocess.run([sys.executable, TOOLS / "make_texts.py", shape, str(part)], stdout=sink, check=True)
                rows.append(measured(program, text))
            (half, _, half_memory), (whole, user, memory) = rows
            copied = measured(["cat"], text)[0]
            print(
                f"| {shape} | {whole:.2f} | {size / 1e6 / whole:.0f} | {user:.2f} | {memory:.0f} "
                f"| {whole / half:.2f} | {memory / half_memory:.2f} | {copied:.2f} |",
                flush=True,
            )


if __name__ == "__main__":
    main()
