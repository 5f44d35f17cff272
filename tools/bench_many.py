#!/usr/bin/env python3
"""Packs many small files by the line that README has for it: files a second with 1, 2 and 4 runs side by side.

    tools/bench_many.py [--copies N]

N copies (1000 where nothing is said) of the examples, in turn, are packed by the built program.
"""

import itertools
import os
import pathlib
import shutil
import subprocess
import tempfile
import time

from options import reader

TOP = pathlib.Path(__file__).resolve().parent.parent
LINE = ("find models -name '*.glb' -print0 | xargs -0 -P%d -n1 sh -c 'o=packed/${0#models/}; mkdir -p \"${o%%/*}\"; "
        "glbpack pack <\"$0\" >\"$o.part\" && mv \"$o.part\" \"$o\" || { rm -f \"$o.part\"; exit 1; }'")


def main() -> None:
    parser = reader(__doc__)
    parser.add_argument("--copies", type=int, default=1000)
    copies = parser.parse_args().copies
    examples = sorted((TOP / "examples").glob("*.glb"))
    with tempfile.TemporaryDirectory() as made:
        folder = pathlib.Path(made)
        (folder / "models").mkdir()
        for at, example in zip(range(copies), itertools.cycle(examples)):
            shutil.copy(example, folder / "models" / f"{at}.glb")
        path = f"{TOP / 'crates/glbpack/out'}:{os.environ['PATH']}"
        print("| side by side | files a second | packed |\n|---|---|---|")
        for jobs in (1, 2, 4):
            begun = time.monotonic()
            subprocess.run(["sh", "-c", LINE % jobs], cwd=folder, env={**os.environ, "PATH": path}, stderr=subprocess.DEVNULL, check=True)
            seconds = time.monotonic() - begun
            packed = list((folder / "packed").rglob("*.glb"))
            print(f"| {jobs} | {copies / seconds:.0f} | {len(packed)} of {copies} |", flush=True)
            shutil.rmtree(folder / "packed")


if __name__ == "__main__":
    main()
