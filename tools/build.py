#!/usr/bin/env python3
"""Proves all crates of this repository, as many side by side as there are processors, and builds its program.

    tools/build.py

Standard error tells each crate as it is proved. Status 0 where all is proved and the program built; else 70, with what the toolchain
said of the crate that failed. Nothing that was built before is taken for built.
"""

import os
import pathlib
import re
import subprocess
import sys

from options import reader

TOP = pathlib.Path(__file__).resolve().parent.parent
FAILED = 70


def count_crates() -> int:
    lines = (line.partition("#")[0] for line in (TOP / "crates.txt").read_text().splitlines())
    return sum(1 for line in lines if ":" in line)


def prove_all() -> bool:
    """Proves each crate once those below it are proved, over what an earlier run kept."""
    command = ["rt", "all", "check", "--jobs", str(os.cpu_count() or 1)]
    proved, said = 0, []
    with subprocess.Popen(
        command, cwd=TOP, stdin=subprocess.DEVNULL, stdout=subprocess.PIPE, stderr=subprocess.STDOUT, text=True, errors="replace",
    ) as run:
        for line in run.stdout:
            said.append(line)
            found = re.match(r"crate (\w+): ", line)
            if found:
                proved += 1
                print(f"checked crate {proved} of {count_crates()}: {found[1]}", file=sys.stderr)
    if run.returncode != 0:
        sys.stderr.writelines(said)
        print(f"the crates are not all proved (status {run.returncode})", file=sys.stderr)
    return run.returncode == 0


def build() -> bool:
    """Builds the program by running it on an example, which it packs."""
    with open(TOP / "examples" / "scene.glb", "rb") as example:
        done = subprocess.run(["rt", "run", "--", "pack"], cwd=TOP / "crates" / "glbpack", stdin=example, capture_output=True)
    built = done.returncode == 0 and done.stdout.startswith(b"glTF")
    if not built:
        sys.stderr.write(done.stderr.decode(errors="replace"))
        print(f"the program is not built (status {done.returncode})", file=sys.stderr)
    return built


def main() -> int:
    reader(__doc__).parse_args()
    return 0 if prove_all() and build() else FAILED


if __name__ == "__main__":
    sys.exit(main())
