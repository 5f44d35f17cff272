#!/usr/bin/env python3
"""Packs large meshes with the built program, beside gltfpack where that is installed, from file to file.

    tools/bench_meshes.py [--turns N] [--only NAME..] [--keep FOLDER]

Each program packs each model N times in turns (5 where nothing is said); the table has the best times on the clock and in the
program itself in seconds, the most memory in units of 2^20 bytes, and the sizes in MB, which are 10^6 bytes. gltfpack runs as
`gltfpack -noq -c`. The models are made from fixed seeds; --keep leaves them in a folder, and takes them from there the next time.
"""

import array
import json
import math
import pathlib
import random
import shutil
import struct
import subprocess
import sys
import tempfile

from measuring import Run, once
from options import reader

TOP = pathlib.Path(__file__).resolve().parent.parent
PROGRAM = TOP / "crates/glbpack/out/glbpack"
FLOAT, INT, SHORT, BYTE = 5126, 5125, 5123, 5121
WIDTHS = {"SCALAR": 1, "VEC2": 2, "VEC3": 3, "VEC4": 4}


class Model:
    """A GLB in the making: each accessor has a buffer view of its own."""

    def __init__(self) -> None:
        self.accessors, self.views, self.parts, self.length = [], [], [], 0

    def view(self, data: bytes, **more: object) -> int:
        gap = -self.length % 4
        self.parts += [bytes(gap), data]
        self.views.append({"buffer": 0, "byteOffset": self.length + gap, "byteLength": len(data), **more})
        self.length += gap + len(data)
        return len(self.views) - 1

    def accessor(self, values: array.array, component: int, kind: str, target: int, **more: object) -> int:
        count = len(values) // WIDTHS[kind]
        entry = {"bufferView": self.view(values.tobytes(), target=target), "componentType": component, "count": count, "type": kind}
        self.accessors.append({**entry, **more})
        return len(self.accessors) - 1

    def positions(self, values: array.array) -> int:
        bounds = [(min(values[axis::3]), max(values[axis::3])) for axis in range(3)]
        return self.accessor(values, FLOAT, "VEC3", 34962, min=[low for low, _ in bounds], max=[high for _, high in bounds])

    def floats(self, values: array.array, kind: str) -> int:
        return self.accessor(values, FLOAT, kind, 34962)

    def indices(self, values: list[int]) -> int:
        return self.accessor(array.array("I", values), INT, "SCALAR", 34963)

    def glb(self, meshes: list, nodes: list | None = None, **members: object) -> bytes:
        nodes = nodes or [{"mesh": at} for at in range(len(meshes))]
        text = json.dumps({
            "asset": {"version": "2.0"}, "scene": 0, "scenes": [{"nodes": list(range(len(nodes)))}], "nodes": nodes, "meshes": meshes,
            "accessors": self.accessors, "bufferViews": self.views, "buffers": [{"byteLength": self.length}], **members,
        }, separators=(",", ":")).encode()
        text += b" " * (-len(text) % 4)
        content = b"".join(self.parts) + bytes(-self.length % 4)
        return (struct.pack("<4sII", b"glTF", 2, 28 + len(text) + len(content)) + struct.pack("<I4s", len(text), b"JSON") + text
                + struct.pack("<I4s", len(content), b"BIN\0") + content)


def grid_corners(width: int, height: int) -> list[int]:
    """The corners of two triangles for each square of a grid, row by row."""
    corners = []
    for y in range(height - 1):
        for at in range(y * width, y * width + width - 1):
            corners += (at, at + 1, at + width + 1, at, at + width + 1, at + width)
    return corners


def terrain_vertices(size: int) -> tuple[array.array, array.array, array.array]:
    positions, normals, coordinates = array.array("f"), array.array("f"), array.array("f")
    for y in range(size):
        for x in range(size):
            slope_x, slope_y = math.cos(x / 17) * 0.3, math.cos(y / 23) * 0.2
            length = math.sqrt(slope_x * slope_x + slope_y * slope_y + 1)
            positions.extend((x / 4, math.sin(x / 17) + math.sin(y / 23), y / 4))
            normals.extend((-slope_x / length, 1 / length, -slope_y / length))
            coordinates.extend((x / (size - 1), y / (size - 1)))
    return positions, normals, coordinates


def terrain(size: int) -> bytes:
    model = Model()
    positions, normals, coordinates = terrain_vertices(size)
    attributes = {
        "POSITION": model.positions(positions), "NORMAL": model.floats(normals, "VEC3"), "TEXCOORD_0": model.floats(coordinates, "VEC2"),
    }
    return model.glb([{"primitives": [{"attributes": attributes, "indices": model.indices(grid_corners(size, size))}]}])


def terrain_soup(size: int) -> bytes:
    """The same without indices: each triangle has vertices of its own."""
    model = Model()
    positions, normals, coordinates = terrain_vertices(size)
    corners = grid_corners(size, size)

    def spread(values: array.array, width: int) -> array.array:
        spread_values = array.array("f")
        for corner in corners:
            spread_values.extend(values[corner * width:corner * width + width])
        return spread_values

    attributes = {
        "POSITION": model.positions(spread(positions, 3)), "NORMAL": model.floats(spread(normals, 3), "VEC3"),
        "TEXCOORD_0": model.floats(spread(coordinates, 2), "VEC2"),
    }
    return model.glb([{"primitives": [{"attributes": attributes}]}])


def shuffled(size: int, seed: int = 7) -> bytes:
    """A grid whose triangles stand in no order."""
    model = Model()
    positions, normals, _ = terrain_vertices(size)
    corners = grid_corners(size, size)
    order = list(range(len(corners) // 3))
    random.Random(seed).shuffle(order)
    mixed = [corner for at in order for corner in corners[3 * at:3 * at + 3]]
    attributes = {"POSITION": model.positions(positions), "NORMAL": model.floats(normals, "VEC3")}
    return model.glb([{"primitives": [{"attributes": attributes, "indices": model.indices(mixed)}]}])


def morphed(rings: int, sides: int) -> bytes:
    """A torus with four morph targets."""
    model = Model()
    positions, targets = array.array("f"), [array.array("f") for _ in range(4)]
    for i in range(rings):
        for j in range(sides):
            a, b = 2 * math.pi * i / rings, 2 * math.pi * j / sides
            positions.extend(((3 + math.cos(b)) * math.cos(a), math.sin(b), (3 + math.cos(b)) * math.sin(a)))
            for k, target in enumerate(targets):
                target.extend((0, math.sin((k + 1) * a) / 4 if j % 2 else 0, 0))
    corners = []
    for i in range(rings):
        for j in range(sides):
            at, right = i * sides + j, i * sides + (j + 1) % sides
            below, across = (i + 1) % rings * sides + j, (i + 1) % rings * sides + (j + 1) % sides
            corners += (at, right, across, at, across, below)
    attributes = {"POSITION": model.positions(positions)}
    primitive = {"attributes": attributes, "indices": model.indices(corners), "targets": [{"POSITION": model.positions(t)} for t in targets]}
    return model.glb([{"primitives": [primitive], "weights": [0, 0, 0, 0]}])


def small_meshes(count: int) -> bytes:
    """Many boxes of 24 vertices, each with accessors of its own."""
    model, meshes = Model(), []
    faces = [corner for face in range(6) for corner in (4 * face + k for k in (0, 1, 2, 0, 2, 3))]
    for at in range(count):
        size = 1 + at % 7
        positions = array.array("f", (size * ((v * 7 + axis * 3 + at) % 5 - 2) for v in range(24) for axis in range(3)))
        normals = array.array("f", (float(v // 8 == axis) for v in range(24) for axis in range(3)))
        attributes = {"POSITION": model.positions(positions), "NORMAL": model.floats(normals, "VEC3")}
        meshes.append({"primitives": [{"attributes": attributes, "indices": model.indices(faces)}]})
    return model.glb(meshes)


def scene(count: int) -> bytes:
    """Many nodes that share one small mesh."""
    model = Model()
    positions = array.array("f", (math.sin(v + axis) for v in range(24) for axis in range(3)))
    faces = [corner for face in range(6) for corner in (4 * face + k for k in (0, 1, 2, 0, 2, 3))]
    primitive = {"attributes": {"POSITION": model.positions(positions)}, "indices": model.indices(faces)}
    nodes = [{"name": f"node {at}", "mesh": 0, "translation": [at % 100, at // 100 % 100, at // 10000]} for at in range(count)]
    return model.glb([{"primitives": [primitive]}], nodes)


def scan(width: int, height: int, seed: int = 11) -> bytes:
    """A surface as a scanner gives it: uneven, with colors."""
    noise = random.Random(seed)
    model, positions, colors = Model(), array.array("f"), array.array("B")
    for y in range(height):
        for x in range(width):
            positions.extend((x + noise.random() / 2, math.sin(x / 50) * 9 + noise.random(), y + noise.random() / 2))
            colors.extend((noise.randrange(96, 160), (x * 3 + y) % 256, 90, 255))
    attributes = {"POSITION": model.positions(positions), "COLOR_0": model.accessor(colors, BYTE, "VEC4", 34962, normalized=True)}
    return model.glb([{"primitives": [{"attributes": attributes, "indices": model.indices(grid_corners(width, height))}]}])


def pictured(size: int, seed: int = 13) -> bytes:
    """A large image beside a small mesh."""
    model = Model()
    positions = array.array("f", (math.cos(v * 2 + axis) for v in range(24) for axis in range(3)))
    faces = [corner for face in range(6) for corner in (4 * face + k for k in (0, 1, 2, 0, 2, 3))]
    primitive = {"attributes": {"POSITION": model.positions(positions)}, "indices": model.indices(faces)}
    image = model.view(b"\x89PNG\r\n\x1a\n" + random.Random(seed).randbytes(size))
    return model.glb([{"primitives": [primitive]}], images=[{"mimeType": "image/png", "bufferView": image}])


MODELS = {
    "terrain": lambda: terrain(1024),
    "terrain as soup": lambda: terrain_soup(1024),
    "shuffled grid": lambda: shuffled(708),
    "torus with four targets": lambda: morphed(512, 256),
    "10,000 small meshes": lambda: small_meshes(10_000),
    "100,000 nodes": lambda: scene(100_000),
    "scan of 2,000,000 triangles": lambda: scan(1001, 1001),
    "image of 20 MB": lambda: pictured(20_000_000),
}


def file_of(folder: pathlib.Path, name: str) -> pathlib.Path:
    path = folder / (name.replace(" ", "_").replace(",", "") + ".glb")
    if not path.exists():
        # In a process of its own, so that its memory isn't told for that of the programs.
        code = f"import sys; sys.path.insert(0, {str(TOP / 'tools')!r}); import bench_meshes as b; open({str(path)!r}, 'wb').write(b.MODELS[{name!r}]())"
        subprocess.run([sys.executable, "-c", code], check=True)
    return path


def by_gltfpack(path: pathlib.Path, out: pathlib.Path) -> Run:
    return once(["gltfpack", "-noq", "-c", "-i", str(path), "-o", str(out)], "/dev/null")


def by_program(path: pathlib.Path, out: pathlib.Path) -> Run:
    return once(["sh", "-c", f"exec {PROGRAM} pack >'{out}'"], path)


def tell(name: str, size: int, runs: dict[str, list[Run]], sizes: dict[str, int]) -> None:
    row = [name, f"{size / 1e6:.1f}"]
    for program, found in runs.items():
        if any(run.status for run in found):
            row += ["-", "-", found[-1].told[-40:], "-"]
        else:
            row += [
                f"{min(run.seconds for run in found):.2f}", f"{min(run.user for run in found):.2f}",
                f"{max(run.memory for run in found):.0f}", f"{sizes[program] / 1e6:.2f}",
            ]
    print("| " + " | ".join(row) + " |", flush=True)


def main() -> None:
    parser = reader(__doc__)
    parser.add_argument("--turns", type=int, default=5)
    parser.add_argument("--only", nargs="+", choices=MODELS, default=list(MODELS))
    parser.add_argument("--keep", type=pathlib.Path)
    options = parser.parse_args()
    programs = {"glbpack": by_program}
    if shutil.which("gltfpack"):
        programs["gltfpack"] = by_gltfpack
    print("| model | MB | " + " | ".join(f"{name}, s | user s | memory | MB" for name in programs) + " |")
    print("|---" * (2 + 4 * len(programs)) + "|")
    with tempfile.TemporaryDirectory() as made:
        folder = options.keep or pathlib.Path(made)
        folder.mkdir(exist_ok=True)
        for name in options.only:
            path, runs, sizes = file_of(folder, name), {program: [] for program in programs}, {}
            for _ in range(options.turns):
                for program, pack in programs.items():
                    out = pathlib.Path(made) / "out.glb"
                    runs[program].append(pack(path, out))
                    sizes[program] = out.stat().st_size if out.exists() else 0
            tell(name, path.stat().st_size, runs, sizes)


if __name__ == "__main__":
    main()
