"""Ordinary meshes as exporters write them, for tools/make_examples.py: a textured cube, a torus, a hill of one strip, and a figure of boxes that walks.

Each function gives the JSON of an asset and the bytes of its one buffer.
"""

import math
import struct
import zlib

FLOAT, SHORT, BYTE = 5126, 5123, 5121
VERTICES, CORNERS = 34962, 34963
WIDTHS = {"SCALAR": 1, "VEC2": 2, "VEC3": 3, "VEC4": 4, "MAT4": 16}
CODES = {FLOAT: "f", SHORT: "H", BYTE: "B"}


class Content:
    """The accessors, buffer views and bytes of an asset, one view for each accessor."""

    def __init__(self) -> None:
        self.accessors: list[dict] = []
        self.views: list[dict] = []
        self.data = b""

    def view(self, data: bytes, **more: object) -> int:
        self.data += bytes(-len(self.data) % 4)
        self.views.append({"buffer": 0, "byteOffset": len(self.data), "byteLength": len(data), **more})
        self.data += data
        return len(self.views) - 1

    def accessor(self, items: list, component: int, kind: str, target: int | None = None, bounds: bool = False) -> int:
        """An accessor of tuples, or of numbers where it is a SCALAR."""
        rows = [(item,) for item in items] if kind == "SCALAR" else items
        data = b"".join(struct.pack(f"<{WIDTHS[kind]}{CODES[component]}", *row) for row in rows)
        entry = {
            "bufferView": self.view(data, **({"target": target} if target else {})),
            "componentType": component,
            "count": len(rows),
            "type": kind,
        }
        if bounds:
            columns = list(zip(*rows))
            entry["min"], entry["max"] = [min(column) for column in columns], [max(column) for column in columns]
        self.accessors.append(entry)
        return len(self.accessors) - 1

    def asset(self, **members: object) -> tuple[dict, bytes]:
        return {
            "asset": {"version": "2.0", "generator": "glbpack examples"},
            **members,
            "accessors": self.accessors,
            "bufferViews": self.views,
            "buffers": [{"byteLength": len(self.data)}],
        }, self.data


def exact(number: float) -> float:
    """The nearest multiple of 2^-16, which has 32 bits to itself: the same bytes on every machine, and spelled exactly."""
    return round(number * 65536) / 65536


# ---- boxes

# Of each face of a box its normal, and two directions along it.
FACES = [
    ((1, 0, 0), (0, 0, -1), (0, 1, 0)),
    ((-1, 0, 0), (0, 0, 1), (0, 1, 0)),
    ((0, 1, 0), (1, 0, 0), (0, 0, -1)),
    ((0, -1, 0), (1, 0, 0), (0, 0, 1)),
    ((0, 0, 1), (1, 0, 0), (0, 1, 0)),
    ((0, 0, -1), (-1, 0, 0), (0, 1, 0)),
]
SQUARE = [(-1, -1), (1, -1), (1, 1), (-1, 1)]


def box(center: tuple, half: tuple) -> tuple[list, list, list, list]:
    """The 24 positions, normals and texture coordinates of a box, and its 36 corners."""
    positions, normals, coordinates, corners = [], [], [], []
    for face, (normal, across, up) in enumerate(FACES):
        for u, v in SQUARE:
            positions.append(tuple(c + h * (n + u * a + v * b) for c, h, n, a, b in zip(center, half, normal, across, up)))
            normals.append(normal)
            coordinates.append(((1 + u) / 2, (1 - v) / 2))
        corners += [4 * face + k for k in (0, 1, 2, 0, 2, 3)]
    return positions, normals, coordinates, corners


def picture(size: int) -> bytes:
    """A PNG of black and white squares."""
    def part(kind: bytes, data: bytes) -> bytes:
        return struct.pack(">I", len(data)) + kind + data + struct.pack(">I", zlib.crc32(kind + data))

    rows = b"".join(b"\0" + bytes(255 * ((x + y) % 2) for x in range(size)) for y in range(size))
    head = struct.pack(">IIBBBBB", size, size, 8, 0, 0, 0, 0)
    return b"\x89PNG\r\n\x1a\n" + part(b"IHDR", head) + part(b"IDAT", zlib.compress(rows, 9)) + part(b"IEND", b"")


def cube() -> tuple[dict, bytes]:
    content = Content()
    positions, normals, coordinates, corners = box((0, 0, 0), (1, 1, 1))
    attributes = {
        "POSITION": content.accessor(positions, FLOAT, "VEC3", VERTICES, bounds=True),
        "NORMAL": content.accessor(normals, FLOAT, "VEC3", VERTICES),
        "TEXCOORD_0": content.accessor(coordinates, FLOAT, "VEC2", VERTICES),
    }
    indices = content.accessor(corners, SHORT, "SCALAR", CORNERS)
    image = content.view(picture(8))
    return content.asset(
        scene=0,
        scenes=[{"nodes": [0]}],
        nodes=[{"name": "cube", "mesh": 0}],
        materials=[{"name": "squares", "pbrMetallicRoughness": {"baseColorTexture": {"index": 0}, "metallicFactor": 0}}],
        textures=[{"sampler": 0, "source": 0}],
        samplers=[{"magFilter": 9728, "minFilter": 9728}],
        images=[{"name": "squares", "mimeType": "image/png", "bufferView": image}],
        meshes=[{"primitives": [{"attributes": attributes, "indices": indices, "material": 0}]}],
    )


# ---- a torus

def torus(rings: int, sides: int) -> tuple[dict, bytes]:
    """A torus of 2 * rings * sides triangles, with a seam of equal positions where its texture begins again."""
    positions, normals, coordinates = [], [], []
    for i in range(rings + 1):
        for j in range(sides + 1):
            a, b = 2 * math.pi * (i % rings) / rings, 2 * math.pi * (j % sides) / sides
            normal = (math.cos(a) * math.cos(b), math.sin(b), math.sin(a) * math.cos(b))
            place = (math.cos(a) + 0.375 * normal[0], 0.375 * normal[1], math.sin(a) + 0.375 * normal[2])
            positions.append(tuple(map(exact, place)))
            normals.append(tuple(map(exact, normal)))
            coordinates.append((8 * i / rings, 2 * j / sides))
    corners = []
    for i in range(rings):
        for j in range(sides):
            at, over = i * (sides + 1) + j, (i + 1) * (sides + 1) + j
            corners += [at, at + 1, over + 1, at, over + 1, over]
    content = Content()
    attributes = {
        "POSITION": content.accessor(positions, FLOAT, "VEC3", VERTICES, bounds=True),
        "NORMAL": content.accessor(normals, FLOAT, "VEC3", VERTICES),
        "TEXCOORD_0": content.accessor(coordinates, FLOAT, "VEC2", VERTICES),
    }
    indices = content.accessor(corners, SHORT, "SCALAR", CORNERS)
    return content.asset(
        scene=0,
        scenes=[{"nodes": [0]}],
        nodes=[{"name": "torus", "mesh": 0}],
        meshes=[{"primitives": [{"attributes": attributes, "indices": indices}]}],
    )


# ---- a hill

STRIP = 5


def hill(size: int) -> tuple[dict, bytes]:
    """A hill of size * size squares as one strip of triangles without indices, its rows joined by triangles without area."""
    def point(x: int, z: int) -> tuple:
        return exact(x / size), exact(math.sin(math.pi * x / size) * math.sin(math.pi * z / size) / 2), exact(z / size)

    rows = [[point(x, z + k) for x in range(size + 1) for k in (0, 1)] for z in range(size)]
    strip = rows[0] + [corner for last, row in zip(rows, rows[1:]) for corner in (last[-1], row[0], *row)]
    content = Content()
    position = content.accessor(strip, FLOAT, "VEC3", VERTICES, bounds=True)
    return content.asset(
        scene=0,
        scenes=[{"nodes": [0]}],
        nodes=[{"name": "hill", "mesh": 0}],
        meshes=[{"primitives": [{"attributes": {"POSITION": position}, "mode": STRIP}]}],
    )


# ---- a figure that walks

# Of each part its name, the part that it hangs on, the joint's place, and the box that moves with it.
PARTS = [
    ("hips", None, (0, 1, 0), (0, 1.25, 0), (0.25, 0.3125, 0.125)),
    ("head", 0, (0, 1.5625, 0), (0, 1.75, 0), (0.125, 0.1875, 0.125)),
    ("left arm", 0, (0.3125, 1.5, 0), (0.34375, 1.1875, 0), (0.0625, 0.3125, 0.0625)),
    ("right arm", 0, (-0.3125, 1.5, 0), (-0.34375, 1.1875, 0), (0.0625, 0.3125, 0.0625)),
    ("left leg", 0, (0.125, 0.9375, 0), (0.125, 0.46875, 0), (0.09375, 0.46875, 0.09375)),
    ("right leg", 0, (-0.125, 0.9375, 0), (-0.125, 0.46875, 0), (0.09375, 0.46875, 0.09375)),
]
# Which way each part swings, in radians at most.
SWINGS = {"left arm": 0.5, "right arm": -0.5, "left leg": -0.625, "right leg": 0.625}
STEPS = 16


def translation(place: tuple) -> tuple:
    """The inverse of a joint at this place, column by column."""
    return (1, 0, 0, 0, 0, 1, 0, 0, 0, 0, 1, 0, *(-part for part in place), 1)


def figure() -> tuple[dict, bytes]:
    positions, normals, joints, breath, corners = [], [], [], [], []
    for joint, (name, above, place, center, half) in enumerate(PARTS):
        points, directions, _, triangles = box(center, half)
        corners += [len(positions) + corner for corner in triangles]
        positions += points
        normals += directions
        joints += [(joint, 0, 0, 0)] * len(points)
        breath += [(0, 0, 0.03125 * z if joint == 0 and y > 0 else 0) for (_, y, z) in directions]
    content = Content()
    attributes = {
        "POSITION": content.accessor(positions, FLOAT, "VEC3", VERTICES, bounds=True),
        "NORMAL": content.accessor(normals, FLOAT, "VEC3", VERTICES),
        "JOINTS_0": content.accessor(joints, BYTE, "VEC4", VERTICES),
        "WEIGHTS_0": content.accessor([(1, 0, 0, 0)] * len(joints), FLOAT, "VEC4", VERTICES),
    }
    indices = content.accessor(corners, SHORT, "SCALAR", CORNERS)
    targets = [{"POSITION": content.accessor(breath, FLOAT, "VEC3", VERTICES, bounds=True)}]
    binds = content.accessor([translation(part[2]) for part in PARTS], FLOAT, "MAT4")
    times = content.accessor([step / STEPS for step in range(STEPS + 1)], FLOAT, "SCALAR")
    content.accessors[times].update(min=[0], max=[1])
    samplers, channels = [], []
    for joint, (name, *_) in enumerate(PARTS):
        if name in SWINGS:
            halves = [SWINGS[name] / 2 * math.sin(2 * math.pi * step / STEPS) for step in range(STEPS + 1)]
            turns = content.accessor([(exact(math.sin(half)), 0, 0, exact(math.cos(half))) for half in halves], FLOAT, "VEC4")
            channels.append({"sampler": len(samplers), "target": {"node": joint + 1, "path": "rotation"}})
            samplers.append({"input": times, "output": turns})
    weights = content.accessor([exact(0.5 - math.cos(2 * math.pi * step / STEPS) / 2) for step in range(STEPS + 1)], FLOAT, "SCALAR")
    channels.append({"sampler": len(samplers), "target": {"node": 0, "path": "weights"}})
    samplers.append({"input": times, "output": weights})
    return content.asset(
        scene=0,
        scenes=[{"nodes": [0, 1]}],
        nodes=[{"name": "figure", "mesh": 0, "skin": 0}, *bones()],
        skins=[{"inverseBindMatrices": binds, "joints": list(range(1, len(PARTS) + 1)), "skeleton": 1}],
        animations=[{"name": "walk", "channels": channels, "samplers": samplers}],
        meshes=[{
            "primitives": [{"attributes": attributes, "indices": indices, "targets": targets}],
            "weights": [0],
            "extras": {"targetNames": ["breath"]},
        }],
    )


def bones() -> list[dict]:
    """A node for each part, below the part that it hangs on."""
    nodes = []
    for joint, (name, above, place, *_) in enumerate(PARTS):
        base = (0, 0, 0) if above is None else PARTS[above][2]
        node = {"name": name, "translation": [p - b for p, b in zip(place, base)]}
        children = [other + 1 for other, part in enumerate(PARTS) if part[1] == joint]
        nodes.append({**node, "children": children} if children else node)
    return nodes
