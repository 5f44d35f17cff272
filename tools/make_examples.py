#!/usr/bin/env python3
"""Writes the models of examples/ from their parts: python3 tools/make_examples.py"""

import json
import math
import pathlib
import struct

from example_meshes import cube, figure, hill, torus
from options import reader

EXAMPLES = pathlib.Path(__file__).resolve().parent.parent / "examples"

# A row of trees along a road, with a camera that looks down it. No mesh: each tree is a named place.
SCENE = {
    "asset": {"version": "2.0", "generator": "glbpack examples"},
    "scene": 0,
    "scenes": [{"name": "road", "nodes": [0, 1]}],
    "nodes": [
        {"name": "eye", "camera": 0, "translation": [0.0, 1.7, 8.0]},
        {"name": "trees", "children": [2, 3, 4]},
        {"name": "ash", "translation": [-3.5, 0.0, 2.0], "scale": [1.0, 1.25, 1.0]},
        {"name": "elm", "translation": [3.5, 0.0, -2.0], "rotation": [0.0, 0.7071068, 0.0, 0.7071068]},
        {"name": "oak", "translation": [-3.5, 0.0, -6.0]},
    ],
    "cameras": [
        {"name": "eye", "type": "perspective", "perspective": {"yfov": 0.8, "znear": 0.1, "aspectRatio": 1.5}},
    ],
    "materials": [
        {"name": "bark", "pbrMetallicRoughness": {"baseColorFactor": [0.35, 0.2, 0.1, 1], "metallicFactor": 0}},
    ],
}

# A spiral of points with colors, which turns: four buffer views, of which packing makes streams where they are shorter.
POINTS = 240
TIMES = 16


def spiral() -> tuple[dict, bytes]:
    # Multiples of 2^-10, so that the least and the greatest are spelled exactly.
    points = [
        (round(math.cos(i / 12) * i * 16) / 1024, i / 64, round(math.sin(i / 12) * i * 16) / 1024) for i in range(POINTS)
    ]
    positions = b"".join(struct.pack("<3f", *point) for point in points)
    least, greatest = [min(part) for part in zip(*points)], [max(part) for part in zip(*points)]
    colors = b"".join(struct.pack("<4B", i, 255 - i, 128, 255) for i in range(POINTS))
    times = struct.pack(f"<{TIMES}f", *(i / 4 for i in range(TIMES)))
    turns = b"".join(struct.pack("<4f", 0, round(math.sin(i / 10), 4), 0, round(math.cos(i / 10), 4)) for i in range(TIMES))
    views, offset = [], 0
    for part in (positions, colors, times, turns):
        views.append({"buffer": 0, "byteOffset": offset, "byteLength": len(part)})
        offset += len(part)
    asset = {
        "asset": {"version": "2.0", "generator": "glbpack examples"},
        "scene": 0,
        "scenes": [{"nodes": [0]}],
        "nodes": [{"name": "spiral", "mesh": 0}],
        "meshes": [{"primitives": [{"mode": 0, "attributes": {"POSITION": 0, "COLOR_0": 1}}]}],
        "animations": [{
            "channels": [{"sampler": 0, "target": {"node": 0, "path": "rotation"}}],
            "samplers": [{"input": 2, "output": 3}],
        }],
        "accessors": [
            {"bufferView": 0, "componentType": 5126, "count": POINTS, "type": "VEC3", "min": least, "max": greatest},
            {"bufferView": 1, "componentType": 5121, "normalized": True, "count": POINTS, "type": "VEC4"},
            {"bufferView": 2, "componentType": 5126, "count": TIMES, "type": "SCALAR", "min": [0], "max": [(TIMES - 1) / 4]},
            {"bufferView": 3, "componentType": 5126, "count": TIMES, "type": "VEC4"},
        ],
        "bufferViews": views,
        "buffers": [{"byteLength": offset}],
    }
    return asset, positions + colors + times + turns


# A triangle whose accessors have no buffer view: its elements are zeros. No view needs the buffer's bytes.
ZEROS = {
    "asset": {"version": "2.0", "generator": "glbpack examples"},
    "buffers": [{"name": "nothing refers to it", "byteLength": 12}],
    "accessors": [
        {"componentType": 5126, "count": 3, "type": "VEC3"},
        {"componentType": 5123, "count": 3, "type": "SCALAR"},
    ],
    "meshes": [{"primitives": [{"attributes": {"POSITION": 0}, "indices": 1}]}],
    "nodes": [{"mesh": 0}],
}

# The same number in several spellings, escapes, and white space wherever JSON allows it.
SPELLINGS = """\t{
\t"asset" : { "version" : "2.0" , "copyright" : "\\u00a9 nobody \\/ 2026" } ,
\t"scenes" : [ { "nodes" : [ 0 ] } ] ,
\t"scene" : 0 ,
\t"nodes" : [
\t\t{ "name" : "na\\u00efve \\ud83c\\udf33" , "translation" : [ 1.0 , 1e0 , 10E-1 ] , "scale" : [ 1 , 1.00 , 0.1e+1 ] }
\t] ,
\t"extras" : { "\\u006b" : -0 , "k2" : -0.0 , "empty" : { } , "none" : [ ] , "yes" : true , "no" : false , "nil" : null }
}
"""


def chunk(kind: bytes, content: bytes) -> bytes:
    return struct.pack("<I", len(content)) + kind + content


def glb(text: str, *others: bytes) -> bytes:
    data = text.encode()
    body = chunk(b"JSON", data + b" " * (-len(data) % 4)) + b"".join(others)
    return b"glTF" + struct.pack("<II", 2, 12 + len(body)) + body


def write_beside(name: str, asset: dict, content: bytes) -> None:
    """Writes a model as a text with its buffer in a file beside it, laid out as Blender's exporter does."""
    folder = EXAMPLES / "beside"
    folder.mkdir(exist_ok=True)
    asset["buffers"] = [{"byteLength": len(content), "uri": f"{name}.bin"}]
    (folder / f"{name}.bin").write_bytes(content)
    (folder / f"{name}.gltf").write_text(json.dumps(asset, indent="\t") + "\n")


def main() -> None:
    reader(__doc__).parse_args()
    EXAMPLES.mkdir(exist_ok=True)
    pretty = json.dumps(SCENE, indent=2)
    notes = chunk(b"NOTE", b"three trees, one road\n\0\0")
    (EXAMPLES / "scene.glb").write_bytes(glb(pretty))
    (EXAMPLES / "scene.gltf").write_text(pretty + "\n")
    (EXAMPLES / "notes.glb").write_bytes(glb(pretty, chunk(b"BIN\0", bytes(range(16))), notes))
    models = {"points": spiral(), "cube": cube(), "torus": torus(100, 100), "hill": hill(48), "figure": figure()}
    for name, (asset, content) in models.items():
        content += bytes(-len(content) % 4)
        (EXAMPLES / f"{name}.glb").write_bytes(glb(json.dumps(asset), chunk(b"BIN\0", content)))
    write_beside("cube", *cube())
    (EXAMPLES / "spellings.gltf").write_text(SPELLINGS)
    (EXAMPLES / "zeros.gltf").write_text(json.dumps(ZEROS, indent=2) + "\n")


if __name__ == "__main__":
    main()
