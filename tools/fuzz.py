#!/usr/bin/env python3
"""Runs the program on changed models and checks how each run ends.

    tools/fuzz.py [--program PATH] [--cases N] [--seed S] [--processes P] [--keep FOLDER] [MODEL..]

Case K of a seed is the same on each machine: a model of the list (without one, those of examples/) is changed in its bytes, its JSON
text, its JSON tree or its BIN chunk. Every command runs on it, and then:

- the status and the line are such as README's table has, and nothing is written with a refusal;
- time and memory stay within what the input asks for (`Bounds`);
- what is packed unpacks, to an asset whose triangle primitives, those of at most 20,000 elements, draw the same triangles as often;
- unpacking once more changes nothing, and packing what was unpacked is done, and as short or with fewer misses of the vertex cache: vertices have
  other numbers by then, so that the order of triangles may get better once more.

Each failure is told with its seed and number, and its input is left in the folder. Status 1 where there was one.
"""

import base64
import collections
import concurrent.futures
import json
import os
import pathlib
import random
import re
import resource
import struct
import subprocess
import sys
import time

from options import reader

TOP = pathlib.Path(__file__).resolve().parent.parent
NAME = "EXT_meshopt_compression"

REFUSALS = [
    "1 TooLarge", "2 TooShort", "3 Magic", "4 Version", "5 Length", r"6 Chunk \d+", "7 JsonTooLarge", "8 NotUtf8", "9 TooDeep", "10 NotJson",
    "11 DuplicateKey",
    r"12 Field (root|extensionsUsed|extensionsRequired|buffers|bufferViews|accessors|meshes|skins|animations|images) \d+",
    "13 AlreadyPacked", "14 Foreign", r"15 Buffer \d+", r"16 Scheme \d+", r"17 Base64 \d+", r"18 View \d+", r"19 Extension \d+", r"20 Filter \d+",
    r"21 Accessor \d+", "22 TooMuchData", r"23 Stream \d+ (Header|Short|Varint|Table \d+|Width \d+|Tail \d+)", "24 OutputTooLarge",
]
REFUSED = re.compile("refused (" + "|".join(REFUSALS) + ")\n")
DONE = {
    "pack": re.compile(r"packed views \d+ of \d+ in \d+ out \d+\n"),
    "unpack": re.compile(r"unpacked views \d+ of \d+ in \d+ out \d+\n"),
    "analyse": re.compile(""),
    "lists": re.compile(r"listed primitives \d+ in \d+ out \d+\n"),
    "meshlets": re.compile(""),
}
# A limit of size that a packed file may pass though its input doesn't.
LIMITS = re.compile("refused (7 JsonTooLarge|22 TooMuchData|24 OutputTooLarge)\n")


# ---- files


class Model:
    """A container in parts: the JSON as text, the BIN chunk, whether it is a GLB."""

    def __init__(self, content):
        self.binary, self.is_glb = None, content[:4] == b"glTF"
        if not self.is_glb:
            self.text = content
            return
        length, = struct.unpack_from("<I", content, 12)
        self.text, place = content[20:20 + length], 20 + length
        if content[place + 4:place + 8] == b"BIN\0":
            length, = struct.unpack_from("<I", content, place)
            self.binary = content[place + 8:place + 8 + length]

    def content(self):
        if not self.is_glb:
            return self.text
        chunks = struct.pack("<I", len(self.text) + -len(self.text) % 4) + b"JSON" + self.text + b" " * (-len(self.text) % 4)
        if self.binary is not None:
            chunks += struct.pack("<I", len(self.binary) + -len(self.binary) % 4) + b"BIN\0" + self.binary + bytes(-len(self.binary) % 4)
        return b"glTF" + struct.pack("<II", 2, 12 + len(chunks)) + chunks

    def tree(self):
        return json.loads(self.text)


# ---- changes

NUMBERS = [0, 1, 2, 3, 4, 5, 6, 255, 256, 65535, 65536, 2**24, 2**24 + 1, 2**26, 2**29, 2**31, 2**32 - 1, 2**32, -1, 0.5, 1e10, 34963, *range(5120, 5127)]
TEXTS = ["SCALAR", "VEC2", "VEC3", "VEC4", "MAT4", "ATTRIBUTES", "TRIANGLES", "INDICES", "NONE", "OCTAHEDRAL", NAME, "KHR_meshopt_compression", "data:,", "a.bin", ""]
KEYS = ["bufferView", "byteOffset", "byteLength", "byteStride", "count", "componentType", "type", "sparse", "indices", "mode", "attributes", "targets", "extensions", "uri", "buffer", "values"]


def change_bytes(content, chance):
    content = bytearray(content)
    for _ in range(chance.choice([1, 1, 2, 8])):
        at = chance.randrange(len(content) + 1)
        kind = chance.randrange(5)
        if kind == 0 and content:
            content[at % len(content)] = chance.randrange(256)
        elif kind == 1:
            content[at:at] = bytes(chance.randrange(256) for _ in range(chance.randrange(1, 5)))
        elif kind == 2:
            del content[at:at + chance.randrange(1, 9)]
        elif kind == 3:
            del content[at:]
        else:
            other = chance.randrange(len(content) + 1)
            content[at:at] = content[other:other + chance.randrange(1, 64)]
    return bytes(content)


def places_in(value, found, holder=None, key=None):
    """Each value of a tree, with what holds it."""
    if holder is not None:
        found.append((holder, key))
    if isinstance(value, dict):
        for name in value:
            places_in(value[name], found, value, name)
    elif isinstance(value, list):
        for at in range(len(value)):
            places_in(value[at], found, value, at)
    return found


def change_tree(tree, chance):
    for _ in range(chance.choice([1, 1, 2, 3, 6])):
        places = places_in(tree, [])
        if not places:
            return tree
        holder, key = chance.choice(places)
        kind = chance.randrange(8)
        if kind < 3:
            old = holder[key]
            near = [old + 1, old - 1, old * 2] if isinstance(old, int) and not isinstance(old, bool) else []
            holder[key] = chance.choice(NUMBERS + near * 8)
        elif kind == 3:
            holder[key] = chance.choice(TEXTS)
        elif kind == 4:
            del holder[key]
        elif kind == 5:
            holder[key] = json.loads(json.dumps(holder[chance.choice(list(holder) if isinstance(holder, dict) else range(len(holder)))]))
        elif kind == 6 and isinstance(holder, dict):
            holder[chance.choice(KEYS)] = json.loads(json.dumps(holder[key]))
        elif isinstance(holder, list):
            holder.insert(key, json.loads(json.dumps(chance.choice(holder))))
    return tree


def changed(content, chance):
    kind = chance.randrange(10)
    if kind == 0:
        return change_bytes(content, chance)
    model = Model(content)
    if kind == 1:
        model.text = change_bytes(model.text, chance)
    elif kind < 7:
        model.text = json.dumps(change_tree(model.tree(), chance), separators=(",", ":")).encode()
    if model.binary and (kind >= 7 or chance.randrange(4) == 0):
        model.binary = change_bytes(model.binary, chance)
    if model.is_glb and model.binary is not None and chance.randrange(8) == 0:
        tree = model.tree() if kind != 1 else None
        if isinstance(tree, dict) and isinstance(tree.get("buffers"), list) and tree["buffers"] and isinstance(tree["buffers"][0], dict):
            tree["buffers"][0]["uri"] = "data:application/octet-stream;base64," + base64.b64encode(model.binary).decode()
            model.text, model.binary, model.is_glb = json.dumps(tree).encode(), None, False
    return model.content()


# ---- assets, as plainly as can be

SIZES = {5120: 1, 5121: 1, 5122: 2, 5123: 2, 5125: 4, 5126: 4}
WIDTHS = {"SCALAR": 1, "VEC2": 2, "VEC3": 3, "VEC4": 4}


class Asset:
    """What the triangles of an unpacked GLB, or of an input without streams, draw."""

    def __init__(self, content):
        model = Model(content)
        self.tree, self.binary = model.tree(), model.binary
        self.buffers = [self.buffer(at, item) for at, item in enumerate(self.tree.get("buffers", []))]

    def buffer(self, at, item):
        if "uri" not in item:
            return self.binary if at == 0 else None
        head, _, rest = item["uri"].partition(",")
        return base64.b64decode(rest) if head.startswith("data:") and head.endswith(";base64") else None

    def view(self, at):
        view = self.tree["bufferViews"][at]
        offset = view.get("byteOffset", 0)
        return self.buffers[view["buffer"]][offset:offset + view["byteLength"]], view.get("byteStride")

    def elements(self, at):
        """The elements of an accessor of scalars or vectors, or none where it isn't one that is compared."""
        accessor = self.tree["accessors"][at]
        if accessor["type"] not in WIDTHS:
            return None
        size, count = SIZES[accessor["componentType"]] * WIDTHS[accessor["type"]], accessor["count"]
        if count > 20000:
            return None
        items = self.slices(accessor, size, count) if "bufferView" in accessor else [bytes(size)] * count
        if "sparse" in accessor:
            sparse = accessor["sparse"]
            width = SIZES[sparse["indices"]["componentType"]]
            places = [int.from_bytes(index, "little") for index in self.slices(sparse["indices"], width, sparse["count"], width)]
            if any(b <= a for a, b in zip(places, places[1:])) or places[-1] >= count:
                return None
            for place, value in zip(places, self.slices(sparse["values"], size, sparse["count"], size)):
                items[place] = value
        return items

    def slices(self, part, size, count, stride=None):
        content, own = self.view(part["bufferView"])
        stride, offset = stride or own or size, part.get("byteOffset", 0)
        return [content[offset + k * stride:offset + k * stride + size] for k in range(count)]

    def drawn(self):
        """Of each triangle primitive how often each triangle, from its least corner on, stands in it; none where it isn't a plain list."""
        return [self.triangles(p) for m in self.tree.get("meshes", []) for p in m["primitives"] if p.get("mode", 4) == 4 and p["attributes"]]

    def triangles(self, primitive):
        accessors = list(primitive["attributes"].values())
        for target in primitive.get("targets", []):
            accessors += target.values()
        columns = [self.elements(at) for at in accessors]
        if any(column is None for column in columns) or len({len(column) for column in columns}) != 1:
            return None
        corners = range(len(columns[0]))
        if "indices" in primitive:
            numbers = self.elements(primitive["indices"])
            if numbers is None:
                return None
            corners = [int.from_bytes(number, "little") for number in numbers]
        if len(corners) % 3 or any(corner >= len(columns[0]) for corner in corners):
            return None
        tuples = [tuple(column[corner] for column in columns) for corner in corners]
        triangles = collections.Counter()
        for at in range(0, len(tuples), 3):
            a, b, c = tuples[at:at + 3]
            triangles[min((a, b, c), (b, c, a), (c, a, b))] += 1
        return triangles


# ---- runs


class Run:
    def __init__(self, status, out, told, seconds):
        self.status, self.out, self.told, self.seconds = status, out, told, seconds


def asked_for(content):
    """The bytes that views and accessors of a file ask for together, as far as its JSON can be read; at most 2^31."""
    try:
        tree = Model(content).tree()
        views = sum(view["byteLength"] for view in tree.get("bufferViews", []))
        elements = sum(item["count"] * 64 for item in tree.get("accessors", []))
        return max(0, min(2**31, views + elements))
    except Exception:
        return 0


class Bounds:
    """The seconds and the bytes that a run may take, by the bytes of its input and those that its numbers ask for."""

    def __init__(self, content):
        asked = asked_for(content)
        self.seconds = 2 + (len(content) + asked) / 2e6
        self.memory = 2**28 + 200 * len(content) + 8 * asked


def run(program, command, content):
    bounds = Bounds(content)

    def limit():
        resource.setrlimit(resource.RLIMIT_AS, (int(bounds.memory), int(bounds.memory)))

    begun = time.monotonic()
    try:
        done = subprocess.run([program, command], input=content, capture_output=True, preexec_fn=limit, timeout=4 * bounds.seconds)
    except subprocess.TimeoutExpired:
        raise Failure(f"{command}: not done in {4 * bounds.seconds:.0f} seconds") from None
    seconds = time.monotonic() - begun
    return Run(done.returncode, done.stdout, done.stderr.decode(errors="replace"), seconds)


class Failure(Exception):
    pass


def expect(holds, what):
    if not holds:
        raise Failure(what)


def run_checked(program, command, content):
    ended = run(program, command, content)
    if ended.status == 0:
        expect(DONE[command].fullmatch(ended.told), f"{command}: done with {ended.told!r}")
    else:
        expect(ended.status == 1 and REFUSED.fullmatch(ended.told), f"{command}: status {ended.status} with {ended.told!r}")
        expect(ended.out == b"", f"{command}: refused, with {len(ended.out)} bytes of output")
    return ended


def misses(program, content):
    return sum(int(count) for count in re.findall(rb" misses (\d+) ", run_checked(program, "analyse", content).out))


def check_packed(program, content, packed):
    unpacked = run_checked(program, "unpack", packed.out)
    if unpacked.status:
        expect(LIMITS.fullmatch(unpacked.told), f"what was packed is not unpacked: {unpacked.told!r}")
        return
    expect(Asset(unpacked.out).drawn() == Asset(content).drawn(), "what was packed draws other triangles")
    twice = run_checked(program, "unpack", unpacked.out)
    expect(twice.out == unpacked.out, "unpacking once more changes something")
    again = run_checked(program, "pack", unpacked.out)
    expect(again.status == 0, f"what was unpacked is not packed: {again.told!r}")
    if len(again.out) > len(packed.out):
        fewer = misses(program, again.out) < misses(program, packed.out)
        expect(fewer, f"what was unpacked is packed in {len(again.out)} bytes, which were {len(packed.out)}, with as many misses")


def check_case(program, commands, content):
    ends = {command: run_checked(program, command, content) for command in commands}
    if ends["pack"].status == 0:
        check_packed(program, content, ends["pack"])
    if ends["unpack"].status == 0:
        once = ends["unpack"].out
        expect(run_checked(program, "unpack", once).out == once, "unpacking what was unpacked changes something")
    return "+".join(str(ends[command].status) for command in commands)


def case_of(models, seed, number):
    chance = random.Random(f"{seed} {number}")
    content = chance.choice(models)
    return changed(content, chance)


def check_some(program, commands, models, seed, numbers, keep):
    """How the cases ended, and the failures."""
    kinds, failures = collections.Counter(), []
    for number in numbers:
        content = case_of(models, seed, number)
        try:
            kinds[check_case(program, commands, content)] += 1
        except Failure as failure:
            failures.append(f"seed {seed} case {number}: {failure}")
            if keep:
                (pathlib.Path(keep) / f"{seed}_{number}").write_bytes(content)
    return kinds, failures


def options():
    parser = reader(__doc__)
    parser.add_argument("--program", default=TOP / "crates" / "glbpack" / "out" / "glbpack", type=pathlib.Path)
    parser.add_argument("--cases", default=300, type=int)
    parser.add_argument("--seed", default="1")
    parser.add_argument("--processes", default=os.cpu_count() or 1, type=int)
    parser.add_argument("--keep", help="a folder for the inputs of failures")
    parser.add_argument("models", nargs="*", type=pathlib.Path, metavar="MODEL")
    return parser.parse_args()


def main():
    asked = options()
    paths = asked.models or sorted(path for path in (TOP / "examples").iterdir() if path.suffix in (".glb", ".gltf") and path.stat().st_size < 2**16)
    models = [path.read_bytes() for path in paths]
    commands = [c for c in DONE if subprocess.run([asked.program, c], input=b"", capture_output=True).returncode != 2]
    piece = max(1, min(200, asked.cases // (4 * asked.processes)))
    pieces = [range(at, min(at + piece, asked.cases)) for at in range(0, asked.cases, piece)]
    kinds, failures, begun = collections.Counter(), [], time.monotonic()
    with concurrent.futures.ProcessPoolExecutor(asked.processes) as pool:
        runs = [pool.submit(check_some, asked.program, commands, models, asked.seed, numbers, asked.keep) for numbers in pieces]
        for done in concurrent.futures.as_completed(runs):
            found, failed = done.result()
            kinds += found
            failures += failed
            for failure in failed:
                print(failure, flush=True)
    print(f"{asked.cases} cases of seed {asked.seed} in {time.monotonic() - begun:.0f} s: {len(failures)} failures")
    for kind, count in kinds.most_common():
        print(f"  {count} with statuses {kind} of {', '.join(commands)}")
    sys.exit(1 if failures else 0)


if __name__ == "__main__":
    main()
