#!/usr/bin/env python3
"""Compares the coders of streams with the oracle, an independent implementation in Python:

    python3 tools/compare_streams.py ORACLE [--cases N] [--seed S] [--program PATH]

ORACLE is the folder that holds `glbpack_oracle`; the program is gp_coders. Streams are made that no encoder of this
project writes: every mode and code, unread bits and bytes at random, bytes cut off, added and changed. Lists and
elements for the encoders are smooth, constant and random. Any other answer, byte or fault is told, and fails.
"""

import pathlib
import random
import struct
import subprocess
import sys

from options import reader

TOP = pathlib.Path(__file__).resolve().parent.parent


def varint(random_, value=None):
    """A varint, now and then spelled longer than it must be, or past 32 bits."""
    if value is None:
        value = random_.choice([0, 1, 2, 3, 30, 127, 128, 16383, 16384, 65535, 131071, 2**31, 2**32 - 1, random_.getrandbits(random_.randint(1, 32))])
    out = bytearray()
    while value >= 128:
        out.append(value % 128 + 128)
        value //= 128
    out.append(value)
    if random_.random() < 0.1 and len(out) < 5:
        out[-1] += 128
        out += b"\x80" * random_.randint(0, 4 - len(out)) + b"\x00"
    if random_.random() < 0.03:
        out = bytearray(b"\xff\xff\xff\xff") + bytes([random_.choice([0x0F, 0x10, 0x1F, 0x7F, 0xFF])])
    return bytes(out)


def attribute_stream(random_, count, stride):
    out = bytearray(b"\xa0")
    block = min(8192 // stride // 16 * 16, 256)
    left = count
    while left > 0:
        elements = min(left, block)
        left -= elements
        groups = (elements + 15) // 16
        for _ in range(stride):
            modes = [random_.randint(0, 3) for _ in range(groups)]
            header = bytearray(random_.randbytes((groups + 3) // 4)) if random_.random() < 0.5 else bytearray((groups + 3) // 4)
            for at, mode in enumerate(modes):
                shift = 2 * (at % 4)
                header[at // 4] = header[at // 4] & ~(3 << shift) & 0xFF | mode << shift
            out += header
            for mode in modes:
                packed = random_.randbytes([0, 4, 8, 16][mode])
                if random_.random() < 0.3:
                    packed = bytes([random_.choice([0, 0xFF, 0x3F, 0xF0])]) * len(packed)
                bits = {1: 2, 2: 4}.get(mode, 8)
                many = sum((byte >> shift) % 2**bits == 2**bits - 1 for byte in packed for shift in range(0, 8, bits)) if mode in (1, 2) else 0
                out += packed + random_.randbytes(many)
    return bytes(out) + random_.randbytes(max(32, stride))


def triangle_stream(random_, triangles):
    code = lambda: random_.choice([random_.randint(0, 255), random_.randint(0xF0, 0xFF), random_.randint(0, 0x2F)])
    codes = bytes(code() for _ in range(triangles))
    unread = bytearray()
    table = bytearray(random_.choice([0x00, 0x76, 0x12, 0xEE, 0x0E, 0x77]) if random_.random() < 0.5 else random_.randint(0, 14) * 16 + random_.randint(0, 14) for _ in range(14))
    table += random_.randbytes(2)
    if random_.random() < 0.05:
        table[random_.randint(0, 13)] |= random_.choice([0x0F, 0xF0])
    small = random_.random() < 0.7
    index = lambda: varint(random_, random_.randint(0, 60) if small else None)
    for byte in codes:
        if byte < 0xF0:
            unread += index() if byte % 16 == 15 else b""
            continue
        zw = table[byte - 0xF0] if byte < 0xFE else random_.choice([0, random_.randint(0, 255)])
        unread += bytes([zw]) if byte >= 0xFE else b""
        for explicit in (byte == 0xFF, zw // 16 == 15, zw % 16 == 15):
            unread += index() if explicit else b""
    return b"\xe1" + codes + bytes(unread) + bytes(table)


def spoiled(random_, stream):
    """The stream, most often as it is."""
    what = random_.random()
    if what < 0.6 or not stream:
        return stream
    if what < 0.75:
        return stream[: random_.randint(0, len(stream))]
    if what < 0.85:
        return stream + random_.randbytes(random_.randint(1, 3))
    at = 0 if what < 0.88 else random_.randrange(len(stream))
    return stream[:at] + bytes([random_.getrandbits(8)]) + stream[at + 1 :]


def elements(random_, count, stride):
    shape = random_.randint(0, 3)
    if shape == 0:
        return random_.randbytes(count * stride)
    if shape == 1:
        return random_.randbytes(stride) * count
    step = [random_.randint(-3, 3) for _ in range(stride)]
    noise = [0, 0, 2, 20][shape]
    return bytes((i * step[p] + random_.randint(0, noise)) % 256 for i in range(count) for p in range(stride))


def triangle_list(random_):
    shape, side = random_.randint(0, 5), random_.randint(1, 12)
    if shape == 0:  # a grid
        corners = lambda x, y: [y * (side + 1) + x, y * (side + 1) + x + 1, (y + 1) * (side + 1) + x + 1, (y + 1) * (side + 1) + x]
        out = [v for y in range(side) for x in range(side) for v in (lambda a, b, c, d: [a, b, c, a, c, d])(*corners(x, y))]
    elif shape == 1:  # a strip
        out = [v for i in range(side) for v in ([i, i + 1, i + 2] if i % 2 == 0 else [i + 1, i, i + 2])]
    elif shape == 2:  # a soup
        out = [random_.randint(0, 40) for _ in range(3 * side)]
    elif shape == 3:  # repeated and degenerate triangles
        out = [v for _ in range(side) for v in random_.choice([[1, 1, 2], [0, 1, 2], [2, 1, 0], [3, 3, 3], [1, 2, 0]])]
    elif shape == 4:  # near the greatest index
        out = [2**24 - 1 - random_.randint(0, 40) for _ in range(3 * side)]
    else:
        out = [random_.getrandbits(24) for _ in range(3 * side)]
    if random_.random() < 0.3:
        triangles = [out[i : i + 3] for i in range(0, len(out), 3)]
        random_.shuffle(triangles)
        out = [v for triangle in triangles for v in triangle]
    return out


def index_list(random_):
    near = random_.randint(0, 2**30 - 200)
    pick = random_.choice([lambda: random_.randint(0, 99), lambda: near + random_.randint(0, 199), lambda: random_.getrandbits(30), lambda: random_.choice([0, 29, 30, 31, 60])])
    return [pick() for _ in range(random_.randint(0, 60))]


def debug(fault):
    """A fault as the program tells it."""
    name, numbers = fault.args[0], fault.args[1:]
    fields = {"Table": "entry", "Width": "at", "Tail": "left"}
    return f"{name} {{ {fields[name]}: {numbers[0]} }}" if name in fields else name


def case(random_, streams):
    """The words of a case, its input, and the oracle's call."""
    kind = random_.randint(0, 5)
    stride = random_.choice([4, 8, 12, 16, 20, 32, 64, 100, 128, 252, 256])
    block = min(8192 // stride // 16 * 16, 256)
    count = random_.choice([0, 1, 15, 16, 17, block - 1, block, block + 1, random_.randint(0, 2 * block)])
    width = random_.choice([2, 4])
    if kind == 0:
        data = spoiled(random_, attribute_stream(random_, count, stride))
        return ["attributes", "decode", count, stride], data, lambda: streams.decode_attributes(data, count, stride)
    if kind == 1:
        data = elements(random_, count, stride)
        return ["attributes", "encode", count, stride], data, lambda: streams.encode_attributes(data, count, stride)
    if kind == 2:
        many = random_.randint(0, 12)
        data = spoiled(random_, b"\xd1" + b"".join(varint(random_, random_.choice([None, random_.randint(0, 200)])) for _ in range(many)) + random_.randbytes(4))
        return ["sequence", "decode", many, width], data, lambda: streams.decode_sequence(data, many, width)
    if kind == 3:
        triangles = random_.randint(0, 20)
        data = spoiled(random_, triangle_stream(random_, triangles))
        return ["triangles", "decode", 3 * triangles, width], data, lambda: streams.decode_triangles(data, 3 * triangles, width)
    words, make, encode = (["sequence", "encode"], index_list, streams.encode_sequence) if kind == 4 else (["triangles", "encode"], triangle_list, streams.encode_triangles)
    indices = make(random_)
    return words, struct.pack(f"<{len(indices)}I", *indices), lambda: encode(indices)


def large(program, random_, streams):
    """65,536 elements of 16 bytes of each shape: the oracle's bytes, and back."""
    count, stride = 65536, 16
    shapes = {
        "random": random_.randbytes(count * stride),
        "smooth": bytes((i * (p % 5) // 3 + random_.randint(0, 2)) % 256 for i in range(count) for p in range(stride)),
        "constant": random_.randbytes(stride) * count,
    }
    wrong = 0
    for shape, data in shapes.items():
        words = ["attributes", "encode", str(count), str(stride)]
        coded = subprocess.run([program, *words], input=data, capture_output=True).stdout
        words[1] = "decode"
        back = subprocess.run([program, *words], input=coded, capture_output=True).stdout
        same = coded == streams.encode_attributes(data, count, stride) and back == data
        wrong += not same
        print(f"{count} {shape} elements of {stride} bytes in {len(coded)} bytes: {'as the oracle, and back' if same else 'DIFFER'}")
    return 1 if wrong else 0


def main():
    parser = reader(__doc__)
    parser.add_argument("oracle")
    parser.add_argument("--cases", type=int, default=3000)
    parser.add_argument("--seed", type=int, default=1)
    parser.add_argument("--large", action="store_true", help="65,536 elements of three shapes, encoded, compared and decoded, in place of many cases")
    parser.add_argument("--program", default=str(TOP / "crates/gp_coders/out/gp_coders"))
    asked = parser.parse_args()
    sys.path.insert(0, asked.oracle)
    from glbpack_oracle import streams
    from glbpack_oracle.faults import StreamFault

    random_ = random.Random(asked.seed)
    if asked.large:
        sys.exit(large(asked.program, random_, streams))
    wrong, answers = 0, {}
    for number in range(asked.cases):
        words, data, call = case(random_, streams)
        try:
            expected = (0, call(), "")
        except StreamFault as fault:
            expected = (1, b"", debug(fault))
        ran = subprocess.run([asked.program, *map(str, words)], input=data, capture_output=True)
        answered = (ran.returncode, ran.stdout, ran.stderr.decode().strip())
        told = (words[0], words[1], expected[2].split(" ")[0])
        answers[told] = answers.get(told, 0) + 1
        if answered != expected:
            wrong += 1
            print(f"case {number}, seed {asked.seed}: {words} of {data.hex()}: {answered} where the oracle has {expected}")
    for told, many in sorted(answers.items()):
        print(f"{many:6} {' '.join(told)}")
    print(f"{wrong} of {asked.cases} cases differ")
    sys.exit(1 if wrong else 0)


if __name__ == "__main__":
    main()
