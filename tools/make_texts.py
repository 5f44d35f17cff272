#!/usr/bin/env python3
"""Writes a glTF text (an asset and its extras, else nothing) of at most so many bytes, whose extras
have one of four shapes. The same words give the same bytes.

    python3 tools/make_texts.py SHAPE BYTES > text

objects  a list of small objects, each with a string, a number and a truth value
string   one string of printable ASCII, with a character of two bytes and an escape in each 4096 bytes
digits   a list of numbers of one digit
keys     one object whose keys share a long beginning, in no order
"""

import itertools
import sys

from options import reader

FRONT = b'{"asset":{"version":"2.0"},"extras":'
BEHIND = b"}"


def objects():
    for i in itertools.count():
        yield b'{"name":"a%d","x":%d.5,"on":%s}' % (i, i % 1000, b"true" if i % 2 else b"false")


def digits():
    for i in itertools.count():
        yield b"%d" % (i * 7 % 10)


def keys():
    # An odd factor makes each place another key below 2^32, so that the keys come in no order.
    for i in itertools.count():
        yield b'"an_attribute_of_the_material_with_number_%08x":%d' % (i * 2654435761 % 2**32, i % 10)


def joined(opening, pieces, closing, size):
    """As many pieces as fit, with commas between them."""
    left = size - len(opening) - len(closing)
    taken = []
    for piece in pieces:
        left -= len(piece) + bool(taken)
        if left < 0:
            return opening + b",".join(taken) + closing
        taken.append(piece)


def string(size):
    plain = b"".join(b"%c" % (97 + i % 26) for i in range(4088))
    piece = plain + "é".encode() + b"\\u00e9"
    whole = piece * (size // len(piece) + 1)
    end = size - 2
    # Neither an escape nor a character is cut.
    while whole[end] not in plain or whole[end - 1] not in plain:
        end -= 1
    return b'"' + whole[:end] + b'"'


def main():
    parser = reader(__doc__)
    parser.add_argument("shape", choices=["objects", "digits", "keys", "string"])
    parser.add_argument("size", type=int)
    asked = parser.parse_args()
    shape, size = asked.shape, asked.size
    size -= len(FRONT) + len(BEHIND)
    lists = {"objects": objects, "digits": digits}
    if shape in lists:
        text = joined(b"[", lists[shape](), b"]", size)
    elif shape == "keys":
        text = joined(b"{", keys(), b"}", size)
    elif shape == "string":
        text = string(size)
    else:
        sys.exit(__doc__)
    sys.stdout.buffer.write(FRONT + text + BEHIND)


if __name__ == "__main__":
    main()
