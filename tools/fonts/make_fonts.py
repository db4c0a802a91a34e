#!/usr/bin/env python3
"""Writes small fonts into a folder, one or more for each character table format: make_fonts.py FOLDER

Every byte is packed here, by the layouts of OpenType; nothing of the Rattle sources is used.
"""
import os
import struct
import sys


def u16(*numbers):
    return b"".join(struct.pack(">H", n & 0xFFFF) for n in numbers)


def u32(*numbers):
    return b"".join(struct.pack(">I", n & 0xFFFFFFFF) for n in numbers)


def head(em, long_places):
    return bytes(18) + u16(em) + bytes(30) + u16(1 if long_places else 0) + u16(0)


def maxp(glyphs):
    return u32(0x00005000) + u16(glyphs)


def hhea(ascender, descender, metrics):
    return u32(0x00010000) + u16(ascender, descender) + bytes(26) + u16(metrics)


def outline(left, bottom, right, top, rest=b"\0\0"):
    """A glyph's header and a byte or two after it."""
    return u16(1, left, bottom, right, top) + rest


def glyphs_and_places(outlines, long_places):
    glyf, places = b"", [0]
    for one in outlines:
        glyf += one + bytes(-len(one) % 2)
        places.append(len(glyf))
    loca = b"".join(u32(p) if long_places else u16(p // 2) for p in places)
    return glyf, loca


def format0(by_code):
    table = bytearray(256)
    for code, glyph in by_code.items():
        table[code] = glyph
    return u16(0, 262, 0) + bytes(table)


def format4(segments, array=b"", odd=0):
    """Segments are (start, end, delta, range offset)."""
    n = len(segments)
    body = u16(*[s[1] for s in segments]) + u16(0)
    body += u16(*[s[0] for s in segments]) + u16(*[s[2] for s in segments]) + u16(*[s[3] for s in segments])
    body += array
    return u16(4, 14 + len(body), 0, 2 * n + odd, 0, 0, 0) + body


def format6(first, glyphs):
    return u16(6, 10 + 2 * len(glyphs), 0, first, len(glyphs)) + u16(*glyphs)


def format12(groups):
    body = b"".join(u32(*g) for g in groups)
    return u16(12, 0) + u32(16 + len(body), 0, len(groups)) + body


def cmap(pairs, subtables):
    """Pairs are (platform, encoding, number of the subtable)."""
    start = 4 + 8 * len(pairs)
    places, body = [], b""
    for table in subtables:
        places.append(start + len(body))
        body += table
    return u16(0, len(pairs)) + b"".join(u16(p, e) + u32(places[k]) for p, e, k in pairs) + body


def font(tables, version=b"\0\1\0\0"):
    """Tables are a list of (tag, bytes); all of them get a record, in this order."""
    n = len(tables)
    at, records, body = 12 + 16 * n, b"", b""
    for tag, data in tables:
        records += tag.encode() + u32(0, at + len(body), len(data))
        body += data + bytes(-len(data) % 4)
    return version + u16(n, 0, 0, 0) + records + body


LETTERS = [
    outline(0, 0, 600, 700),
    outline(50, -10, 560, 710),
    outline(0, 0, 300, 60),
    outline(-20, 900, 280, 960),
    b"",                          # no bytes: a box of zeros
    outline(7, 7, 9, 9)[:8],      # eight bytes: a box of zeros
    outline(10, 0, 5, 700),       # left above right: no box
    outline(0, 20, 300, 10),      # bottom above top: no box
    outline(-32768, -32768, 32767, 32767),
]
METRICS = [(500, 0), (600, 0), (610, 0), (300, 0), (301, 0), (65535, 0)]


def whole(em=1000, long_places=False, ascender=800, descender=-200, pairs=None, subtables=None, version=b"\0\1\0\0", metrics=METRICS, extra=()):
    glyf, loca = glyphs_and_places(LETTERS, long_places)
    count = len(LETTERS)
    hmtx = b"".join(u16(a, b) for a, b in metrics)
    tables = [
        ("cmap", cmap(pairs, subtables)), ("glyf", glyf), ("head", head(em, long_places)),
        ("hhea", hhea(ascender, descender, len(metrics))), ("hmtx", hmtx), ("loca", loca), ("maxp", maxp(count)),
    ]
    return font(tables + list(extra), version)


def offset_array(n, i, words_after):
    """The range offset of segment i of n that points words_after words behind the offset array."""
    return 2 * (n - i) + 2 * words_after


def fonts():
    seg4 = [
        (0x20, 0x20, 3 - 0x20, 0),
        (0x41, 0x43, 0, offset_array(5, 1, 0)),
        (0x305, 0x305, 0, offset_array(5, 2, 3)),
        (0x332, 0x333, 5, offset_array(5, 3, 4)),
        (0xFFFF, 0xFFFF, 1, 0),
    ]
    array = u16(1, 0, 2, 3, 65534, 3)
    yield "format0.ttf", whole(pairs=[(1, 0, 0)], subtables=[format0({0x20: 4, 0x41: 1, 0x42: 2, 0xFF: 200})])
    yield "format4.ttf", whole(pairs=[(0, 3, 0), (3, 1, 0)], subtables=[format4(seg4, array)])
    yield "format4far.ttf", whole(
        em=16, long_places=True, version=b"true", pairs=[(3, 1, 0), (3, 1, 1)],
        subtables=[format4([(0x10, 0x14, 0, offset_array(2, 0, 0)), (0xFFF0, 0xFFFF, 0x20, 0)], u16(7, 40000)),
                   format4([])])
    yield "format6.ttf", whole(em=16384, ascender=0, descender=0, pairs=[(1, 0, 0)], subtables=[format6(0x41, [1, 0, 2, 65535])])
    yield "format6high.ttf", whole(pairs=[(0, 3, 0)], subtables=[u16(6, 14, 0, 0xFFFE, 5) + u16(1, 2)])
    yield "format12.ttf", whole(
        long_places=True, ascender=32767, descender=-32768, pairs=[(3, 1, 1), (3, 10, 0)],
        subtables=[format12([(0x20, 0x20, 3), (0x41, 0x43, 1), (0x305, 0x305, 3), (0x10000, 0x10004, 65533), (0x10FFFE, 0x110000, 7)]),
                   format4([])])
    yield "empty.ttf", whole(pairs=[(3, 10, 0)], subtables=[format12([])], metrics=[(600, 0)])


if __name__ == "__main__":
    folder = sys.argv[1]
    os.makedirs(folder, exist_ok=True)
    for name, data in fonts():
        with open(os.path.join(folder, name), "wb") as out:
            out.write(data)
