#!/usr/bin/env python3
"""An independent reader: prints what a font file answers: its em, its codes and glyphs, and each glyph's advances and box; or its fault.

Written from OpenType in plain Python; nothing of the Rattle sources is used. With --fonttools the
character table, advances and boxes come from the library fontTools instead, for fonts that it accepts.
"""
import struct
import sys


class Fault(Exception):
    def __init__(self, number, tag, place):
        super().__init__(number)
        self.line = "fault,%d,%s,%d" % (number, tag.hex(), place)


NONE = b"\0\0\0\0"


class Part:
    """A part of the file, with the tag that its faults carry."""

    def __init__(self, data, tag, start, end):
        self.data, self.tag, self.start, self.len = data, tag, start, end - start

    def fault(self, number, at):
        raise Fault(number, self.tag, self.start + at)

    def field(self, at, size):
        if at + size > self.len:
            self.fault(5, at)
        return self.data[self.start + at:self.start + at + size]

    def u16(self, at):
        return struct.unpack(">H", self.field(at, 2))[0]

    def i16(self, at):
        return struct.unpack(">h", self.field(at, 2))[0]

    def u32(self, at):
        return struct.unpack(">I", self.field(at, 4))[0]


def directory(data):
    whole = Part(data, NONE, 0, len(data))
    version = whole.field(0, 4)
    if version not in (b"\0\1\0\0", b"true"):
        whole.fault(6, 0)
    count = whole.u16(4)
    for at in (6, 8, 10):
        whole.u16(at)
    tables = {}
    for i in range(count):
        at = 12 + 16 * i
        tag = whole.field(at, 4)
        whole.u32(at + 4)
        offset, length = whole.u32(at + 8), whole.u32(at + 12)
        tables.setdefault(tag, (at + 8, offset, length))
    return tables, 12 + 16 * count


def table(data, tables, end, tag):
    if tag not in tables:
        raise Fault(7, tag, end)
    at, offset, length = tables[tag]
    if offset + length > len(data):
        raise Fault(5, tag, at)
    return Part(data, tag, offset, offset + length)


class Font:
    def __init__(self, data, platform, encoding):
        tables, end = directory(data)
        get = lambda tag: table(data, tables, end, tag)
        head = get(b"head")
        self.em = head.u16(18)
        if not 16 <= self.em <= 16384:
            head.fault(1, 18)
        places = head.u16(50)
        if places not in (0, 1):
            head.fault(6, 50)
        maxp = get(b"maxp")
        self.count = maxp.u16(4)
        hhea = get(b"hhea")
        ascender, descender = hhea.i16(4), hhea.i16(6)
        if ascender < descender:
            hhea.fault(9, 4)
        metrics = hhea.u16(34)
        if not 1 <= metrics <= self.count:
            hhea.fault(6, 34)
        self.down = ascender - descender
        hmtx = get(b"hmtx")
        self.advances = []
        for i in range(metrics):
            hmtx.field(4 * i, 4)
            self.advances.append(hmtx.u16(4 * i))
        loca = get(b"loca")
        self.places = []
        for i in range(self.count + 1):
            self.places.append(loca.u32(4 * i) if places else 2 * loca.u16(2 * i))
        glyf = get(b"glyf")
        self.glyf = data[glyf.start:glyf.start + glyf.len]
        self.codes = self.characters(get(b"cmap"), platform, encoding)

    def characters(self, cmap, platform, encoding):
        cmap.u16(0)
        count = cmap.u16(2)
        found = None
        for i in range(count):
            at = 4 + 8 * i
            pair = (cmap.u16(at), cmap.u16(at + 2))
            offset = cmap.u32(at + 4)
            if found is None and pair == (platform, encoding):
                found = offset
        if found is None:
            cmap.fault(7, 4 + 8 * count)
        return subtable(cmap, found)

    def across(self, glyph):
        if glyph >= self.count:
            return 0
        return self.advances[min(glyph, len(self.advances) - 1)]

    def box(self, glyph):
        if glyph >= self.count:
            return (0, 0, 0, 0)
        part = self.glyf[self.places[glyph]:self.places[glyph + 1]]
        if self.places[glyph + 1] < self.places[glyph] or len(part) < 10:
            return (0, 0, 0, 0)
        left, bottom, right, top = struct.unpack(">hhhh", part[2:10])
        return None if right < left or top < bottom else (left, bottom, right, top)


HEADERS = {0: [0, 2, 4], 4: [0, 2, 4, 6, 8, 10, 12], 6: [0, 2, 4, 6, 8], 12: [0, 2, 4, 8, 12]}
LENGTHS = {0: 6, 4: 14, 6: 10, 12: 16}


def subtable(cmap, offset):
    kind = cmap.u16(offset)
    if kind not in HEADERS:
        cmap.fault(6, offset)
    length = cmap.u32(offset + 4) if kind == 12 else cmap.u16(offset + 2)
    if offset + length > cmap.len:
        cmap.fault(5, offset + (4 if kind == 12 else 2))
    part = Part(cmap.data, cmap.tag, cmap.start + offset, cmap.start + offset + length)
    fields = HEADERS[kind]
    for at, end in zip(fields, fields[1:] + [LENGTHS[kind]]):
        part.field(at, end - at)
    found = {0: read0, 4: read4, 6: read6, 12: read12}[kind](part)
    return {code: glyph for code, glyph in found if 1 <= glyph <= 65535 and code <= 0x10FFFF}


def read0(part):
    return [(code, part.field(6 + code, 1)[0]) for code in range(256) if 7 + code <= part.len]


def read6(part):
    first, count = part.u16(6), part.u16(8)
    return [(first + i, part.u16(10 + 2 * i)) for i in range(count) if 12 + 2 * i <= part.len and first + i < 65536]


def read4(part):
    doubled = part.u16(6)
    if doubled % 2:
        part.fault(6, 6)
    n = doubled // 2
    ends = [part.u16(14 + 2 * i) for i in range(n)]
    starts, last = [], -1
    for i in range(n):
        at = 16 + 2 * n + 2 * i
        start = part.u16(at)
        if start <= last or start > ends[i]:
            part.fault(8, at)
        starts.append(start)
        last = ends[i]
    deltas = [part.u16(16 + 4 * n + 2 * i) for i in range(n)]
    offsets = [part.u16(16 + 6 * n + 2 * i) for i in range(n)]
    found = []
    for i in range(n):
        for code in range(starts[i], ends[i] + 1):
            if offsets[i] == 0:
                found.append((code, (code + deltas[i]) % 65536))
            else:
                at = 16 + 6 * n + 2 * i + offsets[i] // 2 * 2 + 2 * (code - starts[i])
                if at + 2 <= part.len and part.u16(at):
                    found.append((code, (part.u16(at) + deltas[i]) % 65536))
    return found


def read12(part):
    count, last, groups = part.u32(12), -1, []
    for i in range(count):
        at = 16 + 12 * i
        start = part.u32(at)
        if start <= last:
            part.fault(8, at)
        end = part.u32(at + 4)
        if start > end:
            part.fault(8, at)
        groups.append((start, end, part.u32(at + 8)))
        last = end
    found = []
    for start, end, glyph in groups:
        top = min(end, 0x10FFFF, start + 65535 - glyph) if glyph <= 65535 else start - 1
        found.extend((code, glyph + code - start) for code in range(start, top + 1))
    return found


def by_fonttools(path, platform, encoding):
    from fontTools.ttLib import TTFont
    font = TTFont(path, lazy=True)
    chosen = [t for t in font["cmap"].tables if (t.platformID, t.platEncID) == (platform, encoding)][0]
    order = {name: i for i, name in enumerate(font.getGlyphOrder())}
    yield "em,%d" % font["head"].unitsPerEm
    for code in sorted(chosen.cmap):
        if order[chosen.cmap[code]]:
            yield "code,%d,%d" % (code, order[chosen.cmap[code]])
    down = font["hhea"].ascent - font["hhea"].descent
    for name, i in order.items():
        glyph = font["glyf"][name]
        box = (0, 0, 0, 0) if glyph.numberOfContours == 0 else (glyph.xMin, glyph.yMin, glyph.xMax, glyph.yMax)
        yield "glyph,%d,%d,%d,%d,%d,%d,%d" % ((i, font["hmtx"][name][0], down) + box)


def lines(data, platform, encoding):
    try:
        font = Font(data, platform, encoding)
    except Fault as fault:
        yield fault.line
        return
    yield "em,%d" % font.em
    for code in sorted(font.codes):
        yield "code,%d,%d" % (code, font.codes[code])
    for glyph in range(font.count):
        box = font.box(glyph)
        if box is None:
            yield "bare,%d,%d,%d" % (glyph, font.across(glyph), font.down)
        else:
            yield "glyph,%d,%d,%d,%d,%d,%d,%d" % ((glyph, font.across(glyph), font.down) + box)


if __name__ == "__main__":
    words = [w for w in sys.argv[1:] if w != "--fonttools"]
    path, platform, encoding = words[0], int(words[1]), int(words[2])
    if "--fonttools" in sys.argv:
        answer = by_fonttools(path, platform, encoding)
    else:
        answer = lines(open(path, "rb").read(), platform, encoding)
    sys.stdout.write("".join(line + "\n" for line in answer))
