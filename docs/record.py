#!/usr/bin/env python3
"""Draws docs/record.svg: the record of the incident, bit by bit, before the write and after it.

    python3 docs/record.py > docs/record.svg

A record of two bytes, FF FF. Bits 0 to 11 are the fill count, bits 12 to 15 the valve timer's trim. 0x123 is written to the count by word
access under Preserve (case W8)."""

COUNT_BITS = 12
COUNT = 0x123
BEFORE = 0xFFFF
CELL, LEFT, TOP, GAP = 30, 250, 64, 74


def rows():
    """What each row is called, and its bits."""
    field = (1 << COUNT_BITS) - 1
    inside_only = COUNT & field  # the bits beside the field come from a read of the field alone, so they are 0
    preserved = (BEFORE & ~field) | (COUNT & field)
    return (("before", BEFORE), ("after, the crate aml 0.16.4", inside_only), ("after, this layer", preserved))


def text(x, y, words, extra=""):
    return '<text x="%d" y="%d"%s>%s</text>' % (x, y, extra, words)


def cell(place, y, bit, lost):
    x = LEFT + (15 - place) * CELL
    fill = "#d9534f" if lost else "#cfe2f3" if place < COUNT_BITS else "#fde9c9"
    return ('<rect x="%d" y="%d" width="%d" height="%d" fill="%s" stroke="#555"/>' % (x, y, CELL, CELL, fill)
            + text(x + CELL // 2, y + 20, bit, ' text-anchor="middle"'))


def draw():
    out = ['<svg xmlns="http://www.w3.org/2000/svg" width="%d" height="%d" font-family="monospace" font-size="14">' % (LEFT + 16 * CELL + 110, TOP + 3 * GAP)]
    out.append('<rect width="100%" height="100%" fill="white"/>')
    out.append(text(LEFT, 22, "trim: bits 15 to 12"))
    out.append(text(LEFT + 4 * CELL + 60, 22, "fill count: bits 11 to 0"))
    for place in range(16):
        out.append(text(LEFT + (15 - place) * CELL + CELL // 2, 50, place, ' text-anchor="middle" font-size="11" fill="#777"'))
    for row, (name, bits) in enumerate(rows()):
        y = TOP + row * GAP
        out.append(text(8, y + 20, name))
        for place in range(16):
            bit = bits >> place & 1
            out.append(cell(place, y, bit, place >= COUNT_BITS and not bit))
        out.append(text(LEFT + 16 * CELL + 14, y + 20, "%02X %02X" % (bits & 255, bits >> 8)))
    out.append("</svg>")
    return "\n".join(out)


if __name__ == "__main__":
    print(draw())
