"""Document 01's "Field units", said a second time as the list of accesses: load or store, byte place, bytes, value.

"A field touches units offset div w to (offset + length - 1) div w." "A read loads each unit once, ascending." "A write .. goes through units
ascending: a wholly covered unit is stored; a partly covered one under Preserve is loaded, then stored with its other bits kept; under the
other rules it is stored with them all one or all zero." It shares nothing with the crates: a region is one number, a unit a cut of it.

    document.py LIST     compares the accesses that a list tells (its '# accesses' lines) with this
"""
import os
import re
import sys

sys.path.insert(0, os.path.join(os.path.dirname(os.path.abspath(__file__)), "..", "tests"))
import lines  # noqa: E402

WIDTHS = (8, 8, 16, 32, 64, 8)


def accesses(flags, offset, length, region, value=None):
    """The accesses of a read (no value) or a write, on a region of these bytes."""
    width = WIDTHS[flags & 15]
    rule = flags >> 5 & 3
    whole = (1 << width) - 1
    held = int.from_bytes(region, "little")
    mask = ((1 << length) - 1) << offset
    made = []
    for unit in range(offset // width, (offset + length - 1) // width + 1):
        def cut(number):
            return number >> unit * width & whole
        place, size, inside = unit * width // 8, width // 8, cut(mask)
        if value is None or inside != whole and rule == 0:
            made.append(("load", place, size, cut(held)))
        if value is not None:
            around = (cut(held), whole, 0)[rule]
            made.append(("store", place, size, cut(value << offset & mask) | around & ~inside))
    return made


def number_of(operand, data):
    """The written value as an integer: "Boolean true is all ones", a Buffer "its first 8 bytes, lowest first", "fields are read"."""
    kind = lines.KINDS[operand.kind]
    if kind == "Boolean":
        return 2**64 - 1 if operand.value else 0
    if kind == "Integer":
        return operand.value
    number = int.from_bytes(data, "little")
    return (number if kind == "Buffer" else number >> operand.offset & ((1 << operand.length) - 1)) % 2**64


def accesses_of(job):
    """Those of a job that reads or writes a field unit."""
    one, two = lines.operand_of(job, 1), lines.operand_of(job, 2)
    region = lines.pattern(one.seed, one.n, one.head)
    if job.op == lines.UNIT:
        value = two.value if job.write else None
    elif job.op == lines.WRITE_VALUE:
        value = number_of(two, lines.pattern(two.seed, two.n, two.head))
    else:
        value = number_of(two, region)
    return accesses(one.flags, one.offset, one.length, region, value)


def accesses_in(line):
    """The accesses of a list's comment line."""
    found = re.findall(r"([LS])(\d+)@([0-9a-f]+)=([0-9a-f]+)", line)
    return [("load" if kind == "L" else "store", int(place, 16), int(size), int(value, 16)) for kind, size, place, value in found]


def main(name):
    told, count, differ, first = None, 0, 0, ""
    for line in open(name):
        if line.startswith("# accesses "):
            told = accesses_in(line)
        elif told is not None:
            job, _ = lines.short_in(line)
            count += 1
            if told != accesses_of(job):
                differ += 1
                first = first or "; the first: " + lines.words_of(job)
            told = None
    print("%d lists of accesses, %d differ%s" % (count, differ, first))
    return 1 if differ or not count else 0


if __name__ == "__main__":
    sys.exit(main(sys.argv[1]))
