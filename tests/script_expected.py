#!/usr/bin/env python3
"""What document 01's "Script program" asks, said a second time.

    script_expected.py answer < INPUT          writes the output for an input
    script_expected.py cases DIR               writes the fixed inputs and their outputs, NAME.in and NAME.out
    script_expected.py random SEED N DIR       writes N random inputs, the one with the longest output, and their outputs

Written from document 01 alone; it shares nothing with the crates. Where the document leaves a place open it takes these readings: a text without a
line feed begins a job whose line is missing; inc, dec and toint use a; mid uses a source, b index, c length; `toint` is the ToInteger operator.
"""
import os
import random
import sys

TOP = 2**64
MOST = 65536
FORTY = b"status=40\nvalue=-\n"


class Malformed(Exception):
    pass


class Refused(Exception):
    def __init__(self, number):
        self.number = number


# ---------------------------------------------------------------- values: (kind, content)

def value_of(text):
    """An operand's text: None for `-`."""
    if text == b"-":
        return None
    if text in (b"t", b"f"):
        return "boolean", text == b"t"
    if text[:1] in (b"x", b"s"):
        digits = text[1:].decode("latin-1")
        if len(digits) % 2 or any(c not in "0123456789abcdefABCDEF" for c in digits):
            raise Malformed
        content = bytes.fromhex(digits)
        if len(content) > 256:
            raise Malformed
        return ("buffer" if text[:1] == b"x" else "string"), content
    if not text or any(c not in b"0123456789" for c in text):
        raise Malformed
    number = 0
    for c in text:
        number = number * 10 + c - 48
    if number >= TOP:
        raise Malformed
    return "integer", number


def integer(value):
    kind, content = value
    if kind == "integer":
        return content
    if kind == "boolean":
        return TOP - 1 if content else 0
    if kind == "buffer":
        return sum(b << 8 * i for i, b in enumerate(content[:8]))
    raise Refused(1)


def buffer(value):
    if value[0] != "buffer":
        raise Refused(1)
    return value[1]


def string(value):
    if value[0] != "string":
        raise Refused(1)
    return value[1]


# ---------------------------------------------------------------- the operators

def add(a, b):
    x = integer(a)
    return "integer", (x + integer(b)) % TOP


def both(a, b):
    x = integer(a)
    return "integer", x & integer(b)


def increment(a):
    return "integer", (integer(a) + 1) % TOP


def decrement(a):
    return "integer", (integer(a) - 1) % TOP


def shift_left(a, b):
    x, y = integer(a), integer(b)
    if y > 63:
        raise Refused(7)
    return "integer", (x << y) % TOP


def shift_right(a, b):
    x, y = integer(a), integer(b)
    if y > 63:
        raise Refused(8)
    return "integer", x >> y


def mid(source, index, length):
    i, n = integer(index), integer(length)
    kind, content = source
    if kind not in ("buffer", "string"):
        raise Refused(5)
    return kind, content[i:i + n]


def concat(a, b):
    kind, content = a
    if kind in ("integer", "boolean"):
        return "buffer", integer(a).to_bytes(8, "little") + integer(b).to_bytes(8, "little")
    if kind == "buffer":
        return "buffer", content + buffer(b)
    return "string", content + string(b)


def concat_res(a, b):
    x, y = buffer(a), buffer(b)
    if len(x) == 1 or len(y) == 1:
        raise Refused(6)
    whole = x[:-2] + y[:-2] + b"\x79"
    return "buffer", whole + bytes([-sum(whole) % 256])


def to_integer(a):
    kind, content = a
    if kind == "boolean":
        raise Refused(1)
    if kind != "string":
        return "integer", integer(a)
    digits, base = content, 10
    if content[:2] == b"0x":
        digits, base = content[2:], 16
    allowed = b"0123456789" if base == 10 else b"0123456789abcdefABCDEF"
    if not digits or any(c not in allowed for c in digits):
        raise Refused(1)
    number = int(digits.decode("latin-1"), base) if len(digits) < 4000 else int(digits.lstrip(b"0").decode("latin-1") or "0", base)
    if number >= TOP:
        raise Refused(1)
    return "integer", number


def compare(a, b):
    kind, content = a
    if kind in ("integer", "boolean"):
        x, y = integer(a), integer(b)
    elif kind == "buffer":
        x, y = content, buffer(b)
    else:
        x, y = content, string(b)
    return "order", 1 + (x > y) - (x < y)


OPS = {b"add": (add, 2), b"and": (both, 2), b"inc": (increment, 1), b"dec": (decrement, 1), b"shl": (shift_left, 2),
       b"shr": (shift_right, 2), b"mid": (mid, 3), b"concat": (concat, 2), b"concatres": (concat_res, 2),
       b"toint": (to_integer, 1), b"cmp": (compare, 2)}


# ---------------------------------------------------------------- the run

def shown(value):
    kind, content = value
    if kind == "buffer":
        return b"x" + content.hex().encode()
    if kind == "string":
        return b"s" + content.hex().encode()
    return b"%d" % content


def take_job(text):
    """The job that a text begins with: its operator, the operands it uses, and what follows."""
    lines = []
    for name in (b"op=", b"a=", b"b=", b"c="):
        line, feed, text = text.partition(b"\n")
        if not feed or not line.startswith(name):
            raise Malformed
        lines.append(line[len(name):])
    if lines[0] not in OPS:
        raise Malformed
    operator, used = OPS[lines[0]]
    values = [value_of(line) for line in lines[1:]]
    if any((value is None) != (place >= used) for place, value in enumerate(values)):
        raise Malformed
    return operator, values[:used], text


def answer(text):
    if len(text) > MOST:
        return FORTY
    out = []
    while text:
        try:
            operator, values, text = take_job(text)
        except Malformed:
            return b"".join(out) + FORTY
        try:
            out.append(b"status=0\nvalue=" + shown(operator(*values)) + b"\n")
        except Refused as r:
            out.append(b"status=%d\nvalue=-\n" % r.number)
    return b"".join(out)


# ---------------------------------------------------------------- fixed cases

def job(op, a="-", b="-", c="-"):
    return "op=%s\na=%s\nb=%s\nc=%s\n" % (op, a, b, c)


ALL = str(TOP - 1)
LONG = "ab" * 256


def good_jobs():
    """Every op with every form of value, and the edges of each rule."""
    values = ["0", "1", "7", "007", "63", "64", ALL, "0" * 300 + "12", "t", "f", "x", "x01", "xFf", "x0102", "x010203", "x0102030405060708",
              "x010203040506070809", "xffffffffffffffff", "s", "s30", "s307831F6", "s307831463a".replace("3a", "46"), "s3132", "s41"]
    out = [job("add", ALL, "2")]
    for op in ("inc", "dec", "toint"):
        out += [job(op, v) for v in values]
    for op in ("add", "and", "shl", "shr", "cmp", "concat", "concatres"):
        out += [job(op, v, w) for v in values for w in values[::3] + ["x0102", "s41"]]
    for v in ("x010203", "s414243", "x", "s", "5", "t", "f"):
        out += [job("mid", v, i, n) for i in ("0", "1", "2", "3", "4", ALL, "t", "f", "x01", "s30") for n in ("0", "1", "2", "3", ALL, "t", "x02", "s")]
    # ConcatRes: document 01's W3, W4; ToInteger: W7
    out += [job("concatres", "x01027900", "x"), job("concatres", "x", "x"), job("concatres", "x00", "x0102"), job("concatres", "x0102", "x00")]
    out += [job("toint", "s" + t.encode().hex()) for t in ("0x1F", "0x", "0X1F", "+5", "0x0x10", ALL, str(TOP), "0x" + "f" * 16, "0x1" + "0" * 16, "000", "0x" + "0" * 40 + "9", "12a", " 1", "")]
    # the longest operands
    out += [job("concat", "x" + LONG, "x" + LONG), job("concat", "s" + LONG.upper(), "s" + LONG), job("concatres", "x" + LONG, "x" + LONG),
            job("mid", "x" + LONG, "0", "256"), job("mid", "s" + LONG, "255", ALL), job("cmp", "x" + LONG, "x" + LONG + ""), job("toint", "x" + LONG)]
    return out


def bad_jobs():
    """Each way to be malformed, by name."""
    add_lines = ["op=add", "a=1", "b=2", "c=-"]

    def lines(*change):
        have = list(add_lines)
        for at, line in change:
            have[at] = line
        return "".join(line + "\n" for line in have)

    bad = {
        "no-op-line": lines()[7:],
        "only-op": "op=add\n",
        "three-lines": "op=add\na=1\nb=2\n",
        "no-last-line-feed": lines()[:-1],
        "one-byte": "o",
        "one-line-feed": "\n",
        "blank-before": "\n" + lines(),
        "blank-between-lines": "op=add\n\na=1\nb=2\nc=-\n",
        "carriage-returns": lines().replace("\n", "\r\n"),
        "carriage-return-at-c": "op=add\na=1\nb=2\nc=-\r\n",
        "other-order": "op=add\nb=2\na=1\nc=-\n",
        "name-op-upper": lines((0, "OP=add")),
        "name-op-blank": lines((0, "op =add")),
        "name-op-first-blank": lines((0, " op=add")),
        "name-a-is-b": lines((1, "b=1")),
        "name-b-is-a": lines((2, "a=2")),
        "name-c-is-d": lines((3, "d=-")),
        "name-a-alone": lines((1, "a")),
        "name-a-no-sign": lines((1, "a1")),
        "op-unknown": lines((0, "op=sub")),
        "op-empty": lines((0, "op=")),
        "op-upper": lines((0, "op=ADD")),
        "op-longer": lines((0, "op=adds")),
        "op-shorter": lines((0, "op=ad")),
        "op-blank": lines((0, "op=add ")),
        "op-concatre": "op=concatre\na=x\nb=x\nc=-\n",
        "op-concatress": "op=concatress\na=x\nb=x\nc=-\n",
        "value-empty": lines((1, "a=")),
        "value-blank": lines((1, "a= 1")),
        "value-blank-behind": lines((1, "a=1 ")),
        "value-plus": lines((1, "a=+1")),
        "value-minus": lines((1, "a=-1")),
        "value-hex-digits": lines((1, "a=1f")),
        "value-0x": lines((1, "a=0x1")),
        "value-over": lines((1, "a=" + str(TOP))),
        "value-far-over": lines((1, "a=" + "9" * 60)),
        "value-upper-t": lines((1, "a=T")),
        "value-upper-f": lines((1, "a=F")),
        "value-upper-x": lines((1, "a=X00")),
        "value-upper-s": lines((1, "a=S00")),
        "value-tt": lines((1, "a=tt")),
        "value-f0": lines((1, "a=f0")),
        "value-two-dashes": lines((3, "c=--")),
        "value-odd": lines((1, "a=x012")),
        "value-one-digit": lines((1, "a=s0")),
        "value-no-hex": lines((1, "a=x0g")),
        "value-hex-blank": lines((1, "a=x01 02")),
        "value-257": lines((1, "a=x" + "00" * 257)),
        "value-s-257": "op=cmp\na=s" + "00" * 257 + "\nb=s\nc=-\n",
        "used-a-dash": lines((1, "a=-")),
        "used-b-dash": lines((2, "b=-")),
        "used-c-dash": "op=mid\na=x\nb=0\nc=-\n",
        "inc-a-dash": "op=inc\na=-\nb=-\nc=-\n",
        "unused-c": lines((3, "c=0")),
        "unused-c-empty": lines((3, "c=")),
        "unused-b": "op=inc\na=1\nb=0\nc=-\n",
        "unused-b-for-toint": "op=toint\na=1\nb=t\nc=-\n",
        "bad-c-only": lines((3, "c=x0")),
        "refused-and-malformed": "op=shl\na=s\nb=s\nc=0\n",
    }
    return bad


def fixed_cases():
    """(name, input)"""
    yield "whole-case", job("add", ALL, "2").encode()
    yield "empty", b""
    good = good_jobs()
    part = []
    number = 0
    for one in good:
        if sum(map(len, part)) + len(one) > 20000:
            yield "good-%d" % number, "".join(part).encode()
            number, part = number + 1, []
        part.append(one)
    yield "good-%d" % number, "".join(part).encode()
    few = job("inc", "41") + job("shl", "1", "64") + job("mid", "s414243", "1", "1")
    for name, text in bad_jobs().items():
        yield "bad-" + name, text.encode()
        # behind good jobs, a refused one among them, and with a good one behind it
        yield "bad-" + name + "-behind", (few + text + (job("inc", "1") if text.endswith("\n") else "")).encode()
    yield "blank-behind", (few + "\n").encode()
    yield "tail", (few + "op=ad").encode()
    yield "binary", bytes(range(256))
    yield "binary-behind", few.encode() + b"op=add\na=\x00\nb=2\nc=-\n"
    yield "binary-text", b"op=add\na=\xff1\nb=2\nc=-\n"
    left = MOST - len(few) - len(job("inc", ""))
    yield "length-65536", (few + job("inc", "0" * left)).encode()
    yield "length-65537", (few + job("inc", "0" * (left + 1))).encode()
    yield "length-65536-tail", (few + job("inc", "0" * left)).encode()[:-1] + b"-"


def largest():
    """The input whose output is the longest for its length, of 65,536 bytes."""
    one = job("concat", "0", "0")
    return (one * (MOST // len(one))).ljust(MOST, "o").encode()


# ---------------------------------------------------------------- random inputs

def random_value(r):
    k = r.randrange(12)
    if k == 0:
        return "-"
    if k < 3:
        return r.choice("tf")
    if k < 7:
        return "0" * r.choice((0, 0, 0, 1, 30)) + str(r.choice((r.randrange(70), r.randrange(TOP), TOP - 1, TOP)))
    n = r.choice((0, 1, 2, 3, 7, 8, 9, 20, 255, 256, 257))
    digits = "".join(r.choice("0123456789abcdefABCDEF") for _ in range(2 * n))
    if k == 11:
        text = "".join(r.choice("0123456789x") for _ in range(r.randrange(6)))
        return "s" + ("0x" * r.randrange(2) + text).encode().hex()
    return r.choice("xxs") + digits


def random_job(r):
    op = r.choice([o.decode() for o in OPS])
    used = OPS[op.encode()][1]
    values = []
    for place in range(3):
        value = random_value(r) if place < used else "-"
        while place < used and value == "-" and r.randrange(10):
            value = random_value(r)
        values.append(value)
    text = job(op, *values)
    k = r.randrange(60)
    if k == 0:
        at = r.randrange(len(text))
        text = text[:at] + r.choice("\n\r =-xstf0aA9") + text[at + r.randrange(2):]
    elif k == 1:
        at = r.randrange(len(text))
        text = text[:at] + text[at + 1:]
    return text


def random_cases(seed, n):
    r = random.Random(seed)
    for _ in range(n):
        yield "".join(random_job(r) for _ in range(r.randrange(1, 25))).encode("latin-1")


def write(path, data):
    with open(path, "wb") as f:
        f.write(data)


def main(words):
    if words[:1] == ["answer"]:
        sys.stdout.buffer.write(answer(sys.stdin.buffer.read()))
    elif words[:1] == ["cases"]:
        for name, text in fixed_cases():
            write(os.path.join(words[1], name + ".in"), text)
            write(os.path.join(words[1], name + ".out"), answer(text))
    elif words[:1] == ["random"]:
        for number, text in enumerate([largest()] + list(random_cases(int(words[1]), int(words[2])))):
            write(os.path.join(words[3], "%d.in" % number), text)
            write(os.path.join(words[3], "%d.out" % number), answer(text))
    else:
        sys.exit(__doc__)


if __name__ == "__main__":
    main(sys.argv[1:])
