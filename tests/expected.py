#!/usr/bin/env python3
"""What document 01 asks of fields, values and operators, said a second time: the answer to a job of the program vectors.

    expected.py answers < JOBS           writes the answer to each full job line
    expected.py compare JOBS WANT GOT    compares full answer lines, says the first difference in words

Written from document 01 ("Refusal numbers", "Conversions", "Buffer fields", "Field units", "Operators"); it shares nothing with the crates
and goes another way: a run of bits is a number without a bound, a unit goes bit by bit, a value has its bytes inside. Where the document
leaves a place open it takes these readings:

    27 looks at every slice lent with the call, also one beside a value that has no bytes; an output may be longer.
    Sums of offset and length have no bound; a last unit that the region holds in part is outside it.
    Held bits that no load gave count as 0; after a store nothing is held. (One access alone, with anything held.)
    A special rule wins over the table's "exactly when": a field that is not read is not refused by its own rules.
    To bool, ToInteger, status and a named type other than Integer and Buffer read no field.
    A field unit's own refusals come before what converting the written value refuses.
    Mid's two calls: the refusal (0 if none), and the part, which is empty if refused.

The lines are those of lines.py.
"""
import re
import sys
import zlib

sys.dont_write_bytecode = True
import lines
from lines import (ACCESS, ADD, AND, AS_BOOL, AS_BUFFER, AS_INTEGER, AS_STATUS, AS_STRING, AS_TYPE, BOOL, BUFFER, BUFFER_LENGTH, BUILD, CHECK,
                   COMPARE, CONCAT, CONCAT_RES, DECREMENT, DEFAULT_STATUS, FLAGS, HELD, INCREMENT, INTEGER, ITSELF, KINDS, MID, NOTHING, ORDER, OVER,
                   PART, READ, SELF, SHIFT_LEFT, SHIFT_RIGHT, SHOWN, STATUS, STRING, STRING_LENGTH, TO_INTEGER, TYPE, TYPE_NAME, TYPE_NUMBER, UNIT,
                   WRITE, WRITE_VALUE, WRITE_VALUE_SELF, operand_of, pattern)

MOST = 65536
ALL = 2**64 - 1


# ---------------------------------------------------------------- values and refusals

class Refused(Exception):
    """A refusal: its number, and the types that it carries (ObjectType's numbers)."""

    def __init__(self, number, present=0, wanted=0):
        self.number = number
        self.present = present
        self.wanted = wanted


class Value:
    """A value with its bytes: a String's or Buffer's own, a BufferField's buffer, a FieldUnit's region."""

    def __init__(self, kind, number=0, data=b"", offset=0, length=0, flags=0, space=0):
        self.kind = kind
        self.number = number
        self.data = data
        self.offset = offset
        self.length = length
        self.flags = flags
        self.space = space

    def type(self):
        return TYPE_NUMBER[self.kind]


def value_of(operand):
    return Value(KINDS[operand.kind], operand.value, pattern(operand.seed, operand.n, operand.head), operand.offset, operand.length,
                 operand.flags, operand.space)


def look_at(*lent):
    """27, of any bytes lent with the call."""
    if any(len(data) > MOST for data in lent):
        raise Refused(27)


def no_conversion(value, wanted):
    return Refused(1, value.type(), TYPE_NUMBER[wanted])


# ---------------------------------------------------------------- document 01: field units

WIDTHS = (8, 8, 16, 32, 64, 8)
PRESERVE, ONES, ZEROS, NO_RULE = range(4)


class Field:
    """A field unit, with a read or a write of it."""

    def __init__(self, value, write, number=0):
        self.write = write
        self.access = value.flags & 15
        self.rule = value.flags >> 5 & 3
        self.space = value.space
        self.offset = value.offset
        self.length = value.length
        self.value = number
        self.all = None

    def check(self, size):
        """Order: 27 first; then 9, 28, 29, 21, 22."""
        if size > MOST:
            raise Refused(27)
        if self.access > 5 or self.write and self.rule == NO_RULE:
            raise Refused(9)
        if self.space > 2:
            raise Refused(28)
        if WIDTHS[self.access] == 64 and self.space != 0:
            raise Refused(29)
        if not 1 <= self.length <= 64:
            raise Refused(21)
        if any((unit + 1) * self.width() > 8 * size for unit in self.units()):
            raise Refused(22)

    def width(self):
        return WIDTHS[self.access]

    def units(self):
        return range(self.offset // self.width(), (self.offset + self.length - 1) // self.width() + 1)

    def places(self, unit):
        """The bits of the unit, each with the field bit that it is, None outside the field."""
        first = unit * self.width()
        for bit in range(self.width()):
            k = first + bit - self.offset
            yield bit, k if 0 <= k < self.length else None

    def covered(self, unit):
        return all(k is not None for _, k in self.places(unit))

    def accesses(self):
        """The loads and stores, in order."""
        if self.all is None:
            self.all = list(self.make_accesses())
        return self.all

    def make_accesses(self):
        for unit in self.units():
            if not self.write:
                yield "load", unit
            elif self.rule == PRESERVE and not self.covered(unit):
                yield "load", unit
                yield "store", unit
            else:
                yield "store", unit

    def load(self, region, unit):
        n = self.width() // 8
        return int.from_bytes(region[unit * n:unit * n + n], "little")

    def store(self, region, unit, x):
        n = self.width() // 8
        region[unit * n:unit * n + n] = x.to_bytes(n, "little")

    def merged(self, unit, loaded):
        """The unit to store: field bits from the value, the others by the rule (kept ones from what was loaded)."""
        x = 0
        for bit, k in self.places(unit):
            if k is not None:
                one = self.value >> k & 1
            elif self.rule == PRESERVE:
                one = loaded >> bit & 1
            else:
                one = 1 if self.rule == ONES else 0
            x |= one << bit
        return x

    def gathered(self, unit, loaded):
        """The unit's field bits, each at its place in the value."""
        return sum((loaded >> bit & 1) << k for bit, k in self.places(unit) if k is not None)

    def read_whole(self, region):
        """Bit k of the field is bit offset + k of the region, lowest first."""
        first = self.offset // 8
        last = (self.offset + self.length - 1) // 8
        run = int.from_bytes(region[first:last + 1], "little") >> self.offset % 8
        return run % 2**self.length

    def write_whole(self, region):
        """The touched units as they are, or all ones, or all zeros, by the rule; then the field over them."""
        units = self.units()
        first, end = units[0] * self.width() // 8, (units[-1] + 1) * self.width() // 8
        around = region[first:end] if self.rule == PRESERVE else bytearray(pattern(1 if self.rule == ONES else 0, end - first))
        put_bits(around, self.offset - 8 * first, self.length, self.value)
        region[first:end] = around

    def step(self, region, made, held):
        """Access number made, with what is held before it. Answers what is held after it, None where there is none left.

        Held is, for a read, the field bits of the units loaded so far; for a write, the unit that the store next to come was loaded for.
        Held bits that no load gave count as 0.
        """
        accesses = self.accesses()
        if made >= len(accesses):
            return None
        kind, unit = accesses[made]
        if kind == "load":
            loaded = self.load(region, unit)
            if self.write:
                return loaded
            given = 0
            for before in self.units():
                if before < unit:
                    given += sum((held >> k & 1) << k for _, k in self.places(before) if k is not None)
            return given + self.gathered(unit, loaded)
        was_loaded = made > 0 and accesses[made - 1] == ("load", unit)
        self.store(region, unit, self.merged(unit, held if was_loaded else 0))
        return 0


# ---------------------------------------------------------------- document 01: buffer fields

def check_bounds(buffer, offset, length):
    if offset + length > 8 * len(buffer):
        raise Refused(2)


def read_buffer_field(buffer, offset, length):
    """What a BufferField gives: 0 to 64 bits an Integer, more a Buffer."""
    check_bounds(buffer, offset, length)
    first = offset // 8
    last = (offset + length + 7) // 8
    run = (int.from_bytes(buffer[first:last], "little") >> offset % 8) % 2**length
    if length <= 64:
        return Value("Integer", run)
    return Value("Buffer", data=run.to_bytes((length + 7) // 8, "little"))


def put_bits(buffer, offset, length, number):
    """The field becomes the number's lowest bits; bits outside it stay."""
    first = offset // 8
    last = (offset + length + 7) // 8
    mask = (2**length - 1) << offset % 8
    old = int.from_bytes(buffer[first:last], "little")
    new = old & ~mask | number << offset % 8 & mask
    buffer[first:last] = new.to_bytes(last - first, "little")


def write_buffer_field(buffer, offset, length, value):
    """27 first, for any bytes lent with the call; then 3, then 2."""
    look_at(buffer, value.data)
    if value.kind not in ("Integer", "Boolean", "Buffer"):
        raise Refused(3, value.type())
    check_bounds(buffer, offset, length)
    if value.kind == "Integer":
        put_bits(buffer, offset, length, value.number)
    elif value.kind == "Buffer":
        put_bits(buffer, offset, length, int.from_bytes(value.data, "little"))
    elif length > 0:
        put_bits(buffer, offset, 1, 1 if value.number else 0)


# ---------------------------------------------------------------- document 01: conversions

def read(value):
    """What a BufferField or a FieldUnit gives, with its own refusals; any other value is itself."""
    if value.kind == "BufferField":
        return read_buffer_field(value.data, value.offset, value.length)
    if value.kind == "FieldUnit":
        field = Field(value, write=False)
        field.check(len(value.data))
        return Value("Integer", field.read_whole(value.data))
    return value


def as_integer(value):
    given = read(value)
    if given.kind == "Integer":
        return given.number
    if given.kind == "Boolean":
        return ALL if given.number else 0
    if given.kind == "Buffer":
        return int.from_bytes(given.data[:8], "little")
    raise no_conversion(given, "Integer")


def as_bool(value):
    if value.kind not in ("Integer", "Boolean"):
        raise no_conversion(value, "Integer")
    return value.number != 0


def as_buffer(value):
    given = read(value)
    if given.kind != "Buffer":
        raise no_conversion(given, "Buffer")
    return given.data


def as_string(value):
    """A BufferField is refused unread."""
    given = read(value) if value.kind == "FieldUnit" else value
    if given.kind != "String":
        raise no_conversion(given, "String")
    return given.data


def as_type(value, wanted):
    """The value itself, or a number, or bytes."""
    if value.type() == wanted:
        return value
    if wanted == TYPE_NUMBER["Integer"]:
        return as_integer(value)
    if wanted == TYPE_NUMBER["Buffer"]:
        return as_buffer(value)
    raise Refused(1, value.type(), wanted)


DECIMAL = re.compile(rb"0*([0-9]*)")
HEXADECIMAL = re.compile(rb"0x0*([0-9a-fA-F]*)")


def text_number(text):
    """The number that a text says, None if it breaks the rule; a text of zeros alone is 0."""
    for form, base, start in ((HEXADECIMAL, 16, 2), (DECIMAL, 10, 0)):
        match = form.fullmatch(text)
        if match and len(text) > start:
            digits = match.group(1)
            number = int(digits, base) if 0 < len(digits) <= 20 else 0 if not digits else ALL + 1
            return number if number <= ALL else None
    return None


def to_integer(value):
    if value.kind not in ("Integer", "Buffer", "String"):
        raise no_conversion(value, "Integer")
    if value.kind != "String":
        return as_integer(value)
    number = text_number(bytes(value.data))
    if number is None:
        raise no_conversion(value, "Integer")
    return number


def as_status(value):
    if value.kind != "Integer" or value.number >> 5:
        raise Refused(10)
    return value.number


# ---------------------------------------------------------------- document 01: operators

NAMES = {"BufferField": b"[Buffer Field]", "FieldUnit": b"[Field]", "Device": b"[Device]", "Method": b"[Control Method]", "Mutex": b"[Mutex]",
         "OpRegion": b"[Operation Region]", "Package": b"[Package]", "Processor": b"[Processor]", "PowerResource": b"[Power Resource]",
         "ThermalZone": b"[Thermal Zone]"}


def two_integers(left, right):
    look_at(left.data, right.data)
    return as_integer(left), as_integer(right)


def shift(left, right, refusal):
    x, count = two_integers(left, right)
    if count >= 64:
        raise Refused(refusal)
    return (x << count if refusal == 7 else x >> count) % 2**64


def compare(left, right):
    """0 less, 1 equal, 2 greater."""
    look_at(left.data, right.data)
    if left.kind in ("Integer", "Boolean", "FieldUnit"):
        x, y = as_integer(left), as_integer(right)
    elif left.kind == "Buffer":
        x, y = list(left.data), list(as_buffer(right))
    elif left.kind == "String":
        x, y = list(left.data), list(as_string(right))
    else:
        raise Refused(4, left.type())
    return 0 if x < y else 1 if x == y else 2


def mid(source, index, length):
    look_at(source.data, index.data, length.data)
    start, count = as_integer(index), as_integer(length)
    if source.kind not in ("Buffer", "String"):
        raise Refused(5, source.type())
    return source.data[start:start + count]


def text_of(value):
    """A string or a name, for Concat."""
    if value.kind == "String":
        return value.data
    if value.kind in NAMES:
        return NAMES[value.kind]
    raise no_conversion(value, "String")


def concat(left, right):
    """The kind of the result, and its bytes."""
    look_at(left.data, right.data)
    if left.kind in ("Integer", "Boolean"):
        x, y = as_integer(left), as_integer(right)
        return BUFFER, x.to_bytes(8, "little") + y.to_bytes(8, "little")
    if left.kind == "Buffer":
        return BUFFER, left.data + as_buffer(right)
    return STRING, text_of(left) + text_of(right)


def concat_res(left, right):
    look_at(left.data, right.data)
    parts = as_buffer(left), as_buffer(right)
    if any(len(part) == 1 for part in parts):
        raise Refused(6)
    body = b"".join(part[:len(part) - 2] for part in parts if part) + b"\x79"
    return body + bytes([-sum(body) % 256])


def build(size, initial, most):
    """The bytes; 20 before a size that no output holds is made into bytes."""
    look_at(size.data, initial)
    n = as_integer(size)
    if n < len(initial):
        raise Refused(11)
    if n > most:
        raise Refused(20)
    return bytes(initial) + bytes(n - len(initial))


# ---------------------------------------------------------------- the answer to a job

class Call:
    """A job's values and its output; and what is told, column by column."""

    def __init__(self, job):
        self.job = job
        self.one, self.two, self.three = (value_of(operand_of(job, which)) for which in (1, 2, 3))
        self.out = pattern(0 if job.out_seed == 2 else job.out_seed, job.out)
        self.answer = dict.fromkeys(lines.ANSWER_NAMES, 0)

    def told(self, result, value=0, count=0):
        self.answer.update(result=result, value=value, count=count)

    def given(self, kind, data):
        """The bytes go to the front of the output; 20 last."""
        if len(self.out) < len(data):
            raise Refused(20)
        self.out[:len(data)] = data
        self.told(kind, count=len(data))

    def refused(self, r):
        self.answer.update(status=r.number, present=r.present, wanted=r.wanted)

    def lent(self, which, data, show):
        part = bytes(data[show:show + SHOWN])
        self.answer["sum" + which] = zlib.adler32(data)
        self.answer["shown" + which] = int.from_bytes(part + bytes(SHOWN - len(part)), "big")


def call_unit(call):
    job, region = call.job, call.one.data
    field = Field(call.one, job.write != 0, job.value2)
    call.two.data = stepped = bytearray(region)
    try:
        field.check(len(region))
    except Refused as r:
        call.answer.update(step_status=r.number, check_status=r.number, count_status=r.number)
        raise
    count = len(field.accesses())
    call.answer["counted"] = count
    if field.write:
        field.write_whole(region)
        call.told(NOTHING, count=count)
    else:
        call.told(INTEGER, field.read_whole(region), count)
    held, made = 0, 0
    while True:
        after = field.step(stepped, made, held)
        if after is None:
            break
        held, made = after, made + 1
    call.answer.update(held=held, steps=made)
    if stepped != region or made != count or not field.write and held != call.answer["value"]:
        raise AssertionError("expected.py: step by step differs from the whole: %s" % lines.words_of(job))


def call_access(call):
    field = Field(call.one, call.job.write != 0, call.job.value2)
    field.check(len(call.one.data))
    after = field.step(call.one.data, call.job.made, call.job.held)
    call.told(OVER if after is None else HELD, after or 0)


def call_check(call):
    field = Field(call.one, call.job.write != 0, call.job.value2)
    try:
        field.check(call.job.made)
        call.answer["counted"] = len(field.accesses())
    except Refused as r:
        call.answer.update(check_status=r.number, count_status=r.number)


def call_read(call):
    look_at(call.one.data)
    given = read_buffer_field(call.one.data, call.one.offset, call.one.length)
    if given.kind == "Integer":
        call.told(INTEGER, given.number)
    else:
        call.given(BUFFER, given.data)


def call_write(call):
    write_buffer_field(call.one.data, call.one.offset, call.one.length, call.two)


def call_self(call):
    """The value is the target itself, as it was before."""
    write_buffer_field(call.one.data, call.one.offset, call.one.length, Value("Buffer", data=bytes(call.one.data)))


def call_flags(call):
    """Each part by its own bits: access type and width, update rule, lock rule."""
    flags = call.job.flags1
    access, rule = flags & 15, flags >> 5 & 3
    if rule < NO_RULE:
        call.answer["held"] = rule
    else:
        call.answer["step_status"] = 9
    call.answer["steps"] = flags >> 4 & 1
    if access >= len(WIDTHS):
        raise Refused(9)
    call.told(NOTHING, access, WIDTHS[access])


def call_named(call):
    look_at(call.one.data)
    given = as_type(call.one, call.job.made)
    if given is call.one:
        call.told(ITSELF)
    elif isinstance(given, int):
        call.told(INTEGER, given)
    else:
        call.given(BUFFER, given)


def call_write_value(call, itself=False):
    region = call.one.data
    value = call.two
    if itself:
        value = Value(value.kind, value.number, bytes(region), value.offset, value.length, value.flags, value.space)
    look_at(region, value.data)
    field = Field(call.one, write=True)
    field.check(len(region))
    field.value = as_integer(value)
    field.write_whole(region)
    call.told(NOTHING, count=len(field.accesses()))


def one(convert, result):
    """The call of a conversion of operand 1 to a number."""
    def call_one(call):
        look_at(call.one.data)
        call.told(result, int(convert(call.one)))
    return call_one


def one_given(convert, kind):
    """The call of a conversion of operand 1 to bytes."""
    def call_given(call):
        look_at(call.one.data)
        call.given(kind, convert(call.one))
    return call_given


def one_length(convert, kind):
    """The call that only says how many bytes the conversion gives."""
    def call_length(call):
        look_at(call.one.data)
        call.told(kind, count=len(convert(call.one)))
    return call_length


def number(operator):
    """The call of an operator that gives an Integer, of operands 1 and 2."""
    return lambda call: call.told(INTEGER, operator(call.one, call.two))


def call_mid(call):
    """The part is told where the output is."""
    call.out = b""
    call.out = mid(call.one, call.two, call.three)
    call.told(PART, count=len(call.out))


CALLS = {
    UNIT: call_unit, ACCESS: call_access, CHECK: call_check, READ: call_read, WRITE: call_write, SELF: call_self, FLAGS: call_flags,
    TYPE: lambda call: call.told(NOTHING, call.one.type()),
    AS_INTEGER: one(as_integer, INTEGER), AS_BOOL: one(as_bool, BOOL), AS_BUFFER: one_given(as_buffer, BUFFER),
    AS_STRING: one_given(as_string, STRING), AS_TYPE: call_named, AS_STATUS: one(as_status, STATUS), TO_INTEGER: one(to_integer, INTEGER),
    WRITE_VALUE: call_write_value, WRITE_VALUE_SELF: lambda call: call_write_value(call, itself=True),
    ADD: number(lambda a, b: sum(two_integers(a, b)) % 2**64),
    AND: number(lambda a, b: int.__and__(*two_integers(a, b))),
    INCREMENT: one(lambda a: (as_integer(a) + 1) % 2**64, INTEGER), DECREMENT: one(lambda a: (as_integer(a) - 1) % 2**64, INTEGER),
    SHIFT_LEFT: number(lambda a, b: shift(a, b, 7)), SHIFT_RIGHT: number(lambda a, b: shift(a, b, 8)),
    COMPARE: lambda call: call.told(ORDER, compare(call.one, call.two)), MID: call_mid,
    CONCAT: lambda call: call.given(*concat(call.one, call.two)), CONCAT_RES: lambda call: call.given(BUFFER, concat_res(call.one, call.two)),
    BUILD: lambda call: call.given(BUFFER, build(call.one, call.two.data, len(call.out))),
    BUFFER_LENGTH: one_length(as_buffer, BUFFER), STRING_LENGTH: one_length(as_string, STRING),
    DEFAULT_STATUS: lambda call: call.told(STATUS, 31),
}


def answer_of(job):
    """All columns of the answer, by name."""
    call = Call(job)
    try:
        CALLS[job.op](call)
    except Refused as r:
        call.refused(r)
    call.lent("1", call.one.data, job.show)
    call.lent("2", call.two.data, job.show)
    call.lent("_out", call.out, 0 if job.op == MID else job.show)
    return call.answer


# ---------------------------------------------------------------- the worked cases of the document

def refusal_of(work, *words):
    try:
        work(*words)
    except Refused as r:
        return r.number
    return 0


def worked_cases():
    """W1 to W10, and the greatest counts, held to the definitions above."""
    def written(region, offset, length, access, rule, number):
        field = Field(Value("FieldUnit", offset=offset, length=length, flags=access + 32 * rule), True, number)
        field.check(len(region))
        field.write_whole(region)
        return region.hex(), len(field.accesses())

    def buffer(text):
        return Value("Buffer", data=bytes.fromhex(text))

    def integer(n):
        return Value("Integer", n)

    assert read_buffer_field(b"\xa5", 0, 8).number == 0xa5 and refusal_of(read_buffer_field, b"\xa5", 0, 9) == 2  # W1
    assert as_integer(buffer("")) == 0 and as_integer(buffer("010203040506070809")) == 0x0807060504030201  # W2
    assert concat_res(buffer("01027900"), buffer("")).hex() == "01027984"  # W3
    assert concat_res(buffer(""), buffer("")).hex() == "7987"  # W4
    assert mid(buffer("010203"), integer(1), integer(ALL)).hex() == "0203" and mid(buffer("010203"), integer(3), integer(1)) == b""  # W5
    assert [refusal_of(shift, integer(1), integer(n), 7) for n in (63, 64)] == [0, 7]  # W6
    assert [text_number(t) for t in (b"0x1F", b"0x", b"0X1F", b"+5", b"0x0x10")] == [31, None, None, None, None]  # W7
    assert written(bytearray(b"\xff\xff"), 0, 12, 2, PRESERVE, 0x123) == ("23f1", 2)  # W8
    assert written(bytearray(8), 20, 24, 3, PRESERVE, 0xabcdef) == ("0000f0debc0a0000", 4)  # W9
    assert written(bytearray(8), 20, 24, 3, ONES, 0xabcdef) == ("ffffffdebcfaffff", 2)  # W10
    counts = {write: max(len(Field(Value("FieldUnit", offset=offset, length=length, flags=access), write).accesses())
                         for access in range(6) for offset in range(8) for length in range(50, 65)) for write in (False, True)}
    assert counts == {False: 9, True: 11}
    assert written(bytearray(24), 7, 64, 1, PRESERVE, 0)[1] == 11


def compare_lines(jobs, wanted, got):
    """Line by line; the first difference in words."""
    differ, first = abs(len(jobs) - len(wanted)), ""
    for i, (job, want) in enumerate(zip(jobs, wanted)):
        have = got[i] if i < len(got) else "nothing"
        if have != want:
            differ += 1
            if not first:
                told = dict(zip(lines.ANSWER_NAMES, want.split()))
                job = lines.job_in(job)
                first = "; the first, line %d: %s: %s [%s]" % (i + 1, lines.words_of(job), lines.difference(told, have),
                                                              lines.short_line(job).strip())
    differ += max(0, len(got) - len(jobs))
    print("%d vectors, %d differ%s" % (len(jobs), differ, first))
    return 1 if differ or not jobs else 0


def main(words):
    command = words[0] if words else ""
    if command == "answers" and len(words) == 1:
        worked_cases()
        sys.stdout.writelines(lines.answer_line(answer_of(lines.job_in(line))) for line in sys.stdin)
    elif command == "compare" and len(words) == 4:
        return compare_lines(*(open(name).readlines() for name in words[1:]))
    else:
        print(__doc__, file=sys.stderr)
        return 2
    return 0


if __name__ == "__main__":
    sys.exit(main(sys.argv[1:]))
