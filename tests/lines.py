#!/usr/bin/env python3
"""The lines of the program vectors: a job, and its answer; the columns stand here once.

    lines.py full < LIST             writes the full job lines of a list in the short form
    lines.py short JOBS [ANSWERS]    writes full job lines, with their answers, in the short form
    lines.py words < JOBS            says each full job line in words
    lines.py compare LIST GOT        compares the full answer lines GOT with what LIST tells, says the first difference in words

A full line: numbers in lower-case hexadecimal, highest digit first, of fixed width, one blank between two columns (JOB, ANSWER).
A line of the short form is `JOB -> ANSWER`, each a list of `name:hex` words; columns that are 0 are left out of a job, and only the
columns that an answer names are compared. `head` and `shown` are bytes, first byte first: a head's zeros at the end may be left
out, and of a shorter `shown` only these bytes are compared. A line that begins with # is a comment, and so is an empty one.
"""
import sys
from collections import namedtuple

# ---------------------------------------------------------------- the columns

OPERAND = (("kind", 2), ("flags", 2), ("space", 2), ("offset", 16), ("length", 16), ("value", 16), ("n", 8), ("seed", 8), ("head", 64))
JOB = ((("op", 2), ("write", 2), ("held", 16), ("made", 16), ("show", 8))
       + tuple((name + which, width) for which in "123" for name, width in OPERAND)
       + (("out", 8), ("out_seed", 8)))
# An operand is a value (kind: see KINDS) and the n bytes lent beside it, named by a seed (make_pattern), at most 65,544. out, out_seed: the
# output's, which has at most 131,088 and no head (its seed 2 counts as 0).
# write: 1 for a write. held, made: for one access alone; made is also the region length that a check names, and the type that
# as_type names. show: where the shown bytes begin.
ANSWER = (("status", 2), ("present", 2), ("wanted", 2), ("result", 2), ("value", 16), ("count", 16),
          ("sum1", 8), ("shown1", 32), ("sum2", 8), ("shown2", 32), ("step_status", 2), ("held", 16), ("steps", 16),
          ("check_status", 2), ("count_status", 2), ("counted", 16), ("sum_out", 8), ("shown_out", 32))
# status: 0 or the refusal's number; present, wanted: ObjectType's numbers of the types that it carries. result: see RESULTS.
# sum, shown: Adler-32 of the lent bytes after the call, and sixteen of them, 0 past the end. Of UNIT the second lent bytes are the region
# that the steps went over; of Mid the output is its part, shown from its start on. count: of accesses, or of the result's bytes.
# step_status, held, steps: a field unit's operation step by step; check_status, count_status, counted: the check and the count alone.
# FLAGS: value the access type, count its width, held the update rule (step_status its refusal), steps the lock rule. TYPE: value.
JOB_NAMES = tuple(name for name, _ in JOB)
ANSWER_NAMES = tuple(name for name, _ in ANSWER)
JOB_WIDTH = dict(JOB)
ANSWER_WIDTH = dict(ANSWER)
Job = namedtuple("Job", JOB_NAMES)
SHOWN = 16
HEAD = 32
LEFT_ALIGNED = ("head1", "head2", "head3", "shown1", "shown2", "shown_out")

OPS = ("", "field unit, whole and step by step", "field unit, one access", "field unit, check and count", "buffer field read",
       "buffer field write", "buffer field write of itself", "flags", "type", "as_integer", "as_bool", "as_buffer", "as_string", "as_type",
       "as_status", "to_integer", "write_value", "write_value_self", "def_add", "def_and", "def_increment", "def_decrement", "def_shift_left",
       "def_shift_right", "compare", "def_mid", "def_concat", "def_concat_res", "def_buffer", "buffer_length", "string_length",
       "default_status")
(UNIT, ACCESS, CHECK, READ, WRITE, SELF, FLAGS, TYPE, AS_INTEGER, AS_BOOL, AS_BUFFER, AS_STRING, AS_TYPE, AS_STATUS, TO_INTEGER,
 WRITE_VALUE, WRITE_VALUE_SELF, ADD, AND, INCREMENT, DECREMENT, SHIFT_LEFT, SHIFT_RIGHT, COMPARE, MID, CONCAT, CONCAT_RES, BUILD,
 BUFFER_LENGTH, STRING_LENGTH, DEFAULT_STATUS) = range(1, 32)
RESULTS = ("nothing", "Integer", "Buffer", "held", "no access left", "String", "bool", "status", "the value itself", "order", "part")
(NOTHING, INTEGER, BUFFER, HELD, OVER, STRING, BOOL, STATUS, ITSELF, ORDER, PART) = range(11)

# the value kinds, in document 01's order, and the number of each type (ACPI 6.4, ObjectType); a Boolean's type is Integer
KINDS = ("Boolean", "Integer", "String", "Buffer", "BufferField", "FieldUnit", "OpRegion", "Device", "Method", "Processor",
         "Mutex", "Package", "PowerResource", "ThermalZone")
TYPE_NUMBER = {"Boolean": 1, "Integer": 1, "String": 2, "Buffer": 3, "Package": 4, "FieldUnit": 5, "Device": 6, "Method": 8,
               "Mutex": 9, "OpRegion": 10, "PowerResource": 11, "Processor": 12, "ThermalZone": 13, "BufferField": 14}
TYPE_NAME = {number: name for name, number in TYPE_NUMBER.items() if name != "Boolean"}
SPACES = ("SystemMemory", "SystemIo", "PciConfig", "EmbeddedControl", "SMBus", "SystemCmos", "PciBarTarget", "IPMI",
          "GeneralPurposeIo", "GenericSerialBus")


# ---------------------------------------------------------------- full lines

JOB_FORM = " ".join("%%0%dx" % width for _, width in JOB) + "\n"
ANSWER_FORM = " ".join("%%0%dx" % width for _, width in ANSWER) + "\n"


def job_of(op, **given):
    """A job of these columns, the others 0."""
    return NO_JOB._replace(op=op, **given)


NO_JOB = Job(*[0] * len(JOB))


def job_line(job):
    return JOB_FORM % job


def answer_line(answer):
    """The line of a dict of all columns."""
    return ANSWER_FORM % tuple(answer[name] for name in ANSWER_NAMES)


def numbers_of(columns, line):
    words = line.split()
    if len(words) != len(columns) or any(len(w) != width for w, (_, width) in zip(words, columns)):
        raise ValueError("not a line of these columns: %r" % line)
    return [int(w, 16) for w in words]


def job_in(line):
    return Job(*numbers_of(JOB, line))


def answer_in(line):
    return dict(zip(ANSWER_NAMES, numbers_of(ANSWER, line)))


# ---------------------------------------------------------------- lent bytes

def make_pattern(seed, n, head=0):
    """The n bytes that a seed names."""
    if seed < 2:
        return bytes([255 * seed]) * n
    if seed == 2:
        return (head.to_bytes(HEAD, "big") + bytes(n))[:n]
    if seed == 3:
        return (b"0" * (n - 1) + b"1") if n else b""
    out = bytearray(n)
    x = seed
    for i in range(n):
        out[i] = x >> 16 & 255
        x = (x * 1103515245 + 12345) & 0xffffffff
    return bytes(out) if seed < 2**31 else bytes(b & 127 for b in out)


long_patterns = {}


def pattern(seed, n, head=0):
    """The same, fresh for each asking; long ones are made once."""
    if n < 4096 or seed < 4:
        return bytearray(make_pattern(seed, n, head))
    if (seed, n) not in long_patterns:
        long_patterns[seed, n] = make_pattern(seed, n)
    return bytearray(long_patterns[seed, n])


# ---------------------------------------------------------------- the short form

def number_of(name, digits, width):
    if len(digits) > width:
        raise ValueError("%s: more than %d digits: %s" % (name, width, digits))
    if name in LEFT_ALIGNED:
        if len(digits) % 2:
            raise ValueError("%s: not whole bytes: %s" % (name, digits))
        digits = digits.ljust(width, "0")
    return int(digits, 16)


def pairs_of(text, widths):
    """The (name, digits) of `name:hex` words."""
    for word in text.split():
        name, colon, digits = word.partition(":")
        if not colon or not digits or name not in widths:
            raise ValueError("not a column: %r" % word)
        yield name, digits.lower()


def short_in(line):
    """A job, and what its answer names, name to digits; None for a comment."""
    line = line.strip()
    if not line or line.startswith("#"):
        return None
    left, _, right = line.partition("->")
    given = {name: number_of(name, digits, JOB_WIDTH[name]) for name, digits in pairs_of(left, JOB_WIDTH)}
    told = dict(pairs_of(right, ANSWER_WIDTH))
    for name, digits in told.items():
        number_of(name, digits, ANSWER_WIDTH[name])
    return job_of(**given), told


def word_of(name, number, width):
    if name in LEFT_ALIGNED and name.startswith("head"):
        digits = "%0*x" % (width, number)
        return "%s:%s" % (name, digits[:len(bytes.fromhex(digits).rstrip(b"\0")) * 2])
    return "%s:%0*x" % (name, width if name in LEFT_ALIGNED else 1, number)


def short_words(columns, numbers):
    return " ".join(word_of(name, number, width) for (name, width), number in zip(columns, numbers) if number)


def short_line(job, answer=None):
    """The short form of a job, and of all columns of an answer (a dict) that are not 0."""
    text = short_words(JOB, job)
    if answer is not None:
        text += " -> " + short_words(ANSWER, [answer[name] for name in ANSWER_NAMES])
    return text + "\n"


# ---------------------------------------------------------------- words

OperandColumns = namedtuple("Operand", [name for name, _ in OPERAND])


def operand_of(job, which):
    """The nine columns of operand 1, 2 or 3."""
    start = 5 + 9 * (which - 1)
    return OperandColumns(*job[start:start + 9])


def bytes_words(seed, n, head=0):
    if n > HEAD:
        return "%d bytes of seed %d" % (n, seed) + (" (%s ..)" % make_pattern(seed, HEAD, head).hex(" ") if seed == 2 else "")
    return "%d bytes (%s)" % (n, make_pattern(seed, n, head).hex(" ")) if n else "no bytes"


def field_words(operand):
    space = SPACES[operand.space] if operand.space < len(SPACES) else "space %d" % operand.space
    return "%d bits at bit %d, flags 0x%02x (access type %d, update rule %s%s%s), %s" % (
        operand.length, operand.offset, operand.flags, operand.flags & 15,
        ("Preserve", "WriteAsOnes", "WriteAsZeros", "3")[operand.flags >> 5 & 3], ", lock" if operand.flags & 16 else "",
        ", bit 7" if operand.flags & 128 else "", space)


def operand_words(operand):
    kind = KINDS[operand.kind] if operand.kind < len(KINDS) else "kind %d" % operand.kind
    text = {"Boolean": "Boolean %s" % (operand.value != 0), "Integer": "Integer 0x%x" % operand.value,
            "BufferField": "BufferField of %d bits at bit %d" % (operand.length, operand.offset),
            "FieldUnit": "FieldUnit of " + field_words(operand)}.get(kind, kind)
    if operand.n or operand.kind in (2, 3, 4, 5):
        text += " with " + bytes_words(operand.seed, operand.n, operand.head)
    return text


ONE = (READ, SELF, FLAGS, TYPE, AS_INTEGER, AS_BOOL, AS_BUFFER, AS_STRING, AS_TYPE, AS_STATUS, TO_INTEGER, INCREMENT, DECREMENT,
       BUFFER_LENGTH, STRING_LENGTH)
WITH_OUTPUT = (READ, AS_BUFFER, AS_STRING, AS_TYPE, CONCAT, CONCAT_RES, BUILD)


def words_of(job):
    """A job in words."""
    name = OPS[job.op] if job.op < len(OPS) else "op %d" % job.op
    one = operand_of(job, 1)
    if job.op in (UNIT, ACCESS, CHECK):
        text = "%s: %s %s" % (name, "write 0x%x to" % job.value2 if job.write else "read", field_words(one))
        if job.op == CHECK:
            return text + ", region of %d bytes named" % job.made
        if job.op == ACCESS:
            text += ", access number %d with 0x%x held" % (job.made, job.held)
        return text + ", region of " + bytes_words(one.seed, one.n, one.head)
    if job.op == FLAGS:
        return "flags 0x%02x taken apart" % job.flags1
    if job.op == DEFAULT_STATUS:
        return name
    operands = 1 if job.op in ONE else 3 if job.op == MID else 2
    text = "%s: %s" % (name, "; ".join(operand_words(operand_of(job, which)) for which in range(1, operands + 1)))
    if job.op == AS_TYPE:
        text += "; to type %s" % TYPE_NAME.get(job.made, job.made)
    if job.op in WITH_OUTPUT:
        text += "; output of " + bytes_words(0 if job.out_seed == 2 else job.out_seed, job.out)
    return text


def difference(told, got):
    """What a full answer line says otherwise than the told columns (name to digits), in words; empty if nothing."""
    words = got.split()
    if [len(w) for w in words] != [width for _, width in ANSWER]:
        return "not an answer line: %r" % got
    have = dict(zip(ANSWER_NAMES, words))
    texts = []
    for name, digits in told.items():
        width = len(digits) if name in LEFT_ALIGNED else ANSWER_WIDTH[name]
        if digits.rjust(width, "0") != have[name][:width]:
            texts.append("%s: expected %s, got %s" % (name, digits.rjust(width, "0"), have[name][:width]))
    return "; ".join(texts)


def compare(vectors, got):
    """Compares (job, told columns) with the answer lines; prints how many differ, and the first difference."""
    differ, first = 0, ""
    for i, (job, told) in enumerate(vectors):
        text = difference(told, got[i] if i < len(got) else "nothing")
        if text:
            differ += 1
            first = first or "; the first, vector %d: %s: %s [%s]" % (i + 1, words_of(job), text, short_words(JOB, job))
    differ += max(0, len(got) - len(vectors))
    print("%d vectors, %d differ%s" % (len(vectors), differ, first))
    return 1 if differ or not vectors else 0


def list_in(lines):
    return [vector for vector in map(short_in, lines) if vector]


def main(words):
    command, names = (words[0] if words else ""), words[1:]
    if command == "full" and not names:
        sys.stdout.writelines(job_line(job) for job, _ in list_in(sys.stdin))
    elif command == "words" and not names:
        sys.stdout.writelines(words_of(job_in(line)) + "\n" for line in sys.stdin)
    elif command == "short" and len(names) == 1:
        sys.stdout.writelines(short_line(job_in(line)) for line in open(names[0]))
    elif command == "short" and len(names) == 2:
        sys.stdout.writelines(short_line(job_in(a), answer_in(b)) for a, b in zip(*map(open, names)))
    elif command == "compare" and len(names) == 2:
        return compare(list_in(open(names[0])), open(names[1]).readlines())
    else:
        print(__doc__, file=sys.stderr)
        return 2
    return 0


if __name__ == "__main__":
    sys.exit(main(sys.argv[1:]))
