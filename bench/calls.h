// The calls of the library, the sides that have them, and one call made by its input.
#pragma once
#include <stdbool.h>
#include <stddef.h>
#include <stdint.h>
#include <string.h>

#define COUNT(TABLE) (sizeof(TABLE) / sizeof((TABLE)[0]))

typedef struct {
    uint8_t status, present, wanted, kind;
    uint32_t count;
    uint64_t value;
} Answer;
_Static_assert(sizeof(Answer) == 16, "an answer comes back in two registers");

typedef struct {
    uint8_t kind, space, flags;
    uint64_t number, offset, length;
} HostValue;

enum { INTEGER = 1, STRING = 2, BUFFER = 3, FIELD_UNIT = 5, DEVICE = 6, BUFFER_FIELD = 14, BOOLEAN = 17 };

typedef struct {
    uint32_t busy;
    uint16_t write;
    uint8_t space, flags;
    uint64_t offset, length, value, made, held;
} HostTask;

typedef struct {
    uint64_t size, holder;
    HostTask tasks[4];
} HostTable;

typedef struct {
    HostTable table;
    Answer answer;
} Called;
_Static_assert(sizeof(Called) == 2 * 8 + 4 * 48 + 16, "a table has no padding");

// ---- the sides

#define IN const uint8_t *, size_t
#define OUT uint8_t *, size_t
#define EACH_CALL(X)                                                                                                   \
    X(Answer, read_buffer_field, (IN, uint64_t, uint64_t, OUT))                                                        \
    X(Answer, write_buffer_integer, (OUT, uint64_t, uint64_t, uint64_t))                                               \
    X(Answer, write_buffer_bytes, (OUT, uint64_t, uint64_t, IN))                                                       \
    X(Answer, write_buffer_field, (OUT, uint64_t, uint64_t, HostValue, IN))                                            \
    X(Answer, write_buffer_field_self, (OUT, uint64_t, uint64_t))                                                      \
    X(uint64_t, load, (IN, size_t, size_t))                                                                            \
    X(void, store, (OUT, size_t, size_t, uint64_t))                                                                    \
    X(Answer, read_field, (IN, uint8_t, uint8_t, uint64_t, uint64_t))                                                  \
    X(Answer, write_field, (OUT, uint8_t, uint8_t, uint64_t, uint64_t, uint64_t))                                      \
    X(Answer, write_value, (OUT, uint8_t, uint8_t, uint64_t, uint64_t, HostValue, IN))                                 \
    X(Answer, write_value_self, (OUT, uint8_t, uint8_t, uint64_t, uint64_t, HostValue))                                \
    X(Answer, type_of, (HostValue))                                                                                    \
    X(Answer, as_integer, (HostValue, IN))                                                                             \
    X(Answer, as_bool, (HostValue, IN))                                                                                \
    X(Answer, as_buffer, (HostValue, IN, OUT))                                                                         \
    X(Answer, as_string, (HostValue, IN, OUT))                                                                         \
    X(Answer, as_type, (HostValue, IN, uint8_t, OUT))                                                                  \
    X(Answer, to_integer, (HostValue, IN))                                                                             \
    X(Answer, as_status, (HostValue, IN))                                                                              \
    X(uint64_t, default_status, (void))                                                                                \
    X(Answer, add, (HostValue, IN, HostValue, IN))                                                                     \
    X(Answer, and, (HostValue, IN, HostValue, IN))                                                                     \
    X(Answer, shift_left, (HostValue, IN, HostValue, IN))                                                              \
    X(Answer, shift_right, (HostValue, IN, HostValue, IN))                                                             \
    X(Answer, increment, (HostValue, IN))                                                                              \
    X(Answer, decrement, (HostValue, IN))                                                                              \
    X(Answer, compare, (HostValue, IN, HostValue, IN))                                                                 \
    X(Answer, mid, (HostValue, IN, HostValue, IN, HostValue, IN))                                                      \
    X(Answer, concat, (HostValue, IN, HostValue, IN, OUT))                                                             \
    X(Answer, concat_res, (HostValue, IN, HostValue, IN, OUT))                                                         \
    X(Answer, buffer, (HostValue, IN, IN, OUT))                                                                        \
    X(Called, new_table, (uint64_t))                                                                                   \
    X(bool, is_malformed, (HostTable))                                                                                 \
    X(Called, start, (HostTable, IN, size_t, uint16_t, uint8_t, uint8_t, uint64_t, uint64_t, uint64_t))                \
    X(Called, step, (HostTable, OUT, size_t))

#define MEMBER(RESULT, NAME, PARAMETERS) RESULT(*NAME) PARAMETERS;
typedef struct {
    const char *name;
    EACH_CALL(MEMBER)
} Side;

#define DECLARE(RESULT, NAME, PARAMETERS)                                                                              \
    extern RESULT aml_##NAME PARAMETERS;                                                                               \
    extern RESULT ref_##NAME PARAMETERS;
EACH_CALL(DECLARE)

#define OURS(RESULT, NAME, PARAMETERS) .NAME = aml_##NAME,
#define RUST(RESULT, NAME, PARAMETERS) .NAME = ref_##NAME,
static const Side aml_side = {.name = "aml", EACH_CALL(OURS)};
static const Side ref_side = {.name = "ref", EACH_CALL(RUST)};

// memcpy where a call copies whole bytes.
__attribute__((noinline)) static Answer copy_read(const uint8_t *buffer, size_t size, uint64_t offset, uint64_t length, uint8_t *out, size_t out_size)
{
    (void)size, (void)out_size;
    memcpy(out, buffer + offset / 8, length / 8);
    return (Answer){.kind = BUFFER, .value = length / 8};
}

__attribute__((noinline)) static Answer copy_write(uint8_t *buffer, size_t size, uint64_t offset, uint64_t length, const uint8_t *bytes, size_t given)
{
    (void)size, (void)given;
    memcpy(buffer + offset / 8, bytes, length / 8);
    return (Answer){0};
}

static const Side copy_side = {.name = "copy", .read_buffer_field = copy_read, .write_buffer_bytes = copy_write};

// The text of the crate aml, where it is linked: a call is made ready, then made. It has no pointers.
static const Side crate_side = {.name = "crate"};
#ifdef WITH_TEXT
extern bool crate_ready(const char *, HostValue, IN, HostValue, IN, HostValue);
extern void crate_call(void);
#else
#define crate_ready(...) false
#define crate_call() (void)0
#endif

static const Side *const sides[] = {&aml_side, &ref_side, &copy_side, &crate_side};

// ---- one call

enum Call {
    READ_BUFFER,
    WRITE_INTEGER,
    WRITE_BYTES,
    WRITE_BUFFER,
    WRITE_SELF,
    LOAD,
    STORE,
    READ_FIELD,
    WRITE_FIELD,
    WRITE_VALUE,
    WRITE_VALUE_SELF,
    TYPE_OF,
    AS_INTEGER,
    AS_BOOL,
    AS_BUFFER,
    AS_STRING,
    AS_TYPE,
    TO_INTEGER,
    AS_STATUS,
    DEFAULT_STATUS,
    ADD,
    AND,
    SHIFT_LEFT,
    SHIFT_RIGHT,
    INCREMENT,
    DECREMENT,
    COMPARE,
    MID,
    CONCAT,
    CONCAT_RES,
    BUILD,
    NEW_TABLE,
    IS_MALFORMED,
    START,
    STEP,
    CALLS
};

static const char *const call_names[CALLS] = {
    "read buffer field", "write integer", "write bytes", "write buffer field", "write buffer itself", "load unit", "store unit", "read field unit",
    "write field unit",  "write value",   "write value of the region", "type of", "as integer", "as bool", "as buffer", "as string", "as type",
    "ToInteger",         "as status",     "default status", "Add", "And", "ShiftLeft", "ShiftRight", "Increment", "Decrement", "compare", "Mid", "Concat",
    "ConcatRes",         "build buffer",  "new table", "is malformed", "start", "step",
};

enum { MOST_BYTES = 65536 + 64 };

// offset and length are in bits, those of a unit in bytes.
typedef struct {
    enum Call call;
    size_t size, other_size, out_size; // of the buffer, region or left bytes; of the written, right or initial bytes; of the output
    uint8_t space, flags;
    uint64_t offset, length, value;
    HostValue left, right, third; // the bytes beside the third are those beside the second
    uint8_t wanted;
    const char *text; // what the left bytes are, if not a pattern
    bool same;        // the right bytes are the left ones
    size_t task;
    uint16_t write;
    HostTable table;
} Input;

typedef struct {
    uint8_t memory[MOST_BYTES], other[MOST_BYTES], out[MOST_BYTES];
    HostTable table; // after a call
} Bytes;

static Answer take(Called called, Bytes *b)
{
    b->table = called.table;
    return called.answer;
}

static Answer number(uint64_t value) { return (Answer){.value = value}; }

#define MEMORY b->memory, in->size
#define OTHER b->other, in->other_size
#define RESULT b->out, in->out_size
#define FIELD in->space, in->flags, in->offset, in->length

static bool make_crate_ready(const Input *in, const Bytes *b)
{
    HostValue left = in->left, right = in->right;
    if (in->call <= WRITE_BUFFER)
        left = (HostValue){.kind = BUFFER_FIELD, .offset = in->offset, .length = in->length};
    if (READ_FIELD <= in->call && in->call <= WRITE_VALUE)
        left = (HostValue){.kind = FIELD_UNIT, .flags = in->flags, .offset = in->offset, .length = in->length};
    if (in->call == WRITE_INTEGER || in->call == WRITE_FIELD)
        right = (HostValue){.kind = INTEGER, .number = in->value};
    if (in->call == WRITE_BYTES)
        right = (HostValue){.kind = BUFFER};
    (void)left, (void)right, (void)b;
    return crate_ready(call_names[in->call], left, MEMORY, right, OTHER, in->third);
}

// Whether the side has the call on this input. The bytes are filled.
static bool make_ready(const Side *side, const Input *in, const Bytes *b)
{
    if (side == &crate_side)
        return make_crate_ready(in, b);
    if (side == &copy_side)
        return (in->call == READ_BUFFER || in->call == WRITE_BYTES) && in->offset % 8 == 0 && in->length % 8 == 0 && in->length > 64;
    return true;
}

static Answer make_call(const Side *side, const Input *in, Bytes *b)
{
    if (side == &crate_side)
        return crate_call(), number(0);
    switch (in->call) {
    case READ_BUFFER: return side->read_buffer_field(MEMORY, in->offset, in->length, RESULT);
    case WRITE_INTEGER: return side->write_buffer_integer(MEMORY, in->offset, in->length, in->value);
    case WRITE_BYTES: return side->write_buffer_bytes(MEMORY, in->offset, in->length, OTHER);
    case WRITE_BUFFER: return side->write_buffer_field(MEMORY, in->offset, in->length, in->right, OTHER);
    case WRITE_SELF: return side->write_buffer_field_self(MEMORY, in->offset, in->length);
    case LOAD: return number(side->load(MEMORY, in->offset, in->length));
    case STORE: return side->store(MEMORY, in->offset, in->length, in->value), number(0);
    case READ_FIELD: return side->read_field(MEMORY, FIELD);
    case WRITE_FIELD: return side->write_field(MEMORY, FIELD, in->value);
    case WRITE_VALUE: return side->write_value(MEMORY, FIELD, in->right, OTHER);
    case WRITE_VALUE_SELF: return side->write_value_self(MEMORY, FIELD, in->right);
    case TYPE_OF: return side->type_of(in->left);
    case AS_INTEGER: return side->as_integer(in->left, MEMORY);
    case AS_BOOL: return side->as_bool(in->left, MEMORY);
    case AS_BUFFER: return side->as_buffer(in->left, MEMORY, RESULT);
    case AS_STRING: return side->as_string(in->left, MEMORY, RESULT);
    case AS_TYPE: return side->as_type(in->left, MEMORY, in->wanted, RESULT);
    case TO_INTEGER: return side->to_integer(in->left, MEMORY);
    case AS_STATUS: return side->as_status(in->left, MEMORY);
    case DEFAULT_STATUS: return number(side->default_status());
    case ADD: return side->add(in->left, MEMORY, in->right, OTHER);
    case AND: return side->and(in->left, MEMORY, in->right, OTHER);
    case SHIFT_LEFT: return side->shift_left(in->left, MEMORY, in->right, OTHER);
    case SHIFT_RIGHT: return side->shift_right(in->left, MEMORY, in->right, OTHER);
    case INCREMENT: return side->increment(in->left, MEMORY);
    case DECREMENT: return side->decrement(in->left, MEMORY);
    case COMPARE: return side->compare(in->left, MEMORY, in->right, OTHER);
    case MID: return side->mid(in->left, MEMORY, in->right, OTHER, in->third, OTHER);
    case CONCAT: return side->concat(in->left, MEMORY, in->right, OTHER, RESULT);
    case CONCAT_RES: return side->concat_res(in->left, MEMORY, in->right, OTHER, RESULT);
    case BUILD: return side->buffer(in->left, MEMORY, OTHER, RESULT);
    case NEW_TABLE: return take(side->new_table(in->size), b);
    case IS_MALFORMED: return number(side->is_malformed(in->table));
    case START: return take(side->start(in->table, MEMORY, in->task, in->write, FIELD, in->value), b);
    case STEP: return take(side->step(in->table, MEMORY, in->task), b);
    default: return number(0);
    }
}
