/* The proved field layer, for C99 on x86-64 Linux. `tools/built link` makes the archive, target/staticlib/liblink.a.
 *
 * Every call ends, checks its own arguments and answers by a struct of numbers. A refusal changes no byte.
 * Bytes are lent for the call, as a pointer and a length: the pointer is not null (AML_NO_BYTES where there are none), the bytes stay
 * where they are during the call, and bytes that a call may write overlap no others that it is given. That is all a caller owes:
 * any number in any other place is answered.
 */
#ifndef AML_H
#define AML_H

#include <stdbool.h>
#include <stddef.h>
#include <stdint.h>

#ifdef __cplusplus
extern "C" {
#endif

/* ---- answers */

/* Why a call was refused. */
enum {
    AML_DONE = 0, /* it was not */
    AML_INCOMPATIBLE_VALUE_CONVERSION = 1,
    AML_BUFFER_FIELD_OUT_OF_BOUNDS = 2,
    AML_CANNOT_BE_WRITTEN_TO_BUFFER_FIELD = 3,
    AML_CANNOT_BE_COMPARED = 4,
    AML_CANNOT_BE_SLICED = 5,
    AML_RESOURCE_DESCRIPTOR_TOO_SHORT = 6,
    AML_INVALID_SHIFT_LEFT = 7,
    AML_INVALID_SHIFT_RIGHT = 8,
    AML_INVALID_FIELD_FLAGS = 9,
    AML_INVALID_STATUS_OBJECT = 10,
    AML_MALFORMED_BUFFER = 11,
    AML_OUTPUT_TOO_SHORT = 20,
    AML_FIELD_UNIT_LENGTH = 21,
    AML_FIELD_UNIT_OUTSIDE_REGION = 22,
    AML_LOCK_HELD = 23,
    AML_NO_SUCH_TASK = 24,
    AML_TASK_BUSY = 25,
    AML_TASK_IDLE = 26,
    AML_TOO_MANY_BYTES = 27,
    AML_UNSUPPORTED_REGION_SPACE = 28,
    AML_QWORD_ACCESS_IN_SPACE = 29,
    AML_REGION_LENGTH_DIFFERS = 30,
    AML_MALFORMED_TABLE = 31,
    AML_NO_SUCH_KIND = 255 /* a value or a wanted type has a kind that is none of those below; judged before all else */
};

/* Kinds of values, and types: ACPI's numbers (ObjectType), and one for a Boolean, whose type is Integer. */
enum {
    AML_NO_KIND = 0,
    AML_INTEGER = 1,
    AML_STRING = 2,
    AML_BUFFER = 3,
    AML_PACKAGE = 4,
    AML_FIELD_UNIT = 5,
    AML_DEVICE = 6,
    AML_METHOD = 8,
    AML_MUTEX = 9,
    AML_OP_REGION = 10,
    AML_POWER_RESOURCE = 11,
    AML_PROCESSOR = 12,
    AML_THERMAL_ZONE = 13,
    AML_BUFFER_FIELD = 14,
    AML_BOOLEAN = 17
};

typedef struct aml_answer {
    uint8_t status;  /* AML_DONE, or why the call was refused; then the other numbers but the next two are 0 */
    uint8_t present; /* of 1 the present type, of 3, 4 and 5 the type met */
    uint8_t wanted;  /* of 1 the wanted type */
    uint8_t kind;    /* the value's kind, AML_NO_KIND where there is no value */
    uint32_t count;  /* loads and stores; what else is said at the call */
    uint64_t value;  /* an Integer, 0 or 1 of a Boolean, how many bytes a Buffer or a String has */
} aml_answer;

/* ---- values */

/* A kind looks at its own numbers alone. A String's and a Buffer's bytes, a BufferField's buffer and a FieldUnit's region are lent beside it. */
typedef struct aml_value {
    uint8_t kind;
    uint8_t space;   /* a FieldUnit's region: AML_SYSTEM_MEMORY .. */
    uint8_t flags;   /* a FieldUnit's */
    uint64_t number; /* an Integer's; a Boolean is false where it is 0 */
    uint64_t offset; /* a BufferField's and a FieldUnit's, in bits */
    uint64_t length; /* likewise */
} aml_value;

/* Region spaces, by ACPI's numbers; fields lie in the first three. */
enum { AML_SYSTEM_MEMORY = 0, AML_SYSTEM_IO = 1, AML_PCI_CONFIG = 2 };

/* A field's flags byte: one of each line. */
enum { AML_ANY_ACCESS = 0, AML_BYTE_ACCESS = 1, AML_WORD_ACCESS = 2, AML_DWORD_ACCESS = 3, AML_QWORD_ACCESS = 4, AML_BUFFER_ACCESS = 5 };
enum { AML_NO_LOCK_RULE = 0, AML_LOCK_RULE = 16 };
enum { AML_PRESERVE = 0, AML_WRITE_AS_ONES = 32, AML_WRITE_AS_ZEROS = 64 };

/* A pointer and a length where no bytes are lent. */
#define AML_NO_BYTES ((const uint8_t *)""), ((size_t)0)

static inline aml_value aml_integer(uint64_t number)
{
    aml_value v = {AML_INTEGER, 0, 0, number, 0, 0};
    return v;
}

static inline aml_value aml_boolean(bool truth)
{
    aml_value v = {AML_BOOLEAN, 0, 0, truth, 0, 0};
    return v;
}

/* AML_STRING, AML_BUFFER, AML_DEVICE .. */
static inline aml_value aml_of_kind(uint8_t kind)
{
    aml_value v = {kind, 0, 0, 0, 0, 0};
    return v;
}

static inline aml_value aml_buffer_field(uint64_t offset, uint64_t length)
{
    aml_value v = {AML_BUFFER_FIELD, 0, 0, 0, offset, length};
    return v;
}

static inline aml_value aml_field_unit(uint8_t space, uint8_t flags, uint64_t offset, uint64_t length)
{
    aml_value v = {AML_FIELD_UNIT, space, flags, 0, offset, length};
    return v;
}

/* ---- conversions */

/* kind: the value's type */
aml_answer aml_type_of(aml_value value);
aml_answer aml_as_integer(aml_value value, const uint8_t *bytes, size_t bytes_len);
aml_answer aml_as_bool(aml_value value, const uint8_t *bytes, size_t bytes_len);
/* The bytes go to the front of out; value says how many. */
aml_answer aml_as_buffer(aml_value value, const uint8_t *bytes, size_t bytes_len, uint8_t *out, size_t out_len);
aml_answer aml_as_string(aml_value value, const uint8_t *bytes, size_t bytes_len, uint8_t *out, size_t out_len);
/* kind: AML_NO_KIND where the value has the type already; else AML_INTEGER, or AML_BUFFER at the front of out */
aml_answer aml_as_type(aml_value value, const uint8_t *bytes, size_t bytes_len, uint8_t wanted, uint8_t *out, size_t out_len);
/* The operator ToInteger. */
aml_answer aml_to_integer(aml_value value, const uint8_t *bytes, size_t bytes_len);

/* What _STA answers: value has these bits. */
enum { AML_PRESENT = 1, AML_ENABLED = 2, AML_SHOW_IN_UI = 4, AML_FUNCTIONAL = 8, AML_BATTERY_PRESENT = 16 };
aml_answer aml_as_status(aml_value value, const uint8_t *bytes, size_t bytes_len);
/* The bits of a device that has no _STA. */
uint64_t aml_default_status(void);

/* ---- buffer fields: offset and length in bits */

/* Up to 64 bits give an Integer; more give a Buffer at the front of out. */
aml_answer aml_read_buffer_field(const uint8_t *buffer, size_t buffer_len, uint64_t offset, uint64_t length, uint8_t *out, size_t out_len);
aml_answer aml_write_buffer_field(uint8_t *buffer, size_t buffer_len, uint64_t offset, uint64_t length, aml_value value, const uint8_t *bytes,
                                  size_t bytes_len);
/* The buffer itself, as it was before. */
aml_answer aml_write_buffer_field_self(uint8_t *buffer, size_t buffer_len, uint64_t offset, uint64_t length);
/* An Integer; a Buffer. */
aml_answer aml_write_buffer_integer(uint8_t *buffer, size_t buffer_len, uint64_t offset, uint64_t length, uint64_t value);
aml_answer aml_write_buffer_bytes(uint8_t *buffer, size_t buffer_len, uint64_t offset, uint64_t length, const uint8_t *bytes, size_t bytes_len);

/* ---- field units: offset and length in bits; count: the loads and stores made */

aml_answer aml_read_field(const uint8_t *region, size_t region_len, uint8_t space, uint8_t flags, uint64_t offset, uint64_t length);
aml_answer aml_write_field(uint8_t *region, size_t region_len, uint8_t space, uint8_t flags, uint64_t offset, uint64_t length, uint64_t value);
/* Any value that converts to integer. */
aml_answer aml_write_value(uint8_t *region, size_t region_len, uint8_t space, uint8_t flags, uint64_t offset, uint64_t length, aml_value value,
                           const uint8_t *bytes, size_t bytes_len);
/* A value whose bytes are the region itself. */
aml_answer aml_write_value_self(uint8_t *region, size_t region_len, uint8_t space, uint8_t flags, uint64_t offset, uint64_t length, aml_value value);

/* One unit: 1, 2, 4 or 8 bytes at a place, lowest first, by one access of the machine. Past the region's end there are zeros to load and
 * nothing to store; more than 8 bytes count as 8. */
uint64_t aml_load(const uint8_t *region, size_t region_len, size_t at, size_t bytes);
void aml_store(uint8_t *region, size_t region_len, size_t at, size_t bytes, uint64_t value);

/* ---- operators */

aml_answer aml_add(aml_value left, const uint8_t *left_bytes, size_t left_len, aml_value right, const uint8_t *right_bytes, size_t right_len);
aml_answer aml_and(aml_value left, const uint8_t *left_bytes, size_t left_len, aml_value right, const uint8_t *right_bytes, size_t right_len);
aml_answer aml_shift_left(aml_value left, const uint8_t *left_bytes, size_t left_len, aml_value right, const uint8_t *right_bytes, size_t right_len);
aml_answer aml_shift_right(aml_value left, const uint8_t *left_bytes, size_t left_len, aml_value right, const uint8_t *right_bytes,
                           size_t right_len);
aml_answer aml_increment(aml_value value, const uint8_t *bytes, size_t bytes_len);
aml_answer aml_decrement(aml_value value, const uint8_t *bytes, size_t bytes_len);
/* value: 0, 1, 2 for less, equal, greater */
aml_answer aml_compare(aml_value left, const uint8_t *left_bytes, size_t left_len, aml_value right, const uint8_t *right_bytes, size_t right_len);
/* The part is the source's own bytes: count of them, from value on. kind: the source's */
aml_answer aml_mid(aml_value source, const uint8_t *source_bytes, size_t source_len, aml_value index, const uint8_t *index_bytes, size_t index_len,
                   aml_value length, const uint8_t *length_bytes, size_t length_len);
/* kind: AML_STRING or AML_BUFFER, at the front of out */
aml_answer aml_concat(aml_value left, const uint8_t *left_bytes, size_t left_len, aml_value right, const uint8_t *right_bytes, size_t right_len,
                      uint8_t *out, size_t out_len);
aml_answer aml_concat_res(aml_value left, const uint8_t *left_bytes, size_t left_len, aml_value right, const uint8_t *right_bytes, size_t right_len,
                          uint8_t *out, size_t out_len);
/* A buffer of size bytes at the front of out: the initial ones, then zeros. */
aml_answer aml_buffer(aml_value size, const uint8_t *size_bytes, size_t size_len, const uint8_t *initial, size_t initial_len, uint8_t *out,
                      size_t out_len);

/* ---- the task table: four tasks on one region, a load or store a step */

typedef struct aml_task {
    uint32_t busy;  /* 0 or 1 */
    uint16_t write; /* 0 or 1 */
    uint8_t space, flags;
    uint64_t offset, length;
    uint64_t value; /* what it writes */
    uint64_t made;  /* its loads and stores so far */
    uint64_t held;  /* what its loads gave */
} aml_task;

/* Only the calls below change it; the host keeps it. A damaged one is refused, 31. It has no padding. */
typedef struct aml_table {
    uint64_t size;   /* the region's length */
    uint64_t holder; /* the task that has the lock, 4 for none */
    aml_task tasks[4];
} aml_table;

/* The table after the call, as it was where the call was refused. */
typedef struct aml_called {
    aml_table table;
    aml_answer answer;
} aml_called;

/* A table for a region of size bytes; one for no bytes where that is refused. */
aml_called aml_new_table(uint64_t size);
/* A read of the field where write is 0, else a write of value. count: the loads and stores to come */
aml_called aml_start(aml_table table, const uint8_t *region, size_t region_len, size_t task, uint16_t write, uint8_t space, uint8_t flags,
                     uint64_t offset, uint64_t length, uint64_t value);
/* The task's next load or store. count: 1 while there are more to come, 0 at the last; a read has its value then, and kind AML_INTEGER */
aml_called aml_step(aml_table table, uint8_t *region, size_t region_len, size_t task);
bool aml_is_malformed(aml_table table);

/* ---- the sizes that cross */

#define AML_SAME_SIZE(name, size) typedef char aml_size_of_##name[sizeof(name) == (size) ? 1 : -1]
AML_SAME_SIZE(aml_answer, 16);
AML_SAME_SIZE(aml_value, 32);
AML_SAME_SIZE(aml_task, 48);
AML_SAME_SIZE(aml_table, 208);
AML_SAME_SIZE(aml_called, 224);
#undef AML_SAME_SIZE

#ifdef __cplusplus
}
#endif

#endif
