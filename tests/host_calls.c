// Every function of the library, called from C at least once with an answer that document 01 gives, and with arguments that are no values.
#include <stdio.h>
#include <string.h>

#include "aml.h"

static int failures;

static void expect(bool holds, const char *what)
{
    if (holds)
        return;
    printf("WRONG: %s\n", what);
    failures++;
}

#define EXPECT(CONDITION) expect((CONDITION), #CONDITION)

static bool gives(aml_answer a, uint8_t kind, uint64_t value)
{
    return a.status == AML_DONE && a.present == 0 && a.wanted == 0 && a.kind == kind && a.count == 0 && a.value == value;
}

static bool refuses(aml_answer a, uint8_t status, uint8_t present, uint8_t wanted)
{
    return a.status == status && a.present == present && a.wanted == wanted && a.kind == 0 && a.count == 0 && a.value == 0;
}

static const uint8_t text[] = {'0', 'x', '1', 'F'};
static const uint8_t nine[] = {1, 2, 3, 4, 5, 6, 7, 8, 9};

static void conversions(void)
{
    uint8_t out[16] = {0};
    aml_value buffer = aml_of_kind(AML_BUFFER), string = aml_of_kind(AML_STRING), device = aml_of_kind(AML_DEVICE);
    EXPECT(gives(aml_type_of(aml_boolean(true)), AML_INTEGER, 0));
    EXPECT(gives(aml_type_of(aml_of_kind(AML_THERMAL_ZONE)), AML_THERMAL_ZONE, 0));
    EXPECT(gives(aml_as_integer(aml_boolean(true), AML_NO_BYTES), AML_INTEGER, UINT64_MAX));
    EXPECT(gives(aml_as_integer(buffer, nine, 9), AML_INTEGER, 0x0807060504030201));
    EXPECT(gives(aml_as_integer(aml_buffer_field(4, 8), nine, 9), AML_INTEGER, 0x20));
    EXPECT(gives(aml_as_integer(aml_field_unit(AML_SYSTEM_MEMORY, AML_WORD_ACCESS, 4, 12), nine, 9), AML_INTEGER, 0x20));
    EXPECT(refuses(aml_as_integer(string, text, 4), AML_INCOMPATIBLE_VALUE_CONVERSION, AML_STRING, AML_INTEGER));
    EXPECT(gives(aml_as_bool(aml_integer(7), AML_NO_BYTES), AML_BOOLEAN, 1));
    EXPECT(gives(aml_as_bool(aml_boolean(false), AML_NO_BYTES), AML_BOOLEAN, 0));
    EXPECT(gives(aml_as_buffer(buffer, nine, 9, out, 16), AML_BUFFER, 9) && memcmp(out, nine, 9) == 0 && out[9] == 0);
    EXPECT(refuses(aml_as_buffer(buffer, nine, 9, out, 8), AML_OUTPUT_TOO_SHORT, 0, 0));
    EXPECT(gives(aml_as_string(string, text, 4, out, 16), AML_STRING, 4) && memcmp(out, text, 4) == 0 && out[4] == 5);
    EXPECT(gives(aml_as_type(device, AML_NO_BYTES, AML_DEVICE, out, 16), AML_NO_KIND, 0));
    EXPECT(gives(aml_as_type(buffer, nine, 1, AML_INTEGER, out, 16), AML_INTEGER, 1));
    EXPECT(refuses(aml_as_type(device, AML_NO_BYTES, AML_STRING, out, 16), AML_INCOMPATIBLE_VALUE_CONVERSION, AML_DEVICE, AML_STRING));
    EXPECT(gives(aml_to_integer(string, text, 4), AML_INTEGER, 31));
    EXPECT(gives(aml_as_status(aml_integer(0x15), AML_NO_BYTES), AML_INTEGER, AML_PRESENT | AML_SHOW_IN_UI | AML_BATTERY_PRESENT));
    EXPECT(refuses(aml_as_status(aml_integer(32), AML_NO_BYTES), AML_INVALID_STATUS_OBJECT, 0, 0));
    EXPECT(aml_default_status() == 31);
}

static void fields(void)
{
    uint8_t out[16] = {0}, bytes[9], region[8] = {0}, word[2] = {0xFF, 0xFF};
    memcpy(bytes, nine, 9);
    EXPECT(gives(aml_read_buffer_field(bytes, 9, 4, 8, out, 16), AML_INTEGER, 0x20));
    EXPECT(gives(aml_read_buffer_field(bytes, 9, 0, 72, out, 16), AML_BUFFER, 9) && memcmp(out, nine, 9) == 0);
    EXPECT(refuses(aml_read_buffer_field(bytes, 1, 0, 9, out, 16), AML_BUFFER_FIELD_OUT_OF_BOUNDS, 0, 0));
    EXPECT(gives(aml_write_buffer_field(bytes, 9, 4, 8, aml_integer(0xAB), AML_NO_BYTES), 0, 0) && bytes[0] == 0xB1 && bytes[1] == 0x0A);
    EXPECT(refuses(aml_write_buffer_field(bytes, 9, 4, 8, aml_of_kind(AML_STRING), text, 4), AML_CANNOT_BE_WRITTEN_TO_BUFFER_FIELD, AML_STRING, 0));
    EXPECT(gives(aml_write_buffer_integer(bytes, 9, 0, 16, 0x0201), 0, 0) && bytes[0] == 1 && bytes[1] == 2);
    EXPECT(gives(aml_write_buffer_bytes(bytes, 9, 8, 16, nine + 4, 2), 0, 0) && bytes[1] == 5 && bytes[2] == 6);
    memcpy(bytes, nine, 9);
    EXPECT(gives(aml_write_buffer_field_self(bytes, 9, 8, 64), 0, 0) && bytes[0] == 1 && memcmp(bytes + 1, nine, 8) == 0);

    aml_answer w8 = aml_write_field(word, 2, AML_SYSTEM_MEMORY, AML_WORD_ACCESS, 0, 12, 0x123);
    EXPECT(w8.status == AML_DONE && w8.count == 2 && word[0] == 0x23 && word[1] == 0xF1);
    aml_answer read = aml_read_field(word, 2, AML_SYSTEM_MEMORY, AML_WORD_ACCESS, 0, 12);
    EXPECT(read.status == AML_DONE && read.kind == AML_INTEGER && read.count == 1 && read.value == 0x123);
    static const uint8_t after_w9[] = {0, 0, 0xF0, 0xDE, 0xBC, 0x0A, 0, 0};
    aml_answer w9 = aml_write_value(region, 8, AML_SYSTEM_MEMORY, AML_DWORD_ACCESS, 20, 24, aml_integer(0xABCDEF), AML_NO_BYTES);
    EXPECT(w9.status == AML_DONE && w9.count == 4 && memcmp(region, after_w9, 8) == 0);
    aml_answer self = aml_write_value_self(region, 8, AML_SYSTEM_MEMORY, AML_BYTE_ACCESS, 0, 8, aml_buffer_field(24, 8));
    EXPECT(self.status == AML_DONE && self.count == 1 && region[0] == 0xDE);
    aml_store(region, 8, 6, 2, 0x1234);
    EXPECT(aml_load(region, 8, 6, 2) == 0x1234 && region[6] == 0x34);
}

static void operators(void)
{
    uint8_t out[32] = {0};
    aml_value buffer = aml_of_kind(AML_BUFFER), string = aml_of_kind(AML_STRING), one = aml_integer(1);
    EXPECT(gives(aml_add(aml_integer(UINT64_MAX), AML_NO_BYTES, aml_integer(2), AML_NO_BYTES), AML_INTEGER, 1));
    EXPECT(gives(aml_and(aml_integer(12), AML_NO_BYTES, buffer, nine + 8, 1), AML_INTEGER, 8));
    EXPECT(gives(aml_shift_left(one, AML_NO_BYTES, aml_integer(63), AML_NO_BYTES), AML_INTEGER, (uint64_t)1 << 63));
    EXPECT(refuses(aml_shift_left(one, AML_NO_BYTES, aml_integer(64), AML_NO_BYTES), AML_INVALID_SHIFT_LEFT, 0, 0));
    EXPECT(gives(aml_shift_right(aml_integer(256), AML_NO_BYTES, aml_integer(4), AML_NO_BYTES), AML_INTEGER, 16));
    EXPECT(gives(aml_increment(one, AML_NO_BYTES), AML_INTEGER, 2));
    EXPECT(gives(aml_decrement(aml_integer(0), AML_NO_BYTES), AML_INTEGER, UINT64_MAX));
    EXPECT(gives(aml_compare(string, text, 3, string, text, 4), AML_INTEGER, 0));
    EXPECT(gives(aml_compare(buffer, nine, 9, buffer, nine, 9), AML_INTEGER, 1));
    EXPECT(gives(aml_compare(aml_integer(3), AML_NO_BYTES, one, AML_NO_BYTES), AML_INTEGER, 2));
    EXPECT(refuses(aml_compare(aml_of_kind(AML_MUTEX), AML_NO_BYTES, one, AML_NO_BYTES), AML_CANNOT_BE_COMPARED, AML_MUTEX, 0));
    aml_answer w5 = aml_mid(buffer, nine, 3, one, AML_NO_BYTES, aml_integer(UINT64_MAX), AML_NO_BYTES);
    EXPECT(w5.status == AML_DONE && w5.kind == AML_BUFFER && w5.count == 2 && w5.value == 1);
    aml_answer past = aml_mid(string, text, 4, aml_integer(9), AML_NO_BYTES, one, AML_NO_BYTES);
    EXPECT(past.status == AML_DONE && past.kind == AML_STRING && past.count == 0 && past.value == 4);
    EXPECT(refuses(aml_mid(one, AML_NO_BYTES, one, AML_NO_BYTES, one, AML_NO_BYTES), AML_CANNOT_BE_SLICED, AML_INTEGER, 0));
    EXPECT(gives(aml_concat(aml_of_kind(AML_DEVICE), AML_NO_BYTES, string, text, 4, out, 32), AML_STRING, 12) && memcmp(out, "[Device]0x1F", 12) == 0);
    static const uint8_t descriptor[] = {1, 2, 0x79, 0};
    static const uint8_t after_w3[] = {1, 2, 0x79, 0x84};
    EXPECT(gives(aml_concat_res(buffer, descriptor, 4, buffer, AML_NO_BYTES, out, 32), AML_BUFFER, 4) && memcmp(out, after_w3, 4) == 0);
    EXPECT(gives(aml_buffer(aml_integer(4), AML_NO_BYTES, nine, 2, out, 32), AML_BUFFER, 4) && memcmp(out, "\1\2\0\0", 4) == 0);
}

static void tables(void)
{
    uint8_t region[3] = {1, 2, 3};
    aml_called made = aml_new_table(3);
    EXPECT(gives(made.answer, 0, 0) && made.table.size == 3 && made.table.holder == 4 && !aml_is_malformed(made.table));
    EXPECT(refuses(aml_new_table(65537).answer, AML_TOO_MANY_BYTES, 0, 0) && aml_new_table(65537).table.size == 0);
    aml_called started = aml_start(made.table, region, 3, 2, 0, AML_SYSTEM_MEMORY, AML_BYTE_ACCESS | AML_LOCK_RULE, 4, 16, 0);
    EXPECT(started.answer.status == AML_DONE && started.answer.count == 3 && started.table.tasks[2].busy == 1);
    EXPECT(memcmp(&started.table.tasks[1], &made.table.tasks[1], sizeof(aml_task)) == 0);
    aml_called step = aml_step(started.table, region, 3, 2);
    EXPECT(step.answer.status == AML_DONE && step.answer.count == 1 && step.table.holder == 2 && step.table.tasks[2].made == 1);
    aml_called again = aml_step(step.table, region, 3, 2), last = aml_step(again.table, region, 3, 2);
    EXPECT(gives(last.answer, AML_INTEGER, 0x3020) && memcmp(&last.table, &made.table, sizeof(aml_table)) == 0);
    aml_called refused = aml_step(step.table, region, 2, 2);
    EXPECT(refuses(refused.answer, AML_REGION_LENGTH_DIFFERS, 0, 0) && memcmp(&refused.table, &step.table, sizeof(aml_table)) == 0);
    EXPECT(refuses(aml_step(step.table, region, 3, 4).answer, AML_NO_SUCH_TASK, 0, 0));
}

// Any numbers are a table, and what is damaged is 31.
static void damage(void)
{
    uint8_t region[3] = {1, 2, 3};
    aml_table busy = aml_start(aml_new_table(3).table, region, 3, 0, 1, AML_SYSTEM_MEMORY, AML_BYTE_ACCESS | AML_LOCK_RULE, 4, 16, 0).table;
    aml_table t = aml_step(busy, region, 3, 0).table;
    for (int i = 0; i < 6; i++) {
        aml_table d = t;
        if (i == 0) d.size = 65537;
        if (i == 1) d.holder = 77;
        if (i == 2) d.tasks[0].busy = 2;
        if (i == 3) d.tasks[0].write = 2;
        if (i == 4) d.tasks[0].made = UINT64_MAX;
        if (i == 5) memset(&d, 0xFF, sizeof d);
        aml_called c = aml_step(d, region, 3, 0);
        EXPECT(refuses(c.answer, AML_MALFORMED_TABLE, 0, 0) && memcmp(&c.table, &d, sizeof d) == 0 && aml_is_malformed(d));
    }
}

// 0, 7, 15, 16 and everything from 18 on are no kinds.
static void no_kinds(void)
{
    uint8_t out[4] = {9, 9, 9, 9};
    for (int kind = 0; kind < 256; kind++) {
        aml_value v = {(uint8_t)kind, 255, 255, UINT64_MAX, UINT64_MAX, UINT64_MAX};
        bool is = (1 <= kind && kind <= 14 && kind != 7) || kind == 17;
        EXPECT((aml_type_of(v).status == AML_NO_SUCH_KIND) == !is);
        EXPECT((aml_concat(v, AML_NO_BYTES, v, AML_NO_BYTES, out, 0).status == AML_NO_SUCH_KIND) == !is);
        EXPECT((aml_add(aml_integer(1), AML_NO_BYTES, v, AML_NO_BYTES).status == AML_NO_SUCH_KIND) == !is);
        EXPECT((aml_as_type(aml_integer(1), AML_NO_BYTES, (uint8_t)kind, out, 4).status == AML_NO_SUCH_KIND) == (!is || kind == 17));
        EXPECT((aml_write_buffer_field(out, 0, 0, 0, v, AML_NO_BYTES).status == AML_NO_SUCH_KIND) == !is);
    }
    EXPECT(out[0] == 9 && out[3] == 9);
}

int main(void)
{
    conversions();
    fields();
    operators();
    tables();
    damage();
    no_kinds();
    return failures != 0;
}
