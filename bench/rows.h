// The measured inputs.
#pragma once
#include "calls.h"
#include <inttypes.h>
#include <stdio.h>

typedef struct {
    const char *name;
    double bar; // at most so many times the reference's instructions; 0 where there is none
    bool same;  // and all inputs of a call take the same number
} Group;

enum { FIELDS, SHORT, UNITS, FIELD_UNITS, ODD_RUNS, WHOLE_BYTES, NUMBERS, BYTES, TABLES, TABLE_CHECKS, REGIONS };

static const Group groups[] = {
    [FIELDS] = {"buffer field of up to 64 bits, 8 bytes or more", 1.25, false},
    [SHORT] = {"buffer field of up to 64 bits, a shorter buffer", 0, false},
    [UNITS] = {"unit at exact width", 1.0, false},
    [FIELD_UNITS] = {"field unit", 1.25, false},
    [ODD_RUNS] = {"run over 64 bits, odd offset", 1.0, false},
    [WHOLE_BYTES] = {"run over 64 bits, whole bytes", 0, false},
    [NUMBERS] = {"conversions and operators on up to 64 bits", 1.25, false},
    [BYTES] = {"conversions and operators on bytes", 0, false},
    [TABLES] = {"task table", 2.0, false},
    [TABLE_CHECKS] = {"task table, the other calls", 0, false},
    [REGIONS] = {"task table, regions of 8, 256, 4,096 and 65,536 bytes", 2.0, true},
};

typedef struct {
    int group;
    Input in;
} Row;

enum { MOST_ROWS = 2000 };
static Row rows[MOST_ROWS];
static int row_count;

static const uint64_t SOME_VALUE = 0x123456789abcdef1;

// A value of so many bits.
static uint64_t value_of(uint64_t length) { return length < 64 ? SOME_VALUE & ((1ull << length) - 1) : SOME_VALUE; }

static void add_row(int group, Input in)
{
    if (in.value == 0)
        in.value = SOME_VALUE;
    rows[row_count++] = (Row){group, in};
}

// ---- buffer fields

static void add_buffer_fields(int group, const size_t *sizes, size_t size_count, const uint64_t *lengths, size_t length_count)
{
    static const enum Call calls[] = {READ_BUFFER, WRITE_INTEGER, WRITE_BUFFER};
    static const uint64_t offsets[] = {0, 3, 8, 13};
    for (size_t c = 0; c < COUNT(calls); c++)
        for (size_t s = 0; s < size_count; s++)
            for (size_t l = 0; l < length_count; l++) {
                uint64_t bits = 8 * sizes[s], length = lengths[l];
                Input in = {.call = calls[c], .size = sizes[s], .length = length, .right = {.kind = INTEGER, .number = SOME_VALUE}};
                for (size_t o = 0; o < COUNT(offsets); o++)
                    if (in.offset = offsets[o], offsets[o] + length <= bits)
                        add_row(group, in);
                if (in.offset = bits - length, offsets[COUNT(offsets) - 1] + length < bits) // up to the end
                    add_row(group, in);
            }
}

static void add_runs(int group, uint64_t offset, const uint64_t *lengths, size_t length_count)
{
    static const enum Call calls[] = {READ_BUFFER, WRITE_INTEGER, WRITE_BYTES, WRITE_SELF};
    for (size_t c = 0; c < COUNT(calls); c++)
        for (size_t l = 0; l < length_count; l++)
            add_row(group, (Input){.call = calls[c], .size = 300, .other_size = 256, .out_size = 256, .offset = offset, .length = lengths[l]});
}

// ---- units and field units

static void add_units(void)
{
    static const size_t widths[] = {1, 2, 4, 8};
    for (enum Call call = LOAD; call <= STORE; call++)
        for (size_t w = 0; w < COUNT(widths); w++)
            add_row(UNITS, (Input){.call = call, .size = 64, .offset = 16, .length = widths[w]});
}

enum { LOCK_RULE = 1 << 4, PRESERVE = 0 << 5, WRITE_AS_ONES = 1 << 5 };

static void add_field_units(void)
{
    static const struct {
        enum Call call;
        uint8_t rule;
    } operations[] = {{READ_FIELD, 0}, {WRITE_FIELD, PRESERVE}, {WRITE_FIELD, WRITE_AS_ONES}, {WRITE_VALUE, PRESERVE}};
    static const uint64_t lengths[] = {1, 8, 12, 16, 32, 33, 64};
    static const uint64_t offsets[] = {0, 128, 131, 141};
    for (size_t p = 0; p < COUNT(operations); p++)
        for (uint8_t access = 0; access <= 5; access++)
            for (size_t o = 0; o < COUNT(offsets); o++)
                for (size_t l = 0; l < COUNT(lengths); l++) {
                    Input in = {.call = operations[p].call, .size = 64, .flags = access | operations[p].rule};
                    in.offset = offsets[o], in.length = lengths[l], in.value = value_of(lengths[l]);
                    in.right = (HostValue){.kind = INTEGER, .number = in.value};
                    add_row(FIELD_UNITS, in);
                }
}

// ---- conversions and operators

#define A_SMALL {.kind = INTEGER, .number = 13}
#define TRUE {.kind = BOOLEAN, .number = 1}
#define A_BUFFER {.kind = BUFFER}
#define A_STRING {.kind = STRING}
#define A_FIELD {.kind = BUFFER_FIELD, .offset = 13, .length = 33}
#define A_SHORT_FIELD {.kind = BUFFER_FIELD, .offset = 13, .length = 12}
#define A_LONG_FIELD {.kind = BUFFER_FIELD, .offset = 3, .length = 512}
#define A_UNIT {.kind = FIELD_UNIT, .flags = 2, .offset = 19, .length = 33}
#define A_WHOLE_UNIT {.kind = FIELD_UNIT, .flags = 3, .length = 32}

static const HostValue numbers[] = {{.kind = INTEGER, .number = 0x123456789abcdef1}, A_SMALL, TRUE, A_BUFFER, A_FIELD, A_SHORT_FIELD, A_UNIT,
                                    A_WHOLE_UNIT};

static void add_numbers(void)
{
    for (size_t n = 0; n < COUNT(numbers); n++) {
        Input in = {.size = 64, .other_size = 64, .out_size = 64, .left = numbers[n], .right = A_SMALL};
        static const enum Call calls[] = {TYPE_OF, AS_INTEGER, TO_INTEGER, INCREMENT, DECREMENT, ADD, AND, SHIFT_LEFT, SHIFT_RIGHT};
        for (size_t c = 0; c < COUNT(calls); c++)
            if (in.call = calls[c], in.call != TO_INTEGER || n < 2 || numbers[n].kind == BUFFER)
                add_row(NUMBERS, in);
        in.call = AS_TYPE, in.wanted = INTEGER;
        add_row(NUMBERS, in);
        if (numbers[n].kind != BUFFER && numbers[n].kind != BUFFER_FIELD) {
            in.call = COMPARE;
            add_row(NUMBERS, in);
        }
        if (n < 3) {
            in.call = AS_BOOL;
            add_row(NUMBERS, in);
            in.call = CONCAT;
            add_row(NUMBERS, in);
        }
        in.call = MID, in.left = (HostValue)A_BUFFER, in.right = numbers[n], in.third = (HostValue)A_SMALL;
        add_row(NUMBERS, in);
    }
    for (size_t n = 0; n < COUNT(numbers); n++) // on the right
        add_row(NUMBERS, (Input){.call = ADD, .size = 64, .other_size = 64, .left = A_SMALL, .right = numbers[n]});
    add_row(NUMBERS, (Input){.call = AS_STATUS, .left = A_SMALL});
    add_row(NUMBERS, (Input){.call = DEFAULT_STATUS});
}

static void add_texts(void)
{
    static const char *const texts[] = {"0", "12345", "0x1F", "0xfFFFffffFFFFffff", "18446744073709551615"};
    for (size_t t = 0; t < COUNT(texts); t++)
        add_row(BYTES, (Input){.call = TO_INTEGER, .size = strlen(texts[t]), .left = A_STRING, .text = texts[t]});
}

static void add_bytes(void)
{
    static const size_t sizes[] = {2, 12, 64, 250, 2000};
    for (size_t s = 0; s < COUNT(sizes); s++) {
        Input in = {.size = sizes[s], .other_size = sizes[s], .out_size = 5000, .left = A_BUFFER, .right = A_BUFFER, .same = true};
        static const enum Call calls[] = {AS_BUFFER, COMPARE, CONCAT, CONCAT_RES, BUILD};
        for (size_t c = 0; c < COUNT(calls); c++)
            if (in.call = calls[c], in.call != BUILD)
                add_row(BYTES, in);
        in.call = BUILD, in.left = (HostValue){.kind = INTEGER, .number = 2 * sizes[s]};
        add_row(BYTES, in);
        in.left = in.right = (HostValue)A_STRING;
        in.call = AS_STRING;
        add_row(BYTES, in);
        in.call = COMPARE;
        add_row(BYTES, in);
        in.call = CONCAT;
        add_row(BYTES, in);
    }
    static const enum Call calls[] = {COMPARE, CONCAT, CONCAT_RES};
    for (size_t c = 0; c < COUNT(calls); c++) // a field over 64 bits on the right
        add_row(BYTES, (Input){.call = calls[c], .size = 64, .other_size = 80, .out_size = 200, .left = A_BUFFER, .right = A_LONG_FIELD});
    add_row(BYTES, (Input){.call = AS_BUFFER, .size = 80, .out_size = 200, .left = A_LONG_FIELD});
    add_row(BYTES, (Input){.call = CONCAT, .size = 12, .out_size = 200, .left = A_STRING, .right = {.kind = DEVICE}});
    add_row(BYTES, (Input){.call = CONCAT, .out_size = 200, .left = {.kind = FIELD_UNIT}, .right = {.kind = DEVICE}});
}

// ---- the task table

// A start, and each step after it, one row each.
static void add_task(int group, HostTable table, size_t size, uint16_t write, uint8_t flags, uint64_t offset, uint64_t length)
{
    static Bytes b;
    Input in = {.call = START, .size = size, .write = write, .flags = flags, .offset = offset, .length = length, .table = table};
    in.value = value_of(length);
    add_row(group, in);
    Answer a = make_call(&ref_side, &in, &b);
    for (uint32_t k = a.count; k > 0; k--) {
        in.call = STEP;
        in.table = b.table;
        add_row(group, in);
        make_call(&ref_side, &in, &b);
    }
}

// Tasks 1 to 3 are under way, one of them with the lock.
static HostTable full_table(size_t size)
{
    HostTable t = ref_side.new_table(size).table;
    t.tasks[1] = (HostTask){.busy = 1, .flags = 1, .offset = 7, .length = 9};
    t.tasks[2] = (HostTask){.busy = 1, .write = 1, .flags = 3, .offset = 40, .length = 24, .value = 99};
    t.tasks[3] = (HostTask){.busy = 1, .write = 1, .flags = 1 | LOCK_RULE, .offset = 3, .length = 12, .value = 5, .made = 1};
    t.holder = 3;
    return t;
}

static void add_tasks(void)
{
    static const struct {
        uint16_t write;
        uint8_t flags;
        uint64_t offset, length;
    } operations[] = {
        {0, 1, 0, 8},         {0, 1, 131, 33}, {0, 3, 32, 32},           {0, 4, 64, 64},           {0, 2 | LOCK_RULE, 131, 33},
        {1, 1, 0, 8},         {1, 1, 131, 12}, {1, 3, 32, 32},           {1, 4, 64, 64},           {1, 2 | LOCK_RULE, 131, 33},
        {1, 4, 141, 64},      {1, 1 | WRITE_AS_ONES, 131, 12},
    };
    for (size_t p = 0; p < COUNT(operations); p++) {
        add_task(TABLES, ref_side.new_table(64).table, 64, operations[p].write, operations[p].flags, operations[p].offset, operations[p].length);
        if (!(operations[p].flags & LOCK_RULE))
            add_task(TABLES, full_table(64), 64, operations[p].write, operations[p].flags, operations[p].offset, operations[p].length);
    }
    add_row(TABLE_CHECKS, (Input){.call = NEW_TABLE, .size = 64});
    add_row(TABLE_CHECKS, (Input){.call = IS_MALFORMED, .table = ref_side.new_table(64).table});
    add_row(TABLE_CHECKS, (Input){.call = IS_MALFORMED, .table = full_table(64)});
}

// The same operation in each region, at its end.
static void add_regions(void)
{
    static const size_t sizes[] = {8, 256, 4096, 65536};
    for (size_t s = 0; s < COUNT(sizes); s++) {
        add_task(REGIONS, ref_side.new_table(sizes[s]).table, sizes[s], 0, 1, 8 * sizes[s] - 16, 16);
        add_task(REGIONS, ref_side.new_table(sizes[s]).table, sizes[s], 1, 1, 8 * sizes[s] - 13, 12);
    }
}

static void make_rows(void)
{
    static const size_t sizes[] = {8, 64}, short_sizes[] = {1, 2, 3, 4, 7};
    static const uint64_t lengths[] = {1, 8, 12, 16, 32, 33, 57, 64}, short_lengths[] = {1, 5, 8, 12, 16, 24, 32};
    static const uint64_t odd_runs[] = {65, 512, 2000}, whole_bytes[] = {72, 512, 2000};
    add_buffer_fields(FIELDS, sizes, COUNT(sizes), lengths, COUNT(lengths));
    add_buffer_fields(SHORT, short_sizes, COUNT(short_sizes), short_lengths, COUNT(short_lengths));
    add_units();
    add_field_units();
    add_runs(ODD_RUNS, 3, odd_runs, COUNT(odd_runs));
    add_runs(WHOLE_BYTES, 16, whole_bytes, COUNT(whole_bytes));
    add_numbers();
    add_texts();
    add_bytes();
    add_tasks();
    add_regions();
}

// ---- their names

static const char *kind_name(uint8_t kind)
{
    switch (kind) {
    case INTEGER: return "Integer";
    case STRING: return "String";
    case BUFFER: return "Buffer";
    case FIELD_UNIT: return "FieldUnit";
    case BUFFER_FIELD: return "BufferField";
    case BOOLEAN: return "Boolean";
    default: return "Device";
    }
}

static void print_values(const Input *in)
{
    printf("%s", kind_name(in->left.kind));
    if (in->text)
        printf(" \"%s\"", in->text);
    else if (in->left.kind != INTEGER && in->left.kind != BOOLEAN)
        printf(" of %zu bytes", in->size);
    if (in->call >= ADD && in->call != INCREMENT && in->call != DECREMENT && in->call != BUILD)
        printf(", %s", kind_name(in->right.kind));
    if (in->call == BUILD)
        printf(", size %" PRIu64, in->left.number);
}

static const char *const access_names[] = {"any", "byte", "word", "dword", "qword", "buffer"};

static void print_task(const Input *in)
{
    int busy = 0;
    for (int i = 1; i < 4; i++)
        busy += in->table.tasks[i].busy;
    printf("%s, %s, %" PRIu64 " bits at %" PRIu64 " of %zu bytes", in->write ? "write" : "read", access_names[in->flags & 15], in->length, in->offset,
           in->size);
    if (in->call == STEP)
        printf(", access %" PRIu64, in->table.tasks[0].made + 1);
    if (busy)
        printf(", %d others busy", busy);
}

static void print_input(const Input *in)
{
    if (in->call == LOAD || in->call == STORE)
        printf("%" PRIu64 " bytes", in->length);
    else if (in->call == START || in->call == STEP)
        print_task(in);
    else if (in->call == NEW_TABLE || in->call == DEFAULT_STATUS)
        printf("-");
    else if (in->call == IS_MALFORMED)
        printf(in->table.tasks[1].busy ? "3 busy" : "none busy");
    else if (in->call < TYPE_OF)
        printf("%" PRIu64 " bits at %" PRIu64 " of %zu bytes", in->length, in->offset, in->size);
    else
        print_values(in);
}

// The calls of a line of the table: in a group that asks for equal numbers, each access is a line of its own.
static void print_call(const Input *in, bool same)
{
    printf("%s", call_names[in->call]);
    if (in->call == READ_FIELD || in->call == WRITE_FIELD || in->call == WRITE_VALUE)
        printf(", %s", access_names[in->flags & 15]);
    if (in->call == WRITE_FIELD || in->call == WRITE_VALUE)
        printf(in->flags & WRITE_AS_ONES ? ", ones" : ", preserve");
    if (same)
        printf(in->write ? " of a write" : " of a read");
    if (same && in->call == STEP)
        printf(", access %" PRIu64, in->table.tasks[0].made + 1);
}

// number, group, bar, same, call, input
static void print_row(int number)
{
    const Group *group = &groups[rows[number].group];
    printf("%d\t%s\t%g\t%d\t", number, group->name, group->bar, group->same);
    print_call(&rows[number].in, group->same);
    printf("\t");
    print_input(&rows[number].in);
    printf("\n");
}
