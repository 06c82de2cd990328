/* The incident, replayed, and two tasks on one record. README.md beside this folder says how it is built. */
#include <inttypes.h>
#include <stdio.h>

#include "aml.h"

enum { RECORD = 2, FILL_COUNT_BITS = 12, TRIM_BITS = 4 };

static void show(const char *title, const uint8_t record[RECORD])
{
    printf("%-32s%02X %02X\n", title, record[0], record[1]);
}

/* The record after a write of 0x123 as aml 0.16.4 makes it (write_field, src/value.rs): what is kept is what a read of the field gives,
 * the bits inside it alone, and the whole unit is stored. */
static void write_as_aml(uint8_t record[RECORD])
{
    uint64_t inside = (1u << FILL_COUNT_BITS) - 1;
    uint64_t kept = aml_read_field(record, RECORD, AML_SYSTEM_MEMORY, AML_WORD_ACCESS, 0, FILL_COUNT_BITS).value;
    aml_store(record, RECORD, 0, 2, (kept & ~inside) | 0x123);
}

static void replay(void)
{
    uint8_t record[RECORD] = {0xFF, 0xFF};
    show("record before", record);
    write_as_aml(record);
    show("0x123 in 12 bits, as aml", record);
    record[0] = record[1] = 0xFF;
    aml_answer a = aml_write_field(record, RECORD, AML_SYSTEM_MEMORY, AML_WORD_ACCESS | AML_PRESERVE, 0, FILL_COUNT_BITS, 0x123);
    show("0x123 in 12 bits, proved", record);
    printf("%-32s%" PRIu32 "\n", "loads and stores", a.count);
}

static void start(aml_table *table, const uint8_t record[RECORD], size_t task, uint64_t offset, uint64_t length, uint64_t value)
{
    uint8_t flags = AML_WORD_ACCESS | AML_PRESERVE | AML_LOCK_RULE;
    aml_called c = aml_start(*table, record, RECORD, task, 1, AML_SYSTEM_MEMORY, flags, offset, length, value);
    *table = c.table;
    printf("start task %zu: count %" PRIu32 "\n", task, c.answer.count);
}

static void step(aml_table *table, uint8_t record[RECORD], size_t task)
{
    aml_called c = aml_step(*table, record, RECORD, task);
    *table = c.table;
    printf("step task %zu: ", task);
    if (c.answer.status != AML_DONE)
        printf("refused %d\n", c.answer.status);
    else
        printf("%s\n", c.answer.count == 1 ? "more" : "done");
}

/* The fill count and the trim share a word, so both tasks carry the lock rule. */
static void together(void)
{
    uint8_t record[RECORD] = {0xFF, 0xFF};
    aml_table table = aml_new_table(RECORD).table;
    start(&table, record, 0, 0, FILL_COUNT_BITS, 0x123);
    start(&table, record, 1, FILL_COUNT_BITS, TRIM_BITS, 0xA);
    step(&table, record, 0);
    step(&table, record, 1);
    step(&table, record, 0);
    step(&table, record, 1);
    step(&table, record, 1);
    show("record after both", record);
    table.holder = 1; /* nobody has the lock */
    printf("a damaged table: ");
    step(&table, record, 0);
}

int main(void)
{
    replay();
    together();
    return 0;
}
