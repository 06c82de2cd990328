// Calls the proved library and the Rust reference on the same inputs.
//   driver check     both give equal answers and equal bytes, on every measured input and on many random ones
//   driver rows      prints the measured inputs, one a line, with their bars
//   driver repeats   prints how often a measured call is made
//   driver measure   makes the calls; under callgrind each input and side is dumped by "number side"
//   driver time      prints the nanoseconds of a call, for each input and side
#include "rows.h"
#include <inttypes.h>
#include <stdio.h>
#include <stdlib.h>
#include <string.h>
#include <time.h>
#include <valgrind/callgrind.h>

// ---- check

static uint64_t state = 1;

// xorshift64*: the same numbers in every run
static uint64_t next_random(void)
{
    state ^= state >> 12;
    state ^= state << 25;
    state ^= state >> 27;
    return state * 0x2545f4914f6cdd1d;
}

static uint64_t below(uint64_t n) { return next_random() % n; }

// As many bytes as the call can see, and some more.
static size_t seen(const Input *in)
{
    size_t n = in->size;
    if (n < in->other_size)
        n = in->other_size;
    if (n < in->out_size)
        n = in->out_size;
    return n + 8;
}

static void fill(Bytes *b, const Input *in)
{
    size_t n = seen(in);
    for (size_t i = 0; i < n; i++) {
        b->memory[i] = in->text ? (uint8_t)in->text[i % strlen(in->text)] : (uint8_t)(i * 37 + 11);
        b->other[i] = in->same ? b->memory[i] : i * 101 + 7;
        b->out[i] = i * 59 + 3;
    }
    b->table = in->table;
}

static bool same_bytes(const Bytes *a, const Bytes *b, const Input *in)
{
    size_t n = seen(in);
    return memcmp(a->memory, b->memory, n) == 0 && memcmp(a->other, b->other, n) == 0 && memcmp(a->out, b->out, n) == 0 &&
           memcmp(&a->table, &b->table, sizeof a->table) == 0;
}

static void print_answer(const char *who, Answer a)
{
    printf("  %s: status %u (%u, %u), kind %u, count %u, value %" PRIx64 "\n", who, a.status, a.present, a.wanted, a.kind, a.count, a.value);
}

static bool same_answers(const Input *in)
{
    static Bytes ours, theirs;
    fill(&ours, in);
    fill(&theirs, in);
    Answer a = make_call(&aml_side, in, &ours), b = make_call(&ref_side, in, &theirs);
    if (memcmp(&a, &b, sizeof a) == 0 && same_bytes(&ours, &theirs, in))
        return true;
    printf("DIFFERENT: %s, sizes %zu %zu %zu, space %u, flags %u, offset %" PRIu64 ", length %" PRIu64 ", value %" PRIx64 ", kinds %u %u\n",
           call_names[in->call], in->size, in->other_size, in->out_size, in->space, in->flags, in->offset, in->length, in->value, in->left.kind,
           in->right.kind);
    print_answer("ours", a);
    print_answer("Rust", b);
    return false;
}

static const uint64_t spans[] = {9, 70, 600, UINT64_MAX};

static uint64_t some_number(void) { return below(spans[below(COUNT(spans))]); }
static uint8_t some_flags(void) { return below(8) ? below(6) | below(2) << 4 | below(3) << 5 : below(256); }
static uint8_t some_space(void) { return below(8) ? 0 : below(12); }

static size_t some_size(void)
{
    if (below(2000) == 0)
        return 65535 + below(3);
    return below(2) ? below(20) : below(300);
}

static HostValue some_value(void)
{
    static const uint8_t kinds[] = {1, 2, 3, 5, 14, 17};
    HostValue v = {.kind = below(3) ? kinds[below(COUNT(kinds))] : below(20), .space = some_space(), .flags = some_flags()};
    v.number = below(2) ? some_number() : next_random();
    v.offset = some_number();
    v.length = some_number();
    return v;
}

// A table that is often well formed, with some tasks on their way.
static HostTable some_table(size_t size)
{
    HostTable t = {.size = size, .holder = 4};
    if (below(8) == 0)
        t.size = some_size();
    for (int i = 0; i < 4; i++)
        if (below(3)) {
            uint8_t flags = some_flags();
            t.tasks[i] = (HostTask){.busy = 1, .write = below(2), .space = some_space(), .flags = flags, .offset = below(8 * size + 1)};
            t.tasks[i].length = 1 + below(16);
            t.tasks[i].value = next_random();
            t.tasks[i].made = below(3) ? 0 : below(12);
            t.tasks[i].held = next_random();
            if (flags & 16 && t.tasks[i].made)
                t.holder = i;
            if (below(20) == 0)
                t.tasks[i].busy = below(3);
            if (below(20) == 0)
                t.tasks[i].write = below(3);
        }
    if (below(20) == 0)
        t.holder = below(6);
    return t;
}

static const char *const texts[] = {"0", "12345", "0x1F", "0x", "18446744073709551615", "18446744073709551616", "0xfFFFffffFFFFffff",
                                    "0x10000000000000000", "000000000000000000000000007", "0X1F", "+5", "0x0x10", "9a"};

// Mostly inputs that are accepted, near every edge.
static Input random_input(void)
{
    Input in = {.call = below(CALLS), .size = some_size(), .other_size = below(3) ? below(80) : some_size(), .out_size = below(400)};
    in.value = next_random();
    in.space = some_space();
    in.flags = some_flags();
    in.offset = some_number();
    in.length = some_number();
    in.left = some_value();
    in.right = some_value();
    in.third = some_value();
    in.wanted = below(16);
    in.same = below(2);
    in.task = below(20) ? below(4) : below(7);
    in.write = below(20) ? below(2) : below(1000);
    in.table = some_table(in.size);
    if (in.call == TO_INTEGER && in.left.kind == STRING) {
        in.text = texts[below(COUNT(texts))];
        in.size = strlen(in.text);
    }
    return in;
}

enum { RANDOM_INPUTS = 4000000 };

static int check(void)
{
    for (int i = 0; i < row_count; i++)
        if (!same_answers(&rows[i].in))
            return 1;
    for (int i = 0; i < RANDOM_INPUTS; i++) {
        Input in = random_input();
        if (!same_answers(&in))
            return 1;
    }
    printf("equal answers and bytes on %d measured and %d random inputs\n", row_count, RANDOM_INPUTS);
    return 0;
}

// ---- measure

enum { REPEATS = 10 };

static void measure(const Side *side, int number)
{
    static Bytes b;
    const Input *in = &rows[number].in;
    char label[40];
    snprintf(label, sizeof label, "%d %s", number, side->name);
    fill(&b, in);
    if (!make_ready(side, in, &b))
        return;
    make_call(side, in, &b); // what only a first call costs is left out
    CALLGRIND_ZERO_STATS;
    for (int k = 0; k < REPEATS; k++)
        make_call(side, in, &b);
    CALLGRIND_DUMP_STATS_AT(label);
}

// ---- time

static double now(void)
{
    struct timespec t;
    clock_gettime(CLOCK_MONOTONIC, &t);
    return 1e9 * t.tv_sec + t.tv_nsec;
}

static int by_size(const void *a, const void *b)
{
    double x = *(const double *)a, y = *(const double *)b;
    return (x > y) - (x < y);
}

enum { RUNS = 21, RUN_NANOSECONDS = 20000 };

// Calls made in one run: enough for the clock, few enough that most runs are not interrupted.
static int run_length(const Side *side, const Input *in, Bytes *b)
{
    double start = now();
    int n = 0;
    while (now() - start < RUN_NANOSECONDS)
        for (int k = 0; k < 10; k++, n++)
            make_call(side, in, b);
    return n;
}

// The middle of several runs.
static void print_time(const Side *side, int number)
{
    static Bytes b;
    const Input *in = &rows[number].in;
    double times[RUNS];
    fill(&b, in);
    if (!make_ready(side, in, &b))
        return;
    int n = run_length(side, in, &b);
    for (int r = 0; r < RUNS; r++) {
        double start = now();
        for (int k = 0; k < n; k++)
            make_call(side, in, &b);
        times[r] = (now() - start) / n;
    }
    qsort(times, RUNS, sizeof times[0], by_size);
    printf("%d\t%s\t%.1f\n", number, side->name, times[RUNS / 2]);
}

int main(int argc, char **argv)
{
    const char *what = argc == 2 ? argv[1] : "";
    make_rows();
    if (strcmp(what, "check") == 0)
        return check();
    if (strcmp(what, "repeats") == 0)
        printf("%d\n", REPEATS);
    for (int i = 0; i < row_count; i++) {
        if (strcmp(what, "rows") == 0)
            print_row(i);
        for (size_t s = 0; s < COUNT(sides); s++) {
            if (strcmp(what, "measure") == 0)
                measure(sides[s], i);
            if (strcmp(what, "time") == 0)
                print_time(sides[s], i);
        }
    }
    return 0;
}
