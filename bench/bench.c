/* bench.c FOLDER count|REPS [INPUT [WHO]]: calls the library and its peers on the inputs in FOLDER.
 * For every input the answers are compared first, and the whole of what was stored, in rooms that were filled with a pattern. Then each call is made once between two
 * marks, by which the counter (icount.c) knows it, or REPS times by the clock. A line "input call who bytes nanoseconds" is printed for each, the best of all. */
#define _GNU_SOURCE
#include "../include/calf.h"
#include <stdio.h>
#include <stdlib.h>
#include <string.h>
#include <time.h>
#include <unistd.h>
#define MARK 0x7a7a
enum { BYTES = 1 << 21, RECORDS = 1100000 };
typedef uint64_t call(void);
typedef struct { uint64_t depth, number, kind, value, start, end, tag; } record;
enum { NUMBERS = sizeof(record) / 8 };

static const uint32_t schema[] = { 0, 1, 5, 1, 0, 0, 2, 9, 1, 0, 0, 3, 11, 1, 1, 0, 4, 17, 1, 0, 0, 5, 2, 1, 0, 0, 7, 8, 1, 0, 1, 1, 13, 1, 0, 1, 2, 12, 1, 0, 1, 3, 11, 1, 1 };
#define SCHEMA 2, schema, sizeof schema / sizeof *schema

/* what the calls work on */
static uint8_t s[BYTES], out[BYTES], out2[BYTES], info[1024];
static size_t n, count;
static record room[RECORDS], room2[RECORDS];
static uint64_t keys[256], values[1 << 16];

/* ---- the library */
uint64_t perf_varints(const uint8_t *, size_t), perf_pull(const uint8_t *, size_t), perf_fields(const uint8_t *, size_t);
size_t perf_put_varints(const uint64_t *, size_t, uint8_t *, size_t);

static uint64_t ours_varints(void) { return perf_varints(s, n); }
static uint64_t ours_pull(void) { return perf_pull(s, n); }
static uint64_t ours_fields(void) { return perf_fields(s, n); }
static uint64_t ours_put(void) { return perf_put_varints(values, count, out, BYTES); }
static uint64_t ours_utf8(void) { return calf_utf8_prefix(s, n); }
static uint64_t ours_document(void) { return calf_is_document(s, n); }

static uint64_t ours_skip(void)
{
    uint64_t answer[1];
    return calf_skip_field_for_tag(11, s, n, 0, answer) ? 0 : answer[0];
}

/* the count of the records, with the refusal's number above 32 bits */
static uint64_t ours_read(void)
{
    uint64_t answer[2];
    uint64_t number = calf_read(SCHEMA, s, n, (uint64_t *)room, sizeof room / 8, answer);
    return answer[0] | number << 32;
}

static uint64_t ours_prepared(void)
{
    uint64_t answer[2];
    uint64_t number = calf_read_prepared(keys, info, s, n, (uint64_t *)room, sizeof room / 8, answer);
    return answer[0] | number << 32;
}

/* with dropped spans */
static uint64_t ours_dropped(void)
{
    uint64_t answer[2];
    uint64_t number = calf_read_dropped(SCHEMA, s, n, (uint64_t *)room, sizeof room / 8, answer);
    return answer[0] | number << 32;
}

static uint64_t ours_prepared_dropped(void)
{
    uint64_t answer[2];
    uint64_t number = calf_read_prepared_dropped(keys, info, s, n, (uint64_t *)room, sizeof room / 8, answer);
    return answer[0] | number << 32;
}

/* Reading under a lent slice of entries, `entries::read`. C has none to lend: an array of sixteen entries is made of the numbers first, and the row has that too, some
 * 170 instructions for nine entries. Nothing is subtracted: the row is more than the call takes. */
uint32_t perf_entries_read(uint32_t, const uint32_t *, size_t, const uint8_t *, size_t, uint64_t *, size_t, uint64_t *);
static uint64_t ours_entries(void)
{
    uint64_t answer[2];
    uint64_t number = perf_entries_read(SCHEMA, s, n, (uint64_t *)room, sizeof room / 8, answer);
    return answer[0] | number << 32;
}

/* the list in room, its contents in s */
static uint64_t ours_check(void)
{
    uint64_t answer[1];
    return calf_check_list(SCHEMA, (uint64_t *)room, count * NUMBERS, s, n, answer) ? 0 : n;
}

static uint64_t ours_size(void)
{
    uint64_t answer[2];
    return calf_size(SCHEMA, (uint64_t *)room, count * NUMBERS, s, n, answer) ? 0 : answer[0];
}

static uint64_t ours_write(void)
{
    uint64_t answer[2];
    return calf_write(SCHEMA, (uint64_t *)room, count * NUMBERS, s, n, out, BYTES, answer) ? 0 : answer[0];
}

/* 1,000 messages, each with its length before it: the count of all records */
static uint64_t ours_many(void)
{
    uint64_t answer[2], sum = 0;
    for (size_t at = 0; at < n; at += s[at] + 1) calf_read(SCHEMA, s + at + 1, s[at], (uint64_t *)room, sizeof room / 8, answer), sum += answer[0];
    return sum;
}

static uint64_t ours_many_prepared(void)
{
    uint64_t answer[2], sum = 0;
    for (size_t at = 0; at < n; at += s[at] + 1) calf_read_prepared(keys, info, s + at + 1, s[at], (uint64_t *)room, sizeof room / 8, answer), sum += answer[0];
    return sum;
}

/* how many of them are documents */
static uint64_t ours_many_document(void)
{
    uint64_t sum = 0;
    for (size_t at = 0; at < n; at += s[at] + 1) sum += calf_is_document(s + at + 1, s[at]);
    return sum;
}

/* a segment to ranges in values, and from these ranges of it; `count` is how many numbers they are */
static uint64_t ours_segread(void)
{
    uint64_t answer[2];
    uint64_t number = calf_segment_read(s, n, values, sizeof values / 8, answer);
    return answer[0] | number << 32;
}

static uint64_t ours_segwrite(void)
{
    uint64_t answer[2];
    return calf_segment_write(values, count, s, n, out, BYTES, answer) ? 0 : answer[0];
}

/* ---- its peers (peers/) */
uint64_t crate_varints(const uint8_t *, size_t), crate_pull(const uint8_t *, size_t), crate_fields(const uint8_t *, size_t), crate_group(const uint8_t *, size_t);
uint64_t crate_run(const uint8_t *, size_t), std_utf8(const uint8_t *, size_t);
size_t crate_put_varints(const uint64_t *, size_t, uint8_t *, size_t);
uint64_t crate_records(const uint8_t *, size_t, const uint32_t *, size_t, record *, size_t);
uint64_t crate_records_dropped(const uint8_t *, size_t, const uint32_t *, size_t, record *, size_t);
uint64_t crate_segment_read(const uint8_t *, size_t, uint64_t *, size_t), crate_segment_write(const uint64_t *, size_t, const uint8_t *, size_t, uint8_t *, size_t);
static uint64_t driver_varints(void) { return crate_varints(s, n); }
static uint64_t driver_pull(void) { return crate_pull(s, n); }
static uint64_t driver_fields(void) { return crate_fields(s, n); }
static uint64_t driver_put(void) { return crate_put_varints(values, count, out2, BYTES); }
static uint64_t driver_utf8(void) { return std_utf8(s, n); }
static uint64_t driver_skip(void) { return crate_group(s, n); }
static uint64_t driver_document(void) { return crate_run(s, n); }
static uint64_t driver_read(void) { return crate_records(s, n, schema, 9, room2, RECORDS); }
static uint64_t driver_dropped(void) { return crate_records_dropped(s, n, schema, 9, room2, RECORDS); }

static uint64_t driver_many(void)
{
    uint64_t sum = 0;
    for (size_t at = 0; at < n; at += s[at] + 1) sum += crate_records(s + at + 1, s[at], schema, 9, room2, RECORDS);
    return sum;
}

static uint64_t driver_many_document(void)
{
    uint64_t sum = 0;
    for (size_t at = 0; at < n; at += s[at] + 1) sum += crate_run(s + at + 1, s[at]);
    return sum;
}

static uint64_t values2[sizeof values / 8];
static uint64_t driver_segread(void) { return crate_segment_read(s, n, values2, sizeof values2 / 8); }
static uint64_t driver_segwrite(void) { return crate_segment_write(values2, count, s, n, out2, BYTES); }

/* parsers and writers of objects */
#define PARSER(x) uint64_t x##_parse(const uint8_t *, size_t); static uint64_t x##_reads(void) { return x##_parse(s, n); }
#define WRITER(x) void *x##_new(const uint8_t *, size_t); uint64_t x##_write(const void *, uint8_t *, size_t); static void *x##_object; \
    static uint64_t x##_writes(void) { return x##_write(x##_object, out2, BYTES); }
PARSER(crate) PARSER(prost) PARSER(pbc) PARSER(cpp) WRITER(crate) WRITER(prost) WRITER(pbc) WRITER(cpp)
uint64_t crate_dynamic(const uint8_t *, size_t), cpp_arena(const uint8_t *, size_t);
static uint64_t dynamic_reads(void) { return crate_dynamic(s, n); }
static uint64_t arena_reads(void) { return cpp_arena(s, n); }

/* ---- running */
static const char *input, *only_input, *only_who;
static int reps;

static void fail(const char *what)
{
    fprintf(stderr, "bench: %s: %s\n", input, what);
    exit(1);
}

static uint64_t now(void)
{
    struct timespec t;
    clock_gettime(CLOCK_MONOTONIC, &t);
    return t.tv_sec * 1000000000ull + t.tv_nsec;
}

/* the calls to measure on an input */
static struct { const char *name, *who; call *f; size_t bytes; uint64_t best; } planned[32];
static size_t plans;

static void measure(const char *name, const char *who, call *f, size_t bytes)
{
    if (only_who && strcmp(only_who, who)) return;
    planned[plans].name = name, planned[plans].who = who, planned[plans].f = f, planned[plans].bytes = bytes, planned[plans++].best = -1;
}

/* Each planned call once between marks, or REPS times by the clock: ten of one, ten of the next, and round again, so that what slows the machine for a while slows
 * all of them. */
static void run(void)
{
    for (size_t i = 0; !reps && i < plans; i++) {
        syscall(MARK, 1);
        planned[i].f();
        syscall(MARK, 2);
    }
    for (int r = 0; r < reps; r += 10)
        for (size_t i = 0; i < plans; i++)
            for (int k = 0; k < 10; k++) {
                uint64_t t = now();
                planned[i].f();
                t = now() - t;
                if (t < planned[i].best) planned[i].best = t;
            }
    for (size_t i = 0; i < plans; i++) printf("%s\t%s\t%s\t%zu\t%llu\n", input, planned[i].name, planned[i].who, planned[i].bytes, (unsigned long long)planned[i].best);
    plans = 0;
}

static bool load(const char *folder, const char *name)
{
    char path[4096];
    input = name;
    if (only_input && strcmp(only_input, name)) return false;
    snprintf(path, sizeof path, "%s/%s", folder, name);
    FILE *f = fopen(path, "rb");
    if (!f) fail("no input");
    n = fread(s, 1, sizeof s, f);
    fclose(f);
    return true;
}

/* what the marks and the driver's call are counted as */
static uint64_t nothing(void) { return 0; }

/* ---- leaves, pull loops and skips: one call of ours, one of a peer */
static const struct { const char *input, *name, *peer; call *here, *there; } leaves[] = {
    { "v1", "varints", "crate", ours_varints, driver_varints },
    { "vmix", "varints", "crate", ours_varints, driver_varints },
    { "v10", "varints", "crate", ours_varints, driver_varints },
    { "v1", "put", "crate", ours_put, driver_put },
    { "vmix", "put", "crate", ours_put, driver_put },
    { "v10", "put", "crate", ours_put, driver_put },
    { "ints", "pull", "crate", ours_pull, driver_pull },
    { "intmix", "pull", "crate", ours_pull, driver_pull },
    { "ints.1M", "pull", "crate", ours_pull, driver_pull },
    { "ints", "fields", "crate", ours_fields, driver_fields },
    { "intmix", "fields", "crate", ours_fields, driver_fields },
    { "packed", "fields", "crate", ours_fields, driver_fields },
    { "nested", "fields", "crate", ours_fields, driver_fields },
    { "strings", "fields", "crate", ours_fields, driver_fields },
    { "station", "fields", "crate", ours_fields, driver_fields },
    { "letters", "fields", "crate", ours_fields, driver_fields },
    { "deep", "fields", "crate", ours_fields, driver_fields },
    { "flat", "fields", "crate", ours_fields, driver_fields },
    { "deep100", "fields", "crate", ours_fields, driver_fields },
    { "cut", "fields", "crate", ours_fields, driver_fields },
    { "bad", "fields", "crate", ours_fields, driver_fields },
    { "ints.1M", "fields", "crate", ours_fields, driver_fields },
    { "intmix.1M", "fields", "crate", ours_fields, driver_fields },
    { "packed.1M", "fields", "crate", ours_fields, driver_fields },
    { "nested.1M", "fields", "crate", ours_fields, driver_fields },
    { "strings.1M", "fields", "crate", ours_fields, driver_fields },
    { "station.1M", "fields", "crate", ours_fields, driver_fields },
    { "letters.1M", "fields", "crate", ours_fields, driver_fields },
    { "ascii", "utf8", "std", ours_utf8, driver_utf8 },
    { "german", "utf8", "std", ours_utf8, driver_utf8 },
    { "russian", "utf8", "std", ours_utf8, driver_utf8 },
    { "mixed", "utf8", "std", ours_utf8, driver_utf8 },
    { "twos", "utf8", "std", ours_utf8, driver_utf8 },
    { "threes", "utf8", "std", ours_utf8, driver_utf8 },
    { "fours", "utf8", "std", ours_utf8, driver_utf8 },
    { "chinese", "utf8", "std", ours_utf8, driver_utf8 },
    { "hindi", "utf8", "std", ours_utf8, driver_utf8 },
    { "fields", "skip", "crate", ours_skip, driver_skip },
    { "f-varint1", "skip", "crate", ours_skip, driver_skip },
    { "f-varint10", "skip", "crate", ours_skip, driver_skip },
    { "f-string", "skip", "crate", ours_skip, driver_skip },
    { "f-fixed", "skip", "crate", ours_skip, driver_skip },
    { "f-group", "skip", "crate", ours_skip, driver_skip },
    { "f-tag2", "skip", "crate", ours_skip, driver_skip },
    { "groups", "document", "crate", ours_document, driver_document },
    { "f-group", "document", "crate", ours_document, driver_document },
    { "ints", "document", "crate", ours_document, driver_document },
    { "station", "document", "crate", ours_document, driver_document },
    { "tiny", "document", "crate", ours_document, driver_document },
    { "many", "document", "crate", ours_many_document, driver_many_document },
    { "many", "read", "crate", ours_many, driver_many },
    { "many", "prepared", "crate", ours_many_prepared, driver_many },
};

/* the varints of v1, vmix and v10 as numbers */
static void decode(void)
{
    count = 0;
    for (size_t i = 0; i < n && count < sizeof values / sizeof *values;) {
        uint64_t v = 0;
        int shift = 0;
        do v |= (uint64_t)(s[i] & 127) << shift, shift += 7; while (s[i++] & 128 && i < n && shift < 64);
        values[count++] = v;
    }
}

static void leaf(size_t i)
{
    decode();
    memset(out, 0xee, sizeof out);
    memset(out2, 0xee, sizeof out2);
    uint64_t a = leaves[i].here(), b = leaves[i].there();
    /* of bytes that stand there an even number of times the exclusive or is 0 */
    if ((!a && !strstr(input, ".1M")) || a != b) fail("another answer than the peer's");
    if (memcmp(out, out2, sizeof out)) fail("other bytes than the peer's");
    measure(leaves[i].name, "calf", leaves[i].here, n);
    measure(leaves[i].name, leaves[i].peer, leaves[i].there, n);
    run();
}

/* ---- segments */

/* What both write of the ranges that were read: the bytes that were read, and after them nothing is touched. */
static void segment_written(void)
{
    memset(out, 0xee, sizeof out);
    memset(out2, 0xee, sizeof out2);
    if (ours_segwrite() != n || driver_segwrite() != n || memcmp(out, s, n) || memcmp(out, out2, sizeof out)) fail("other bytes than were read");
    for (size_t i = n; i < sizeof out; i++) if (out[i] != 0xee) fail("the output after the bytes is touched");
    measure("segwrite", "calf", ours_segwrite, n);
    measure("segwrite", "crate", driver_segwrite, n);
}

/* The ranges that both read. Lengths that have more bytes than they need are not written again as they were. */
static void segment(void)
{
    memset(values, 0xee, sizeof values);
    memset(values2, 0xee, sizeof values2);
    uint64_t got = ours_segread();
    if (!got || got != driver_segread() || memcmp(values, values2, sizeof values)) fail("other ranges than the crate driver's");
    count = got * 2;
    measure("segread", "calf", ours_segread, n);
    measure("segread", "crate", driver_segread, n);
    if (strcmp(input, "seglong")) segment_written();
    run();
}

/* ---- messages */
static const struct { const char *who; call *reads; bool utf8, groups; } parsers[] = {
    { "generated", crate_reads, true, true }, { "dynamic", dynamic_reads, true, true }, { "prost", prost_reads, true, true },
    /* these take a string that is no UTF-8, and protobuf-c refuses a group */
    { "protobuf-c", pbc_reads, false, false }, { "c++", cpp_reads, false, true }, { "arena", arena_reads, false, true },
};

/* Whether the input has what reading drops: groups and empty packed fields. */
static bool drops(void) { return !strcmp(input, "spans"); }

/* The driver's answer. Records are equal to its own, also those before a refusal, and what is after them is untouched. */
static uint64_t compare_records(call *driver, call **here, size_t calls)
{
    memset(room2, 0x55, sizeof room2);
    uint64_t there = driver();
    for (size_t i = 0; i < calls; i++) {
        memset(room, 0xee, sizeof room);
        uint64_t a = here[i]();
        uint32_t k = a;
        if (k != (uint32_t)there || !(a >> 32) != !(there >> 32)) fail("another answer than the crate driver's");
        if (memcmp(room, room2, k * sizeof *room)) fail("other records than the crate driver's");
        for (size_t j = k * sizeof *room; j < sizeof room; j++) if (((uint8_t *)room)[j] != 0xee) fail("the room behind the records is touched");
    }
    return there;
}

/* Records equal the crate driver's, with dropped spans and without. Parsers have as many fields and elements in the root. */
static void compare_reading(void)
{
    call *with[] = { ours_dropped, ours_prepared_dropped }, *without[] = { ours_read, ours_prepared, ours_entries };
    uint64_t spans = compare_records(driver_dropped, with, 2), there = compare_records(driver_read, without, 3);
    if ((spans != there) != drops()) fail("dropped spans in an input that has none, or none in one that has");
    uint64_t fields = 0, text = (ours_read() >> 32) == 6;
    for (size_t i = 0; i < (uint32_t)there; i++) fields += room2[i].depth == 0 ? room2[i].kind != 20 : room2[i].kind == 17;
    for (size_t i = 0; i < sizeof parsers / sizeof *parsers; i++) {
        bool refuses = (there >> 32 && (parsers[i].utf8 || !text)) || (drops() && !parsers[i].groups);
        if (parsers[i].reads() != (refuses ? -1 : fields + text)) fail(parsers[i].who);
    }
}

static struct { const char *who; call *writes; void *(*make)(const uint8_t *, size_t); void **object; size_t size; } writers[] = {
    { "crate", crate_writes, crate_new, &crate_object }, { "prost", prost_writes, prost_new, &prost_object },
    { "protobuf-c", pbc_writes, pbc_new, &pbc_object }, { "c++", cpp_writes, cpp_new, &cpp_object },
};

/* What was read is written as the bytes that it was read from, and nothing after them is touched. The writers of objects order fields by number and join packed ones:
 * their bytes are compared with each other, and with ours where they have as many. */
static void compare_writing(void)
{
    static uint8_t first[BYTES];
    memset(out, 0xee, sizeof out);
    if (ours_check() != n || ours_size() != n || ours_write() != n || memcmp(out, s, n)) fail("written to other bytes");
    for (size_t i = n; i < sizeof out; i++) if (out[i] != 0xee) fail("the output behind the bytes is touched");
    for (size_t i = 0; i < sizeof writers / sizeof *writers; i++) {
        *writers[i].object = writers[i].make(s, n);
        if (!*writers[i].object) fail(writers[i].who);
        writers[i].size = writers[i].writes();
        if (writers[i].size == n && memcmp(out2, s, n)) fail(writers[i].who);
        if (i && (writers[i].size != writers[0].size || memcmp(first, out2, writers[0].size))) fail(writers[i].who);
        if (!i) memcpy(first, out2, writers[0].size);
    }
}

static void writing(void)
{
    compare_writing();
    measure("check", "calf", ours_check, n);
    measure("size", "calf", ours_size, n);
    measure("write", "calf", ours_write, n);
    for (size_t i = 0; i < sizeof writers / sizeof *writers; i++) measure("write", writers[i].who, writers[i].writes, writers[i].size);
}

static void message(void)
{
    static const char *asked[] = { "ints", "intmix", "packed", "nested", "strings", "station", "letters", "deep", "tiny", "spans" };
    bool large = strstr(input, ".1M");
    compare_reading();
    measure("read", "calf", ours_read, n);
    if (n < 100) measure("prepared", "calf", ours_prepared, n), measure("entries", "calf", ours_entries, n);
    measure("read", "crate", driver_read, n);
    for (size_t i = 0; i < sizeof parsers / sizeof *parsers; i++)
        if ((!large || !strcmp(parsers[i].who, "arena")) && (!drops() || parsers[i].groups)) measure("read", parsers[i].who, parsers[i].reads, n);
    for (size_t i = 0; i < sizeof asked / sizeof *asked; i++)
        if (!strcmp(input, asked[i])) measure("dropped", "calf", ours_dropped, n), measure("dropped", "crate", driver_dropped, n);
    uint64_t got = ours_read();
    count = got;
    if (!(got >> 32) && !drops()) writing();
    run();
}

int main(int argc, char **argv)
{
    static const char *messages[] = { "ints", "intmix", "packed", "nested", "strings", "station", "letters", "deep", "flat", "deep100", "cut", "bad", "tiny", "spans",
                                      "intmix100k", "packed100k", "ints.1M", "intmix.1M", "packed.1M", "nested.1M", "strings.1M", "station.1M", "letters.1M" };
    static const char *segments[] = { "seg20", "segstation", "seg1k", "seg20k", "seglong" };
    if (argc < 3) return 2;
    setlinebuf(stdout);
    reps = atoi(argv[2]);
    only_input = argc > 3 ? argv[3] : NULL;
    only_who = argc > 4 ? argv[4] : NULL;
    uint64_t answer[1];
    if (calf_record_numbers() != NUMBERS || calf_prepare(SCHEMA, keys, info, answer)) fail("the library is another");
    input = "nothing";
    measure("empty", "calf", nothing, 1);
    run();
    for (size_t i = 0; i < sizeof leaves / sizeof *leaves; i++) if (load(argv[1], leaves[i].input)) leaf(i);
    for (size_t i = 0; i < sizeof messages / sizeof *messages; i++) if (load(argv[1], messages[i])) message();
    for (size_t i = 0; i < sizeof segments / sizeof *segments; i++) if (load(argv[1], segments[i])) segment();
    return 0;
}
