/* limits.c: the size limit itself through the C interface, at 2,147,483,647 and 2,147,483,648 bytes. The inputs are one field whose content is all the other bytes, which are zeros;
 * each answer is compared with what the definitions say; the same of segments of one message, and of as many of 1,024 bytes as there is place for. Then the stack that a call takes: it runs on one that was filled with a pattern. */
#define _GNU_SOURCE
#include "../include/calf.h"
#include <pthread.h>
#include <stdio.h>
#include <stdlib.h>
#include <string.h>
#include <sys/mman.h>
#define MOST 2147483647u

enum { NUMBERS = 7, END = 5 }; /* how many numbers a record has, and which of them is its end */
static const uint32_t schema[] = { 0, 2, 12, 0, 0 }; /* type 0 has 2 bytes */
static int bad;

static uint8_t *zeros(size_t n)
{
    void *p = mmap(NULL, n, PROT_READ | PROT_WRITE, MAP_PRIVATE | MAP_ANONYMOUS | MAP_NORESERVE, -1, 0);
    if (p == MAP_FAILED) perror("limits"), exit(2);
    return p;
}

/* a length of five bytes */
static void put_length(uint8_t *at, uint32_t length)
{
    for (int i = 0; i < 5; i++) at[i] = (length >> 7 * i & 127) | (i < 4 ? 128 : 0);
}

static void expect(const char *call, size_t n, uint64_t number, uint64_t a, uint64_t want_number, uint64_t want)
{
    bool ok = number == want_number && a == want;
    printf("%-32s %10zu bytes: %2llu, %10llu %s\n", call, n, (unsigned long long)number, (unsigned long long)a, ok ? "as defined" : "OTHER");
    bad |= !ok;
}

/* ---- the stack of a call on so many messages, each inside the other */
enum { STACK = 1 << 20 };
static const uint32_t chain[] = { 0, 1, 5, 0, 0, 0, 3, 11, 0, 0 };
static uint8_t nested[1024], stack[STACK] __attribute__((aligned(4096)));
static size_t nested_length;

static void nest(int depth)
{
    nested_length = 0;
    for (int i = 0; i < depth; i++) {
        int head = nested_length < 128 ? 2 : 3;
        memmove(nested + head, nested, nested_length);
        nested[0] = 0x1a;
        nested[1] = head == 2 ? nested_length : (nested_length & 127) | 128;
        if (head == 3) nested[2] = nested_length >> 7;
        nested_length += head;
    }
}

static void *reads(void *number)
{
    static uint64_t room[1024];
    uint64_t answer[2];
    *(uint64_t *)number = calf_read(1, chain, 10, nested, nested_length, room, 1024, answer);
    return NULL;
}

static void *nothing(void *number) { return number; }

static size_t stack_of(void *f(void *))
{
    pthread_attr_t attr;
    pthread_t thread;
    uint64_t number = 0;
    memset(stack, 0xa5, STACK);
    pthread_attr_init(&attr);
    pthread_attr_setstack(&attr, stack, STACK);
    if (pthread_create(&thread, &attr, f, &number) || pthread_join(thread, NULL) || number) exit(2);
    size_t i = 0;
    while (stack[i] == 0xa5) i++;
    return STACK - i;
}

/* ---- segments: one message that is all but the front and a length of five bytes; and messages of 1,024 bytes, each after two bytes of length */
enum { FRONT = 5, CONTENT = 1024, MESSAGE = CONTENT + 2, MESSAGES = (MOST - FRONT) / MESSAGE };
static uint64_t ranges[2 * MESSAGES + 2];

static void segments(uint8_t *s, uint8_t *out)
{
    uint64_t number, answer[2];
    for (size_t n = MOST; n <= (size_t)MOST + 1; n++) {
        bool over = n > MOST;
        memcpy(s, "WFM\1\0", FRONT);
        put_length(s + FRONT, n - 10);
        number = calf_segment_read(s, n, ranges, 2, answer);
        expect("calf_segment_read", n, number, answer[0], over ? 11 : 0, over ? 0 : 1);
        if (!over) expect("  its range's end", n, 0, ranges[1], 0, n);
        uint64_t range[2] = { 0, n - 10 };
        number = calf_segment_size(range, 2, s, (size_t)MOST + 1, answer);
        expect("calf_segment_size", n, number, answer[0], over ? 11 : 0, over ? 0 : n);
        number = calf_segment_write(range, 2, s, (size_t)MOST + 1, out, (size_t)MOST + 1, answer);
        expect("calf_segment_write", n, number, answer[0], over ? 11 : 0, over ? 0 : n);
        if (!over && (memcmp(out, "WFM\1\0", FRONT) || memcmp(out + 10, s, n - 10))) bad = 1, puts("  OTHER bytes");
        number = calf_segment_write(range, 2, s, (size_t)MOST + 1, out, (size_t)MOST - 1, answer);
        expect("  one byte short", n, number, answer[0], over ? 11 : 12, over ? 0 : n);
    }
    size_t n = FRONT + (size_t)MESSAGE * MESSAGES;
    for (size_t i = 0; i < MESSAGES; i++) memcpy(s + FRONT + i * MESSAGE, "\x80\x08", 2);
    number = calf_segment_read(s, n, ranges, sizeof ranges / 8, answer);
    expect("calf_segment_read, of 1,024", n, number, answer[0], 0, MESSAGES);
    number = calf_segment_write(ranges, 2 * answer[0], s, n, out, (size_t)MOST + 1, answer);
    expect("calf_segment_write, of 1,024", n, number, answer[0], 0, n);
    if (memcmp(out, s, n)) bad = 1, puts("  OTHER bytes");
}

int main(void)
{
    size_t own = stack_of(nothing);
    for (int depth = 1; depth <= 100; depth += 99) {
        nest(depth);
        printf("stack of calf_read at depth %d: %zu bytes\n", depth, stack_of(reads) - own);
    }

    uint8_t *s = zeros((size_t)MOST + 1);
    uint64_t room[2 * NUMBERS], answer[2];
    if (calf_record_numbers() != NUMBERS) puts("the library is another"), exit(2);
    for (size_t n = MOST; n <= (size_t)MOST + 1; n++) {
        bool over = n > MOST;
        s[0] = 0x12;
        put_length(s + 1, n - 6);
        uint64_t number = calf_read(1, schema, 5, s, n, room, sizeof room / 8, answer);
        expect("calf_read", n, number, answer[0], over ? 11 : 0, over ? 0 : 1);
        if (!over) expect("  its record's end", n, 0, room[END], 0, n);
        expect("calf_is_document", n, 0, calf_is_document(s, n), 0, !over);
        expect("calf_pull_open", n, calf_pull_open(s, n), 0, over ? 11 : 0, 0);
        put_length(s, n - 5);
        number = calf_skip_field_for_tag(0x12, s, n, 0, answer);
        expect("calf_skip_field_for_tag", n, number, answer[0], over ? 11 : 0, over ? 0 : n);
        number = calf_read_unknown_or_skip_group(0x12, s, n, 0, answer);
        expect("calf_read_unknown_or_skip_group", n, number, answer[0], over ? 11 : 0, over ? 0 : n);
    }
    /* a group that is dropped: its content is one field, and all but the eight bytes of three tags and a length */
    for (size_t n = MOST; n <= (size_t)MOST + 1; n++) {
        bool over = n > MOST;
        s[0] = 0x0b, s[1] = 0x12, s[n - 1] = 0x0c;
        put_length(s + 2, n - 8);
        uint64_t number = calf_read_dropped(1, schema, 5, s, n, room, sizeof room / 8, answer);
        expect("calf_read_dropped", n, number, answer[0], over ? 11 : 0, over ? 0 : 1);
        if (!over) expect("  its span's end", n, 0, room[END], 0, n);
        s[n - 1] = 0;
    }
    /* one record whose content is all but the six bytes of its tag and length */
    uint8_t *out = zeros((size_t)MOST + 1);
    for (size_t n = MOST; n <= (size_t)MOST + 1; n++) {
        bool over = n > MOST;
        uint64_t list[NUMBERS] = { 0, 2, 12, 0, 0, n - 6, 0 };
        uint64_t number = calf_size(1, schema, 5, list, NUMBERS, s, (size_t)MOST + 1, answer);
        expect("calf_size", n, number, answer[0], over ? 11 : 0, over ? 0 : n);
        number = calf_write(1, schema, 5, list, NUMBERS, s, (size_t)MOST + 1, out, (size_t)MOST + 1, answer);
        expect("calf_write", n, number, answer[0], over ? 11 : 0, over ? 0 : n);
        if (!over && (out[0] != 0x12 || memcmp(out + 6, s, n - 6) || out[n])) bad = 1, puts("  OTHER bytes");
        number = calf_write(1, schema, 5, list, NUMBERS, s, (size_t)MOST + 1, out, (size_t)MOST - 1, answer);
        expect("calf_write, one byte short", n, number, answer[0], over ? 11 : 12, over ? 0 : n);
    }
    segments(s, out);
    return bad;
}
