/*
 * Makes the calls of strovimel.h that standard input asks for, one a message, and tells on standard output what each
 * answered and left. All numbers have 8 bytes, little-endian.
 *
 *   message   how many bytes follow; the call; how many times it is made; how many numbers and buffers it takes; the
 *             numbers; for each buffer its length, its place, and 0 (it holds the pattern: 1 to 255, over and over) or 1
 *             and its bytes
 *   reply     how many bytes follow; the nanoseconds that the calls took, where there were several; how many numbers the
 *             answer has; those; each buffer, until it is whole, in runs: 0 and a count (bytes as they were lent), 1 and
 *             a count (zeros), or 2, a count and those bytes
 *   place     how many bytes before the page behind it a buffer ends; or 2^64 - 1: it begins at the page before it, and
 *             an empty one is null
 *
 * Messages are read and replies written many at a time. Each buffer stands between two pages that nothing may touch. A
 * touch of one, or a change right beside a buffer, ends the program with a line on standard error, behind the replies to
 * all earlier messages: so the first message without a reply is the one to blame.
 */
#define _DEFAULT_SOURCE
#include <errno.h>
#include <inttypes.h>
#include <signal.h>
#include <stdio.h>
#include <stdlib.h>
#include <string.h>
#include <sys/mman.h>
#include <time.h>
#include <unistd.h>

#include "strovimel.h"

enum { TOUCH, SOLVE, MAKE, GATE, TO_SECOND, TO_FIRST };

#define PAGE ((size_t)65536) /* no processor has larger ones */
#define EDGE ((size_t)256)   /* so many bytes beside a buffer are held to be unchanged */
#define EDGE_BYTE 0xa5
#define BLOCK ((size_t)256) /* the bytes that a run is told by */
#define BUFFERS 8
#define NUMBERS 16
#define ENOUGH ((size_t)1 << 20) /* bytes that are read at a time, and replies that are kept back */
#define AT_FRONT UINT64_MAX

/* Bytes that grow as they must. */
typedef struct {
    uint8_t *bytes;
    size_t length, room;
} heap;

/* The room between two pages that nothing may touch, and the buffer that stands there for the call. */
typedef struct {
    uint8_t *room;
    size_t size;
    uint8_t *start; /* null where null is lent */
    size_t length;
    const uint8_t *told; /* what it was lent with, or null for the pattern */
} buffer;

static heap asked, replies, pattern;
static buffer buffers[BUFFERS];
static uint64_t numbers[NUMBERS], answer[NUMBERS];
static size_t buffer_count, number_count, answer_count;

/* Writes the replies that are kept back. */
static void flush(void)
{
    size_t done = 0;

    while (done < replies.length) {
        ssize_t wrote = write(STDOUT_FILENO, replies.bytes + done, replies.length - done);
        if (wrote < 0 && errno != EINTR)
            _exit(2);
        done += wrote < 0 ? 0 : (size_t)wrote;
    }
    replies.length = 0;
}

static void fail(const char *why)
{
    flush();
    fprintf(stderr, "calls: %s\n", why);
    _exit(3);
}

static void grow(heap *h, size_t room)
{
    if (room <= h->room)
        return;
    h->room = 2 * room;
    h->bytes = realloc(h->bytes, h->room);
    if (h->bytes == NULL)
        fail("no memory");
}

static void put(const void *bytes, size_t length)
{
    grow(&replies, replies.length + length);
    memcpy(replies.bytes + replies.length, bytes, length);
    replies.length += length;
}

static void put_number(uint64_t number)
{
    put(&number, sizeof number);
}

/* What the buffer was lent with. */
static const uint8_t *lent(const buffer *b)
{
    if (b->told != NULL)
        return b->told;
    grow(&pattern, b->length);
    for (; pattern.length < b->length; pattern.length++)
        pattern.bytes[pattern.length] = (uint8_t)(pattern.length % 255 + 1);
    return pattern.bytes;
}

/* Which of the pages was touched, if it was one. An emulator may come here with the stack out of line. */
__attribute__((force_align_arg_pointer)) static void faulted(int number, siginfo_t *info, void *context)
{
    const uint8_t *at = info->si_addr;
    char line[96];
    size_t i;

    (void)context;
    snprintf(line, sizeof line, "signal %d", number);
    for (i = 0; i < buffer_count; i++) {
        const buffer *b = &buffers[i];
        const uint8_t *end = b->room + b->size;
        if (at >= end && at < end + PAGE)
            snprintf(line, sizeof line, "buffer %zu touched at byte %td of %zu", i, at - b->start, b->length);
        if (at < b->room && at >= b->room - PAGE)
            snprintf(line, sizeof line, "buffer %zu touched %td bytes before it", i, b->start - at);
    }
    fail(line);
}

static void watch(void)
{
    static const int signals[] = {SIGSEGV, SIGBUS, SIGILL, SIGFPE, SIGABRT};
    static uint8_t space[PAGE];
    stack_t stack;
    struct sigaction action;
    size_t i;

    memset(&stack, 0, sizeof stack);
    stack.ss_sp = space;
    stack.ss_size = sizeof space;
    sigaltstack(&stack, NULL);
    memset(&action, 0, sizeof action);
    action.sa_sigaction = faulted;
    action.sa_flags = SA_SIGINFO | SA_ONSTACK;
    for (i = 0; i < sizeof signals / sizeof *signals; i++)
        sigaction(signals[i], &action, NULL);
}

static size_t least(size_t one, size_t other)
{
    return one < other ? one : other;
}

/* The bytes right before and right behind a buffer, in its room. */
static size_t before(const buffer *b)
{
    return least(EDGE, (size_t)(b->start - b->room));
}

static size_t behind(const buffer *b)
{
    return least(EDGE, (size_t)(b->room + b->size - b->start) - b->length);
}

static void lend(buffer *b, size_t length, uint64_t place, const uint8_t *told)
{
    size_t room = place == AT_FRONT ? length : length + (size_t)place;

    if (b->size < room || b->size == 0) {
        if (b->size != 0)
            munmap(b->room - PAGE, b->size + 2 * PAGE);
        b->size = (room / PAGE + 1) * PAGE;
        b->room = mmap(NULL, b->size + 2 * PAGE, PROT_NONE, MAP_PRIVATE | MAP_ANONYMOUS, -1, 0);
        if (b->room == MAP_FAILED)
            fail("no memory");
        b->room += PAGE;
        if (mprotect(b->room, b->size, PROT_READ | PROT_WRITE) != 0)
            fail("no memory");
    }
    b->length = length;
    b->told = told;
    b->start = place == AT_FRONT ? b->room : b->room + b->size - room;
    memset(b->start - before(b), EDGE_BYTE, before(b));
    memset(b->start + length, EDGE_BYTE, behind(b));
    if (length != 0)
        memcpy(b->start, lent(b), length);
    if (place == AT_FRONT && length == 0)
        b->start = NULL;
}

static void hold_edge(const uint8_t *from, size_t length)
{
    size_t i;

    for (i = 0; i < length; i++)
        if (from[i] != EDGE_BYTE)
            fail("a byte beside a buffer was changed");
}

static void hold_edges(const buffer *b)
{
    if (b->start == NULL)
        return;
    hold_edge(b->start - before(b), before(b));
    hold_edge(b->start + b->length, behind(b));
}

/* 0: the block is as it was lent; 1: it is zero; 2: neither. */
static uint64_t kind_of(const buffer *b, size_t from, size_t length)
{
    static const uint8_t zeros[BLOCK];

    if (memcmp(b->start + from, lent(b) + from, length) == 0)
        return 0;
    return memcmp(b->start + from, zeros, length) == 0 ? 1 : 2;
}

static void tell(const buffer *b)
{
    size_t from = 0;

    while (from < b->length) {
        size_t block = least(BLOCK, b->length - from), to = from + block;
        uint64_t kind = kind_of(b, from, block);
        while (to < b->length && (block = least(BLOCK, b->length - to), kind_of(b, to, block) == kind))
            to += block;
        put_number(kind);
        put_number(to - from);
        if (kind == 2)
            put(b->start + from, to - from);
        from = to;
    }
}

static void expect(size_t how_many_numbers, size_t how_many_buffers)
{
    if (number_count != how_many_numbers || buffer_count != how_many_buffers)
        fail("a message with other arguments than its call takes");
}

static void answer_made(strovimel_made made)
{
    answer[0] = made.number;
    answer[1] = made.table;
    answer[2] = made.record;
    answer[3] = made.length;
    answer_count = 4;
}

static void call(uint64_t which)
{
    buffer *b = buffers;

    switch (which) {
    case TOUCH:
        expect(1, 1);
        b[0].start[(int64_t)numbers[0]]++;
        answer_count = 0;
        break;
    case SOLVE: {
        strovimel_solved solved;
        expect(1, 3);
        solved = strovimel_solve(b[0].start, b[0].length, numbers[0], (uint64_t *)(void *)b[1].start, b[1].length / 8,
                                 b[2].start, b[2].length);
        answer[0] = solved.number;
        answer[1] = solved.table;
        answer[2] = solved.record;
        answer[3] = solved.length;
        answer[4] = solved.trials;
        answer_count = 5;
        break;
    }
    case MAKE:
        expect(2, 2);
        answer_made(strovimel_make(b[0].start, b[0].length, numbers[0], numbers[1], b[1].start, b[1].length));
        break;
    case GATE:
        expect(0, 4);
        answer[0] = strovimel_gate(b[0].start, b[0].length, b[1].start, b[1].length, b[2].start, b[2].length,
                                   (uint64_t *)(void *)b[3].start, b[3].length / 8);
        answer_count = 1;
        break;
    case TO_SECOND:
        expect(0, 2);
        answer_made(strovimel_to_second(b[0].start, b[0].length, b[1].start, b[1].length));
        break;
    case TO_FIRST:
        expect(0, 2);
        answer_made(strovimel_to_first(b[0].start, b[0].length, b[1].start, b[1].length));
        break;
    default:
        fail("a message with no such call");
    }
}

static uint64_t nanoseconds(void)
{
    struct timespec now;

    clock_gettime(CLOCK_MONOTONIC, &now);
    return (uint64_t)now.tv_sec * 1000000000u + (uint64_t)now.tv_nsec;
}

static uint64_t number_at(const uint8_t **at)
{
    uint64_t number;

    memcpy(&number, *at, sizeof number);
    *at += sizeof number;
    return number;
}

/* One message, behind its length: its buffers lent, its call made, its reply kept back. */
static void serve(const uint8_t *at)
{
    uint64_t which = number_at(&at), times = number_at(&at), took = 0, left, length;
    size_t i, reply;

    number_count = number_at(&at);
    buffer_count = number_at(&at);
    if (number_count > NUMBERS || buffer_count > BUFFERS)
        fail("a message with too many arguments");
    for (i = 0; i < number_count; i++)
        numbers[i] = number_at(&at);
    for (i = 0; i < buffer_count; i++) {
        uint64_t place, told;
        length = number_at(&at);
        place = number_at(&at);
        told = number_at(&at);
        lend(&buffers[i], length, place, told ? at : NULL);
        at += told ? length : 0;
    }
    if (times > 1)
        took = nanoseconds();
    for (left = times; left > 0; left--)
        call(which);
    if (times > 1)
        took = nanoseconds() - took;

    for (i = 0; i < buffer_count; i++)
        hold_edges(&buffers[i]);

    reply = replies.length;
    put_number(0);
    put_number(took);
    put_number(answer_count);
    for (i = 0; i < answer_count; i++)
        put_number(answer[i]);
    for (i = 0; i < buffer_count; i++)
        tell(&buffers[i]);
    length = replies.length - reply - sizeof length;
    memcpy(replies.bytes + reply, &length, sizeof length);
}

/* Serves the whole messages that are there, and says how many bytes those were. */
static size_t serve_all(void)
{
    size_t done = 0;

    while (asked.length - done >= sizeof(uint64_t)) {
        const uint8_t *at = asked.bytes + done;
        uint64_t length = number_at(&at);
        if (asked.length - done - sizeof length < length) {
            grow(&asked, sizeof length + length);
            break;
        }
        serve(at);
        done += sizeof length + length;
        if (replies.length >= ENOUGH)
            flush();
    }
    return done;
}

int main(void)
{
    watch();
    for (;;) {
        ssize_t count;
        size_t done;

        grow(&asked, asked.length + ENOUGH);
        count = read(STDIN_FILENO, asked.bytes + asked.length, asked.room - asked.length);
        if (count < 0 && errno != EINTR)
            fail("standard input cannot be read");
        if (count == 0)
            break;
        asked.length += count < 0 ? 0 : (size_t)count;
        done = serve_all();
        flush();
        memmove(asked.bytes, asked.bytes + done, asked.length - done);
        asked.length -= done;
    }
    if (asked.length != 0)
        fail("standard input ends within a message");
    return 0;
}
