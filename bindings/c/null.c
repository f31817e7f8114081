/* Every function with NULL for each pointer whose length is 0: the whole answer, and that nothing else changed. */
#include <nachricht.h>
#include <stdio.h>
#include <string.h>

/* All that the library is lent. */
struct memory {
    uint8_t bytes[2];
    uint8_t out[4];
    nachricht_row rows[1];
};

static struct memory memory, expected;
static int calls, failures;

/* The answer of a call that writes so many bytes, or fails with this error at place 0. */
static nachricht_answer count(uint64_t bytes) { return (nachricht_answer){.count = bytes}; }
static nachricht_answer error(uint64_t number) { return (nachricht_answer){.error = number}; }

/* Both structs are filled byte by byte, so that they can be compared with their padding. */
static void reset(void)
{
    memset(&memory, 0xA5, sizeof memory);
    memset(memory.bytes, 0, sizeof memory.bytes); /* two nulls, as a bundle */
    memory.rows[0].kind = NACHRICHT_NULL;
    memory.rows[0].number = 0;
    memory.rows[0].start = 0;
    memcpy(&expected, &memory, sizeof memory);
}

/* Compares the answer, and the memory with what it was but for the bytes that are to be in `out`. */
static void same(int line, nachricht_answer answer, nachricht_answer right, const char *out)
{
    memcpy(expected.out, out, right.count);
    bool good = memcmp(&answer, &right, sizeof answer) == 0 && memcmp(&memory, &expected, sizeof memory) == 0;
    if (!good)
        printf("null.c:%d: error %d at %d, side %d, row %d, count %d, entries %d, fields %d; or a byte changed\n", line,
               (int)answer.error, (int)answer.place, (int)answer.side, (int)answer.row, (int)answer.count,
               (int)answer.entries, (int)answer.fields);
    calls++;
    failures += !good;
    reset();
}

#define SAME(answer, right, out) same(__LINE__, answer, right, out)

static void reading(bool strict)
{
    SAME(nachricht_check(NULL, 0, strict), count(0), "");
    SAME(nachricht_read(NULL, 0, strict, memory.rows, 1), count(0), "");
    SAME(nachricht_read(memory.bytes, 2, strict, NULL, 0), error(NACHRICHT_TOO_MANY_ROWS), "");
    SAME(nachricht_read(NULL, 0, strict, NULL, 0), count(0), "");
}

static void writing(void)
{
    SAME(nachricht_write(NULL, 0, memory.bytes, 2, memory.out, 4), count(0), "");
    SAME(nachricht_write(memory.rows, 1, NULL, 0, memory.out, 4), count(1), "\0");
    SAME(nachricht_write(memory.rows, 1, memory.bytes, 2, NULL, 0), error(NACHRICHT_OUTPUT_TOO_LONG), "");
    SAME(nachricht_write(NULL, 0, NULL, 0, memory.out, 4), count(0), "");
    SAME(nachricht_write(NULL, 0, memory.bytes, 2, NULL, 0), count(0), "");
    SAME(nachricht_write(memory.rows, 1, NULL, 0, NULL, 0), error(NACHRICHT_OUTPUT_TOO_LONG), "");
    SAME(nachricht_write(NULL, 0, NULL, 0, NULL, 0), count(0), "");
    SAME(nachricht_canonicalize(NULL, 0, memory.out, 4), count(0), "");
    SAME(nachricht_canonicalize(memory.bytes, 2, NULL, 0), error(NACHRICHT_OUTPUT_TOO_LONG), "");
    SAME(nachricht_canonicalize(NULL, 0, NULL, 0), count(0), "");
}

static void joining(void)
{
    SAME(nachricht_join(NULL, 0, memory.bytes, 2, memory.out, 4), count(2), "\0\0");
    SAME(nachricht_join(memory.bytes, 2, NULL, 0, memory.out, 4), count(2), "\0\0");
    SAME(nachricht_join(memory.bytes, 2, memory.bytes, 2, NULL, 0), error(NACHRICHT_OUTPUT_TOO_LONG), "");
    SAME(nachricht_join(NULL, 0, NULL, 0, memory.out, 4), count(0), "");
    SAME(nachricht_join(NULL, 0, memory.bytes, 2, NULL, 0), error(NACHRICHT_OUTPUT_TOO_LONG), "");
    SAME(nachricht_join(memory.bytes, 2, NULL, 0, NULL, 0), error(NACHRICHT_OUTPUT_TOO_LONG), "");
    SAME(nachricht_join(NULL, 0, NULL, 0, NULL, 0), count(0), "");
}

static void enveloping(void)
{
    SAME(nachricht_open(NULL, 0), error(NACHRICHT_INVALID_ENVELOPE), "");
    SAME(nachricht_close(NULL, 0, memory.out, 4), count(3), "\0\1\1");
    SAME(nachricht_close(memory.bytes, 2, NULL, 0), error(NACHRICHT_OUTPUT_TOO_LONG), "");
    SAME(nachricht_close(NULL, 0, NULL, 0), error(NACHRICHT_OUTPUT_TOO_LONG), "");
}

int main(void)
{
    reset();
    reading(false);
    reading(true);
    writing();
    joining();
    enveloping();
    printf("null.c: %d calls, %d failures\n", calls, failures);
    return failures != 0;
}
