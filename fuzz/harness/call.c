/* A call of the library, made again by the reference, and the two compared. */
#include "call.h"
#include "expected.h"
#include "guarded.h"
#include <stdio.h>
#include <stdlib.h>
#include <string.h>

/* The same functions of either side. */
typedef struct side {
    nachricht_answer (*check)(const uint8_t *, size_t, bool);
    nachricht_answer (*read)(const uint8_t *, size_t, bool, nachricht_row *, size_t);
    nachricht_answer (*write)(const nachricht_row *, size_t, const uint8_t *, size_t, uint8_t *, size_t);
    nachricht_answer (*canonicalize)(const uint8_t *, size_t, uint8_t *, size_t);
    nachricht_answer (*join)(const uint8_t *, size_t, const uint8_t *, size_t, uint8_t *, size_t);
    nachricht_answer (*open)(const uint8_t *, size_t);
    nachricht_answer (*close)(const uint8_t *, size_t, uint8_t *, size_t);
} side;

static const side LIBRARY = {
    nachricht_check, nachricht_read, nachricht_write, nachricht_canonicalize, nachricht_join, nachricht_open, nachricht_close,
};
static const side REFERENCE = {
    expected_check, expected_read, expected_write, expected_canonicalize, expected_join, expected_open, expected_close,
};

static nachricht_answer answer_of(const side *side, const call *made, const void *first, const void *second, void *out) {
    switch (made->function) {
    case CHECK:
        return side->check(first, made->first_len, made->strict);
    case READ:
        return side->read(first, made->first_len, made->strict, out, made->capacity);
    case WRITE:
        return side->write(first, made->first_len, second, made->second_len, out, made->capacity);
    case CANONICALIZE:
        return side->canonicalize(first, made->first_len, out, made->capacity);
    case JOIN:
        return side->join(first, made->first_len, second, made->second_len, out, made->capacity);
    case OPEN:
        return side->open(first, made->first_len);
    default:
        return side->close(first, made->first_len, out, made->capacity);
    }
}

static void fail(const call *made, placement where, const char *what) {
    static const char *const NAMES[] = {"check", "read", "write", "canonicalize", "join", "open", "close"};
    fprintf(stderr, "%s, strict %d, lengths %zu and %zu, capacity %zu, buffers at the %s: %s\n",
            NAMES[made->function], made->strict, made->first_len, made->second_len, made->capacity,
            where == AT_END ? "end" : "start", what);
    abort();
}

static void print_answer(const char *whose, const nachricht_answer *answer) {
    fprintf(stderr, "%s: error %lu place %lu side %lu row %lu count %lu entries %lu fields %lu\n", whose,
            answer->error, answer->place, answer->side, answer->row, answer->count, answer->entries, answer->fields);
}

/* The padding of a row may be anything, so it is made alike. */
static void clear_padding(uint8_t *rows, size_t count) {
    for (size_t index = 0; index < count; index++) {
        nachricht_row row, clear;
        memcpy(&row, rows + index * sizeof row, sizeof row);
        memset(&clear, 0, sizeof clear);
        clear.kind = row.kind;
        clear.number = row.number;
        clear.start = row.start;
        memcpy(rows + index * sizeof row, &clear, sizeof row);
    }
}

/* Puts bytes into a buffer. */
static uint8_t *lent(guarded memory, const void *bytes, size_t length, placement where) {
    uint8_t *buffer = guarded_buffer(memory, length, where);
    if (length > 0) {
        memcpy(buffer, bytes, length);
    }
    return buffer;
}

static void compare_at(const call *made, placement where, const nachricht_answer *expected, const uint8_t *written) {
    static guarded inputs[2], output;
    if (output.start == NULL) {
        inputs[0] = guarded_new(), inputs[1] = guarded_new(), output = guarded_new();
    }
    size_t first_len = made->first_len * (made->function == WRITE ? sizeof(nachricht_row) : 1);
    size_t element = made->function == READ ? sizeof(nachricht_row) : 1;
    uint8_t *first = lent(inputs[0], made->first, first_len, where);
    uint8_t *second = lent(inputs[1], made->second, made->second_len, where);
    uint8_t *out = guarded_buffer(output, made->capacity * element, where);
    nachricht_answer answer = answer_of(&LIBRARY, made, first, second, out);
    if (memcmp(&answer, expected, sizeof answer) != 0) {
        print_answer("answered", &answer);
        print_answer("expected", expected);
        fail(made, where, "another answer");
    }
    size_t count = made->function == CHECK || made->function == OPEN ? 0 : expected->count;
    if (made->function == READ) {
        clear_padding(out, count);
    }
    if (!guarded_holds(output, out, written, count * element)) {
        fail(made, where, "other bytes written");
    }
    if (!guarded_holds(inputs[0], first, made->first, first_len) || !guarded_holds(inputs[1], second, made->second, made->second_len)) {
        fail(made, where, "an input changed");
    }
}

nachricht_answer compare(call made) {
    static uint8_t written[GUARDED_BYTES] __attribute__((aligned(8)));
    nachricht_answer expected = answer_of(&REFERENCE, &made, made.first, made.second, written);
    if (made.function == READ) {
        clear_padding(written, expected.count);
    }
    compare_at(&made, AT_END, &expected, written);
    compare_at(&made, AT_START, &expected, written);
    return expected;
}
