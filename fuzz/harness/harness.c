/* What a fuzzer runs: an input is taken apart into calls, and each call is compared.
 * It is the number of a family in a byte, two numbers of two bytes each, and a payload. */
#include "call.h"
#include <string.h>

/* Longer inputs are cut. Two bundles as long as allowed, and more, fit in. */
#define MOST_INPUT 36000
#define MOST_BYTES 20000
#define MOST_ROWS 1100

/* Bytes that are taken from the front. */
typedef struct payload {
    const uint8_t *bytes;
    size_t len;
} payload;

static uint64_t number(payload *rest, size_t length) {
    uint64_t number = 0;
    while (length-- > 0 && rest->len > 0) {
        number = number << 8 | *rest->bytes++;
        rest->len--;
    }
    return number;
}

/* Capacities: as many as the result takes, one fewer, and some number of the input's. */
static void compare_at_capacities(call made, size_t chosen) {
    made.capacity = MOST_BYTES;
    size_t exact = compare(made).count;
    made.capacity = exact;
    compare(made);
    made.capacity = exact > 0 ? exact - 1 : 0;
    compare(made);
    made.capacity = chosen % MOST_BYTES;
    compare(made);
}

static void compare_reading(payload bundle, size_t chosen) {
    for (int strict = 0; strict < 2; strict++) {
        call made = {CHECK, strict, bundle.bytes, bundle.len, "", 0, 0};
        size_t rows = compare(made).count;
        size_t capacities[] = {rows, rows > 0 ? rows - 1 : 0, chosen % MOST_ROWS, 1024};
        made.function = READ;
        for (size_t index = 0; index < 4; index++) {
            made.capacity = capacities[index];
            compare(made);
        }
    }
}

/* A row is its kind with marks for a long number, a long start, and a kind from 128 on; number; start. */
static nachricht_row next_row(payload *rest) {
    uint8_t lead = (uint8_t)number(rest, 1);
    nachricht_row row;
    memset(&row, 0, sizeof row);
    row.kind = (uint8_t)((lead & 15) | (lead & 64 ? 128 : 0));
    row.number = number(rest, lead & 16 ? 8 : 2);
    row.start = number(rest, lead & 32 ? 8 : 2);
    return row;
}

/* The payload begins with so many rows, and the rest is the text. */
static void compare_writing(payload rest, size_t count, size_t chosen) {
    static nachricht_row rows[MOST_ROWS];
    count %= MOST_ROWS;
    for (size_t index = 0; index < count; index++) {
        rows[index] = next_row(&rest);
    }
    call made = {WRITE, false, rows, count, rest.bytes, rest.len, 0};
    compare_at_capacities(made, chosen);
}

static void compare_joining(payload both, size_t split, size_t chosen) {
    split %= both.len + 1;
    call made = {JOIN, false, both.bytes, split, both.bytes + split, both.len - split, 0};
    compare_at_capacities(made, chosen);
}

static void compare_envelopes(payload bytes, size_t chosen) {
    call made = {OPEN, false, bytes.bytes, bytes.len, "", 0, 0};
    compare(made);
    made.function = CLOSE;
    compare_at_capacities(made, chosen);
}

int LLVMFuzzerTestOneInput(const uint8_t *data, size_t size) {
    if (size == 0) {
        return 0;
    }
    payload rest = {data, size < MOST_INPUT ? size : MOST_INPUT};
    uint64_t family = number(&rest, 1) % 5;
    size_t first = number(&rest, 2), second = number(&rest, 2);
    switch (family) {
    case 0:
        compare_reading(rest, first);
        break;
    case 1:
        compare_writing(rest, first, second);
        break;
    case 2:
        compare_at_capacities((call){CANONICALIZE, false, rest.bytes, rest.len, "", 0, 0}, second);
        break;
    case 3:
        compare_joining(rest, first, second);
        break;
    default:
        compare_envelopes(rest, second);
    }
    return 0;
}
