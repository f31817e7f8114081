/* Memory between two pages that cannot be touched: an access outside a buffer traps. */
#define _GNU_SOURCE
#include "guarded.h"
#include <stdio.h>
#include <stdlib.h>
#include <string.h>
#include <sys/mman.h>
#include <unistd.h>

/* Bytes that differ from their neighbours, so that a stray byte or copy shows. */
static uint8_t UNTOUCHED[GUARDED_BYTES];

guarded guarded_new(void) {
    size_t page = (size_t)sysconf(_SC_PAGESIZE);
    uint8_t *all = mmap(NULL, GUARDED_BYTES + 2 * page, PROT_NONE, MAP_PRIVATE | MAP_ANONYMOUS, -1, 0);
    bool is_mapped = all != MAP_FAILED && GUARDED_BYTES % page == 0;
    if (!is_mapped || mprotect(all + page, GUARDED_BYTES, PROT_READ | PROT_WRITE) != 0) {
        fprintf(stderr, "no guarded memory\n");
        abort();
    }
    for (size_t place = 0; place < GUARDED_BYTES; place++) {
        UNTOUCHED[place] = (uint8_t)(place * 151 + 7);
    }
    return (guarded){all + page, all + page + GUARDED_BYTES};
}

uint8_t *guarded_buffer(guarded memory, size_t length, placement where) {
    if (length > GUARDED_BYTES) {
        fprintf(stderr, "a buffer of %zu bytes\n", length);
        abort();
    }
    memcpy(memory.start, UNTOUCHED, GUARDED_BYTES);
    return where == AT_END ? memory.end - length : memory.start;
}

bool guarded_holds(guarded memory, const uint8_t *place, const uint8_t *bytes, size_t length) {
    size_t before = (size_t)(place - memory.start);
    size_t after = before + length;
    return memcmp(memory.start, UNTOUCHED, before) == 0
        && memcmp(place, bytes, length) == 0
        && memcmp(place + length, UNTOUCHED + after, GUARDED_BYTES - after) == 0;
}
