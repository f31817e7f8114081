/* Memory between two pages that cannot be touched. */
#ifndef GUARDED_H
#define GUARDED_H
#include <stdbool.h>
#include <stddef.h>
#include <stdint.h>

/* A buffer lies flush against the page after it, or against the page before it. */
typedef enum placement { AT_END, AT_START } placement;

typedef struct guarded {
    uint8_t *start;
    uint8_t *end;
} guarded;

/* As much as any buffer of the harness. */
#define GUARDED_BYTES 40960

/* Maps the memory, with a page before it and one after it that trap. */
guarded guarded_new(void);

/* Makes all of it untouched, and says where a buffer of this length lies. */
uint8_t *guarded_buffer(guarded memory, size_t length, placement where);

/* Whether these bytes lie at this place, and all else is untouched. */
bool guarded_holds(guarded memory, const uint8_t *place, const uint8_t *bytes, size_t length);

#endif
