/* The C interface of nachricht, a self-describing binary format. Link libnachricht.a (x86-64 Linux).
 *
 * A bundle is zero or more fields back to back. A field is a value, or a key and then a value; a value is null, a
 * boolean, a float, bytes, an integer, a string, a symbol, or a container of so many fields. Keys and symbols are
 * names: the bundle's symbol table has an entry for each that is written in full, and a reference to an entry stands
 * for that name afterwards. A bundle is canonical if each header is as short as can be, and each name is written in
 * full once and referred to afterwards. The same items have one canonical encoding.
 *
 * What the caller owes, for every function:
 *   - each pointer is good for its length, which counts bytes, or rows for a nachricht_row pointer; a pointer whose
 *     length is 0 may be NULL
 *   - rows are aligned as the compiler aligns a nachricht_row; its padding bytes need not be set
 *   - a buffer that is written to (out; rows in nachricht_read) overlaps none of the inputs
 * Nothing is asked of the content: all bytes and all rows get an answer.
 *
 * What holds for every function:
 *   - on success the first `count` bytes or rows of the buffer are written, and those after them are unchanged
 *   - an error changes nothing: the buffer is as it was
 *   - no function allocates, keeps anything after the call or has global state, so threads may call at will
 */
#ifndef NACHRICHT_H
#define NACHRICHT_H
#include <stdbool.h>
#include <stddef.h>
#include <stdint.h>

#ifdef __cplusplus
extern "C" {
#endif

/* The limits. An envelope is a bundle and the three bytes before it. */
#define NACHRICHT_MAX_BYTES 16384    /* bytes in a bundle, and in the text of nachricht_write */
#define NACHRICHT_MAX_ROWS 1024      /* rows of a bundle */
#define NACHRICHT_MAX_ENTRIES 256    /* entries in the symbol table */
#define NACHRICHT_MAX_DEPTH 32       /* containers open at once */
#define NACHRICHT_MAX_ENVELOPE 16387 /* bytes in an envelope */

/* The error numbers. What each function says of them comes with the function. */
enum {
    NACHRICHT_TOO_LONG = 1,            /* a bundle or text is over NACHRICHT_MAX_BYTES */
    NACHRICHT_TRUNCATED = 2,           /* an item or part of it is due, and the bytes or rows have ended */
    NACHRICHT_INVALID_UTF8 = 3,        /* a string, symbol or key is not UTF-8 */
    NACHRICHT_UNDEFINED_REFERENCE = 4, /* a reference to an entry not yet made */
    NACHRICHT_UNEXPECTED_KEY = 5,      /* a key straight after a key */
    NACHRICHT_TOO_DEEP = 6,            /* a container inside NACHRICHT_MAX_DEPTH open ones */
    NACHRICHT_TOO_MANY_ROWS = 7,       /* more rows than NACHRICHT_MAX_ROWS, or than the table */
    NACHRICHT_TOO_MANY_ENTRIES = 8,    /* more entries (writing, joining: names) than NACHRICHT_MAX_ENTRIES */
    NACHRICHT_INVALID_ROW = 9,         /* a row that means nothing */
    NACHRICHT_OUTPUT_TOO_LONG = 10,    /* the result is over its limit, or over the buffer */
    NACHRICHT_NOT_CANONICAL = 11,      /* strict reading of what is not canonical */
    NACHRICHT_INVALID_ENVELOPE = 12,   /* the length of an envelope is bad */
    NACHRICHT_UNSUPPORTED_VERSION = 13 /* the version of an envelope is not 1 */
};

/*
 * The kinds of a row, and what its number is. Kinds 5, 9, 10 and 11 have content, `number` bytes from `start` on.
 * That of 9, 10 and 11 is UTF-8 by this rule: 00-7F alone; C2-DF and one byte 80-BF; E0-EF and two such; F0-F4 and
 * three such. So E0 80 80 and ED A0 80 pass, which other programs may refuse. The place of error 3 is the offset of the
 * first byte that cannot come next by this rule, or the offset just after the content where that ends too early.
 */
enum {
    NACHRICHT_NULL = 0,      /* number 0 */
    NACHRICHT_TRUE = 1,      /* number 0 */
    NACHRICHT_FALSE = 2,     /* number 0 */
    NACHRICHT_FLOAT32 = 3,   /* the bits of a float, below 2^32 */
    NACHRICHT_FLOAT64 = 4,   /* the bits of a double */
    NACHRICHT_BYTES = 5,     /* length of the content */
    NACHRICHT_POSITIVE = 6,  /* an integer of 0 or more: its value */
    NACHRICHT_NEGATIVE = 7,  /* an integer below 0: -1 - value, never 2^64 - 1; may be below what int64_t holds */
    NACHRICHT_CONTAINER = 8, /* how many fields follow; a key and its value are one field */
    NACHRICHT_STRING = 9,    /* length of the content */
    NACHRICHT_SYMBOL = 10,   /* length of the content */
    NACHRICHT_KEY = 11       /* length of the content */
};

/* An item: a key or a value. The items of a bundle are its rows, in the order of the bytes. */
typedef struct nachricht_row {
    uint8_t kind;    /* NACHRICHT_NULL to NACHRICHT_KEY */
    uint64_t number; /* by the kind */
    size_t start;    /* the offset of the content in the bundle or text, also of empty content; 0 for other kinds */
} nachricht_row;

/* What every function answers. What a function does not speak of is 0. */
typedef struct nachricht_answer {
    uint64_t error;   /* 0, or the error's number */
    uint64_t place;   /* where the error is; 0 without one */
    uint64_t side;    /* nachricht_join: 1 or 2 for the bundle that does not read, else 0 */
    uint64_t row;     /* nachricht_write: beside error 3 the number of the row; else 0 */
    uint64_t count;   /* rows read, bytes written, or in nachricht_open the bundle's length; 0 beside an error */
    uint64_t entries; /* nachricht_check, nachricht_read: entries in the symbol table; 0 beside an error */
    uint64_t fields;  /* nachricht_check, nachricht_read: fields at the top level; 0 beside an error */
} nachricht_answer;

/*
 * Checks the bundle `bytes` of length `len`, and counts its rows (`count`), entries and fields.
 *
 * With `strict` only a canonical bundle is good, else every bundle that the format allows. The empty bundle is good.
 * No buffer is written to.
 *
 * Errors: 1 with place 0. Then those of the first bad item, place being the offset of its first byte, or `len` where an
 * item is due and no byte is left; for 3 it is said with the kinds. Where several apply to it, the first of: 2 header
 * cut; 11 header too long, or the second encoding of -(2^64 - 1); 4; 5; 6; 2 content cut; 3; 11 name in the table
 * already; 8; 7. 11 only with `strict`.
 */
nachricht_answer nachricht_check(const uint8_t *bytes, size_t len, bool strict);

/*
 * Reads the bundle `bytes` of length `len` into the table `rows` of `rows_len` rows.
 *
 * Answers and refuses as nachricht_check does, and 7 also at the first item for which the table has no row. On success
 * the first `count` rows are those of the bundle, with references replaced by what they stand for: the row of a
 * reference has the start and length of the name that its entry was made from. NACHRICHT_MAX_ROWS rows are always
 * enough. The content stays in `bytes`: row r has the r.number bytes from bytes + r.start on, with no zero after them.
 */
nachricht_answer nachricht_read(const uint8_t *bytes, size_t len, bool strict, nachricht_row *rows, size_t rows_len);

/*
 * Writes the canonical encoding of all `rows_len` rows into `out` of `out_len` bytes, and answers its length (`count`).
 *
 * The starts of the rows are offsets in `text` of `text_len` bytes; rows that nachricht_read filled can be written with
 * the bundle they came from as text. A container's row comes before the rows of its fields, a key's before its value.
 *
 * Errors: 7 if rows_len is over NACHRICHT_MAX_ROWS, then 1 if text_len is over NACHRICHT_MAX_BYTES, with place 0. Then
 * those of the first bad row, place being its number from 0 on: 9, 5, 6, 3, 8, in this order. For 3 the number is in
 * `row`, and place is the offset in `text` that is said with the kinds. A row is bad by 9 if its kind is none of the
 * above, its number none that the kind has, its start not 0 for a kind without content, or its content not within the
 * text (start + number > text_len, also for number 0). Then 2 with place rows_len if a key's value or a container's
 * fields are missing. Last 10 with place 0 if the result is over NACHRICHT_MAX_BYTES or over out_len.
 */
nachricht_answer nachricht_write(const nachricht_row *rows, size_t rows_len, const uint8_t *text, size_t text_len,
                                 uint8_t *out, size_t out_len);

/*
 * Writes the canonical encoding of the bundle `bytes` of length `len` into `out` of `out_len` bytes, and answers its
 * length (`count`). It can be longer than the bundle was.
 *
 * Errors: those of nachricht_check that is not strict, with the same places. Then 10 with place 0 if the result is over
 * NACHRICHT_MAX_BYTES or over out_len.
 */
nachricht_answer nachricht_canonicalize(const uint8_t *bytes, size_t len, uint8_t *out, size_t out_len);

/*
 * Writes the canonical encoding of the first bundle's fields followed by the second's into `out` of `out_len` bytes,
 * and answers its length (`count`). The two inputs may overlap or be the same.
 *
 * Errors: those of nachricht_check that is not strict, for `first` with side 1, then for `second` with side 2; place is
 * an offset in that bundle. Then, with side 0 and place 0: 7 if they have over NACHRICHT_MAX_ROWS rows together, 8 if
 * they have over NACHRICHT_MAX_ENTRIES different names, 10 if the result is over NACHRICHT_MAX_BYTES or over out_len.
 */
nachricht_answer nachricht_join(const uint8_t *first, size_t first_len, const uint8_t *second, size_t second_len,
                                uint8_t *out, size_t out_len);

/*
 * Opens the envelope that `envelope` of `len` bytes begins with: two bytes of length, the higher first, which count
 * what follows: a version byte 1, and the bundle.
 *
 * On success the bundle is the `count` bytes from envelope + 3 on; it is not read. What comes after it is not looked
 * at, so the next envelope of a stream begins at envelope + 3 + count.
 *
 * Errors, with place 0: 12 if there are fewer than 2 bytes, if the length is not 1 to NACHRICHT_MAX_BYTES + 1, or if
 * there are fewer bytes than it says; then 13.
 */
nachricht_answer nachricht_open(const uint8_t *envelope, size_t len);

/*
 * Puts the bundle of `len` bytes, which is not read, into an envelope in `out` of `out_len` bytes, and answers the
 * envelope's length (`count`), which is len + 3.
 *
 * Errors, with place 0: 1 if len is over NACHRICHT_MAX_BYTES; then 10 if the envelope is over out_len.
 */
nachricht_answer nachricht_close(const uint8_t *bundle, size_t len, uint8_t *out, size_t out_len);

#ifdef __cplusplus
}
#endif

#endif
