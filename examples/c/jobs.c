/* Takes jobs out of an envelope, prints them, writes them canonically, and puts two lots of them into one envelope. */
#include <inttypes.h>
#include <nachricht.h>
#include <stdio.h>
#include <string.h>

/* An envelope with two jobs: d 5 m 3, and d 7 m 4 by references to the keys of the first. */
static const uint8_t envelope[] = {0x00, 0x0D, 0x01, 0x62, 0xC1, 0x64, 0x25, 0xC1,
                                   0x6D, 0x23, 0x62, 0xE0, 0x27, 0xE1, 0x24};

/* Where the bundle starts in an envelope. */
enum { HEADER = 3 };

/* Says what is wrong and where. Answers whether something is, so that the caller can stop. */
static bool failed(const char *what, nachricht_answer answer)
{
    if (answer.error == 0)
        return false;
    printf("%s: error %" PRIu64 " at %" PRIu64, what, answer.error, answer.place);
    if (answer.side != 0)
        printf(" of bundle %" PRIu64, answer.side);
    printf("\n");
    return true;
}

static void print_bytes(const char *what, const uint8_t *bytes, uint64_t length)
{
    printf("%s:", what);
    for (uint64_t i = 0; i < length; i++)
        printf(" %02X", bytes[i]);
    printf("\n");
}

static void print_float(nachricht_row row)
{
    uint32_t bits = (uint32_t)row.number;
    float single;
    double value;
    memcpy(&single, &bits, sizeof single);
    memcpy(&value, &row.number, sizeof value);
    printf("%g\n", row.kind == NACHRICHT_FLOAT32 ? (double)single : value);
}

/* The content of a row stands in the bundle, with no zero after it. Its length is at most NACHRICHT_MAX_BYTES. */
static void print_row(nachricht_row row, const uint8_t *bundle)
{
    const char *content = (const char *)bundle + row.start;
    int length = (int)row.number;
    switch (row.kind) {
    case NACHRICHT_NULL: printf("null\n"); break;
    case NACHRICHT_TRUE: printf("true\n"); break;
    case NACHRICHT_FALSE: printf("false\n"); break;
    case NACHRICHT_FLOAT32:
    case NACHRICHT_FLOAT64: print_float(row); break;
    case NACHRICHT_BYTES: print_bytes("bytes", bundle + row.start, row.number); break;
    case NACHRICHT_POSITIVE: printf("%" PRIu64 "\n", row.number); break;
    /* -1 - number may be below INT64_MIN; number + 1 does not overflow. */
    case NACHRICHT_NEGATIVE: printf("-%" PRIu64 "\n", row.number + 1); break;
    case NACHRICHT_CONTAINER: printf("container of %" PRIu64 "\n", row.number); break;
    case NACHRICHT_STRING: printf("\"%.*s\"\n", length, content); break;
    case NACHRICHT_SYMBOL: printf("#%.*s\n", length, content); break;
    case NACHRICHT_KEY: printf("%.*s = ", length, content); break;
    }
}

/* Opens the envelope, reads and prints its bundle, and writes the rows again. Answers the bytes written, or 0. */
static uint64_t read_jobs(uint8_t *out, size_t out_len)
{
    static nachricht_row rows[NACHRICHT_MAX_ROWS];
    nachricht_answer opened = nachricht_open(envelope, sizeof envelope);
    if (failed("open", opened))
        return 0;
    const uint8_t *bundle = envelope + HEADER;
    nachricht_answer read = nachricht_read(bundle, opened.count, false, rows, NACHRICHT_MAX_ROWS);
    if (failed("read", read))
        return 0;
    printf("%" PRIu64 " rows, %" PRIu64 " names, %" PRIu64 " fields\n", read.count, read.entries, read.fields);
    for (uint64_t i = 0; i < read.count; i++)
        print_row(rows[i], bundle);
    nachricht_answer written = nachricht_write(rows, read.count, bundle, opened.count, out, out_len);
    return failed("write", written) ? 0 : written.count;
}

int main(void)
{
    static uint8_t jobs[NACHRICHT_MAX_BYTES], joined[NACHRICHT_MAX_BYTES], sent[NACHRICHT_MAX_ENVELOPE];
    uint64_t length = read_jobs(jobs, sizeof jobs);
    if (length == 0)
        return 1;
    print_bytes("written", jobs, length);

    nachricht_answer join = nachricht_join(jobs, length, jobs, length, joined, sizeof joined);
    if (failed("join", join))
        return 1;
    print_bytes("joined", joined, join.count);

    nachricht_answer closed = nachricht_close(joined, join.count, sent, sizeof sent);
    if (failed("close", closed))
        return 1;
    print_bytes("closed", sent, closed.count);

    /* Without its last byte the second bundle ends in a key: nothing is joined, and `joined` stays as it is. */
    failed("join", nachricht_join(jobs, length, jobs, length - 1, joined, sizeof joined));

    /* A note in Latin-1 is not UTF-8: the place is that of the byte in the text, and the row is told beside it. */
    static const uint8_t text[] = {'n', 'G', 'r', 0xFC, 0xDF, 'e'};
    static const nachricht_row note[] = {{NACHRICHT_KEY, 1, 0}, {NACHRICHT_STRING, 5, 1}};
    nachricht_answer written = nachricht_write(note, 2, text, sizeof text, jobs, sizeof jobs);
    if (failed("write", written))
        printf("row %" PRIu64 "\n", written.row);
    return 0;
}
