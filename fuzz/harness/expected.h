/* The reference's functions, with the arguments of the library's. */
#ifndef EXPECTED_H
#define EXPECTED_H
#include "nachricht.h"

nachricht_answer expected_check(const uint8_t *bytes, size_t len, bool strict);
nachricht_answer expected_read(const uint8_t *bytes, size_t len, bool strict, nachricht_row *rows, size_t rows_len);
nachricht_answer expected_write(const nachricht_row *rows, size_t rows_len, const uint8_t *text, size_t text_len, uint8_t *out, size_t out_len);
nachricht_answer expected_canonicalize(const uint8_t *bytes, size_t len, uint8_t *out, size_t out_len);
nachricht_answer expected_join(const uint8_t *first, size_t first_len, const uint8_t *second, size_t second_len, uint8_t *out, size_t out_len);
nachricht_answer expected_open(const uint8_t *envelope, size_t len);
nachricht_answer expected_close(const uint8_t *bundle, size_t len, uint8_t *out, size_t out_len);

#endif
