/* A call of the library, made again by the reference, and the two compared. */
#ifndef CALL_H
#define CALL_H
#include "nachricht.h"

typedef enum function { CHECK, READ, WRITE, CANONICALIZE, JOIN, OPEN, CLOSE } function;

/* What a call is given. In writing the first input are rows; in reading the output are rows. */
typedef struct call {
    function function;
    bool strict;
    const void *first;
    size_t first_len;
    const void *second;
    size_t second_len;
    size_t capacity;
} call;

/* Makes the call and aborts with a message unless the library does what the reference does. */
nachricht_answer compare(call made);

#endif
