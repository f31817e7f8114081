/* Runs the harness on generated inputs for a number of seconds, where there is no fuzzer. */
#include <stdint.h>
#include <stdio.h>
#include <stdlib.h>

int LLVMFuzzerTestOneInput(const uint8_t *data, size_t size);
void fuzz_at_random(int (*harness)(const uint8_t *, size_t), uint64_t seconds);

int main(int count, char **words) {
    if (count != 2) {
        fprintf(stderr, "usage: random SECONDS\n");
        return 2;
    }
    fuzz_at_random(LLVMFuzzerTestOneInput, strtoull(words[1], NULL, 10));
    return 0;
}
