// Refuses one growth of memory in a test of tests/calls, which says when and which. `rt try` builds tests with the address sanitizer,
// whose functions for memory ask those here first.
#include <stddef.h>
#include <stdint.h>

extern void *___interceptor_malloc(size_t size);
extern void *___interceptor_realloc(void *block, size_t size);

static uint64_t left, refused;

// Refuses the growth of this number, from 1, of those that follow. With 0 none is refused any more.
void refuse_growth(uint64_t number) {
    left = number;
    if (number > 0) refused = 0;
}

// How many growths were refused since one was last asked for: none, or one.
uint64_t refused_growths(void) { return refused; }

static int is_refused(void) {
    if (left == 0) return 0;
    left -= 1;
    refused += left == 0;
    return left == 0;
}

void *__interceptor_malloc(size_t size) {
    return is_refused() ? NULL : ___interceptor_malloc(size);
}

void *__interceptor_realloc(void *block, size_t size) {
    return is_refused() ? NULL : ___interceptor_realloc(block, size);
}
