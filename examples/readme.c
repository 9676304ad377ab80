/* The sample of README.md. */
/* README: */
#include "lukaripe.h"
#include <inttypes.h>
#include <stdio.h>

int main(void) {
    /* 9 bytes, then elements of 1 byte; sizes are 8 and a multiple of 4: alignment 4, phase 1. */
    lukaripe_trailing record = {.size_base = 8, .offset = 9, .elem_size = 1, .word = 4 + 1};
    lukaripe_number size = lukaripe_size_for_elems(record, 4);
    if (size.refusal != 0) {
        puts(lukaripe_refusal_text(size.refusal));
        return 1;
    }
    printf("%" PRIu64 "\n", size.value); /* 16 */
    return 0;
}
/* end */
