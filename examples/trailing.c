/* Sizes of a record that has 8 bytes aligned to 4, a byte, and a run of bytes. */
#include "lukaripe.h"
#include <inttypes.h>
#include <stdio.h>

/* Prints why a call was refused, and gives main's status. */
static int refused(const char *call, uint64_t refusal) {
    fprintf(stderr, "%s: refused by %" PRIu64 ", %s\n", call, refusal, lukaripe_refusal_text(refusal));
    return 1;
}

int main(void) {
    /* What is rounded up to 4 starts with the one byte behind the first 8. */
    lukaripe_number word = lukaripe_rounding_new(4, 1);
    if (word.refusal != 0)
        return refused("rounding_new", word.refusal);
    lukaripe_trailing record = {.size_base = 8, .offset = 9, .elem_size = 1, .word = word.value};

    for (uint64_t elems = 0; elems < 5; elems++) {
        lukaripe_number size = lukaripe_size_for_elems(record, elems);
        if (size.refusal != 0)
            return refused("size_for_elems", size.refusal);
        lukaripe_number padding = lukaripe_padding_for_elems(record, elems);
        if (padding.refusal != 0)
            return refused("padding_for_elems", padding.refusal);
        printf("%" PRIu64 " elements: %" PRIu64 " bytes, %" PRIu64 " of them padding\n", elems, size.value,
               padding.value);
    }

    /* Refused a size, the program learns the most that it may ask for. */
    lukaripe_number size = lukaripe_size_for_elems(record, UINT64_MAX);
    if (size.refusal != LUKARIPE_REFUSED_NO_SIZE)
        return refused("size_for_elems", size.refusal);
    printf("%s; the greatest count that has one is %" PRIu64 "\n", lukaripe_refusal_text(size.refusal), size.value);

    for (uint64_t bytes = 11; bytes <= 15; bytes += 4) {
        lukaripe_number room = lukaripe_max_trailing_bytes(record, bytes);
        if (room.refusal == LUKARIPE_REFUSED_NO_ROOM)
            printf("%" PRIu64 " bytes: %s\n", bytes, lukaripe_refusal_text(room.refusal));
        else if (room.refusal != 0)
            return refused("max_trailing_bytes", room.refusal);
        else
            printf("%" PRIu64 " bytes have room for %" PRIu64 " elements\n", bytes, room.value);
    }
    return 0;
}
