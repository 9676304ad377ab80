/* Composes a record from a list of members, asks for a size, and looks what a buffer holds. */
#include "lukaripe.h"
#include <inttypes.h>
#include <stdio.h>

enum { MEMBERS = 3 };

/* Prints why a call was refused, and gives main's status. */
static int refused(const char *call, uint64_t refusal) {
    fprintf(stderr, "%s: refused by %" PRIu64 ", %s\n", call, refusal, lukaripe_refusal_text(refusal));
    return 1;
}

int main(void) {
    /* 8 bytes aligned to 4, a byte, and a run of bytes. */
    const lukaripe_layout_answer members[MEMBERS] = {
        lukaripe_for_unpadded_type(8, 4),
        lukaripe_scalar(LUKARIPE_SCALAR_U8),
        lukaripe_for_slice(1, 1),
    };
    uint8_t list[MEMBERS * LUKARIPE_RECORD_LENGTH];
    for (int i = 0; i < MEMBERS; i++) {
        if (members[i].refusal != 0)
            return refused("member", members[i].refusal);
        uint8_t *record = list + i * LUKARIPE_RECORD_LENGTH;
        uint64_t refusal = lukaripe_encode(members[i].layout, record, LUKARIPE_RECORD_LENGTH);
        if (refusal != 0)
            return refused("encode", refusal);
    }

    lukaripe_composed record = lukaripe_for_repr_c_struct(0, 0, list, sizeof list);
    if (record.refusal != 0) {
        fprintf(stderr, "at %" PRIu64 ": ", record.place);
        return refused("for_repr_c_struct", record.refusal);
    }
    lukaripe_layout l = record.layout;
    printf("alignment %" PRIu64 ", elements of %" PRIu64 " from %" PRIu64 " on\n", l.align, l.elem_size, l.offset);

    lukaripe_cast cast = lukaripe_validate_cast_and_convert_metadata(record.layout, 0, 15, false);
    if (cast.refusal != 0)
        return refused("cast", cast.refusal);
    printf("15 bytes hold %" PRIu64 " elements, in %" PRIu64 " bytes\n", cast.count, cast.split);

    lukaripe_number count = lukaripe_metadata_for_exact_size(record.layout, 16);
    if (count.refusal != 0)
        return refused("metadata_for_exact_size", count.refusal);
    printf("16 bytes are just %" PRIu64 " elements\n", count.value);

    /* Elements of 1 byte do not become elements of 4. */
    lukaripe_layout_answer wide = lukaripe_for_slice(4, 4);
    if (wide.refusal != 0)
        return refused("for_slice", wide.refusal);
    lukaripe_cast_params_answer params = lukaripe_try_compute(record.layout, wide.layout);
    if (params.refusal != LUKARIPE_REFUSED_SOURCE_ELEM_SMALLER)
        return refused("try_compute", params.refusal);
    printf("as a run of 4 bytes each: %s\n", lukaripe_refusal_text(params.refusal));
    return 0;
}
