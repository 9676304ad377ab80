/* Writes the records of its words to standard output, as the library makes them. tools/members has looked whether they
 * are members; its help says which there are. */
#include "lukaripe.h"
#include <errno.h>
#include <inttypes.h>
#include <stdio.h>
#include <stdlib.h>
#include <string.h>

/* In the order of their codes. */
static const char *const scalars[] = {"u8", "u16", "u32", "u64", "f32", "f64", "char", "bool", "usize"};

/* The layout of the member that the first len bytes of a word name. */
static lukaripe_layout_answer member(const char *word, size_t len) {
    uint64_t size, align, code;
    if (word[0] == '[') {
        lukaripe_layout_answer element = member(word + 1, len - 2);
        return element.refusal != 0 ? element : lukaripe_for_slice(element.layout.size_base, element.layout.align);
    }
    if (sscanf(word, "bytes:%" SCNu64, &size) == 1)
        return lukaripe_for_unpadded_type(size, 1);
    if (sscanf(word, "type:%" SCNu64 ":%" SCNu64, &size, &align) == 2)
        return lukaripe_for_type(size, align);
    if (sscanf(word, "unpadded:%" SCNu64 ":%" SCNu64, &size, &align) == 2)
        return lukaripe_for_unpadded_type(size, align);
    for (code = 0; code < sizeof scalars / sizeof *scalars; code++)
        if (strlen(scalars[code]) == len && memcmp(scalars[code], word, len) == 0)
            break;
    return lukaripe_scalar(code);
}

int main(int argc, char **argv) {
    size_t count = 0;
    uint8_t *list = malloc((size_t)argc * LUKARIPE_RECORD_LENGTH);
    if (list == NULL) {
        fprintf(stderr, "members: no memory\n");
        return 1;
    }
    for (char **word = argv + 1; *word != NULL; word++, count++) {
        lukaripe_layout_answer answer = member(*word, strlen(*word));
        uint64_t refusal = answer.refusal;
        if (refusal == 0)
            refusal = lukaripe_encode(answer.layout, list + count * LUKARIPE_RECORD_LENGTH, LUKARIPE_RECORD_LENGTH);
        if (refusal != 0) {
            const char *cause = lukaripe_refusal_text(refusal);
            fprintf(stderr, "members: '%s' is refused: %" PRIu64 ", %s\n", *word, refusal, cause);
            return 1;
        }
    }
    if (fwrite(list, LUKARIPE_RECORD_LENGTH, count, stdout) != count || fflush(stdout) != 0) {
        /* A reader that has gone is no fault to speak of. */
        if (errno != EPIPE)
            fprintf(stderr, "members: standard output: %s\n", strerror(errno));
        return 1;
    }
    return 0;
}
