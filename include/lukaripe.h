/* Lukaripe: layout arithmetic of records that end in a run of elements.
 *
 * Every function takes any numbers and any bytes and returns. An answer begins with its refusal: 0 where there is none, and
 * then the members behind it are the answer; else the number of the cause (LUKARIPE_REFUSED_..; lukaripe_refusal_text gives
 * it in words), and the members behind it are 0, except the `place` of a composition, a description, a move, a rewriting or
 * a list of counts, which says where. Each function's comment names the refusals that it can give, in the order in which they are
 * tested: the first that applies is given.
 *
 * Words used below:
 *   alignment   a power of two
 *   layout      the six words of a record: alignment, kind, size or base, offset, element size, rounding word
 *   kind        whether a layout is fixed (it has one size) or trailing (it ends in a run of elements), whether it has the
 *               mark, and whether it has an alignment modifier: LUKARIPE_KIND_..
 *   mark        no padding is known between the members, nor after the last
 *   modifier    the alignment modifier: an `align` was asked for, as by repr(align(N)) and whatever N is, of the type or of
 *               one inside it, at any depth. An array or a run has the modifier of its element
 *   word        the rounding word: an alignment A plus a phase p below it. Every number but 0 is one such pair
 *   size        of a trailing layout with n elements: size_base + (p + n * elem_size rounded up to a multiple of A). The
 *               offset, where the elements begin, does not enter it. There is no size where this is above 2^64 - 1
 *   count       a number of elements; a fixed layout has the one count 0
 *   split       where a cast divides the bytes: behind a prefix, before a suffix
 *   packing     a greatest alignment of members, as repr(packed(N)) asks for
 *
 * A layout that is handed over is tested as a record is, before anything else: 21, 1, then 22 (fixed) or 2 (trailing). Where
 * there are two, the first one is tested first. "Layout refusals" below stands for these four.
 *
 * The library has no state and allocates nothing: every function may be called from any thread at any time. What is lent is
 * only read, but for `out` of each function that has it, for `places` and `gaps` of lukaripe_for_repr_c_struct_places and for
 * `working` of lukaripe_working_add and lukaripe_working_add_record, which overlap nothing else that is lent, and it is not
 * kept. A pointer may be NULL where its length is 0; `working` has none, and may not.
 */
#ifndef LUKARIPE_H
#define LUKARIPE_H

#include <stdbool.h>
#include <stddef.h>
#include <stdint.h>

#define LUKARIPE_VERSION_MAJOR 0
#define LUKARIPE_VERSION_MINOR 12
#define LUKARIPE_VERSION_PATCH 0
#define LUKARIPE_VERSION "0.12.0"

/* An answer that is not looked at is a mistake: a refusal would go unseen. */
#if defined(__GNUC__) || defined(__clang__)
#define LUKARIPE_USE_RESULT __attribute__((warn_unused_result))
#else
#define LUKARIPE_USE_RESULT
#endif

#ifdef __cplusplus
extern "C" {
#endif

/* ---- refusals ---- */

enum {
    LUKARIPE_REFUSED_ALIGN_NOT_POWER_OF_TWO = 1,
    LUKARIPE_REFUSED_ROUNDING_WORD_ZERO = 2,
    LUKARIPE_REFUSED_PHASE_NOT_BELOW_ALIGN = 3,
    LUKARIPE_REFUSED_SIZE_NOT_MULTIPLE_OF_ALIGN = 4,
    LUKARIPE_REFUSED_PACKING_NOT_POWER_OF_TWO = 5,
    LUKARIPE_REFUSED_ALIGN_ABOVE_MAX = 6,
    LUKARIPE_REFUSED_MEMBER_AFTER_TRAILING = 7,
    LUKARIPE_REFUSED_ROUNDING_PASSES_MAX = 8,
    LUKARIPE_REFUSED_MEMBER_PASSES_MAX = 9,
    LUKARIPE_REFUSED_CAST_ELEM_SIZE_ZERO = 10,
    LUKARIPE_REFUSED_ADDRESS_PASSES_MAX = 11,
    LUKARIPE_REFUSED_CAST_NOT_ALIGNED = 12,
    LUKARIPE_REFUSED_CAST_TOO_SMALL = 13,
    LUKARIPE_REFUSED_NO_EXACT_COUNT = 14,
    LUKARIPE_REFUSED_NO_SIZE = 15,
    LUKARIPE_REFUSED_NO_ROOM = 16,
    LUKARIPE_REFUSED_ADVANCE_PASSES_MAX = 17,
    LUKARIPE_REFUSED_CONVERTED_COUNT_PASSES_MAX = 19,
    LUKARIPE_REFUSED_RECORD_LENGTH = 20,
    LUKARIPE_REFUSED_KIND = 21,
    LUKARIPE_REFUSED_FIXED_RECORD = 22,
    LUKARIPE_REFUSED_SCALAR_CODE = 23,
    LUKARIPE_REFUSED_SLICE_LENGTH = 24,
    LUKARIPE_REFUSED_SOURCE_ALIGN_LOWER = 25,
    LUKARIPE_REFUSED_FIXED_SIZES_DIFFER = 26,
    LUKARIPE_REFUSED_TRAILING_TO_FIXED = 27,
    LUKARIPE_REFUSED_SOURCE_NO_EXACT_COUNT = 28,
    LUKARIPE_REFUSED_TARGET_ELEM_SIZE_ZERO = 29,
    LUKARIPE_REFUSED_SOURCE_ELEM_SMALLER = 30,
    LUKARIPE_REFUSED_ELEM_NO_MULTIPLE = 31,
    LUKARIPE_REFUSED_NO_SHIFT = 32,
    LUKARIPE_REFUSED_DESCRIPTION_CUT = 33,
    LUKARIPE_REFUSED_TAG_OR_POWER = 34,
    LUKARIPE_REFUSED_NESTING_TOO_DEEP = 35,
    LUKARIPE_REFUSED_ELEM_TRAILING = 36,
    LUKARIPE_REFUSED_ARRAY_PASSES_MAX = 37,
    LUKARIPE_REFUSED_BYTES_LEFT_OVER = 38,
    LUKARIPE_REFUSED_NO_SIZE_AT_ZERO = 39,
    LUKARIPE_REFUSED_WORD_ABOVE_SHORT = 40,
    LUKARIPE_REFUSED_OUTPUT_SHORT = 41,
    LUKARIPE_REFUSED_SPARE_OR_POWER = 42,
    LUKARIPE_REFUSED_NUMBER_PASSES_WIDTH = 43,
    LUKARIPE_REFUSED_COUNT_ABOVE_BYTE = 44,
    LUKARIPE_REFUSED_REWRITE_SHORT = 45,
    LUKARIPE_REFUSED_FORM_BASE_PASSES_MAX = 46,
    LUKARIPE_REFUSED_LISTS_TOO_LONG = 47,
    LUKARIPE_REFUSED_CASES_SHORT = 48,
    LUKARIPE_REFUSED_ALIGN_AND_PACKED = 49,
    LUKARIPE_REFUSED_ALIGN_MODIFIER_IN_PACKED = 50,
    LUKARIPE_REFUSED_NO_COUNTS = 51,
    LUKARIPE_REFUSED_END_ABOVE_SIZE = 52,
    LUKARIPE_REFUSED_SUM_PASSES_MAX = 53
};

/* The cause of a refusal in words. "accepted" for 0, and "unknown refusal" for a number that this version does not have. */
static inline const char *lukaripe_refusal_text(uint64_t refusal) {
    switch (refusal) {
    case 0:
        return "accepted";
    case LUKARIPE_REFUSED_ALIGN_NOT_POWER_OF_TWO:
        return "an alignment is 0 or no power of two";
    case LUKARIPE_REFUSED_ROUNDING_WORD_ZERO:
        return "the rounding word is 0";
    case LUKARIPE_REFUSED_PHASE_NOT_BELOW_ALIGN:
        return "the phase is not below its alignment";
    case LUKARIPE_REFUSED_SIZE_NOT_MULTIPLE_OF_ALIGN:
        return "the size of a type is not a multiple of its alignment";
    case LUKARIPE_REFUSED_PACKING_NOT_POWER_OF_TWO:
        return "the packing is no power of two";
    case LUKARIPE_REFUSED_ALIGN_ABOVE_MAX:
        return "an alignment or the packing is above 2^29 while a member is added";
    case LUKARIPE_REFUSED_MEMBER_AFTER_TRAILING:
        return "a member comes after a run of elements";
    case LUKARIPE_REFUSED_ROUNDING_PASSES_MAX:
        return "rounding up overflows";
    case LUKARIPE_REFUSED_MEMBER_PASSES_MAX:
        return "the size, offset or base of a member overflows";
    case LUKARIPE_REFUSED_CAST_ELEM_SIZE_ZERO:
        return "the elements of a cast have size 0";
    case LUKARIPE_REFUSED_ADDRESS_PASSES_MAX:
        return "the sum of address and length overflows";
    case LUKARIPE_REFUSED_CAST_NOT_ALIGNED:
        return "the bytes of a cast are not aligned";
    case LUKARIPE_REFUSED_CAST_TOO_SMALL:
        return "the bytes of a cast are too few";
    case LUKARIPE_REFUSED_NO_EXACT_COUNT:
        return "no count of elements has exactly this size";
    case LUKARIPE_REFUSED_NO_SIZE:
        return "the size at this count of elements overflows";
    case LUKARIPE_REFUSED_NO_ROOM:
        return "there is less room than the size without elements";
    case LUKARIPE_REFUSED_ADVANCE_PASSES_MAX:
        return "the advance overflows";
    case LUKARIPE_REFUSED_CONVERTED_COUNT_PASSES_MAX:
        return "the converted count overflows";
    case LUKARIPE_REFUSED_RECORD_LENGTH:
        return "a record is not 48 bytes long, or a short one 32, or a list no multiple of that";
    case LUKARIPE_REFUSED_KIND:
        return "the kind of a record is above 7";
    case LUKARIPE_REFUSED_FIXED_RECORD:
        return "a record of a fixed size has a later word that is not 0";
    case LUKARIPE_REFUSED_SCALAR_CODE:
        return "the code of a scalar is above 8";
    case LUKARIPE_REFUSED_SLICE_LENGTH:
        return "a lent slice has another length than there are members";
    case LUKARIPE_REFUSED_SOURCE_ALIGN_LOWER:
        return "the source's alignment is lower than the target's";
    case LUKARIPE_REFUSED_FIXED_SIZES_DIFFER:
        return "both are of a fixed size, and the sizes differ";
    case LUKARIPE_REFUSED_TRAILING_TO_FIXED:
        return "the source ends in a run of elements and the target is of a fixed size";
    case LUKARIPE_REFUSED_SOURCE_NO_EXACT_COUNT:
        return "no count of the target's elements has exactly the size of the source";
    case LUKARIPE_REFUSED_TARGET_ELEM_SIZE_ZERO:
        return "the target's elements have size 0";
    case LUKARIPE_REFUSED_SOURCE_ELEM_SMALLER:
        return "the source's elements are smaller than the target's";
    case LUKARIPE_REFUSED_ELEM_NO_MULTIPLE:
        return "the size of the source's elements is no whole multiple of the target's";
    case LUKARIPE_REFUSED_NO_SHIFT:
        return "no shift lines the sizes of source and target up";
    case LUKARIPE_REFUSED_DESCRIPTION_CUT:
        return "the bytes of a description run out";
    case LUKARIPE_REFUSED_TAG_OR_POWER:
        return "a tag of a description is unknown, or a power is above 63";
    case LUKARIPE_REFUSED_NESTING_TOO_DEEP:
        return "more than 16 structs, arrays and slices are open in a description";
    case LUKARIPE_REFUSED_ELEM_TRAILING:
        return "an element of an array or slice ends in a run of elements itself";
    case LUKARIPE_REFUSED_ARRAY_PASSES_MAX:
        return "the size of an array overflows";
    case LUKARIPE_REFUSED_BYTES_LEFT_OVER:
        return "bytes are left over behind a description";
    case LUKARIPE_REFUSED_NO_SIZE_AT_ZERO:
        return "the size without elements overflows";
    case LUKARIPE_REFUSED_WORD_ABOVE_SHORT:
        return "the rounding word needs more than the 32 bits of a short record";
    case LUKARIPE_REFUSED_OUTPUT_SHORT:
        return "the output is too short";
    case LUKARIPE_REFUSED_SPARE_OR_POWER:
        return "the spare bytes of a short record are not 0, or its power is above 63";
    case LUKARIPE_REFUSED_NUMBER_PASSES_WIDTH:
        return "a number does not fit the chosen width";
    case LUKARIPE_REFUSED_COUNT_ABOVE_BYTE:
        return "a member count of a description is above 255, and is to be one byte";
    case LUKARIPE_REFUSED_REWRITE_SHORT:
        return "the output is too short for the rewritten description";
    case LUKARIPE_REFUSED_FORM_BASE_PASSES_MAX:
        return "the base of the normal form overflows";
    case LUKARIPE_REFUSED_LISTS_TOO_LONG:
        return "the lists are longer than 6 members";
    case LUKARIPE_REFUSED_CASES_SHORT:
        return "the buffer is too short for all cases";
    case LUKARIPE_REFUSED_ALIGN_AND_PACKED:
        return "an alignment and a packing are both asked for";
    case LUKARIPE_REFUSED_ALIGN_MODIFIER_IN_PACKED:
        return "a member of a packed struct has an alignment modifier";
    case LUKARIPE_REFUSED_NO_COUNTS:
        return "there are no counts";
    case LUKARIPE_REFUSED_END_ABOVE_SIZE:
        return "the end of the elements is above the size";
    case LUKARIPE_REFUSED_SUM_PASSES_MAX:
        return "a sum over the counts overflows";
    default:
        return "unknown refusal";
    }
}

/* ---- numbers ---- */

/* A number. A yes or no is 1 or 0. */
typedef struct {
    uint64_t refusal;
    uint64_t value;
} lukaripe_number;

/* Whether align is a power of two. No refusals. */
LUKARIPE_USE_RESULT bool lukaripe_is_power_of_two(uint64_t align);

/* The least number of bytes that takes len to a multiple of align, modulo 2^64. Refusals: 1. */
LUKARIPE_USE_RESULT lukaripe_number lukaripe_padding_needed_for(uint64_t len, uint64_t align);

/* The greatest multiple of align that is at most n. Refusals: 1. */
LUKARIPE_USE_RESULT lukaripe_number lukaripe_round_down_to_next_multiple_of_alignment(uint64_t n, uint64_t align);

/* The larger of two alignments. Refusals: 1. */
LUKARIPE_USE_RESULT lukaripe_number lukaripe_max(uint64_t a, uint64_t b);

/* The smaller of two alignments. Refusals: 1. */
LUKARIPE_USE_RESULT lukaripe_number lukaripe_min(uint64_t a, uint64_t b);

/* ---- the rounding word ---- */

typedef struct {
    uint64_t refusal;
    uint64_t align;
    uint64_t phase;
} lukaripe_components;

/* The word of an alignment and a phase. Refusals: 1, 3. */
LUKARIPE_USE_RESULT lukaripe_number lukaripe_rounding_new(uint64_t align, uint64_t phase);

/* The alignment and the phase of a word. Refusals: 2. */
LUKARIPE_USE_RESULT lukaripe_components lukaripe_rounding_components(uint64_t word);

/* The alignment of a word alone. Refusals: 2. */
LUKARIPE_USE_RESULT lukaripe_number lukaripe_rounding_align(uint64_t word);

/* ---- trailing layouts ---- */

/* The last four words of a trailing layout. */
typedef struct {
    uint64_t size_base;
    uint64_t offset;
    uint64_t elem_size;
    uint64_t word;
} lukaripe_trailing;

typedef struct {
    uint64_t refusal;
    lukaripe_trailing layout;
} lukaripe_trailing_answer;

/* The base rounded down to a multiple of the word's alignment, plus its phase. Refusals: 2. */
LUKARIPE_USE_RESULT lukaripe_number lukaripe_size_offset(lukaripe_trailing layout);

/* The greatest number of trailing bytes with which the size is at most available_bytes. Refusals: 2, 16. */
LUKARIPE_USE_RESULT lukaripe_number lukaripe_max_trailing_bytes(lukaripe_trailing layout, uint64_t available_bytes);

/* The size at elems less where the elements end, modulo 2^64, whether or not there is a size. Refusals: 2. */
LUKARIPE_USE_RESULT lukaripe_number lukaripe_padding_for_elems(lukaripe_trailing layout, uint64_t elems);

/* The size at elems. Refusals: 2; 39, where not even 0 elements have a size; 15, beside which the value is the greatest count
 * that has one, and 0 beside the others. */
LUKARIPE_USE_RESULT lukaripe_number lukaripe_size_for_elems(lukaripe_trailing layout, uint64_t elems);

/* The layout whose sizes are these with so many bytes more before the rounding, and with another element size.
 * Refusals: 2, 17. */
LUKARIPE_USE_RESULT lukaripe_trailing_answer lukaripe_advance(lukaripe_trailing layout, uint64_t bytes,
                                                              uint64_t elem_size);

/* Whether the two are found to have the same size at every count. A no does not mean that they have not:
 * lukaripe_sizes_agree tells. Refusals: 2. */
LUKARIPE_USE_RESULT lukaripe_number lukaripe_has_same_size_sequence(lukaripe_trailing layout, lukaripe_trailing other);

/* Whether the two have the same size at every count, as numbers without an end: a size above 2^64 - 1 is compared too. A yes
 * and a no both mean it. The offsets do not enter it. Refusals: 2 of either. */
LUKARIPE_USE_RESULT lukaripe_number lukaripe_sizes_agree(lukaripe_trailing first, lukaripe_trailing second);

/* A normal form: base, word and element size alone. A trailing layout with these three, and any offset, has the sizes that
 * the form is of. */
typedef struct {
    uint64_t refusal;
    uint64_t size_base;
    uint64_t elem_size;
    uint64_t word;
} lukaripe_normal_form_answer;

/* The normal form: of all bases, alignments and phases that give the layout's sizes with its elements, the one with the least
 * alignment, then the least phase. Two layouts that have forms have equal ones exactly when lukaripe_sizes_agree says yes of
 * them, so forms may be compared, sorted and hashed in the place of layouts. Every layout that has a size at 0 has one.
 * Refusals: 2, 46. */
LUKARIPE_USE_RESULT lukaripe_normal_form_answer lukaripe_normal_form(lukaripe_trailing layout);
/* ---- padding over counts ---- */

/* How much of the sizes at several counts is padding. padding_numerator over padding_denominator: the total padding over the
 * total size, 0 over 1 where that is 0. mean_numerator over mean_denominator: the mean size. Both are in lowest terms.
 * greatest: the greatest padding at one of the counts, and index: the first of those that have it. place, of a refusal: the
 * index of the count at fault, and 0 for the layout and for the empty list. */
typedef struct {
    uint64_t refusal;
    uint64_t place;
    uint64_t padding_numerator;
    uint64_t padding_denominator;
    uint64_t mean_numerator;
    uint64_t mean_denominator;
    uint64_t greatest;
    uint64_t index;
} lukaripe_padding_share;

/* That of a trailing layout at these counts. The padding at a count is its size less where the elements end, offset + n *
 * elem_size; totals are exact. Another order of counts that are accepted changes nothing but index. Refusals: 2; 51 where
 * there are no counts; of each count in turn: 39 or 15, as lukaripe_size_for_elems has them, but without the greatest count;
 * 52 where the elements end above the size; 53 where a sum over the counts so far is above 2^64 - 1. */
LUKARIPE_USE_RESULT lukaripe_padding_share lukaripe_padding_of_counts(lukaripe_trailing layout, const uint64_t *counts,
                                                                      size_t counts_len);

/* ---- layouts ---- */

/* A kind is one of the first four; with an alignment modifier, that and LUKARIPE_KIND_ALIGN_MODIFIER: 4 to 7. */
enum {
    LUKARIPE_KIND_FIXED = 0,
    LUKARIPE_KIND_FIXED_MARKED = 1,
    LUKARIPE_KIND_TRAILING = 2,
    LUKARIPE_KIND_TRAILING_MARKED = 3,
    LUKARIPE_KIND_ALIGN_MODIFIER = 4
};

/* A layout: the six words of its record. The last three are 0 when it is fixed; size_base is then its size. */
typedef struct {
    uint64_t align;
    uint64_t kind;
    uint64_t size_base;
    uint64_t offset;
    uint64_t elem_size;
    uint64_t word;
} lukaripe_layout;

typedef struct {
    uint64_t refusal;
    lukaripe_layout layout;
} lukaripe_layout_answer;

/* The empty layout: size 0, the alignment that is asked for, or 1 for 0, and the mark. It has the modifier where repr_align
 * is not 0. Refusals: 1. */
LUKARIPE_USE_RESULT lukaripe_layout_answer lukaripe_new_zst(uint64_t repr_align);

/* A type of this size and alignment, without the mark. Here and below: two numbers say nothing of a modifier, so there is
 * none; where the type or the element has one, add LUKARIPE_KIND_ALIGN_MODIFIER to the kind. Refusals: 1, 4. */
LUKARIPE_USE_RESULT lukaripe_layout_answer lukaripe_for_type(uint64_t size, uint64_t align);

/* A type of this size and alignment that has no padding: with the mark. Refusals: 1, 4. */
LUKARIPE_USE_RESULT lukaripe_layout_answer lukaripe_for_unpadded_type(uint64_t size, uint64_t align);

/* A run of elements of this size and alignment, with the mark. Refusals: 1, 4. */
LUKARIPE_USE_RESULT lukaripe_layout_answer lukaripe_for_slice(uint64_t size, uint64_t align);

/* An array of count such elements: alignment, mark and modifier are the element's, also where count is 0, and the size is the
 * product. An element whose size is no multiple of its alignment is taken as it stands. Refusals: layout refusals; 36 where
 * elem is trailing; 37 where the size is above 2^64 - 1. */
LUKARIPE_USE_RESULT lukaripe_layout_answer lukaripe_for_array(lukaripe_layout elem, uint64_t count);

/* A run of such elements: as lukaripe_for_slice makes it of the element's size and alignment, with the element's modifier.
 * Refusals: layout refusals; 36 where elem is trailing. */
LUKARIPE_USE_RESULT lukaripe_layout_answer lukaripe_for_slice_of(lukaripe_layout elem);

/* The layout with one member more, at the next place that is a multiple of the member's alignment, or of the packing where
 * that is lower. It has the modifier where one of the two has. repr_packed 0: no packing is asked for. Refusals: layout
 * refusals, of the layout and then of the field; 5, 6, 7, 8, 9. */
LUKARIPE_USE_RESULT lukaripe_layout_answer lukaripe_extend(lukaripe_layout layout, lukaripe_layout field,
                                                           uint64_t repr_packed);

/* The layout with its closing padding: each size is rounded up to a multiple of the alignment. Refusals: layout refusals,
 * 8. */
LUKARIPE_USE_RESULT lukaripe_layout_answer lukaripe_pad_to_align(lukaripe_layout layout);

/* Whether the mark is not set. Refusals: layout refusals. */
LUKARIPE_USE_RESULT lukaripe_number lukaripe_requires_static_padding(lukaripe_layout layout);

/* Whether some count may need padding behind its elements; no for a fixed layout. Refusals: layout refusals. */
LUKARIPE_USE_RESULT lukaripe_number lukaripe_requires_dynamic_padding(lukaripe_layout layout);

/* ---- records, scalars and member lists ---- */

/* The bytes of a record: the six words of a layout, little-endian. A member list is records end to end. */
enum { LUKARIPE_RECORD_LENGTH = 48 };

enum {
    LUKARIPE_SCALAR_U8 = 0,
    LUKARIPE_SCALAR_U16 = 1,
    LUKARIPE_SCALAR_U32 = 2,
    LUKARIPE_SCALAR_U64 = 3,
    LUKARIPE_SCALAR_F32 = 4,
    LUKARIPE_SCALAR_F64 = 5,
    LUKARIPE_SCALAR_CHAR = 6,
    LUKARIPE_SCALAR_BOOL = 7,
    LUKARIPE_SCALAR_USIZE = 8
};

/* The layout of a record. Refusals: 20 where len is not 48, then layout refusals. */
LUKARIPE_USE_RESULT lukaripe_layout_answer lukaripe_decode(const uint8_t *bytes, size_t len);

/* Writes the record of a layout to 48 lent bytes and gives the refusal; on a refusal no byte of out has changed.
 * Refusals: 20 where len is not 48, then layout refusals. */
LUKARIPE_USE_RESULT uint64_t lukaripe_encode(lukaripe_layout layout, uint8_t *out, size_t len);

/* The layout of a scalar type of Rust, with the mark (LUKARIPE_SCALAR_..; char is Rust's, of 4 bytes). Refusals: 23. */
LUKARIPE_USE_RESULT lukaripe_layout_answer lukaripe_scalar(uint64_t code);

/* A composed layout. place, of a refusal: the index of the member at fault; the member count where closing padding is at
 * fault; 0 for the length of the list or of a lent slice, for repr_align, and for repr_align and repr_packed together. Of a
 * description: the index of a byte. */
typedef struct {
    uint64_t refusal;
    uint64_t place;
    lukaripe_layout layout;
} lukaripe_composed;

/* The members of a list one behind the other, before closing padding. repr_align and repr_packed 0: none is asked for.
 * Refusals: 20 where len is no multiple of 48; 1 of repr_align; of each member in turn: layout refusals, 5, 6, 7, 8, 9. */
LUKARIPE_USE_RESULT lukaripe_composed lukaripe_compose(uint64_t repr_align, uint64_t repr_packed, const uint8_t *members,
                                                       size_t len);

/* The layout of a repr(C) struct with these members: lukaripe_compose, and closing padding. Refusals: the same, then 8. */
LUKARIPE_USE_RESULT lukaripe_composed lukaripe_for_repr_c_struct(uint64_t repr_align, uint64_t repr_packed,
                                                                 const uint8_t *members, size_t len);

/* The same of what the Rust Reference allows: no type has both an alignment and a packing, and no packed one holds a type
 * with an alignment modifier, at any depth. Refusals: 20 where len is no multiple of 48; 1 of repr_align; 49 where
 * repr_align and repr_packed are both not 0; of each member in turn: layout refusals, 50 where repr_packed is not 0 and the
 * member has the modifier, 5, 6, 7, 8, 9; then 8. What is not refused by 49 or 50 is answered or refused as above. */
LUKARIPE_USE_RESULT lukaripe_composed lukaripe_for_repr_c_struct_strict(uint64_t repr_align, uint64_t repr_packed,
                                                                        const uint8_t *members, size_t len);

/* lukaripe_for_repr_c_struct, which also writes where each member starts and the gap before it: each slice has a number for
 * each member. The gaps, the sizes of the members and the closing padding, which stands in neither slice, add up to the size
 * of a fixed struct; the place of a trailing member is where it starts, not where its elements do. On a refusal, one for the
 * closing padding too, no number of either slice has changed. Refusals: 20 where len is no multiple of 48; 24 where
 * places_len or gaps_len is not the member count, longer or shorter; 1 of repr_align; of each member in turn: layout
 * refusals, 5, 6, 7, 8, 9; then 8. */
LUKARIPE_USE_RESULT lukaripe_composed lukaripe_for_repr_c_struct_places(uint64_t repr_align, uint64_t repr_packed,
                                                                        const uint8_t *members, size_t len,
                                                                        uint64_t *places, size_t places_len,
                                                                        uint64_t *gaps, size_t gaps_len);

/* The empty layout that a struct begins with whose members are added one by one, with its own alignment; 0: none is asked for.
 * The caller keeps it and lends it to each addition. After any run of additions with one packing it is what lukaripe_compose
 * gives of the members that were accepted, with that alignment and packing; lukaripe_pad_to_align of it gives the struct.
 * Refusals: 1. */
LUKARIPE_USE_RESULT lukaripe_layout_answer lukaripe_working_begin(uint64_t repr_align);

/* Adds a member to the lent layout and gives the refusal, which is the one that lukaripe_compose has for this member behind
 * those that were accepted; on a refusal no word of working has changed. The lent words may be any, and are tested first.
 * repr_packed 0: no packing is asked for. Refusals: layout refusals, of working and then of field; 5, 6, 7, 8, 9. */
LUKARIPE_USE_RESULT uint64_t lukaripe_working_add(lukaripe_layout *working, lukaripe_layout field, uint64_t repr_packed);

/* The same by the member's record. Refusals: layout refusals of working; 20 where len is not 48; layout refusals of the
 * member; 5, 6, 7, 8, 9. */
LUKARIPE_USE_RESULT uint64_t lukaripe_working_add_record(lukaripe_layout *working, const uint8_t *member, size_t len,
                                                         uint64_t repr_packed);

/* ---- descriptions ---- */

/* The byte that a part of a description begins with is a scalar code (LUKARIPE_SCALAR_..) or one of these. */
enum {
    LUKARIPE_TAG_ARRAY = 16,
    LUKARIPE_TAG_STRUCT = 17,
    LUKARIPE_TAG_SLICE = 18,
    LUKARIPE_TAG_LONG_STRUCT = 19
};

/* As many structs, arrays and slices may be open at once. */
enum { LUKARIPE_DESCRIPTION_DEPTH = 16 };

/* The layout of the type that the bytes describe, types inside types. A description is one part: a scalar code, alone; 16,
 * the count as four bytes, little-endian, and a part, which is the element, an array; 17, the alignment and the packing as one
 * byte each (0: none is asked for; else 1 + k for 2^k), the member count as one byte and so many parts, a repr(C) struct; 18
 * and a part, a slice; 19, as 17 but with the member count as two bytes, little-endian. The layout is the one that
 * lukaripe_for_repr_c_struct, lukaripe_for_array and lukaripe_for_slice_of give of the layouts of the parts inside. An alignment
 * and a packing may both be asked for, as there.
 * Reading stops at the first refusal that it meets: a member is added once its last byte is read, closing padding comes after
 * the last one, and an element is judged once it is read. Refusals, each with its place: 33 at the first byte that is missing;
 * 34 at a tag that is unknown or at a power k above 63; 35 at the tag that opens the seventeenth part; 36 and 37, as of the two
 * functions above, at the tag of the array or slice; 6, 7, 8, 9, as of lukaripe_for_repr_c_struct, at the tag of the struct; 38
 * at the first byte that is left over. */
LUKARIPE_USE_RESULT lukaripe_composed lukaripe_read(const uint8_t *description, size_t len);

/* ---- short records ---- */

/* The bytes of a short record, another form of the record of a layout: size_base, offset and elem_size of 8 bytes each, the
 * word of 4, the power of two that the alignment is of 1, the kind of 1, and two spare ones, which are 0; little-endian. A
 * list of them is short records end to end. */
enum { LUKARIPE_SHORT_RECORD_LENGTH = 32 };

/* The layout of a short record. Refusals: 20 where len is not 32; 21, 42, then 22 (fixed) or 2 (trailing). */
LUKARIPE_USE_RESULT lukaripe_layout_answer lukaripe_decode_short(const uint8_t *bytes, size_t len);

/* Writes the short record of a layout to 32 lent bytes and gives the refusal; on a refusal no byte of out has changed.
 * Refusals: 20 where len is not 32, then layout refusals, 40. */
LUKARIPE_USE_RESULT uint64_t lukaripe_encode_short(lukaripe_layout layout, uint8_t *out, size_t len);

/* A move of records, or a description rewritten. place, of a refusal: the index of the record at fault, and 0 for the length
 * of the list or of the output; of a description the index of a byte. written: the bytes that were written to the front of the
 * output. */
typedef struct {
    uint64_t refusal;
    uint64_t place;
    uint64_t written;
} lukaripe_moved;

/* Writes the short forms of the records of a list to the front of out, which may be longer; behind them no byte has changed,
 * and on a refusal none has. Refusals: 20 where len is no multiple of 48; 41 where out_len is below 32 for each record; of
 * each record in turn: layout refusals, 40. */
LUKARIPE_USE_RESULT lukaripe_moved lukaripe_records_to_short(const uint8_t *records, size_t len, uint8_t *out,
                                                             size_t out_len);

/* The same back: the records of a list of short ones. What one of the two wrote the other turns into the same bytes again.
 * Refusals: 20 where len is no multiple of 32; 41 where out_len is below 48 for each record; of each record in turn: 21, 42,
 * then 22 or 2. */
LUKARIPE_USE_RESULT lukaripe_moved lukaripe_records_from_short(const uint8_t *records, size_t len, uint8_t *out,
                                                               size_t out_len);

/* ---- descriptions rewritten ---- */

/* Writes the description with every struct under the tag 19, whose member count has two bytes, to the front of out, which may
 * be longer; behind it no byte has changed, and on a refusal none has. It is read as the same layout. The answer is as that of
 * a move; the place is the index of a byte of the description. Refusals: those of lukaripe_read, with its places; 45, at 0,
 * where out_len is below the bytes to write, of a description that stays as it is too. */
LUKARIPE_USE_RESULT lukaripe_moved lukaripe_lengthen_counts(const uint8_t *description, size_t len, uint8_t *out,
                                                            size_t out_len);

/* The same back: every struct under the tag 17, whose member count has one byte. A description without 19 goes there and back
 * to the same bytes. Refusals: those of lukaripe_read, with its places; 44, at the first tag 19 whose count is above 255; 45, at
 * 0. */
LUKARIPE_USE_RESULT lukaripe_moved lukaripe_shorten_counts(const uint8_t *description, size_t len, uint8_t *out,
                                                           size_t out_len);

/* ---- all short member lists ---- */

enum {
    LUKARIPE_CASE_LENGTH = 8,
    LUKARIPE_CASES_LENGTH = 218440
};

/* Writes every list of up to longest members, each u8, u16, u32 or u64, under each packing of none, 1, 2, 4 and 8, to the front of
 * out, and gives the number of bytes written; bytes behind the last case stay as they are. A case has 8
 * bytes: the length of the list, the packing (0: none), and six scalar codes, of which the unused ones are 255. Shorter lists come
 * first, then by code from the left, then by packing. With up to 6 members there are 27,305 of them, LUKARIPE_CASES_LENGTH bytes.
 * On a refusal nothing is written. Refusals: 47 where longest is above 6; 48 where len is below the bytes of all. */
LUKARIPE_USE_RESULT lukaripe_number lukaripe_write_cases(uint64_t longest, uint8_t *out, size_t len);

/* ---- casts ---- */

typedef struct {
    uint64_t refusal;
    uint64_t count;
    uint64_t split;
} lukaripe_cast;

/* Whether bytes_len bytes at addr may be seen as this layout, from their start or (suffix) at their end: the greatest count
 * whose size is at most bytes_len, and where the bytes split. The bytes themselves are not looked at.
 * Refusals: layout refusals, 10, 11, 12, 13. */
LUKARIPE_USE_RESULT lukaripe_cast lukaripe_validate_cast_and_convert_metadata(lukaripe_layout layout, uint64_t addr,
                                                                              uint64_t bytes_len, bool suffix);

/* The greatest count whose size is exactly this. Refusals: layout refusals, 14 (a fixed layout and element size 0 too). */
LUKARIPE_USE_RESULT lukaripe_number lukaripe_metadata_for_exact_size(lukaripe_layout layout, uint64_t size);

enum {
    LUKARIPE_NEITHER_SERVES = 0,
    LUKARIPE_MAP_SERVES = 1,
    LUKARIPE_SPARE_SERVES = 2
};

/* Which of two buffers serves, and what its prefix cast granted: the bytes that are read are its first split bytes. A buffer
 * whose cast is refused does not serve; its number tells why, 0 where the cast was granted or not asked for. */
typedef struct {
    uint64_t map_refusal;
    uint64_t spare_refusal;
    uint64_t serves;
    uint64_t count;
    uint64_t split;
} lukaripe_serving;

/* Where to read a record in place: from a map, where its prefix cast is granted, else from a spare copy of it, where that one's
 * is. The spare is not looked at where the map serves. It refuses nothing: where neither serves, count and split are 0, and both
 * numbers tell why. The bytes themselves are not looked at. Numbers: layout refusals, of both; 10, 11, 12, 13. */
LUKARIPE_USE_RESULT lukaripe_serving lukaripe_which_serves(lukaripe_layout layout, uint64_t map_addr, uint64_t map_len,
                                                           uint64_t spare_addr, uint64_t spare_len);

/* ---- conversions ---- */

enum {
    LUKARIPE_FIXED_TO_FIXED = 0,
    LUKARIPE_FIXED_TO_TRAILING = 1,
    LUKARIPE_TRAILING_TO_TRAILING = 2
};

/* How counts of one layout become counts of another (kind: LUKARIPE_.._TO_..; one above 2 that is handed over is read as 2).
 * Fixed to fixed: 0. Fixed to trailing: dst_meta. Trailing to trailing: offset_delta_elems + n * elem_multiple. What a kind
 * has no use for is 0. */
typedef struct {
    uint64_t kind;
    uint64_t offset_delta_elems;
    uint64_t elem_multiple;
    uint64_t dst_meta;
} lukaripe_cast_params;

typedef struct {
    uint64_t refusal;
    lukaripe_cast_params params;
} lukaripe_cast_params_answer;

/* Whether dst, advanced by dst_base of its elements and given the element size of src, is found to have the sizes of src.
 * Refusals: 2. */
LUKARIPE_USE_RESULT lukaripe_number lukaripe_size_sequences_match(lukaripe_trailing src, lukaripe_trailing dst,
                                                                  uint64_t dst_base);

/* The same by the full comparison, which lukaripe_sizes_agree is: whether src has a size at 0, dst can be so advanced, and
 * their sizes then are equal at every count. Refusals: 2. */
LUKARIPE_USE_RESULT lukaripe_number lukaripe_size_sequences_match_full(lukaripe_trailing src, lukaripe_trailing dst,
                                                                       uint64_t dst_base);

/* How counts of src are converted to counts of dst that have the same size. Refusals: layout refusals, of src and then of
 * dst; then why there is no conversion, 25 to 32. */
LUKARIPE_USE_RESULT lukaripe_cast_params_answer lukaripe_try_compute(lukaripe_layout src, lukaripe_layout dst);

/* The same in the full mode, where lukaripe_size_sequences_match_full decides. What the above accepts it accepts with the same
 * parameters, and it accepts more; the shifts that are tried are the same two. Refusals: the same. */
LUKARIPE_USE_RESULT lukaripe_cast_params_answer lukaripe_try_compute_full(lukaripe_layout src, lukaripe_layout dst);

/* The count that src_meta becomes. Refusals: 19. */
LUKARIPE_USE_RESULT lukaripe_number lukaripe_cast_metadata(lukaripe_cast_params params, uint64_t src_meta);

/* What four calls gave, each with its own refusal. */
typedef struct {
    lukaripe_cast_params_answer computed;
    lukaripe_number count;
    lukaripe_cast first;
    lukaripe_cast second;
} lukaripe_carried;

/* Converts src_meta elements of src to dst (lukaripe_try_compute, then lukaripe_cast_metadata; the count of a refused
 * conversion has that refusal), and casts to dst the bytes_len and the more_len bytes at addr, from their start. It is proved
 * of these four: an accepted conversion keeps the size, and where bytes_len bytes held the elements the first cast grants no
 * fewer than the converted count, nor the second, over more bytes, fewer than the first. Refusals: layout refusals, of src
 * and then of dst, in all four; else each as its own function. */
LUKARIPE_USE_RESULT lukaripe_carried lukaripe_convert_and_cast(lukaripe_layout src, lukaripe_layout dst, uint64_t src_meta,
                                                               uint64_t addr, uint64_t bytes_len, uint64_t more_len);

/* The same in the full mode, by lukaripe_try_compute_full, of which the same is proved. Refusals: the same. */
LUKARIPE_USE_RESULT lukaripe_carried lukaripe_convert_and_cast_full(lukaripe_layout src, lukaripe_layout dst,
                                                                    uint64_t src_meta, uint64_t addr, uint64_t bytes_len,
                                                                    uint64_t more_len);

#ifdef __cplusplus
}
#endif

#endif
