/* Lukaripe at 32 bits: what lukaripe.h has for 64-bit words, for machines with 32-bit words.
 *
 * Every number that is handed over or answered has 32 bits, so the greatest one, M, is 2^32 - 1 where it is 2^64 - 1 there:
 * a size, an offset or a sum above it is refused, by the same number as there, and what is worked out modulo M + 1 is so
 * modulo 2^32. The number of a refusal has 64 bits here too, and so has what tells how much was lent: a place, an index, the
 * number of counts, the length of a buffer. Functions and structs have the names of lukaripe.h with the prefix
 * lukaripe32_ and mean the same but for M: what its comments say of them, of the words that they use and of what may be lent
 * holds here too. Its constants and texts serve both: refusals, kinds, scalar codes and the kinds of a conversion. Scalars are
 * those of a target with 32-bit words: see lukaripe32_scalar.
 *
 * What has no width stands in lukaripe.h alone: moves between the two forms of records, and all short member lists.
 *
 * A layout that is handed over is tested as a record is, before anything else: 21, 1, then 22 (fixed) or 2 (trailing). Where
 * there are two, the first one is tested first. "Layout refusals" below stands for these four.
 */
#ifndef LUKARIPE32_H
#define LUKARIPE32_H

#include "lukaripe.h"

#ifdef __cplusplus
extern "C" {
#endif

/* ---- numbers ---- */

/* A number. A yes or no is 1 or 0. */
typedef struct {
    uint64_t refusal;
    uint32_t value;
} lukaripe32_number;

/* Whether align is a power of two. No refusals. */
LUKARIPE_USE_RESULT bool lukaripe32_is_power_of_two(uint32_t align);

/* The least number of bytes that takes len to a multiple of align, modulo 2^32. Refusals: 1. */
LUKARIPE_USE_RESULT lukaripe32_number lukaripe32_padding_needed_for(uint32_t len, uint32_t align);

/* The greatest multiple of align that is at most n. Refusals: 1. */
LUKARIPE_USE_RESULT lukaripe32_number lukaripe32_round_down_to_next_multiple_of_alignment(uint32_t n, uint32_t align);

/* The larger of two alignments. Refusals: 1. */
LUKARIPE_USE_RESULT lukaripe32_number lukaripe32_max(uint32_t a, uint32_t b);

/* The smaller of two alignments. Refusals: 1. */
LUKARIPE_USE_RESULT lukaripe32_number lukaripe32_min(uint32_t a, uint32_t b);

/* ---- the rounding word ---- */

typedef struct {
    uint64_t refusal;
    uint32_t align;
    uint32_t phase;
} lukaripe32_components;

/* The word of an alignment and a phase. Refusals: 1, 3. */
LUKARIPE_USE_RESULT lukaripe32_number lukaripe32_rounding_new(uint32_t align, uint32_t phase);

/* The alignment and the phase of a word. Refusals: 2. */
LUKARIPE_USE_RESULT lukaripe32_components lukaripe32_rounding_components(uint32_t word);

/* The alignment of a word alone. Refusals: 2. */
LUKARIPE_USE_RESULT lukaripe32_number lukaripe32_rounding_align(uint32_t word);

/* ---- trailing layouts ---- */

/* The last four words of a trailing layout. */
typedef struct {
    uint32_t size_base;
    uint32_t offset;
    uint32_t elem_size;
    uint32_t word;
} lukaripe32_trailing;

typedef struct {
    uint64_t refusal;
    lukaripe32_trailing layout;
} lukaripe32_trailing_answer;

/* The base rounded down to a multiple of the word's alignment, plus its phase. Refusals: 2. */
LUKARIPE_USE_RESULT lukaripe32_number lukaripe32_size_offset(lukaripe32_trailing layout);

/* The greatest number of trailing bytes with which the size is at most available_bytes. Refusals: 2, 16. */
LUKARIPE_USE_RESULT lukaripe32_number lukaripe32_max_trailing_bytes(lukaripe32_trailing layout, uint32_t available_bytes);

/* The size at elems less where the elements end, modulo 2^32, whether or not there is a size. Refusals: 2. */
LUKARIPE_USE_RESULT lukaripe32_number lukaripe32_padding_for_elems(lukaripe32_trailing layout, uint32_t elems);

/* The size at elems. Refusals: 2; 39, where not even 0 elements have a size; 15, beside which the value is the greatest count
 * that has one, and 0 beside the others. There is no size above 2^32 - 1. */
LUKARIPE_USE_RESULT lukaripe32_number lukaripe32_size_for_elems(lukaripe32_trailing layout, uint32_t elems);

/* The layout whose sizes are these with so many bytes more before the rounding, and with another element size.
 * Refusals: 2, 17. */
LUKARIPE_USE_RESULT lukaripe32_trailing_answer lukaripe32_advance(lukaripe32_trailing layout, uint32_t bytes,
                                                                  uint32_t elem_size);

/* Whether the two are found to have the same size at every count. A no does not mean that they have not:
 * lukaripe32_sizes_agree tells. Refusals: 2. */
LUKARIPE_USE_RESULT lukaripe32_number lukaripe32_has_same_size_sequence(lukaripe32_trailing layout,
                                                                        lukaripe32_trailing other);

/* Whether the two have the same size at every count, as numbers without an end: a size above 2^32 - 1 is compared too. A yes
 * and a no both mean it. Refusals: 2 of either. */
LUKARIPE_USE_RESULT lukaripe32_number lukaripe32_sizes_agree(lukaripe32_trailing first, lukaripe32_trailing second);

/* A normal form: base, word and element size alone. */
typedef struct {
    uint64_t refusal;
    uint32_t size_base;
    uint32_t elem_size;
    uint32_t word;
} lukaripe32_normal_form_answer;

/* The normal form: of all bases, alignments and phases that give the layout's sizes with its elements, the one with the least
 * alignment, then the least phase. Two layouts that have forms have equal ones exactly when lukaripe32_sizes_agree says yes of
 * them. Refusals: 2, 46. */
LUKARIPE_USE_RESULT lukaripe32_normal_form_answer lukaripe32_normal_form(lukaripe32_trailing layout);

/* ---- padding over counts ---- */

/* How much of the sizes at several counts is padding. padding_numerator over padding_denominator: the total padding over the
 * total size, 0 over 1 where that is 0. mean_numerator over mean_denominator: the mean size. Both are in lowest terms.
 * greatest: the greatest padding at one of the counts, and index: the first of those that have it. place, of a refusal: the
 * index of the count at fault, and 0 for the layout and for the empty list. There may be more counts than 32 bits number, so
 * mean_denominator, index and place have 64. */
typedef struct {
    uint64_t refusal;
    uint64_t place;
    uint32_t padding_numerator;
    uint32_t padding_denominator;
    uint32_t mean_numerator;
    uint64_t mean_denominator;
    uint32_t greatest;
    uint64_t index;
} lukaripe32_padding_share;

/* That of a trailing layout at these counts. The padding at a count is its size less where the elements end, offset + n *
 * elem_size; totals are exact. Another order of counts that are accepted changes nothing but index. Refusals: 2; 51 where
 * there are no counts; of each count in turn: 39 or 15, as lukaripe32_size_for_elems has them, but without the greatest count;
 * 52 where the elements end above the size; 53 where a sum over the counts so far is above 2^32 - 1. */
LUKARIPE_USE_RESULT lukaripe32_padding_share lukaripe32_padding_of_counts(lukaripe32_trailing layout, const uint32_t *counts,
                                                                          size_t counts_len);

/* ---- layouts ---- */

/* A layout: the six words of its record, in 32 bits each (kind: LUKARIPE_KIND_..). The last three are 0 when it is fixed;
 * size_base is then its size. */
typedef struct {
    uint32_t align;
    uint32_t kind;
    uint32_t size_base;
    uint32_t offset;
    uint32_t elem_size;
    uint32_t word;
} lukaripe32_layout;

typedef struct {
    uint64_t refusal;
    lukaripe32_layout layout;
} lukaripe32_layout_answer;

/* The empty layout: size 0, the alignment that is asked for, or 1 for 0, and the mark. It has the modifier where repr_align
 * is not 0. Refusals: 1. */
LUKARIPE_USE_RESULT lukaripe32_layout_answer lukaripe32_new_zst(uint32_t repr_align);

/* A type of this size and alignment, without the mark; here and below without a modifier. Refusals: 1, 4. */
LUKARIPE_USE_RESULT lukaripe32_layout_answer lukaripe32_for_type(uint32_t size, uint32_t align);

/* A type of this size and alignment that has no padding: with the mark. Refusals: 1, 4. */
LUKARIPE_USE_RESULT lukaripe32_layout_answer lukaripe32_for_unpadded_type(uint32_t size, uint32_t align);

/* A run of elements of this size and alignment, with the mark. Refusals: 1, 4. */
LUKARIPE_USE_RESULT lukaripe32_layout_answer lukaripe32_for_slice(uint32_t size, uint32_t align);

/* An array of count such elements: alignment, mark and modifier are the element's, also where count is 0, and the size is the
 * product. Refusals: layout refusals; 36 where elem is trailing; 37 where the size is above 2^32 - 1. */
LUKARIPE_USE_RESULT lukaripe32_layout_answer lukaripe32_for_array(lukaripe32_layout elem, uint32_t count);

/* A run of such elements: as lukaripe32_for_slice makes it of the element's size and alignment, with the element's modifier.
 * Refusals: layout refusals; 36 where elem is trailing. */
LUKARIPE_USE_RESULT lukaripe32_layout_answer lukaripe32_for_slice_of(lukaripe32_layout elem);

/* The layout with one member more, at the next place that is a multiple of the member's alignment, or of the packing where
 * that is lower. repr_packed 0: no packing is asked for. Refusals: layout refusals, of the layout and then of the field; 5, 6
 * (above 2^29, as at 64 bits), 7, 8, 9. */
LUKARIPE_USE_RESULT lukaripe32_layout_answer lukaripe32_extend(lukaripe32_layout layout, lukaripe32_layout field,
                                                               uint32_t repr_packed);

/* The layout with its closing padding: each size is rounded up to a multiple of the alignment. Refusals: layout refusals,
 * 8. */
LUKARIPE_USE_RESULT lukaripe32_layout_answer lukaripe32_pad_to_align(lukaripe32_layout layout);

/* Whether the mark is not set. Refusals: layout refusals. */
LUKARIPE_USE_RESULT lukaripe32_number lukaripe32_requires_static_padding(lukaripe32_layout layout);

/* Whether some count may need padding behind its elements; no for a fixed layout. Refusals: layout refusals. */
LUKARIPE_USE_RESULT lukaripe32_number lukaripe32_requires_dynamic_padding(lukaripe32_layout layout);

/* ---- scalars ---- */

/* The layout of a scalar type of Rust, with the mark (LUKARIPE_SCALAR_..), on a target with 32-bit words: usize has 4 bytes,
 * and u64 and f64, of 8 bytes, have alignment 4, as on x86. Refusals: 23. */
LUKARIPE_USE_RESULT lukaripe32_layout_answer lukaripe32_scalar(uint32_t code);

/* ---- records and member lists ---- */

/* A record has 64-bit fields here too (LUKARIPE_RECORD_LENGTH bytes; a short one LUKARIPE_SHORT_RECORD_LENGTH). "Record
 * refusals" below stands for its layout refusals, by tests that are 64 bits wide, and then 43 where one of its numbers is above
 * 2^32 - 1. */

/* The layout of a record. Refusals: 20 where len is not 48, then record refusals. */
LUKARIPE_USE_RESULT lukaripe32_layout_answer lukaripe32_decode(const uint8_t *bytes, size_t len);

/* Writes the record of a layout to 48 lent bytes and gives the refusal; on a refusal no byte of out has changed.
 * Refusals: 20 where len is not 48, then layout refusals. */
LUKARIPE_USE_RESULT uint64_t lukaripe32_encode(lukaripe32_layout layout, uint8_t *out, size_t len);

/* The layout of a short record. Refusals: 20 where len is not 32; 21, 42, then 22 (fixed) or 2 (trailing); 43. */
LUKARIPE_USE_RESULT lukaripe32_layout_answer lukaripe32_decode_short(const uint8_t *bytes, size_t len);

/* Writes the short record of a layout to 32 lent bytes and gives the refusal; on a refusal no byte of out has changed. A word of
 * 32 bits always fits. Refusals: 20 where len is not 32, then layout refusals. */
LUKARIPE_USE_RESULT uint64_t lukaripe32_encode_short(lukaripe32_layout layout, uint8_t *out, size_t len);

/* A composed layout; place as in lukaripe_composed. */
typedef struct {
    uint64_t refusal;
    uint64_t place;
    lukaripe32_layout layout;
} lukaripe32_composed;

/* The members of a list one behind the other, before closing padding. repr_align and repr_packed 0: none is asked for.
 * Refusals: 20 where len is no multiple of 48; 1 of repr_align; of each member in turn: record refusals, 5, 6, 7, 8, 9. */
LUKARIPE_USE_RESULT lukaripe32_composed lukaripe32_compose(uint32_t repr_align, uint32_t repr_packed, const uint8_t *members,
                                                           size_t len);

/* The layout of a repr(C) struct with these members: lukaripe32_compose, and closing padding. Refusals: the same, then 8. */
LUKARIPE_USE_RESULT lukaripe32_composed lukaripe32_for_repr_c_struct(uint32_t repr_align, uint32_t repr_packed,
                                                                     const uint8_t *members, size_t len);

/* The same of what the Rust Reference allows. Refusals: 20 where len is no multiple of 48; 1 of repr_align; 49 where repr_align
 * and repr_packed are both not 0; of each member in turn: record refusals, 50 where repr_packed is not 0 and the member has the
 * modifier, 5, 6, 7, 8, 9; then 8. */
LUKARIPE_USE_RESULT lukaripe32_composed lukaripe32_for_repr_c_struct_strict(uint32_t repr_align, uint32_t repr_packed,
                                                                            const uint8_t *members, size_t len);

/* lukaripe32_for_repr_c_struct, which also writes where each member starts and the gap before it, as
 * lukaripe_for_repr_c_struct_places does, in numbers of 32 bits. On a refusal no number of either slice has changed. Refusals: 20
 * where len is no multiple of 48; 24 where places_len or gaps_len is not the member count; 1 of repr_align; of each member in
 * turn: record refusals, 5, 6, 7, 8, 9; then 8. */
LUKARIPE_USE_RESULT lukaripe32_composed lukaripe32_for_repr_c_struct_places(uint32_t repr_align, uint32_t repr_packed,
                                                                            const uint8_t *members, size_t len,
                                                                            uint32_t *places, size_t places_len,
                                                                            uint32_t *gaps, size_t gaps_len);

/* ---- members added one by one ---- */

/* The empty layout that a struct begins with whose members are added one by one, with its own alignment; 0: none is asked for.
 * The caller keeps it and lends it to each addition. After any run of additions with one packing it is the composition, before
 * closing padding, of the members that were accepted, with that alignment and packing; lukaripe32_pad_to_align of it gives the
 * struct. Refusals: 1. */
LUKARIPE_USE_RESULT lukaripe32_layout_answer lukaripe32_working_begin(uint32_t repr_align);

/* Adds a member to the lent layout and gives the refusal, which is the one that a composition has for this member behind those
 * that were accepted; on a refusal no word of working has changed. The lent words may be any, and are tested first.
 * repr_packed 0: no packing is asked for. Refusals: layout refusals, of working and then of field; 5, 6, 7, 8, 9. */
LUKARIPE_USE_RESULT uint64_t lukaripe32_working_add(lukaripe32_layout *working, lukaripe32_layout field,
                                                    uint32_t repr_packed);

/* The same by the member's record, which has 48 bytes and words of 64 bits at this width too. Refusals: layout refusals of
 * working; 20 where len is not 48; layout refusals of the member, its words taken as they are; 43 where one of them is above
 * 2^32 - 1; 5, 6, 7, 8, 9. */
LUKARIPE_USE_RESULT uint64_t lukaripe32_working_add_record(lukaripe32_layout *working, const uint8_t *member, size_t len,
                                                           uint32_t repr_packed);

/* ---- descriptions ---- */

/* The layout of the type that the bytes describe, as lukaripe_read has it, with the scalars of lukaripe32_scalar. Refusals, each
 * with its place: those of lukaripe_read; 43 at the byte of an alignment or a packing 2^k where k is 32 to 63. */
LUKARIPE_USE_RESULT lukaripe32_composed lukaripe32_read(const uint8_t *description, size_t len);

/* lukaripe_lengthen_counts and lukaripe_shorten_counts of a description that is read by lukaripe32_read. Refusals: those of
 * lukaripe32_read, with its places; then 45, or 44 and 45, as there. */
LUKARIPE_USE_RESULT lukaripe_moved lukaripe32_lengthen_counts(const uint8_t *description, size_t len, uint8_t *out,
                                                              size_t out_len);

LUKARIPE_USE_RESULT lukaripe_moved lukaripe32_shorten_counts(const uint8_t *description, size_t len, uint8_t *out,
                                                             size_t out_len);

/* ---- casts ---- */

typedef struct {
    uint64_t refusal;
    uint32_t count;
    uint32_t split;
} lukaripe32_cast;

/* Whether bytes_len bytes at addr may be seen as this layout, from their start or (suffix) at their end: the greatest count
 * whose size is at most bytes_len, and where the bytes split. The bytes themselves are not looked at.
 * Refusals: layout refusals, 10, 11 where addr + bytes_len is above 2^32 - 1, 12, 13. */
LUKARIPE_USE_RESULT lukaripe32_cast lukaripe32_validate_cast_and_convert_metadata(lukaripe32_layout layout, uint32_t addr,
                                                                                  uint32_t bytes_len, bool suffix);

/* The greatest count whose size is exactly this. Refusals: layout refusals, 14 (a fixed layout and element size 0 too). */
LUKARIPE_USE_RESULT lukaripe32_number lukaripe32_metadata_for_exact_size(lukaripe32_layout layout, uint32_t size);

/* Which of two buffers serves (LUKARIPE_.._SERVES), and what its prefix cast granted: the bytes that are read are its first
 * split bytes. A buffer whose cast is refused does not serve; its number tells why, 0 where the cast was granted or not asked
 * for. */
typedef struct {
    uint64_t map_refusal;
    uint64_t spare_refusal;
    uint32_t serves;
    uint32_t count;
    uint32_t split;
} lukaripe32_serving;

/* Where to read a record in place: from a map, where its prefix cast is granted, else from a spare copy of it, where that one's
 * is. The spare is not looked at where the map serves. It refuses nothing: where neither serves, count and split are 0, and both
 * numbers tell why. The bytes themselves are not looked at. The lengths have 64 bits: one above 2^32 - 1 is 11, never cut off.
 * Numbers: layout refusals, of both; 10, 11 where address and length together are above 2^32 - 1, 12, 13. */
LUKARIPE_USE_RESULT lukaripe32_serving lukaripe32_which_serves(lukaripe32_layout layout, uint32_t map_addr, uint64_t map_len,
                                                               uint32_t spare_addr, uint64_t spare_len);

/* ---- conversions ---- */

/* How counts of one layout become counts of another (kind: LUKARIPE_.._TO_..; one above 2 that is handed over is read as 2).
 * Fixed to fixed: 0. Fixed to trailing: dst_meta. Trailing to trailing: offset_delta_elems + n * elem_multiple. What a kind
 * has no use for is 0. */
typedef struct {
    uint32_t kind;
    uint32_t offset_delta_elems;
    uint32_t elem_multiple;
    uint32_t dst_meta;
} lukaripe32_cast_params;

typedef struct {
    uint64_t refusal;
    lukaripe32_cast_params params;
} lukaripe32_cast_params_answer;

/* Whether dst, advanced by dst_base of its elements and given the element size of src, is found to have the sizes of src.
 * Refusals: 2. */
LUKARIPE_USE_RESULT lukaripe32_number lukaripe32_size_sequences_match(lukaripe32_trailing src, lukaripe32_trailing dst,
                                                                      uint32_t dst_base);

/* The same by the full comparison, which lukaripe32_sizes_agree is: whether src has a size at 0, dst can be so advanced, and
 * their sizes then are equal at every count. Refusals: 2. */
LUKARIPE_USE_RESULT lukaripe32_number lukaripe32_size_sequences_match_full(lukaripe32_trailing src, lukaripe32_trailing dst,
                                                                           uint32_t dst_base);

/* How counts of src are converted to counts of dst that have the same size. Refusals: layout refusals, of src and then of
 * dst; then why there is no conversion, 25 to 32. */
LUKARIPE_USE_RESULT lukaripe32_cast_params_answer lukaripe32_try_compute(lukaripe32_layout src, lukaripe32_layout dst);

/* The same in the full mode, where lukaripe32_size_sequences_match_full decides. What the above accepts it accepts with the
 * same parameters, and it accepts more. Refusals: the same. */
LUKARIPE_USE_RESULT lukaripe32_cast_params_answer lukaripe32_try_compute_full(lukaripe32_layout src, lukaripe32_layout dst);

/* The count that src_meta becomes. Refusals: 19. */
LUKARIPE_USE_RESULT lukaripe32_number lukaripe32_cast_metadata(lukaripe32_cast_params params, uint32_t src_meta);

/* What four calls gave, each with its own refusal. */
typedef struct {
    lukaripe32_cast_params_answer computed;
    lukaripe32_number count;
    lukaripe32_cast first;
    lukaripe32_cast second;
} lukaripe32_carried;

/* Converts src_meta elements of src to dst (lukaripe32_try_compute, then lukaripe32_cast_metadata; the count of a refused
 * conversion has that refusal), and casts to dst the bytes_len and the more_len bytes at addr, from their start. It is proved
 * of these four, at this width: an accepted conversion keeps the size, and where bytes_len bytes held the elements the first
 * cast grants no fewer than the converted count, nor the second, over more bytes, fewer than the first. Refusals: layout
 * refusals, of src and then of dst, in all four; else each as its own function. */
LUKARIPE_USE_RESULT lukaripe32_carried lukaripe32_convert_and_cast(lukaripe32_layout src, lukaripe32_layout dst,
                                                                   uint32_t src_meta, uint32_t addr, uint32_t bytes_len,
                                                                   uint32_t more_len);

/* The same in the full mode, by lukaripe32_try_compute_full, of which the same is proved. Refusals: the same. */
LUKARIPE_USE_RESULT lukaripe32_carried lukaripe32_convert_and_cast_full(lukaripe32_layout src, lukaripe32_layout dst,
                                                                        uint32_t src_meta, uint32_t addr,
                                                                        uint32_t bytes_len, uint32_t more_len);

#ifdef __cplusplus
}
#endif

#endif
