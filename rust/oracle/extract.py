#!/usr/bin/env python3
"""Cuts the ported part out of the Rust of zerocopy 0.8.63.

    extract.py SOURCE_DIR OUT_FILE

SOURCE_DIR holds src/layout.rs and src/util/mod.rs. OUT_FILE is included by lib.rs beside this script, which has what
the cut text leans on. The text is unchanged but for the substitutions below. Each of them must hit exactly as often as
it says: else this is another source than the one that was read, and the script stops.
"""

import pathlib
import sys

# The items cut out of each file, by how their first line starts. An item's comments and attributes stand right above it
# and go with it; it ends at the line that closes it at the same indent.
UTIL = [
    "pub(crate) const fn padding_needed_for(",
    "pub(crate) const fn round_down_to_next_multiple_of_alignment(",
    "pub(crate) const fn max(",
    "pub(crate) const fn min(",
    "pub(crate) mod polyfills {",
]
LAYOUT = [
    "const POINTER_WIDTH_BITS: usize",
    "pub struct DstLayout {",
    "pub(crate) enum SizeInfo<E = usize> {",
    "pub(crate) struct RoundingAlignAndPhase(",
    "impl RoundingAlignAndPhase {",
    "pub(crate) struct TrailingSliceLayout<E = usize> {",
    "impl<E> TrailingSliceLayout<E> {",
    "impl TrailingSliceLayout {",
    "impl SizeInfo {",
    "const fn max_elems_for_bytes(",
    "pub enum CastType {",
    "pub(crate) enum MetadataCastError {",
    "impl DstLayout {",
    "unsafe fn add_scaled_metadata(",
    "struct CastParams<Src: ?Sized, Dst: ?Sized> {",
    "enum CastParamsInner {",
    "impl<Src: ?Sized, Dst: ?Sized> CastParams<Src, Dst> {",
    "impl<Src: KnownLayout + ?Sized, Dst: KnownLayout + ?Sized> CastParams<Src, Dst> {",
]

# (old text, new text, how often).
# Each assertion that is a refusal of document 01 is given its number.
ASSERTIONS = [
    # A panic that carries a number is not to be had in a `const fn`.
    ("const fn ", "fn ", 29),
    ("debug_assert!(align.is_power_of_two());", "debug_require(align.is_power_of_two(), 1);", 1),
    ("const_assert!(align.get().is_power_of_two());", "require(align.get().is_power_of_two(), 1);", 2),
    ("const_assert!(phase < align.get());", "require(phase < align.get(), 3);", 1),
    ("const_assert!(max_align.get().is_power_of_two());", "require(max_align.get().is_power_of_two(), 5);", 1),
    (
        "const_debug_assert!(self.align.get() <= DstLayout::CURRENT_MAX_ALIGN.get());",
        "debug_require(self.align.get() <= DstLayout::CURRENT_MAX_ALIGN.get(), 6);",
        1,
    ),
    (
        "const_debug_assert!(field.align.get() <= DstLayout::CURRENT_MAX_ALIGN.get());",
        "debug_require(field.align.get() <= DstLayout::CURRENT_MAX_ALIGN.get(), 6);",
        1,
    ),
    (
        "const_debug_assert!(repr_packed.get() <= DstLayout::CURRENT_MAX_ALIGN.get());",
        "debug_require(repr_packed.get() <= DstLayout::CURRENT_MAX_ALIGN.get(), 6);",
        1,
    ),
    ('const_panic!("Cannot extend a DST with additional fields.")', "refuse(7)", 1),
    ('const_panic!("Adding padding to `self`\'s size overflows `usize`.")', "refuse(8)", 1),
    ('const_panic!("Adding padding caused size to overflow `usize`.")', "refuse(8)", 4),
    (
        'const_panic!("`field` cannot be appended without the total size overflowing `usize`")',
        "refuse(9)",
        3,
    ),
    ('const_panic!("attempted to cast to slice type with zero-sized element")', "refuse(10)", 1),
    (
        "__const_debug_assert!(\n"
        "            addr.checked_add(bytes_len).is_some(),\n"
        '            "`addr` + `bytes_len` > usize::MAX"\n'
        "        );",
        "debug_require(addr.checked_add(bytes_len).is_some(), 11);",
        1,
    ),
]
NUMBERS_FOR_TYPES = [
    # The size and the alignment of a type become two numbers. (Three of the five hits of each are in attributes for Kani,
    # which are not in force here.)
    ("fn for_type<T>()", "fn for_type(size: usize, align: usize)", 1),
    ("fn for_unpadded_type<T>()", "fn for_unpadded_type(size: usize, align: usize)", 1),
    ("fn for_slice<T>()", "fn for_slice(size: usize, align: usize)", 1),
    ("Self::for_type::<T>()", "Self::for_type(size, align)", 1),
    ("mem::align_of::<T>()", "align", 5),
    ("mem::size_of::<T>()", "size", 5),
    # The parameters of a conversion stand without the two types that they are for, and a count is a number.
    ("struct CastParams<Src: ?Sized, Dst: ?Sized> {", "struct CastParams {", 1),
    ("_src: PhantomData<Src>,", "", 1),
    ("_dst: PhantomData<Dst>,", "", 1),
    ("impl<Src: ?Sized, Dst: ?Sized> CastParams<Src, Dst> {", "impl CastParams {", 1),
    ("impl<Src: KnownLayout + ?Sized, Dst: KnownLayout + ?Sized> CastParams<Src, Dst> {", "impl CastParams {", 1),
    ("Option<CastParams<Src, Dst>>", "Option<CastParams>", 1),
    ("CastParams { inner, _src: PhantomData, _dst: PhantomData }", "CastParams { inner }", 1),
    ("src_meta: Src::PointerMetadata,", "src_meta: usize,", 1),
    ("-> Dst::PointerMetadata {", "-> usize {", 1),
    ("src_meta.to_elem_count()", "src_meta", 1),
    ("Dst::PointerMetadata::from_elem_count(dst_meta)", "dst_meta", 1),
    # The bench calls it twice, which keeps the compiler from inlining it where a program would call it once.
    ("                fn try_compute(", "#[cfg_attr(bench, inline(always))]\n                fn try_compute(", 1),
    # What the language gives as the machine's usize, where usize is another (lib.rs, bits32). Else they change nothing.
    ("= mem::size_of::<usize>() * 8;", "= (mem::size_of::<usize>() * 8) as usize;", 1),
    ("1usize << shift", "(1 as usize) << shift", 1),
    ("ptr::slice_from_raw_parts_mut(data.as_ptr(), len)", "ptr::slice_from_raw_parts_mut(data.as_ptr(), len as _)", 1),
    # Those items stood two modules deeper.
    ("super::max_elems_for_bytes(", "max_elems_for_bytes(", 2),
    ("super::add_scaled_metadata(", "add_scaled_metadata(", 1),
]

# The two functions above whose refusals are panics, once more, with refusals that are returned, as one would write them
# where they are to be known: for the bench.
RETURNING = [
    "pub const fn extend(",
    "pub const fn pad_to_align(",
]
RETURNED = [
    ("pub fn extend(", "pub fn try_extend(", 1),
    ("pub fn pad_to_align(", "pub fn try_pad_to_align(", 1),
    (") -> Self {", ") -> Result<Self, u64> {", 2),
    (
        "require(max_align.get().is_power_of_two(), 5);",
        "if !max_align.get().is_power_of_two() { return Err(5); }",
        1,
    ),
    (
        "debug_require(self.align.get() <= DstLayout::CURRENT_MAX_ALIGN.get(), 6);",
        "if self.align.get() > DstLayout::CURRENT_MAX_ALIGN.get() { return Err(6); }",
        1,
    ),
    (
        "debug_require(field.align.get() <= DstLayout::CURRENT_MAX_ALIGN.get(), 6);",
        "if field.align.get() > DstLayout::CURRENT_MAX_ALIGN.get() { return Err(6); }",
        1,
    ),
    (
        "debug_require(repr_packed.get() <= DstLayout::CURRENT_MAX_ALIGN.get(), 6);",
        "if repr_packed.get() > DstLayout::CURRENT_MAX_ALIGN.get() { return Err(6); }",
        1,
    ),
    ("refuse(", "return Err(", 9),
    (
        "\n        DstLayout { align, size_info, statically_shallow_unpadded }",
        "\n        Ok(DstLayout { align, size_info, statically_shallow_unpadded })",
        1,
    ),
    (
        "\n        DstLayout { align: self.align, size_info, statically_shallow_unpadded }",
        "\n        Ok(DstLayout { align: self.align, size_info, statically_shallow_unpadded })",
        1,
    ),
]


# The function that computes a conversion, once more, with a number of document 02 at each place where it gives none: which
# of them it is, is the order of the tests in the Rust.
REASONED = [
    ("fn try_compute(", "#[cfg_attr(bench, inline(always))]\n                fn try_compute_or_why(", 1),
    (") -> Option<CastParams<Src, Dst>> {", ") -> Result<CastParams, u64> {", 1),
    (
        "if src_layout.align.get() < dst_layout.align.get() {\n                        return None;",
        "if src_layout.align.get() < dst_layout.align.get() {\n                        return Err(25);",
        1,
    ),
    (
        "if src_size != dst_size {\n                                return None;",
        "if src_size != dst_size {\n                                return Err(26);",
        1,
    ),
    ("_ => return None,\n                    };", "_ => return Err(27),\n                    };", 1),
    (
        "Some(meta) => meta,\n                                None => return None,",
        "Some(meta) => meta,\n                                None => return Err(28),",
        1,
    ),
    (
        "} else {\n                                return None;\n                            };",
        "} else {\n                                return Err(29);\n                            };",
        1,
    ),
    (
        "if src.elem_size < dst.elem_size {\n                                return None;",
        "if src.elem_size < dst.elem_size {\n                                return Err(30);",
        1,
    ),
    (
        "if described_src_elem_size != src.elem_size {\n                                return None;",
        "if described_src_elem_size != src.elem_size {\n                                return Err(31);",
        1,
    ),
    # What is left is the second shift, which no size at 0, no exact count of it or no match denies.
    ("return None", "return Err(32)", 3),
    (
        "Some(CastParams { inner, _src: PhantomData, _dst: PhantomData })",
        "Ok(CastParams { inner })",
        1,
    ),
]


def stop(message):
    sys.exit(f"extract.py: {message}")


def cut(file, start):
    """The one item of the file that starts so."""
    lines = file.read_text(encoding="utf-8").split("\n")
    places = [at for at, line in enumerate(lines) if line.lstrip().startswith(start)]
    if len(places) != 1:
        stop(f"{file.name}: expected one item '{start}', found {len(places)}")
    first = last = places[0]
    indent = lines[first][: len(lines[first]) - len(lines[first].lstrip())]
    while lines[first - 1].strip() and lines[first - 1].startswith(indent):
        first -= 1
    if not lines[last].endswith(";"):
        while lines[last] != indent + "}":
            last += 1
    return "\n".join(lines[first : last + 1]) + "\n"


def substitute(text, substitutions):
    for old, new, times in substitutions:
        found = text.count(old)
        if found != times:
            stop(f"expected {times} of '{old}', found {found}")
        text = text.replace(old, new)
    return text


def main():
    if len(sys.argv) != 3:
        stop("usage: extract.py SOURCE_DIR OUT_FILE")
    source, out = pathlib.Path(sys.argv[1]), pathlib.Path(sys.argv[2])
    layout, util = source / "src/layout.rs", source / "src/util/mod.rs"
    if not layout.is_file() or not util.is_file():
        stop(f"no zerocopy source at {source}: pass the folder that holds src/layout.rs")
    text = "mod util {\nuse super::*;\n"
    text += "\n".join(cut(util, item) for item in UTIL)
    text += "}\n\n"
    text += "\n".join(cut(layout, item) for item in LAYOUT)
    text = substitute(text, ASSERTIONS + NUMBERS_FOR_TYPES)
    functions = "\n".join(cut(layout, item) for item in RETURNING)
    for old, new, _ in ASSERTIONS:
        functions = functions.replace(old, new)
    text += "\nimpl DstLayout {\n" + substitute(functions, RETURNED) + "}\n"
    conversion = cut(layout, "const fn try_compute(").replace("const fn ", "fn ").replace("super::", "")
    text += "\nimpl CastParams {\n" + substitute(conversion, REASONED) + "}\n"
    out.parent.mkdir(parents=True, exist_ok=True)
    text = "// Cut from zerocopy 0.8.63 by rust/oracle/extract.py; its licences apply.\n" + text
    out.write_text(text, encoding="utf-8")


main()
