#!/usr/bin/env python3
"""Compares the C header with the crates that it declares, and makes a C program of it.

    header.py functions HEADER        prints the functions that it declares
    header.py names HEADER SOURCES... structs, functions and refusals must be those of these sources of the crates, of
                                      which refusal.rt has the refusals: the same names in the same order, and the same
                                      types
    header.py program HEADER ROWS...  prints a C program that calls each function; ROWS are the files of
                                      rust/differential/rows, which give each function its number. Where HEADER is
                                      that of 32 bits, lukaripe.h stands beside it

    PROGRAM says                      prints each struct with its size, its alignment and the places and widths of its
                                      numbers, each constant, the words of the refusals, and the version
    PROGRAM replay <ANSWERS           every line must be what the function of its number says
    PROGRAM wrong <LINES              no line may be; how a line reads is written in rust/differential/recorded.rs
"""
import os
import re
import subprocess
import sys

# The structs of the crates, by their names in C.
STRUCTS = {
    "Number": "lukaripe_number",
    "Components": "lukaripe_components",
    "Trailing": "lukaripe_trailing",
    "TrailingAnswer": "lukaripe_trailing_answer",
    "NormalFormOut": "lukaripe_normal_form_answer",
    "PaddingOut": "lukaripe_padding_share",
    "Layout": "lukaripe_layout",
    "LayoutOut": "lukaripe_layout_answer",
    "ComposedOut": "lukaripe_composed",
    "MovedOut": "lukaripe_moved",
    "CastOut": "lukaripe_cast",
    "CastParams": "lukaripe_cast_params",
    "CastParamsOut": "lukaripe_cast_params_answer",
    "CarriedOut": "lukaripe_carried",
    "ServingOut": "lukaripe_serving",
}
# Those of 32 bits, by theirs.
STRUCTS32 = {name + "32": c_name.replace("lukaripe_", "lukaripe32_") for name, c_name in STRUCTS.items()}
NUMBERS = {"u8": "uint8_t", "u32": "uint32_t", "u64": "uint64_t"}
TYPES = NUMBERS | {"bool": "bool"} | STRUCTS | STRUCTS32


def fail(message):
    sys.exit(f"header.py: {message}")


class Declared:
    """Fields by struct, result and parameters by function, and numbers by constant. A field is a type and a name, and
    so is a parameter."""

    def __init__(self):
        self.structs, self.functions, self.constants = {}, {}, {}

    def refusals(self):
        return {name: number for name, number in self.constants.items() if name.startswith("LUKARIPE_REFUSED_")}


# ---- the header ----


def preprocessed(header):
    """The header's own text as the compiler sees it: no comments, no macros, and nothing of what it includes. Strings
    and attributes are left out too."""
    text = subprocess.run(["gcc", "-E", "-std=c11", header], check=True, stdout=subprocess.PIPE, text=True).stdout
    own, lines = False, []
    for line in text.splitlines():
        marker = re.match(r'# \d+ "(.*?)"', line)
        if marker:
            own = marker[1] == header
        elif own:
            lines.append(line)
    text = re.sub(r'"(\\.|[^"\\])*"', '""', "\n".join(lines))
    return re.sub(r"__attribute__\s*\(\(.*?\)\)", "", text).replace("_Bool", "bool")


def items(text):
    """The declarations and definitions at the top, each a head and what its braces hold."""
    head, body, depth = "", "", 0
    for char in text:
        depth -= char == "}"
        if depth > 0:
            body += char
        elif char not in "{};":
            head += char
        depth += char == "{"
        # A function's body ends it; of the others, a semicolon.
        if depth == 0 and (char == ";" or char == "}" and "(" in head):
            yield " ".join(head.split()), body
            head, body = "", ""


def typed(text):
    """The type and the name of a field or parameter."""
    parts = re.fullmatch(r"\s*((?:\w+\s+)*?\w+)\s*(\*?)\s*(\w+)\s*", text)
    if not parts:
        fail(f"no type and name: {text}")
    kind, star, name = parts.groups()
    return re.sub(r"\bstruct ", "", " ".join(kind.split())) + (" *" if star else ""), name


def c_fields(body):
    fields = []
    for field in filter(str.strip, body.split(";")):
        first, *more = field.split(",")
        kind, name = typed(first)
        fields += [(kind, name)] + [(kind, other.strip()) for other in more]
    return fields


def declared_in_c(header):
    declared = Declared()
    for head, body in items(preprocessed(header)):
        function = re.fullmatch(r"(.*?)(lukaripe(?:32)?_\w+) ?\((.*)\)", head)
        if function and "static" not in head.split():
            result, name, parameters = function.groups()
            declared.functions[name] = typed(result + "result")[0], [typed(p) for p in parameters.split(",")]
        elif re.match(r"(typedef )?struct\b", head) and body:
            declared.structs[head.split()[-1]] = c_fields(body)
        elif re.match(r"(typedef )?enum\b", head):
            declared.constants |= re.findall(r"(\w+)\s*=\s*(\d+)", body)
    return declared


# ---- the crates ----


def in_c(kind):
    if kind not in TYPES:
        fail(f"no C name is known of {kind}")
    return TYPES[kind]


def crate_fields(body):
    return [(in_c(kind), name) for name, kind in re.findall(r"pub (\w+): (\w+)", body)]


def crate_parameters(text):
    """The C parameters of those of a function: a slice is a pointer and a length, which has its name but for the first
    slice of bytes; a struct that is lent is a pointer alone."""
    first_bytes = True
    for name, kind in re.findall(r"(\w+): ([^,]+)", text):
        slice_of = re.fullmatch(r"&(mut )?\[(u8|u32|u64)\]\s*", kind)
        lent = re.fullmatch(r"&(mut )?(\w+)\s*", kind)
        if slice_of:
            mutable, element = slice_of.groups()
            yield ("" if mutable else "const ") + NUMBERS[element] + " *", name
            yield "size_t", "len" if element == "u8" and first_bytes else f"{name}_len"
            first_bytes &= element != "u8"
        elif lent:
            mutable, struct = lent.groups()
            yield ("" if mutable else "const ") + in_c(struct) + " *", name
        else:
            yield in_c(kind.strip()), name


def declared_in_crates(sources):
    declared = Declared()
    for source in sources:
        text = re.sub(r"//.*", "", open(source).read())
        if source.endswith("/refusal.rt"):
            for name, number in re.findall(r"(\w+) = (\d+),", text):
                words = re.sub(r"(?<=.)(?=[A-Z])", "_", name).upper()
                declared.constants["LUKARIPE_REFUSED_" + words] = number
        for name, body in re.findall(r"#\[repr\(C\)\]\s*(?:#\[derive.*?\]\s*)?pub struct (\w+) \{(.*?)\}", text, re.S):
            declared.structs[in_c(name)] = crate_fields(body)
        for name, parameters, result in re.findall(r'pub extern "C" fn (\w+)\((.*?)\) -> (\w+)', text, re.S):
            declared.functions[name] = in_c(result), list(crate_parameters(parameters))
    return declared


def shown(value):
    """A function's result and parameters, a struct's fields, or a number."""
    if isinstance(value, tuple):
        return f"{value[0]} ({shown(value[1])})"
    if isinstance(value, list):
        return ", ".join(f"{kind} {name}" for kind, name in value).replace("* ", "*")
    return value


def differences(what, crates, header):
    for name in crates | header:
        if name not in header:
            yield f"the header has no {what} {name}"
        elif name not in crates:
            yield f"the crates have no {what} {name}"
        elif crates[name] != header[name]:
            yield f"{what} {name}\n  in the crates: {shown(crates[name])}\n  in the header: {shown(header[name])}"


def names(header, sources):
    crates, c = declared_in_crates(sources), declared_in_c(header)
    found = [
        *differences("struct", crates.structs, c.structs),
        *differences("function", crates.functions, c.functions),
        *differences("refusal", crates.refusals(), c.refusals()),
    ]
    if found:
        fail("\n".join(["the header and the crates differ", *found]))
    counts = f"{len(c.structs)} structs, {len(c.functions)} functions, {len(c.refusals())} refusals"
    print(f"{counts}: named as in the crates")


# ---- the program ----

START = r"""
#include <stdio.h>
#include <stdlib.h>
#include <string.h>

/* The line that is read, where the next number stands, and whether one was missing. */
static char line[4096];
static char *at;
static bool missing;

/* Bytes to lend, and an area whose front is lent as the output of short records, moves and cases; what those that are
   written to hold before. Of numbers, how many at most. */
static uint8_t lent[1024];
static uint8_t area[LUKARIPE_CASES_LENGTH + 56];
enum { BEFORE = 0xa5, NUMBERS = 64 };

static uint64_t next(void) {
    at += *at == ' ';
    missing |= *at < '0' || *at > '9';
    return missing ? 0 : strtoull(at, &at, 10);
}

static size_t next_length(void) {
    uint64_t len = next();
    missing |= len > sizeof lent;
    return missing ? 0 : (size_t)len;
}

/* Words of 8 bytes, the last one of what is left. */
static void take_bytes(size_t len) {
    uint64_t word = 0;
    for (size_t i = 0; i < len; i++) {
        word = i % 8 == 0 ? next() : word >> 8;
        lent[i] = (uint8_t)word;
    }
}

static uint64_t word_at(const uint8_t *bytes) {
    uint64_t word = 0;
    for (int i = 7; i >= 0; i--)
        word = word << 8 | bytes[i];
    return word;
}

static bool untouched(const void *bytes, size_t len) {
    for (size_t i = 0; i < len; i++)
        if (((const uint8_t *)bytes)[i] != BEFORE)
            return false;
    return true;
}

/* The length that is lent of the area. */
static size_t next_output(void) {
    uint64_t len = next();
    memset(area, BEFORE, sizeof area);
    missing |= len > sizeof area;
    return missing ? 0 : (size_t)len;
}

/* From which word on so many of the area are looked at. */
static const uint8_t *next_seen(size_t words) {
    uint64_t from = next();
    missing |= from > sizeof area / 8 - words;
    return area + (missing ? 0 : 8 * from);
}

/* Numbers to lend: their bytes are as those of `lent` before, also those of the numbers behind them. */
static size_t next_numbers(lent_number numbers[NUMBERS]) {
    uint64_t len = next();
    memset(numbers, BEFORE, NUMBERS * sizeof *numbers);
    missing |= len > NUMBERS;
    return missing ? 0 : (size_t)len;
}

static bool untouched_behind(const lent_number numbers[NUMBERS], size_t len) {
    return untouched(numbers + len, (NUMBERS - len) * sizeof *numbers);
}

/* Numbers to lend that are read: others stand before them and behind them, whose bytes are as those above. */
static size_t take_numbers(lent_number numbers[NUMBERS]) {
    uint64_t len = next();
    memset(numbers, BEFORE, NUMBERS * sizeof *numbers);
    missing |= len > NUMBERS - 2;
    for (size_t i = 0; !missing && i < len; i++)
        numbers[1 + i] = (lent_number)next();
    return missing ? 0 : (size_t)len;
}

/* The number of one member, of a list of so many bytes. */
static uint64_t of_member(const lent_number numbers[NUMBERS], uint64_t refusal, uint64_t member, size_t len) {
    size_t count = len / LUKARIPE_RECORD_LENGTH;
    return refusal || count == 0 ? 0 : numbers[member % count];
}

/* Whether the rest of the line is the answer. */
static bool same(const uint64_t *answer, size_t len) {
    bool all = true;
    for (size_t i = 0; i < len; i++)
        all &= next() == answer[i];
    return all && !missing && *at == '\n';
}
"""

MAIN = r"""
static bool agrees(unsigned *called) {
    at = line;
    missing = false;
    uint64_t function = next();
    if (function < FUNCTIONS)
        called[function]++;
    return call(function);
}

/* Each line must agree, or where they are wrong on purpose none. */
static int replay(bool wrong) {
    unsigned called[FUNCTIONS] = {0}, lines = 0, differ = 0, faults = 0;
    while (fgets(line, sizeof line, stdin)) {
        bool agree = agrees(called);
        lines++;
        differ += !agree;
        if (agree == wrong) {
            faults++;
            fprintf(stderr, "line %u %s: %s", lines, wrong ? "is found right" : "differs", line);
        }
    }
    for (size_t i = 0; i < sizeof numbers / sizeof *numbers; i++)
        if (!called[numbers[i]]) {
            faults++;
            fprintf(stderr, "no line calls function %u\n", numbers[i]);
        }
    printf("%u %s, %u differ\n", lines, wrong ? "wrong lines" : "lines from C", differ);
    return faults != 0;
}

int main(int argc, char **argv) {
    const char *word = argc > 1 ? argv[1] : "";
    if (!strcmp(word, "says"))
        return says();
    return replay(!strcmp(word, "wrong"));
}
"""


def numbers_of(kind, place, structs):
    """The places of the numbers that a value has, in the order of its fields."""
    if kind not in structs:
        return [place]
    return [number for field, name in structs[kind] for number in numbers_of(field, f"{place}.{name}", structs)]


# A lent slice of numbers, which are as wide as the words.
LENT_NUMBERS = {"uint64_t *", "uint32_t *"}


def is_read(kind):
    return kind.removeprefix("const ") != kind and kind.removeprefix("const ") in LENT_NUMBERS


def writes_numbers(parameters):
    """The lent slices of numbers that are written."""
    return [name for kind, name in parameters if kind in LENT_NUMBERS]


def reads_numbers(parameters):
    """The lent slices of numbers that are only read."""
    return [name for kind, name in parameters if is_read(kind)]


def altered(parameters, structs):
    """The lent structs, by their names."""
    return {name: kind[:-2] for kind, name in parameters if kind.endswith(" *") and kind[:-2] in structs}


# The words of the area that an answer has: of one short record, and of a move.
SEEN_OF_ONE, SEEN = 5, 10


# What writes all cases is looked at as a move is.
CASES = "lukaripe_write_cases"


def output(function, parameters):
    """Of a function that writes to the area: what it is handed as the length, and whether it is a move. The record of
    48 bytes, which came before there were others, is written to `lent`."""
    kinds = [kind for kind, _ in parameters]
    if "uint8_t *" not in kinds or function in ("lukaripe_encode", "lukaripe32_encode"):
        return None
    moves = "const uint8_t *" in kinds or function == CASES
    return "out_len" if "const uint8_t *" in kinds else "len", moves


def take(function, parameters, structs):
    """The statements that take the parameters from the line: in their order, but bytes that are read come last. Before
    them come the length of those that are written, and the index of the member whose numbers are looked at or of the
    word from which on the output is."""
    if writes_numbers(parameters):
        parameters = [*parameters, ("uint64_t", "member")]
    lent_structs = altered(parameters, structs)
    order = {"uint8_t *": 1, "const uint8_t *": 2}
    for kind, name in sorted(parameters, key=lambda parameter: order.get(parameter[0], 0)):
        if kind == "size_t":
            continue
        if name in lent_structs:
            # It stands between two others, whose bytes are as those of `lent` before.
            yield f"{lent_structs[name]} {name}[3];"
            yield f"memset({name}, BEFORE, sizeof {name});"
            yield from (f"{number} = next();" for number in numbers_of(lent_structs[name], f"{name}[1]", structs))
        elif kind in structs:
            yield f"{kind} {name};"
            yield from (f"{number} = next();" for number in numbers_of(kind, name, structs))
        elif kind == "const uint8_t *":
            yield "size_t len = next_length();"
            yield "take_bytes(len);"
        elif kind == "uint8_t *" and output(function, parameters):
            length, moves = output(function, parameters)
            yield f"size_t {length} = next_output();"
            yield f"const uint8_t *seen = {f'next_seen({SEEN})' if moves else 'area'};"
        elif kind == "uint8_t *":
            yield "size_t len = next_length();"
            yield "memset(lent, BEFORE, len);"
        elif kind in LENT_NUMBERS:
            yield f"lent_number {name}[NUMBERS];"
            yield f"size_t {name}_len = next_numbers({name});"
        elif is_read(kind):
            yield f"lent_number {name}[NUMBERS], {name}_before[NUMBERS];"
            yield f"size_t {name}_len = take_numbers({name});"
            yield f"memcpy({name}_before, {name}, sizeof {name});"
        else:
            yield f"{kind} {name} = next();"


def answer(result, writes, written, numbers, lent_structs, structs):
    """The numbers of the answer, in what was returned or written. Of a lent struct they are those that it holds, and of
    the area those that stand in it, on a refusal too."""
    if written:
        words = SEEN if written[1] else SEEN_OF_ONE
        return numbers_of(result, "r", structs) + [f"word_at(seen + {8 * word})" for word in range(words)]
    if lent_structs:
        held = [numbers_of(kind, f"{name}[1]", structs) for name, kind in lent_structs.items()]
        return sum(held, numbers_of(result, "r", structs))
    if numbers:
        return numbers_of(result, "r", structs) + [f"of_member({name}, r.refusal, member, len)" for name in numbers]
    if writes:
        return ["r"] + [f"r ? 0 : word_at(lent + {8 * word})" for word in range(6)]
    if result == "bool":
        return ["0", "r"]
    return numbers_of(result, "r", structs)


def statements(function, result, parameters, structs):
    """What calls a function on a line."""
    writes = any(kind == "uint8_t *" for kind, _ in parameters)
    written = output(function, parameters)
    numbers = writes_numbers(parameters)
    lent_structs = altered(parameters, structs)

    def handed(kind, name):
        if kind == "uint8_t *" and written:
            return "area"
        if kind.endswith("8_t *"):
            return "lent"
        return f"{name} + 1" if name in lent_structs or is_read(kind) else name

    yield from take(function, parameters, structs)
    yield f"{result} r = {function}({', '.join(handed(*parameter) for parameter in parameters)});"
    if written:
        count = "r.written" if written[1] else "(r ? 0u : LUKARIPE_SHORT_RECORD_LENGTH)"
        if function == CASES:
            count = "r.value"
        yield f"if ({count} > {written[0]} || !untouched(area + {count}, sizeof area - {count}))"
        yield "    return false;"
    elif writes:
        yield "if (r != 0 && !untouched(lent, len))"
        yield "    return false;"
    for name in numbers:
        yield f"if (!untouched_behind({name}, r.refusal ? 0 : {name}_len))"
        yield "    return false;"
    for name in reads_numbers(parameters):
        yield f"if (memcmp({name}_before, {name}, sizeof {name}))"
        yield "    return false;"
    for name in lent_structs:
        yield f"if (!untouched({name}, sizeof *{name}) || !untouched({name} + 2, sizeof *{name}))"
        yield "    return false;"
    yield f"uint64_t answer[] = {{{', '.join(answer(result, writes, written, numbers, lent_structs, structs))}}};"
    yield "return same(answer, sizeof answer / sizeof *answer);"


def says_struct(name, structs):
    """The statement that prints a struct."""
    numbers = [number.removeprefix(".") for number in numbers_of(name, "", structs)]
    told = [f"sizeof({name})", f"_Alignof({name})"]
    for number in numbers:
        told += [f"offsetof({name}, {number})", f"sizeof((({name} *)0)->{number})"]
    return f'printf("struct {name} %zu %zu{" %zu+%zu" * len(numbers)}\\n", {", ".join(told)});'


def program(header, rows):
    c, prefix, lent_number, structs = declared_in_c(header), "lukaripe_", "uint64_t", {}
    if any(name.startswith("lukaripe32_") for name in c.functions):
        # What has no width is the other header's.
        prefix, lent_number = "lukaripe32_", "uint32_t"
        structs = declared_in_c(os.path.join(os.path.dirname(header), "lukaripe.h")).structs
    structs |= c.structs
    table = "".join(open(row).read() for row in rows)
    numbers = {prefix + name: number for number, name in re.findall(r'number: (\d+),\s+name: "(\w+)"', table)}
    if c.functions.keys() - numbers.keys():
        fail(f"the rows have no {', '.join(c.functions.keys() - numbers.keys())}")

    print(f'#include "{header}"\n\ntypedef {lent_number} lent_number;' + START)
    print("static bool call(uint64_t function) {\n    switch (function) {")
    for name, (result, parameters) in c.functions.items():
        body = "".join(f"        {line}\n" for line in statements(name, result, parameters, structs))
        print(f"    case {numbers[name]}: {{\n{body}    }}")
    print("    }\n    return false;\n}\n")

    print("static int says(void) {")
    for name in c.structs:
        print(f"    {says_struct(name, structs)}")
    for name in c.constants:
        print(f'    printf("constant {name} %d\\n", {name});')
    for name in c.refusals():
        print(f'    printf("text %d %s\\n", {name}, lukaripe_refusal_text({name}));')
    print('    printf("version %s\\n", LUKARIPE_VERSION);')
    print("    return 0;\n}\n")

    chosen = [numbers[name] for name in c.functions]
    print(f"static const unsigned numbers[] = {{{', '.join(chosen)}}};")
    print(f"enum {{ FUNCTIONS = {max(map(int, chosen)) + 1} }};")
    print(MAIN)


def main(words):
    match words:
        case ["functions", header]:
            print("\n".join(declared_in_c(header).functions))
        case ["names", header, *sources] if sources:
            names(header, sources)
        case ["program", header, *rows] if rows:
            program(header, rows)
        case _:
            fail(__doc__)


main(sys.argv[1:])
