"""The C interface from one source. The functions of crates/abi/src/lib.rt say the prototypes and the session's fields, the unit's definitions say the
constants, docs/MANUAL.md says the refusals in words. Nothing else declares them by hand.

    tools/bindings --check     include/analyser.h is what these say: else the difference, and exit status 1
    tools/bindings --write     makes it so; a new function needs its comment and a line `uint8_t analyser_NAME();` there first
    tools/bindings rust        prints declarations for Rust, which the crate bindings/ takes in
    tools/bindings unlinked    prints the same functions without the library behind them: each calls `missing`
    tools/bindings recorder    prints a macro for Rust that defines them once more, each by way of `recorded`: compare/src/corpus.rs
    tools/bindings calls       prints a C function for each of them that takes its arguments from a list: tests/machines.c
    tools/bindings python      prints a Python module that loads the shared library beside it
    tools/bindings json        prints each function's name, and of each argument whether it is lent, and whether it is 64 bits wide: tests/machines.mjs

Python tools call load(). Of the header the session's struct and the four inline functions are written by hand: the compiler holds them to the lines made here.
"""
import ctypes
import difflib
import json
import os
import re
import sys
from typing import NamedTuple

TOP = os.path.dirname(os.path.dirname(os.path.realpath(__file__)))
SOURCE, HEADER, MANUAL = "crates/abi/src/lib.rt", "include/analyser.h", "docs/MANUAL.md"
WIDTH = 160
# the code's words, and the paper's, which the header has
WORDS = {"rotations": "turns", "capacities": "limits", "edges": "channels", "edge": "channel", "source": "headgate", "sink": "outfall", "sources": "headgates",
         "sinks": "outfalls", "flows": "settings", "values": "deliveries"}
SIZES = {"u8": 1, "u16": 2, "u32": 4, "u64": 8, "i32": 4, "usize": 8}
IN_C = {"u8": "uint8_t", "u16": "uint16_t", "u32": "uint32_t", "u64": "uint64_t", "i32": "int32_t", "usize": "analyser_length"}
IN_PYTHON = {"u8": "c_uint8", "u16": "c_uint16", "u32": "c_uint32", "u64": "c_uint64", "i32": "c_int32", "usize": "c_uint64"}


class Fault(Exception):
    pass


class Parameter(NamedTuple):
    name: str
    element: str
    lent: bool  # a pointer, else a number
    mutable: bool
    count: int  # elements of what is lent; 0 for a slice, whose length is the next argument


class Function(NamedTuple):
    name: str
    parameters: list
    result: bool


def read(name):
    with open(f"{TOP}/{name}", encoding="utf-8") as file:
        return file.read()


def parameter(text):
    name, _, kind = text.strip().partition(": ")
    found = re.fullmatch(r"(?:&(?:'\w+ )?(mut )?)?(?:\[(\w+)(?:; (\d+))?\]|(\w+))", kind)
    element = found and (found[2] or found[4])
    if not found or element not in SIZES or found[2] and not kind.startswith("&"):
        raise Fault(f"{SOURCE}: a parameter of another form than those known: {text.strip()}")
    return Parameter(name, element, kind.startswith("&"), bool(found[1]), 0 if found[2] and not found[3] else int(found[3] or 1))


def functions():
    """The functions that the library has, in the order of the source."""
    found = re.findall(r'^#\[unsafe\(no_mangle\)\]\npub extern "C" fn (\w+)(?:<[^>]*>)?\((.*?)\n\)( -> u8)?\n', read(SOURCE), re.M | re.S)
    if len(found) != read(SOURCE).count("no_mangle"):
        raise Fault(f"{SOURCE}: a function of another form than those known")
    return [Function(name, [parameter(line) for line in inside.strip().rstrip(",").split(",\n")], bool(result)) for name, inside, result in found]


def session():
    """The fields of a session with their offsets, as C lays them out, and its size: those that Start is lent, the two offers as one field behind all others."""
    start = next(function for function in functions() if function.name == "analyser_session_start")
    fields = {p.name: p for p in start.parameters if p.lent and p.name not in ("sheet", "place")}
    first, second = fields.pop("first"), fields.pop("second")
    order = sorted(fields.values(), key=lambda p: (p.count > 2, list(fields).index(p.name)))
    at, offsets = 0, {}
    for p in [*order, first._replace(name="offers", count=first.count + second.count)]:
        at += -at % SIZES[p.element]
        offsets[WORDS.get(p.name, p.name)] = at
        at += p.count * SIZES[p.element]
    return offsets, at + -at % max(SIZES[p.element] for p in order)


def said(name, pattern):
    """The number that a definition says."""
    found = re.findall(pattern, read(f"crates/{name}"), re.M)
    if len(found) != 1:
        raise Fault(f"crates/{name}: {len(found)} places of the form {pattern}, one is due")
    return int(found[0])


def constants():
    """The header's constants, each from where the unit has it."""
    arrays = {(f.name, p.name): p.count for f in functions() for p in f.parameters if p.lent}
    body = [int(word) for word in re.search(r"^const BODY: \[u8; \d+\] = \[(.*)\];", read("crates/records/src/lib.rt"), re.M)[1].split(",")]
    head, channel, question, outer_head = (1 + body[kind] for kind in (1, 2, 3, 4))
    nodes, channels = (said("records/specs/Check.antt", rf"^number_checks .*Outside {low} (\d+) {what}") for low, what in ((2, "nodes"), (1, "edges")))
    side = said("practice/specs/Practice.antt", r"\(23 when Outside 2 (\d+) rows")
    if channels != arrays["analyser_session_start", "first"]:
        raise Fault(f"{SOURCE}: an offer has not an element for each of {channels} channels")
    return {
        "MAX_NODES": nodes,
        "MAX_CHANNELS": channels,
        "MAX_DARTS": arrays["analyser_session_start", "tails"],
        "MAX_FACES": 2 * channels,
        "SET_WORDS": (nodes + 63) // 64,
        "PAGE_QUESTIONS": arrays["analyser_page", "answers"],
        "CLASS_PAPERS": said("desk/specs/Class.antt", r"\(32 when (\d+) < n\)"),
        "SHEET_BYTES": outer_head + channel * channels,
        "KEY_INPUT_BYTES": question + outer_head + channel * channels,
        "KEY_TEXT_BYTES": said("key_text/specs/Key.antt", r"^text_room = (\d+)"),
        "PRACTICE_BYTES": head + channel * 2 * side * (side - 1),
        "DIMACS_BYTES": said("analyser/specs/Statements.antt", r"longest : .*\(Ok n\) → n ≤ (\d+)"),
    }


def refusals():
    """The manual's sentence of each refusal, by its number."""
    table = read(MANUAL).partition("\n### Every refusal\n")[2].partition("\n### ")[0]
    return dict(sorted((int(number), sentence.strip()) for number, sentence in re.findall(r"^\| (\d+) \| ([^|]*) \|", table, re.M)))


# Which operation gives which refusals, by its C function. tests/machines holds it to what the unit answers: each pair occurs, and no other.
SHEET = {1, 2, 3, 4, 5, 6, 7, 8, 9, 10, 12, 24}
GIVEN = {
    "read": ("Read", SHEET | {16}),
    "write": ("Write", {3, 4, 5, 6, 7, 9, 10, 12, 16, 24}),
    "solve": ("Solve", SHEET | {13, 14, 15, 16}),
    "largest": ("Largest", SHEET | {13, 14, 16}),
    "least_and_largest": ("Least and largest", SHEET | {13, 14, 16}),
    "raise_limit": ("Raise limit", SHEET | {13, 14, 15, 16, 25}),
    "largest_after": ("Limits from a capture", SHEET | {13, 14, 16, 25, 26, 27}),
    "page": ("Page", SHEET | {16, 21}),
    "mark": ("Mark", SHEET | {13, 14, 16, 17, 18}),
    "levels_from_settings": ("Levels from settings", SHEET | {16, 17, 18}),
    "settings_from_levels": ("Settings from levels", SHEET | {16, 17, 19, 20}),
    "totals": ("Totals by node", SHEET | {16}),
    "write_dimacs": ("DIMACS text", SHEET | {13, 14, 16, 22}),
    "practice_sheet": ("Practice sheet", {16, 23}),
    "examine": ("Examine", SHEET | {13, 14, 15, 16, 32}),
    "key_text": ("Key's text", {16}),
    "session_start": ("Start", SHEET),
    "session_ask": ("Ask", {13, 14, 15, 16, 29, 30}),
    "session_commit": ("Commit", {28, 29, 30, 31}),
    "session_clear": ("Clear", set()),
}
OF_CAPTURE = {1, 2, 6, 7}  # also of the records of a capture, and of the limits found in them
IN_ANSWERS = {"key": SHEET | {13, 14, 15}, "a question of a page": {13, 14, 15}}  # told in a text or in a list of answers, and not as a result


LEVEL_OPERATIONS = ["Levels from settings", "Settings from levels"]


def with_source():
    """The names of the operations that take a source, the paper's headgate."""
    taking = {function.name.removeprefix("analyser_") for function in functions() if any(p.name == "source" for p in function.parameters)}
    return [name for key, (name, _) in GIVEN.items() if key in taking]


def givers(number, in_answers=False):
    """Who gives a refusal: "sheet" for every operation on a sheet, the others by their names, or all but a few."""
    refusing = [(name, numbers) for name, numbers in GIVEN.values() if numbers]
    names = [name for name, numbers in refusing if number in numbers and not (number in SHEET and SHEET <= numbers)]
    others = [name for name, numbers in refusing if number not in numbers]
    if number in SHEET:
        names = ["sheet", *(["capture"] if number in OF_CAPTURE else []), *names]
    elif len(others) < 3:
        names = ["all but " + " and ".join(others)]
    elif names == with_source():
        names = ["all with a headgate"]
    if names[-2:] == LEVEL_OPERATIONS:
        names[-2:] = ["both level operations"]
    names += [name for name, numbers in IN_ANSWERS.items() if in_answers and number in numbers]
    return ", ".join(names)


def manual():
    """The manual as it is, and with the rows of its refusals rising and their last column made."""
    now = read(MANUAL)
    before, title, rest = now.partition("\n### Every refusal\n")
    table, next_title, behind = rest.partition("\n### ")
    rows = re.findall(r"^\| (\d+) \| ([^|]*) \| ([^|]*) \| [^|]* \|\n", table, re.M)
    made = "".join(f"| {n} | {condition} | {place} | {givers(int(n), True)} |\n" for n, condition, place in sorted(rows, key=lambda row: int(row[0])))
    head, line, tail = table.partition("|---|---|---|---|\n")
    return now, before + title + head + line + made + re.sub(r"^\| \d+ \|.*\n", "", tail, flags=re.M) + next_title + behind


def version():
    """The version, of which the header is the one place: its number, and in words."""
    found = re.search(r"^#define ANALYSER_VERSION (\d+)", read(HEADER), re.M)
    if not found:
        raise Fault(f"{HEADER}: no line '#define ANALYSER_VERSION NUMBER'")
    number = int(found[1])
    return number, f"{number // 10000}.{number // 100 % 100}.{number % 100}"


# C


def in_c(p):
    """The paper's word for a parameter. A value is a delivery where it is given, and a value where it comes back."""
    return "delivery" if p.name == "value" and not p.lent else WORDS.get(p.name, p.name)


def c_parameters(p):
    if not p.lent:
        return [f"{IN_C[p.element]} {in_c(p)}"]
    pointer = f"{'' if p.mutable else 'const '}{IN_C[p.element]} *{in_c(p)}"
    return [pointer] if p.count else [pointer, f"analyser_length {in_c(p)}_length"]


def filled(start, parts, end):
    """The parts, with commas between, on as few lines as the width allows; all lines but the first begin below the first part."""
    lines, line = [], start
    for i, part in enumerate(parts):
        piece = part + ("," if i + 1 < len(parts) else end)
        if line.rstrip() and len(line) + len(piece) > WIDTH:
            lines.append(line.rstrip())
            line = " " * len(start)
        line += piece + " "
    return "\n".join([*lines, line.rstrip()])


def prototype(function):
    start = f"{'uint8_t' if function.result else 'void'} {function.name}("
    return filled(start, [part for p in function.parameters for part in c_parameters(p)], ");")


def layout():
    offsets, size = session()
    holds = [f"ANALYSER_HOLDS(session_{name}, offsetof(struct analyser_session, {name}) == {at});" for name, at in offsets.items()]
    return [*holds, f"ANALYSER_HOLDS(session_size, sizeof(struct analyser_session) == {size});"]


def texts():
    cases = [f'    case {number}: return "{sentence}";' for number, sentence in refusals().items()]
    return ["static inline const char *analyser_refusal_text(uint8_t number) {", "    switch (number) {", '    case 0: return "there is an answer";', *cases,
            '    default: return "there is no such refusal";', "    }", "}"]


def between(text, what, lines):
    """The text with these lines between the two comments that name them."""
    first, last = f"// {what}, made by tools/bindings:\n", f"// end of {what}\n"
    before, begins, rest = text.partition(first)
    _, ends, behind = rest.partition(last)
    if not begins or not ends:
        raise Fault(f"{HEADER}: no lines '{first.strip()}' and '{last.strip()}'")
    return before + first + "\n".join(lines) + "\n" + last + behind


def initial(words):
    return words[0].upper() + words[1:]


def header():
    """The header as it is, and as it should be."""
    now = text = read(HEADER)
    for function in functions():
        text, places = re.subn(rf"^(?:uint8_t|void) {function.name}\([^;{{]*\);", lambda _: prototype(function), text, flags=re.M)
        if places != 1:
            raise Fault(f"{HEADER}: {function.name} is declared {places} times, once is due")
    for name, value in constants().items():
        text, places = re.subn(rf"^#define ANALYSER_{name} \d+", f"#define ANALYSER_{name} {value}", text, flags=re.M)
        if places != 1:
            raise Fault(f"{HEADER}: ANALYSER_{name} is defined {places} times, once is due")
    due = {function.name for function in functions()}
    more = [name for name in re.findall(r"^(?:uint8_t|void) (analyser_\w+)\(", text, re.M) if name not in due]
    numbers = [int(number) for number in re.findall(r"^    ANALYSER_\w+ = (\d+)", text, re.M)]
    if more:
        raise Fault(f"{HEADER}: {more[0]} is no function of {SOURCE}")
    if numbers != [0, *refusals()]:
        raise Fault(f"{HEADER}: the numbers of enum analyser_result are not 0 and those of {MANUAL}, \"Every refusal\", rising")
    text = re.sub(r"^(    ANALYSER_\w+ = (\d+),? // .*)\. [^.\n]*$",
                  lambda row: row[0] if row[2] == "0" else f"{row[1]}. {initial(givers(int(row[2])))}", text, flags=re.M)
    text = between(text, "the session's layout", layout())
    return now, between(text, "the manual's sentences", texts())


def arguments(function):
    """How a function takes its arguments from a list of numbers and one of areas of memory, each an address and a length."""
    numbers = areas = 0
    for p in function.parameters:
        if p.lent:
            yield f"areas[{areas}].at"
            if not p.count:
                yield f"areas[{areas}].length"
            areas += 1
        else:
            yield f"({IN_C[p.element]})numbers[{numbers}]"
            numbers += 1


def calls():
    lines = ["// Made by tools/bindings.", "struct area {", "    void *at;", "    analyser_length length;", "};"]
    for function in functions():
        numbers = any(not p.lent for p in function.parameters)
        lines += [f"static uint8_t call_{function.name}(const uint64_t *numbers, const struct area *areas) {{"]
        lines += [] if numbers else ["    (void)numbers;"]
        lines += [filled(f"    {'return ' if function.result else ''}{function.name}(", list(arguments(function)), ");")]
        lines += [] if function.result else ["    return 0;"]
        lines += ["}"]
    rows = [f'    {{"{function.name}", call_{function.name}}},' for function in functions()]
    table = ["static const struct {", "    const char *name;", "    uint8_t (*call)(const uint64_t *, const struct area *);", "} functions[] = {"]
    return [*lines, *table, *rows, "};"]


# Rust


def rust_parameters(p):
    if not p.lent:
        return [f"{p.name}: {p.element}"]
    pointer = f"{p.name}: *{'mut' if p.mutable else 'const'} {p.element}"
    return [pointer] if p.count else [pointer, f"{p.name}_length: usize"]


def rust_function(function):
    return f"pub fn {function.name}({', '.join(part for p in function.parameters for part in rust_parameters(p))}){' -> u8' if function.result else ''}"


def rust_constants():
    lines = ["// Made by tools/bindings.", 'const _: () = assert!(usize::BITS == 64, "a length is 64 bits wide");']
    lines += [f'pub const VERSION: &str = "{version()[1]}";']
    return [*lines, *(f"pub const {name}: usize = {value};" for name, value in constants().items())]


def rust():
    return [*rust_constants(), 'extern "C" {', *(f"    {rust_function(function)};" for function in functions()), "}"]


SAFETY = ["/// # Safety", "/// The caller's duties of include/analyser.h."]


def unlinked():
    lines = rust_constants()
    for function in functions():
        lines += [*SAFETY, "#[allow(unused_variables)]", f"{rust_function(function).replace('pub fn', 'pub unsafe fn')} {{", "    missing()", "}"]
    return lines


def recorder():
    lines = ["#[macro_export]", "macro_rules! recorder {", "    () => {"]
    for index, function in enumerate(functions()):
        numbers = ", ".join(f"{p.name} as u64" for p in function.parameters if not p.lent)
        areas = ", ".join(f"Area::new({p.name}, {p.count or p.name + '_length'})" for p in function.parameters if p.lent)
        passed = ", ".join(name for p in function.parameters for name in ([p.name] if p.count or not p.lent else [p.name, f"{p.name}_length"]))
        call, end = f"$crate::{function.name}({passed})", ""
        if not function.result:
            call, end = f"{{ {call}; 0 }}", ";"
        lines += [*SAFETY, f"{rust_function(function).replace('pub fn', 'pub unsafe fn')} {{"]
        lines += [f"    recorded({index}, &[{numbers}], &[{areas}], || {call}){end}", "}"]
    return [*lines, "    };", "}"]


# Python


def python_kinds(p):
    if not p.lent:
        return [IN_PYTHON[p.element]]
    pointer = f"POINTER({IN_PYTHON[p.element]})"
    return [pointer] if p.count else [pointer, IN_PYTHON["usize"]]


def python():
    lines = ['"""The analyser for Python, made by tools/bindings: `library` has the functions of analyser.h, which says what each takes and gives."""',
             "import os", "from ctypes import CDLL, POINTER, c_int32, c_uint8, c_uint16, c_uint32, c_uint64", "",
             'library = CDLL(os.path.join(os.path.dirname(os.path.abspath(__file__)), "libanalyser.so"))']
    for function in functions():
        lines += [f"library.{function.name}.restype = {'c_uint8' if function.result else 'None'}"]
        lines += [f"library.{function.name}.argtypes = [{', '.join(kind for p in function.parameters for kind in python_kinds(p))}]"]
    lines += [f"{name} = {value}" for name, value in constants().items()]
    return [*lines, "REFUSALS = {", *(f"    {number}: {sentence!r}," for number, sentence in refusals().items()), "}"]


def load(path):
    """A shared library with the interface, its functions told what they take and give."""
    library = ctypes.CDLL(path)
    for function in functions():
        kinds = [kind for p in function.parameters for kind in python_kinds(p)]
        held = getattr(library, function.name)
        held.restype = ctypes.c_uint8 if function.result else None
        held.argtypes = [ctypes.POINTER(getattr(ctypes, kind[8:-1])) if kind.startswith("POINTER") else getattr(ctypes, kind) for kind in kinds]
    return library


# JavaScript


def as_json():
    """A list of functions, [name, arguments]; an argument is "slice" or "pointer" where it is lent, else "long" for 64 bits or "number"."""
    def kind(p):
        if p.lent:
            return "pointer" if p.count else "slice"
        return "long" if SIZES[p.element] == 8 else "number"
    return [json.dumps([[function.name, [kind(p) for p in function.parameters]] for function in functions()])]


def check():
    wrong = []
    for name, (now, due) in ((HEADER, header()), (MANUAL, manual())):
        wrong += difflib.unified_diff(now.splitlines(), due.splitlines(), name, "what its sources say", lineterm="")
    print(*wrong, f"tools/bindings: {len(functions())} functions, {len(constants())} constants, {len(refusals())} refusals: "
          f"{HEADER} and {MANUAL} are {'not ' if wrong else ''}current", sep="\n")
    return 1 if wrong else 0


def write():
    for name, made in ((MANUAL, manual), (HEADER, header)):
        now, due = made()
        if now != due:
            with open(f"{TOP}/{name}", "w", encoding="utf-8") as file:
                file.write(due)
    return 0


PRINTED = {"rust": rust, "unlinked": unlinked, "recorder": recorder, "calls": calls, "python": python, "json": as_json}


def main(words):
    if len(words) != 1 or words[0] not in ("--check", "--write", *PRINTED):
        print("use: tools/bindings --check, --write, " + ", ".join(PRINTED), file=sys.stderr)
        return 2
    try:
        if words[0] in PRINTED:
            print("\n".join(PRINTED[words[0]]()))
            return 0
        return check() if words == ["--check"] else write()
    except Fault as fault:
        print(f"tools/bindings: {fault}", file=sys.stderr)
        return 1


if __name__ == "__main__":
    sys.exit(main(sys.argv[1:]))
