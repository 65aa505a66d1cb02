"""What drawing/drawing.h declares, read from it: its constants and its structs, for Python and for the page; run by itself it prints them for Rust, which the
crate unit takes in. Nothing else declares them by hand. The structs have numbers of a fixed width alone, so they lie alike on every machine.
"""
import ctypes
import os
import re

HEADER = os.path.join(os.path.dirname(os.path.dirname(os.path.realpath(__file__))), "drawing/drawing.h")
# a type of C, in Rust and in JavaScript
KINDS = {"uint8_t": ("u8", "Uint8Array"), "uint16_t": ("u16", "Uint16Array"), "uint32_t": ("u32", "Uint32Array"), "int32_t": ("i32", "Int32Array"),
         "uint64_t": ("u64", "BigUint64Array")}
with open(HEADER, encoding="utf-8") as file:
    TEXT = file.read()
CONSTANTS = {name: eval(value) for name, value in re.findall(r"^#define DRAWING_([A-Z_]+) ([-0-9* ()]+?)(?: //.*)?$", TEXT, re.M)}  # numbers, - and * alone


def counted(words):
    """How many elements a field has: an expression of the header."""
    return eval(re.sub(r"DRAWING_(\w+)", lambda found: str(CONSTANTS[found[1]]), words))


def fields(body):
    """Name, type in C, and how many elements, or None for a number by itself."""
    for kind, names in re.findall(r"^    (\w+) ([^;/]+);", body, re.M):
        for name, count in re.findall(r"(\w+)(?:\[([^]]+)\])?(?:, |$)", names):
            yield name, kind, counted(count) if count else None


STRUCTS = {name: list(fields(body)) for name, body in re.findall(r"^struct drawing_(\w+) \{\n(.*?)^\};", TEXT, re.M | re.S)}


def in_python(name):
    """A struct as a class of ctypes."""
    kind = lambda c: getattr(ctypes, "c_" + c.removesuffix("_t"))
    return type(name, (ctypes.Structure,), {"_fields_": [(field, kind(c) * count if count else kind(c)) for field, c, count in STRUCTS[name]]})


def for_page():
    """The constants; of each struct its size, and of its fields the offset and the kind of array."""
    laid = {name: in_python(name) for name in STRUCTS}
    places = {name: {field: [getattr(laid[name], field).offset, KINDS[c][1]] for field, c, _ in STRUCTS[name]} for name in STRUCTS}
    return {**CONSTANTS, "fields": places, "sizes": {name: ctypes.sizeof(laid[name]) for name in STRUCTS}}


def for_rust():
    lines = [f"pub const {name}: {'i32' if value < 0 else 'usize'} = {value};" for name, value in CONSTANTS.items()]
    for name, rows in STRUCTS.items():
        lines += ["#[repr(C)]", f"pub struct {name.capitalize()} {{"]
        lines += [f"    pub {field}: {f'[{KINDS[c][0]}; {count}]' if count else KINDS[c][0]}," for field, c, count in rows] + ["}"]
        lines += [f"const _: () = assert!(size_of::<{name.capitalize()}>() == {ctypes.sizeof(in_python(name))});"]
    return "\n".join(lines)


if __name__ == "__main__":
    print(for_rust())
