"""libanalyser for a machine: proves what it builds, compiles the module that the proof is about, and writes target/library/TARGET.

    tools/library TARGET ..     x86-64, cortex-m4, cortex-m0plus, wasm32, wasm64

Each folder has the library, analyser.h, and about.txt: the version, what the library needs from outside, and the bytes of code of each operation linked alone.
x86-64 has libanalyser.a, libanalyser.so, analyser.pc for pkg-config and analyser.py for Python. A Cortex-M has libanalyser.a, with what a controller lacks from
library/helpers.c. WebAssembly has libanalyser.wasm, which imports nothing. Needs rt and gcc. docs/MANUAL.md, "The library", says what the proof does not cover.
"""
import glob
import hashlib
import os
import re
import shutil
import subprocess
import sys
from typing import NamedTuple

sys.dont_write_bytecode = True
import bindings
import kit
import module

TOP = bindings.TOP
BUILD = f"{TOP}/target/library"
PROVED = module.MADE
# What rattle itself has clang do, on every machine, to keep away from known faults of LLVM.
AS_RATTLE = [word for name in ("no-trap-after-noreturn", "trap-unreachable", "disable-machine-licm", "disable-postra-machine-licm", "sink-common-insts=false")
             for word in ("-mllvm", f"-{name}")]
STACK = 131072  # of WebAssembly, whose memory has it in front


class Machine(NamedTuple):
    triple: str
    layout: str
    flags: list


ARM = "e-m:e-p:32:32-Fi8-i64:64-v128:64:128-a:0:32-n32-S64"
WASM = "e-m:e-p:{0}:{0}-p10:8:8-p20:8:8-i64:64-i128:128-n32:64-S128-ni:1:10:20"
MACHINES = {
    "cortex-m4": Machine("thumbv7em-unknown-none-eabi", ARM, ["-mcpu=cortex-m4", "-mfloat-abi=soft"]),
    "cortex-m0plus": Machine("thumbv6m-unknown-none-eabi", ARM, ["-mcpu=cortex-m0plus", "-mfloat-abi=soft"]),
    "wasm32": Machine("wasm32-unknown-unknown", WASM.format(32), ["-mbulk-memory"]),
    "wasm64": Machine("wasm64-unknown-unknown", WASM.format(64), ["-mbulk-memory"]),
}


class Fault(Exception):
    pass


def run(words):
    try:
        done = subprocess.run(words, stdin=subprocess.DEVNULL, capture_output=True, text=True)
    except FileNotFoundError:
        raise Fault(f"{words[0]} is missing: install it (of Debian, binutils or gcc)")
    if done.returncode != 0:
        raise Fault(f"{' '.join(words)}\n{(done.stdout + done.stderr)[-2000:]}")
    return done.stdout


def names():
    return [function.name for function in bindings.functions()]


def read(path):
    with open(path, encoding="utf-8") as file:
        return file.read()


def write(path, text):
    with open(path, "w", encoding="utf-8") as file:
        file.write(text)


def proved_module():
    """The module's text, kept with the sum of the text that it is made of: proved again where that is another."""
    kept, of, now = f"{BUILD}/module.ll", f"{BUILD}/module.sum", kit.text_sum(module.CRATE)
    if all(os.path.exists(path) for path in (kept, of, PROVED)) and read(of) == now:
        return read(kept)
    print("tools/library: proving crates/abi and what it is made of", file=sys.stderr, flush=True)
    text = module.module(BUILD)
    write(of, now)
    return text


def for_machine(text, machine):
    """The module's text for another machine: its triple and data layout; no probes of the stack, no processor of x86-64; and a small result is given as a whole
    word, which C callers there take for granted, and on x86-64 do not."""
    text = re.sub("^target datalayout = .*", f'target datalayout = "{machine.layout}"', text, flags=re.M)
    text = re.sub("^target triple = .*", f'target triple = "{machine.triple}"', text, flags=re.M)
    text = re.sub(r' "(?:probe-stack|stack-probe-size|target-cpu)"="[^"]*"', "", text)
    text, changed = re.subn("^define noundef i8 @analyser_", "define noundef zeroext i8 @analyser_", text, flags=re.M)
    if changed != sum(function.result for function in bindings.functions()) or "x86" in re.sub("^source_filename.*|^; ModuleID.*", "", text, flags=re.M):
        raise Fault("the module is not of the form that is known: see for_machine")
    if re.search(r"\bptrtoaddr\b|\b(?:load|store) \{ (?!ptr, i64 \})[^}]*\bptr\b", text):
        raise Fault("the module holds an address as a number, or in a pair whose layout is another one at 32 bits: write a loop over places there")
    return text


def compiler(machine):
    return [module.clang(), f"--target={machine.triple}", "--no-default-config", *machine.flags, *AS_RATTLE, "-Werror", "-O3", "-ffunction-sections", "-fdata-sections"]


def compiled(text, machine, folder):
    """The module's object."""
    write(f"{folder}/analyser.ll", for_machine(text, machine))
    run([*compiler(machine), "-c", "-x", "ir", f"{folder}/analyser.ll", "-o", f"{folder}/analyser.o"])
    return f"{folder}/analyser.o"


def undefined(path):
    """The symbols that an object or an archive takes from outside."""
    return sorted(set(re.findall(r"^ +U (\S+)$", run(["nm", "-u", path]), re.M)))


def code_bytes(path):
    sections = re.findall(r"^\.(?:text|rodata)\S* +(\d+)", run(["size", "-A", path]), re.M)
    return sum(map(int, sections))


def sizes_of_elf(library, folder):
    """The bytes of code of each operation with all that it needs from the library, and of all together."""
    found = {}
    for entries in [*([name] for name in names()), names()]:
        words = [module.tool("ld.lld"), "--gc-sections", "--unresolved-symbols=ignore-all", "-e", entries[0], *(f"--undefined={name}" for name in entries)]
        run([*words, library, "-o", f"{folder}/alone"])
        found[entries[0] if len(entries) == 1 else "all"] = code_bytes(f"{folder}/alone")
    return found


def linked_wasm(objects, machine, exported, path):
    width = ["-mwasm64"] if machine.triple.startswith("wasm64") else []
    words = [module.tool("ld.lld"), "-flavor", "wasm", *width, "--no-entry", "--gc-sections", "--stack-first", "-z", f"stack-size={STACK}", "--strip-all"]
    run([*words, *(f"--export={name}" for name in [*exported, "__heap_base"]), *objects, "-o", path])
    return os.path.getsize(path)


def drawing(folder):
    """drawing/ as WebAssembly, compiled as the unit is and with the flags of drawing/build.rs; its bytes."""
    os.makedirs(folder, exist_ok=True)
    machine, path = MACHINES["wasm32"], f"{folder}/drawing.wasm"
    headers = ["-ffreestanding", "-fno-math-errno", "-ffp-contract=off", "-nostdinc", "-isystem", run(["gcc", "-print-file-name=include"]).strip()]
    objects = []
    for source in sorted(glob.glob(f"{TOP}/drawing/*.c")):
        objects.append(f"{folder}/{os.path.basename(source)}.o")
        run([*compiler(machine), *headers, "-std=c11", "-Wall", "-Wextra", "-c", source, "-o", objects[-1]])
    linked_wasm(objects, machine, ["drawing_places", "drawing_follows", "drawing_svg"], path)
    with open(path, "rb") as file:
        return file.read()


def about(target, compiler_words, needs, supplied, sizes):
    lines = [f"libanalyser {bindings.version()[1]} for {target}", f"compiled by {compiler_words}",
             "needs from outside: " + (", ".join(needs) or "nothing"), *([f"supplied by library/helpers.c: {', '.join(supplied)}"] if supplied else []),
             "bytes of code, each operation linked alone:"]
    return "\n".join([*lines, *(f"    {size:7,}  {name}" for name, size in sizes.items())]) + "\n"


def build_x86(_, folder, work, target):
    """The library that rt made is taken as it is: its module is not compiled again."""
    number, version = bindings.version()
    library, shared, soname = f"{folder}/libanalyser.a", f"{folder}/libanalyser.so", f"libanalyser.so.{number // 10000}"
    shutil.copyfile(PROVED, library)
    run(["gcc", "-shared", f"-Wl,-soname,{soname}", "-Wl,-z,defs", "-o", shared, "-Wl,--whole-archive", library, "-Wl,--no-whole-archive"])
    shutil.copyfile(shared, f"{folder}/{soname}")  # no link: rt ci takes none in the repository
    write(f"{folder}/analyser.pc", "prefix=${pcfiledir}\n\nName: analyser\nDescription: flows on flat canal drawings, proved\n"
          f"Version: {version}\nCflags: -I${{prefix}}\nLibs: -L${{prefix}} -lanalyser\n")
    write(f"{folder}/analyser.py", "\n".join(bindings.python()) + "\n")
    return about(target, " ".join(["rt lib", *kit.CPU]), undefined(library), [], sizes_of_elf(library, work))


def build_arm(text, folder, work, target):
    machine, library = MACHINES[target], f"{folder}/libanalyser.a"
    made, helpers = compiled(text, machine, work), f"{work}/helpers.o"
    headers = ["-ffreestanding", "-fno-builtin", "-nostdinc", "-isystem", run(["gcc", "-print-file-name=include"]).strip()]
    run([*compiler(machine), *headers, "-std=c11", "-Wall", "-Wextra", "-c", f"{TOP}/library/helpers.c", "-o", helpers])
    run([module.tool("llvm-ar"), "rcs", library, made, helpers])
    defined = set(re.findall(r" [TW] (\S+)$", run(["nm", helpers]), re.M))
    missing = [name for name in undefined(made) + undefined(helpers) if name not in defined]
    if missing:
        raise Fault(f"library/helpers.c does not supply {', '.join(missing)}")
    words = " ".join(["clang -O3", *machine.flags])
    return about(target, words, [], undefined(made), sizes_of_elf(library, work))


def build_wasm(text, folder, work, target):
    machine = MACHINES[target]
    made = compiled(text, machine, work)
    sizes = {name: linked_wasm([made], machine, [name], f"{work}/alone.wasm") for name in names()}
    sizes["all"] = linked_wasm([made], machine, names(), f"{folder}/libanalyser.wasm")
    return about(target, " ".join(["clang -O3", *machine.flags]), [], [], sizes)


BUILDERS = {"x86-64": build_x86, "cortex-m4": build_arm, "cortex-m0plus": build_arm, "wasm32": build_wasm, "wasm64": build_wasm}


def build(text, target):
    folder, work = f"{BUILD}/{target}", f"{BUILD}/work/{target}"
    for path in (folder, work):
        shutil.rmtree(path, ignore_errors=True)
        os.makedirs(path)
    shutil.copyfile(f"{TOP}/include/analyser.h", f"{folder}/analyser.h")
    said = BUILDERS[target](text, folder, work, target)
    named = text.partition("\n")[2]  # without the first line, which has the path of a file
    write(f"{folder}/about.txt", said + f"module: sha256 {hashlib.sha256(named.encode()).hexdigest()}\n")


def make(targets):
    """Builds the library for each of these machines, of one proved module; a Fault says why it cannot."""
    text = proved_module()
    for target in targets:
        build(text, target)


def main(targets):
    if not targets or any(target not in BUILDERS for target in targets):
        print("use: tools/library TARGET ..; a target is " + ", ".join(BUILDERS), file=sys.stderr)
        return 2
    try:
        make(targets)
    except (Fault, bindings.Fault) as fault:
        print(f"tools/library: {fault}", file=sys.stderr)
        return 1
    for target in targets:
        print(f"target/library/{target}: libanalyser {bindings.version()[1]}")
    return 0


if __name__ == "__main__":
    sys.exit(main(sys.argv[1:]))
