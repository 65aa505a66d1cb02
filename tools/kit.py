"""The Rattle kit on the path, the lines of crates.txt, and rattle's own command line for a crate, as rt writes it. tools/build, tools/module, tools/edits and
tools/project use it.
"""
import functools
import hashlib
import os
import re
import shutil
from typing import NamedTuple

TOP = os.path.dirname(os.path.dirname(os.path.realpath(__file__)))
PARTS = ("src", "specs", "proofs")  # what a verdict on a crate reads


class Crate(NamedTuple):
    """A line of crates.txt. `heading` is the comment that stands above it and above those of its layer."""
    name: str
    is_static: bool
    uses: list
    heading: str

    def folder(self):
        return f"{TOP}/crates/{self.name}"

    def is_program(self):
        return os.path.exists(f"{self.folder()}/src/main.rt")


@functools.lru_cache(maxsize=None)
def crates():
    """The crates by their names, in the order of crates.txt, lowest first. Its first line says the form, and is no heading."""
    found, heading = {}, ""
    with open(f"{TOP}/crates.txt", encoding="utf-8") as file:
        for number, line in enumerate(file.read().splitlines()):
            if line.startswith("#"):
                heading = line[1:].strip() if number else ""
                continue
            words, colon, uses = line.partition("#")[0].partition(":")
            if colon:
                name, *kind = words.split()
                found[name] = Crate(name, "staticlib" in kind, uses.split(), heading)
    return found


def below(name):
    """The repository's libraries below a crate, each after those that it uses."""
    found = []
    for use in crates()[name].uses:
        if use in crates():
            found += [each for each in [*below(use), use] if each not in found]
    return found


def home():
    """The folder of the kit that `rt` on the path is of, or None."""
    rt = shutil.which("rt")
    return os.path.dirname(os.path.dirname(os.path.realpath(rt))) if rt else None


def kit():
    """The same; ends where there is none."""
    found = home()
    if not found:
        raise SystemExit("the Rattle toolchain is needed: put `rt` on the path")
    return found


def files_of(name):
    for part in PARTS:
        for folder, folders, names in os.walk(f"{TOP}/crates/{name}/{part}"):
            folders.sort()
            yield from (f"{folder}/{each}" for each in sorted(names))


@functools.lru_cache(maxsize=None)
def own_sum(name):
    made = hashlib.sha256()
    for path in files_of(name):
        with open(path, "rb") as file:
            made.update(f"{os.path.relpath(path, TOP)}\n".encode() + hashlib.sha256(file.read()).digest())
    return made.hexdigest()


def text_sum(*names):
    """A sum of the kit's line, and of the lines of crates.txt and the files that a verdict on these crates reads, with those below them; of all, with no name."""
    wanted = [each for each in crates() if not names or any(each == name or each in below(name) for name in names)]
    with open(f"{kit()}/KIT-ID", encoding="utf-8") as file:
        said = [file.read()] + [(each, crates()[each].is_static, crates()[each].uses, own_sum(each)) for each in wanted]
    return hashlib.sha256(repr(said).encode()).hexdigest()


def library(name):
    return f"{TOP}/crates/{name}/out/rlib/{name}.rlib"


def passed():
    """Whether rt ci has passed over the text as it stands, in this folder: tools/build --passed."""
    try:
        with open(f"{TOP}/target/passed", encoding="utf-8") as file:
            return file.read() == text_sum()
    except FileNotFoundError:
        return False


def libraries_of_ci(name):
    """Whether the libraries below a crate are those that rt ci left, passing over the text as it stands. Those that `rt check` makes have a stamp beside them."""
    made = [library(each) for each in below(name)]
    return passed() and all(os.path.isdir(each) and not os.path.exists(f"{os.path.dirname(each)}/stamp") for each in made)


def kept(name):
    """The folder of work that checks of a crate keep for the next one."""
    return f"{TOP}/crates/{name}/out/incremental"


# The processor that the static library is made for, any x86-64: the kit's own choice is a later one.
CPU = ["--cpu", "x86-64"]


def words(name):
    """rattle's words for a crate, from its folder, over the libraries of crates/*/out: its name, its root file, what it uses, the logic, its kind."""
    crate, own = crates()[name], kit()
    said = ["--crate-name", name, "src/main.rt" if crate.is_program() else "src/lib.rt"]
    for use in ["std", *(use for use in crate.uses if use not in crates())]:
        said += ["--extern", f"{use}={own}/rlibs/{use}.rlib"]
    said += ["-L", f"dependency={own}/rlibs"]
    for use in (use for use in crate.uses if use in crates()):
        said += ["--extern", f"{use}={library(use)}"]
    for each in below(name):
        said += ["-L", f"dependency={os.path.dirname(library(each))}"]
    said += ["--antt-project", f"{own}/rattle/logic/antt-project.json", "--logic-built", f"{own}/logic_built", "--links", f"{name}="]
    if crate.is_program() or crate.is_static:
        said += [word for each in below(name) for word in ("--links", f"{each}=")]
    return said + (["--crate-type", "staticlib"] if crate.is_static else [])


def proved_line(said):
    """Whether what rattle said of a crate ends in a line that says that it is proved."""
    return bool(re.search(r"^logic=proved .*\n\Z", said, re.M))
