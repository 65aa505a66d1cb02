"""The crates' files and the kit's library, and what each name in a definition stands for: tools/believed follows names by it.
"""
import json
import pathlib
import re

import kit
from definitions import Definition, antt_file, mentions, rt_file, type_names

TOP = pathlib.Path(kit.TOP)
CRATES = TOP / "crates"
PATH = re.compile(r"Rattle\.(\w+)\.(specs|proofs)\.(.+)")
HOLE = "◌"  # where an argument of an operator stands, in its name


class Library:
    """A name of the kit's library: not followed further. `found` is its definition, if the kit has the file."""

    def __init__(self, module, name, found):
        self.module, self.name, self.found = module, name, found

    def __eq__(self, other):
        return isinstance(other, Library) and (self.module, self.name) == (other.module, other.name)

    def __hash__(self):
        return hash((self.module, self.name))


class Faults:
    """What a reader could not follow, each said once, in the order in which it was met."""

    def __init__(self):
        self.said = []

    def say(self, text):
        if text not in self.said:
            self.said.append(text)


class Kit:
    """The library's files, by the paths of its modules. The kit is where `rt` is; without one there are names only."""

    def __init__(self):
        self.sources = pathlib.Path(kit.home() or "/opt/rattle") / "rattle"
        logic = self.sources / "logic"
        project = logic / "antt-project.json"
        mounts = json.loads(project.read_text(encoding="utf-8"))["mounts"] if project.exists() else {}
        self.roots = {name: root / "src" if (root / "src").is_dir() else root for name, root in ((name, logic / place) for name, place in mounts.items())}
        self.files = {}

    def path(self, module):
        """Where the text of a module is: `Rattle.NAME.specs.M` in the folder of the library NAME, and else where the logic mounts it."""
        ours = PATH.fullmatch(module)
        if ours:
            return (self.sources / ours[1] / ours[2]).joinpath(*ours[3].split(".")).with_suffix(".antt")
        first, *rest = module.split(".")
        return self.roots[first].joinpath(*rest).with_suffix(".antt") if first in self.roots and rest else None

    def file(self, module):
        if module not in self.files:
            path = self.path(module)
            self.files[module] = antt_file(path) if path and path.exists() else None
        return self.files[module]

    def whole(self, module, alias):
        """The module that a module passes on whole under a name of its own, or None."""
        file = self.file(module)
        return next((path for path, _, name, passed_on in file.imports if passed_on and name == alias), None) if file else None

    def find(self, module, name):
        """The module that has a name that a module has or passes on, and its definition, or None where the kit has no text of it."""
        file = self.file(module)
        if file is None:
            passed_on = self.whole(*module.rpartition(".")[::2])
            return self.find(passed_on, name) if passed_on else (module, None)
        for made in file.definitions:
            if name == made.name or name in made.constructors:
                return module, made
        for path, names, _, passed_on in file.imports:
            if passed_on and names and name in names:
                return self.find(path, names[name])
        return module, None


class Project:
    """The crates' files, read when they are first asked for, and what each name in them stands for."""

    def __init__(self, faults):
        self.faults, self.kit, self.files, self.scopes, self.uses = faults, Kit(), {}, {}, {}
        lines = (TOP / "crates.txt").read_text(encoding="utf-8").splitlines()
        self.crates = [line.split(":")[0].split()[0] for line in lines if line.strip() and not line.startswith("#")]

    def file(self, place):
        """The file at a place below crates/, or None."""
        if place not in self.files:
            path, read = CRATES / place, rt_file if place.endswith(".rt") else antt_file
            self.files[place] = read(path, place) if path.exists() else None
        return self.files[place]

    def sources(self, crate):
        return [self.file(path.relative_to(CRATES).as_posix()) for path in sorted((CRATES / crate / "src").rglob("*.rt"))]

    def specs(self, crate):
        """The files of specs/, in the order in which Lib lists them, then those of specs/inner/ in the order of specs/inner.antt."""
        places = sorted(path.relative_to(CRATES).as_posix() for path in (CRATES / crate / "specs").rglob("*.antt"))
        lists = [(self.file(f"{crate}/specs/{root}.antt"), folder) for root, folder in (("Lib", "specs"), ("inner", "specs/inner"))]
        listed = [f"{crate}/{folder}/{child}.antt" for root, folder in lists if root for child in root.children]
        return [self.file(place) for place in sorted(places, key=lambda place: listed.index(place) if place in listed else len(listed))]

    # ── what a module exports ──
    def declared(self, crate, name):
        """The enum or struct that a crate's source declares."""
        return next((made for file in self.sources(crate) for made in file.definitions if made.name == name), None)

    def exported(self, path, name):
        """What `path.name` stands for: a definition, a library name, or None."""
        ours = PATH.fullmatch(path)
        if not ours or ours[1] not in self.crates:
            module, found = self.kit.find(path, name)
            return Library(module, name, found)
        crate, part, rest = ours.groups()
        if rest.startswith("declared."):
            # the type itself, or one of its variants: both are read off its declaration
            return self.declared(crate, rest.split(".")[1])
        file = self.file(f"{crate}/{part}/{rest.replace('.', '/')}.antt")
        return self.own(file, name) or self.passed_on(file, name) if file else None

    def own(self, file, name):
        return next((made for made in file.definitions if name == made.name or name in made.constructors), None)

    def passed_on(self, file, name):
        for path, names, _, passed in file.imports:
            if passed and (names is None or name in names):
                return self.exported(path, names[name] if names else name)
        return None

    # ── what a name in a file stands for ──
    def scope(self, file):
        """The names that a file brings in or has itself, each with what it stands for."""
        if file.place not in self.scopes:
            names = {}
            for path, brought, alias, _ in file.imports:
                if brought is None:
                    self.faults.say(f"{file.place}: takes all of {path}: name what is used")
                for here, there in (brought or {}).items():
                    names[here] = self.imported(file, path, there)
                if alias and file.place.endswith(".rt"):
                    names[alias] = self.imported(file, *path.rsplit(".", 1)) if "." in path else None
            for made in file.definitions:
                names.update({name: made for name in (made.name, *made.constructors)} if file.place.endswith(".antt") else {made.name: made})
            self.scopes[file.place] = names
        return self.scopes[file.place]

    def imported(self, file, path, name):
        if file.place.endswith(".rt") and path.split(".")[0] in self.crates:
            return self.declared(path.split(".")[0], name)
        found = self.exported(f"{path}.{name.rsplit('.', 1)[0]}" if "." in name else path, name.split(".")[-1])
        if found is None:
            self.faults.say(f"{file.place}: imports {path}.{name}, which is not there")
        return found

    def qualified(self, file, name):
        """`alias.name` or `Type.Variant`, or a name by its whole path."""
        first, last = name.rsplit(".", 1)
        path = next((path for path, _, alias, _ in file.imports if alias == first), None)
        known = self.scope(file).get(first)
        return known if isinstance(known, Definition) else self.exported(path or first, last) if path or "." in first else None

    def operators(self, file, name, near):
        """What has the name as a part of its own, as `◌at◌when◌` has `when`, if all its parts are near."""
        return [made for full, made in self.scope(file).items() if HOLE in full and name in full.split(HOLE) and set(filter(None, full.split(HOLE))) <= set(near)]

    def stands_for(self, file, name, near):
        """All that a name may stand for: more than one only where operators share a word."""
        if name in self.scope(file):
            return [self.scope(file)[name]]
        operators = self.operators(file, name, near)
        return operators or ([self.qualified(file, name)] if "." in name.strip(".") else [None])

    def is_constructor(self, file, word, near):
        """Whether a word of a pattern is a constructor, or part of one's name; any other word is a variable, even if something has its name."""
        if word in self.scope(file):
            return made_by(self.scope(file)[word], word)
        if "." in word.strip("."):
            return True
        return any(full for full, made in self.scope(file).items() if HOLE in full and made in self.operators(file, word, near) and made_by(made, full))

    # ── what a definition uses ──
    def used(self, made):
        """What a definition mentions, in the order in which it does."""
        return list(dict.fromkeys(each for _, each in self.named(made) if each is not made))

    def named(self, made):
        """The names that a definition mentions, each with what it stands for."""
        return [pair for part in self.named_in_parts(made) for pair in part]

    def named_in_parts(self, made):
        """The same, part by part, behind the types of a declaration or a signature; what cannot be placed is a fault."""
        if made not in self.uses:
            parts = mentions(made, lambda word, near: self.is_constructor(made.file, word, near))
            self.uses[made] = [self.types_named(made) if made.file.place.endswith(".rt") else []]
            self.uses[made] += [[(name, each) for name in part for each in self.placed(made, name, part)] for part in parts]
        return self.uses[made]

    def placed(self, made, name, near):
        found = self.stands_for(made.file, name, near)
        if None in found:
            self.faults.say(f"{made.file.place}: {made.name} names {name}, which nothing there brings in")
        return [each for each in found if each is not None]

    def types_named(self, made):
        found = []
        for name in type_names(made):
            crate, _, plain = name.rpartition("::")
            each = self.declared(crate.split("::")[0], plain) if crate else self.scope(made.file).get(plain)
            if each is None:
                self.faults.say(f"{made.file.place}: {made.name} names the type {name}, which no crate declares")
            found += [(plain, each)] if each else []
        return found


def made_by(found, name):
    """Whether a name is a constructor of what it stands for. Of a library without files only the two of ℕ are known."""
    made = found.found if isinstance(found, Library) else found
    return name in ("zero", "suc") if made is None else name in made.constructors
