"""Reads the definitions of an .antt file, the types and contracts of an .rt file, and which names each of them mentions.

It knows as much of both languages as that needs: where a definition begins, what its lines bind, what a file imports. A name that it cannot place is a fault (see
tools/believed), so what it does not know shows itself and is not passed over.
"""
import re

# What every antt file and every clause of a contract is lent, and the words of the language.
LENT = set("→ × λ = : | _ , Type Unit tt ⊥ record where let in with elim IsProp".split())
OPEN, CLOSE = "({", ")}"
TOKEN = re.compile(r"[(){},;]|[^\s(){},;]+")
SECTION = re.compile(r"\s*-- ──.*──$")


class Definition:
    """One definition, with what stands above it. `parts` has its texts as (telescope, patterns, text): what the first two bind holds in the text. `spans` has
    the lines of its code, from and to, that each part is from."""

    def __init__(self, file, name, kind, code, comment=(), section=(), outer=()):
        self.file, self.name, self.kind = file, name, kind
        self.code, self.comment, self.section, self.outer = list(code), list(comment), list(section), list(outer)
        self.fixity, self.parts, self.spans, self.constructors = [], [], [], {}
        self.telescope = [word for text in outer for word in tokens(text)[2:-1]]  # of the modules around it
        self.whole, self.repeats = self, 0  # an excerpt has the record that it is from, and how many of its lines an earlier excerpt has (see `excerpt`)

    def lines(self):
        """How many lines a reader must believe: no comment, no blank line, and none that an earlier excerpt has."""
        return sum(1 for line in self.code[self.repeats:] if line.strip() and not is_comment(line))

    def add(self, part, start, end):
        self.parts.append(part)
        self.spans.append((start, end))


class File:
    """A parsed file, at a place below crates/ unless it is the kit's: its header comment, its definitions in their order, and its imports, each as
    (path, {name here: name there} or None for all, alias or None, whether it passes them on)."""

    def __init__(self, path, place=None):
        self.path, self.place = path, place
        self.header, self.imports, self.definitions, self.children = [], [], [], []


def tokens(text):
    text = re.sub(r"⟦.*?⟧", " ", text)  # code in a contract: not names of definitions
    return TOKEN.findall(re.sub(r"(?m)(^|\s)--(\s.*)?$", "", text))


def indent(line):
    return len(line) - len(line.lstrip())


def is_comment(line):
    return line.lstrip().startswith(("--", "//"))


# ── imports ──
def import_of(text):
    """A `use` line without its `pub use`: its path, its names as {name here: name there}, and its alias."""
    text = " ".join(text.split()).rstrip(";").strip()
    named = re.fullmatch(r"(.*?)\.\{(.*)\}", text)
    if named:
        pairs = [item.strip() for item in named.group(2).split(",") if item.strip()]
        return named.group(1), dict(reversed(item.split(" as ")) if " as " in item else (item.split(".")[-1], item) for item in pairs), None
    aliased = re.fullmatch(r"(\S+) as (\S+)", text)
    if aliased:
        return aliased.group(1), {}, aliased.group(2)
    if text.endswith(".*"):
        return text[:-2], None, None
    return text, {}, text.split(".")[-1]


def take_import(file, lines, at, start):
    """The import that begins on a line, which its braces may carry over further ones; returns the line behind it."""
    end = at + 1
    while "{" in "".join(lines[at:end]) and "}" not in "".join(lines[at:end]):
        end += 1
    text = " ".join(lines[at:end])
    file.imports.append(import_of(text[start:]) + ("pub use" in text[:start],))
    return end


# ── an .antt file ──
def antt_file(path, place=None):
    """Line by line: what stands at the depth of the innermost `module` begins something, what is deeper carries on."""
    file = File(path, place)
    lines = path.read_text(encoding="utf-8").split("\n")
    at, above_it = take_header(file, lines), Above()
    while at < len(lines):
        used = re.match(r"(unfoldable )?(pub )?use ", lines[at])
        if used:
            at = take_import(file, lines, at, used.end())
        elif re.match(r"\s*module ", lines[at]):
            at = above_it.enter(lines, at)
        else:
            end = behind(lines, at)
            above_it.leave(lines[at])
            take_block(file, lines[at:end], above_it)
            at = end
    return file


class Above:
    """What the definition that comes next stands below: a comment, a section, and the modules around it; and all fixities so far."""

    def __init__(self):
        self.comment, self.section, self.fixity, self.outer = [], [], [], []

    def enter(self, lines, at):
        """A module, up to its `where`; what is at the depth of the line behind that stands in it."""
        self.leave(lines[at])
        end = at + 1
        while not lines[end - 1].rstrip().endswith("where"):
            end += 1
        inside = next(line for line in lines[end:] if line.strip())
        self.outer.append(("\n".join(lines[at:end]), indent(inside)))
        return end

    def leave(self, line):
        while self.outer and line.strip() and indent(line) < self.outer[-1][1]:
            self.outer.pop()

    def blank(self):
        """A comment with nothing right below it is about all that follows."""
        if self.comment:
            self.section, self.comment = self.comment, []

    def taken(self):
        """The comment, for what stands below it. One that begins a section of its own ends the section above."""
        comment, self.comment = self.comment, []
        if comment and comment[0].lstrip().startswith("-- ──"):
            self.section = []
        return comment


def take_block(file, block, above_it):
    line = block[0]
    if not line.strip():
        above_it.blank()
    elif SECTION.match(line):
        above_it.section, above_it.comment = [line], []
    elif line.lstrip().startswith("--"):
        above_it.comment.append(line)
    elif re.match(r"\s*infix[lr]? ", line):
        above_it.fixity.append(line)
    elif re.match(r"(pub )?mod ", line):
        file.children.append(line.split()[-1])
    elif begins(block):
        file.definitions.append(begun(file, block, above_it))
    elif file.definitions:
        carry_on(file.definitions[-1], above_it.taken() + block)


def take_header(file, lines):
    """The comment at the top, unless a definition stands right below it; returns the line behind it."""
    at = 0
    while at < len(lines) and lines[at].startswith(("--", "//")):
        at += 1
    below = lines[at] if at < len(lines) else ""
    if below.strip() and not re.match(r"(ghost )?(pub )?use ", below):
        return 0
    file.header = [line[2:].strip() for line in lines[:at]]
    return at


def behind(lines, at):
    """The line behind what begins here: deeper lines belong to it, with blank ones between them."""
    end = at + 1
    if lines[at].strip() and not lines[at].lstrip().startswith("--"):
        for place in range(end, len(lines)):
            if lines[place].strip() and indent(lines[place]) <= indent(lines[at]):
                break
            end = place + 1 if lines[place].strip() else end
    return end


def split_at(words, sign):
    """What stands before and behind the first such sign outside of brackets, or None."""
    depth = 0
    for place, word in enumerate(words):
        depth += (word in OPEN) - (word in CLOSE)
        if word == sign and depth == 0:
            return words[:place], words[place + 1:]
    return None


def begins(block):
    """A signature, record or data has its `:` before any `=`; a clause has not."""
    words = tokens("\n".join(block))
    typed, clause = split_at(words, ":"), split_at(words, "=")
    return bool(typed) and not (clause and len(clause[0]) < len(typed[0])) and words[0] != "unfolding"


def begun(file, block, above_it):
    words = [word for word in tokens("\n".join(block)) if word not in ("abbrev", "unfoldable", "opaque", "pub")]
    kind = words.pop(0) if words[0] in ("record", "data") else "function"
    made = Definition(file, words[0], kind, block, above_it.taken(), above_it.section, [text for text, _ in above_it.outer])
    before, its_type = split_at(words[1:], ":")
    if kind == "function":
        made.add((made.telescope, before, its_type), 0, len(block))  # `before` has names of levels, if anything
    else:
        made.telescope += before
        made.add((made.telescope, [], (split_at(its_type, "where") or [its_type])[0]), 0, head_of(block))
        take_members(made, block)
    names = {made.name, *made.constructors}
    made.fixity = [line for line in above_it.fixity if names & set(line.split())]
    return made


def take_members(made, block):
    """A type's parameters hold in its members, a record's members in those below them. A member of a data is a constructor."""
    known = list(made.telescope)
    for start, end in members(block):
        names, its_type = member_of(block[start:end])
        made.add((known, [], its_type), start, end)
        if made.kind == "data":
            made.constructors.update({each: [line for line in block[start:end] if not is_comment(line)] for each in names})
        else:
            known = known + ["(", *names, ":", "_", ")"]


def member_of(lines):
    """The names and the type of a member."""
    return split_at([word for word in tokens("\n".join(lines)) if word != "pub"], ":") or ([], [])


def head_of(block):
    """How many lines a record or data has up to its `where`."""
    return next((at + 1 for at, line in enumerate(block) if re.search(r"\bwhere\b", line) and not is_comment(line)), len(block))


def members(block):
    """The members of a record or data, behind its `where`, each by its lines, from and to: it begins at the depth of the first one, with the comment above."""
    spans, depth, above_it = [], None, head_of(block)
    for at in range(head_of(block), len(block)):
        if not block[at].strip() or is_comment(block[at]):
            continue
        depth = indent(block[at]) if depth is None else depth
        if indent(block[at]) == depth:
            spans.append((above_it, at + 1))
        else:
            spans[-1] = (spans[-1][0], at + 1)
        above_it = at + 1
    return spans


def fields(record):
    """The names of a record's fields."""
    return [name for start, end in members(record.code) for name in member_of(record.code[start:end])[0]]


def excerpt(record, names, first):
    """A record with these of its fields only, as the definition that a page shows. Its head is counted where it is shown first."""
    head = head_of(record.code)
    part = Definition(record.file, record.name, record.kind, record.code[:head], record.comment, record.section, record.outer)
    part.whole, part.fixity, part.repeats = record, record.fixity, 0 if first else head
    part.add(record.parts[0], 0, head)
    for member, (start, end) in zip(record.parts[1:], record.spans[1:]):
        if set(member_of(record.code[start:end])[0]) & set(names):
            part.add(member, len(part.code), len(part.code) + end - start)
            part.code += record.code[start:end]
    return part


def carry_on(made, block):
    """A clause of the definition above. An `unfolding` line is for the prover: it names nothing that the clauses do not."""
    start = len(made.code)
    made.code += block
    clause = split_at(tokens("\n".join(block)), "=")
    if clause:
        made.add((made.telescope, clause[0], clause[1]), start, len(made.code))


# ── which names a text mentions ──
def binders(words, at):
    """The names of a group `(a b : ..` whose bracket stands before `at`, or none."""
    end = at
    while end < len(words) and words[end] not in OPEN + CLOSE and words[end] not in (":", ";", "=", ","):
        end += 1
    return words[at:end] if end < len(words) and words[end] == ":" else []


def free_names(words, bound):
    """The names of a text that nothing around them binds: `(x : ..)` and `λ x.` bind up to the end of the bracket that they stand in."""
    scopes, waiting, found, at = [set(bound)], [], [], 0
    while at < len(words):
        word = words[at]
        if word in OPEN:
            names = binders(words, at + 1)
            waiting.append(names)
            scopes.append(set())
            at += len(names)
        elif word in CLOSE:
            scopes.pop()
            scopes[-1].update(waiting.pop())
        elif word.startswith("λ"):
            at = bind_lambda(words, at, scopes[-1])
        elif word == "let":
            scopes[-1].add(words[at + 1])
        elif at + 1 < len(words) and words[at + 1] == "=" and words[at - 1] in "{;":
            pass  # a field that is given its value, or an implicit argument by its name
        elif not word.startswith(".") and not any(is_bound(word, scope) for scope in scopes):
            found.append(word)
        at += 1
    return found


def is_bound(word, scope):
    """Whether a word is a name of the scope, or names a field of one, as `drawing.map.nodes` does."""
    return word.strip("«»") in scope or word.partition(".")[0].strip("«»") in scope


def bind_lambda(words, at, scope):
    """Binds what stands between λ and its dot; names with a type are in brackets, which bind by themselves."""
    word = words[at][1:]
    while not word.endswith("."):
        scope.add(word)
        at += 1
        if at == len(words) or words[at] in OPEN:
            return at - 1
        word = words[at]
    scope.add(word[:-1])
    return at


def telescope_names(words):
    return {name for at, word in enumerate(words) if word in OPEN for name in binders(words, at + 1)}


def pattern_names(patterns, is_constructor):
    """What a left side binds: every word that is no constructor, and no part of one's name."""
    return {word for word in patterns if word not in OPEN + CLOSE and not is_constructor(word, patterns)}


def mentions(made, is_constructor):
    """Every free name of a definition. `is_constructor` tells a constructor in a pattern from a variable."""
    own, found = {made.name, *made.name.split("◌")}, []
    for telescope, patterns, text in made.parts:
        bound = pattern_names(patterns, is_constructor) - own
        found.append(free_names(telescope, ()) + [word for word in patterns if word not in bound])
        found[-1] += free_names(text, bound | telescope_names(telescope))
    return [[name for name in part if name not in LENT and not re.fullmatch(r"[0-9]+|[;.(){}]", name)] for part in found]


# ── an .rt file ──
def rt_file(path, place):
    """The imports of the code (`crate::Name`) and of the contracts (`ghost use`), and the types that it declares."""
    file = File(path, place)
    lines = path.read_text(encoding="utf-8").split("\n")
    at = take_header(file, lines)
    while at < len(lines):
        used = re.match(r"(ghost |pub )?use ", lines[at])
        if used:
            end = take_import(file, [line.replace("::", ".") for line in lines], at, used.end())
        else:
            end = take_type(file, lines, at)
        at = end
    return file


def take_type(file, lines, at):
    """The enum or struct that begins on a line, if one does; returns the line behind it. Its variants are what a pattern meets as constructors."""
    declared = re.match(r"(pub )?(enum|struct) (\w+)", lines[at])
    if not declared:
        return at + 1
    end = closed(lines, at)
    made = Definition(file, declared.group(3), declared.group(2), lines[at:end], above(lines, at))
    if made.kind == "enum":
        made.constructors = dict.fromkeys(re.findall(r"^    (\w+)\s*[,({]", "\n".join(lines[at:end]), re.M))
    file.definitions.append(made)
    return end


def closed(lines, at):
    """The line behind an item: the first whose brackets are all closed."""
    depth, end = 0, at
    while True:
        code = lines[end].split("//")[0]
        depth += len(re.findall(r"[({\[]", code)) - len(re.findall(r"[)}\]]", code))
        end += 1
        if depth == 0:
            return end


def above(lines, at):
    """The comment right above a line."""
    start = at
    while start > 0 and lines[start - 1].lstrip().startswith(("//", "#[")):
        start -= 1
    return lines[start:at]


def operation(file, name):
    """A public function without its body, as a definition: its parameters are bound in its clauses. None if there is none."""
    lines = file.path.read_text(encoding="utf-8").split("\n")
    at = next((at for at, line in enumerate(lines) if re.match(rf'pub (extern "C" )?fn {name}\b', line)), None)
    if at is None:
        return None
    end = at
    while lines[end] != "{" and not (lines[end].endswith("{") and not re.match(r"\s*(requires|ensures|ghost)\b", lines[end])):
        end += 1
    code = lines[at:end] if lines[end] == "{" else lines[at:end] + [lines[end][:-1].rstrip()]
    made = Definition(file, name, "operation", code, above(lines, at))
    signature, *clauses = re.split(r"^    (?:requires|ensures|ghost)\b", "\n".join(code), flags=re.M)
    made.signature = signature
    bound = ["(", "result", "self", *re.findall(r"(\w+)\s*:[^:]", signature), ":", ")"]
    for clause in clauses:
        made.add((bound, [], tokens(clause[clause.index("{") + 1:clause.rindex("}")])), 0, len(code))
    return made


STANDARD = {"Option", "Result"}  # types of Rattle's library: no page of ours prints them


def type_names(made):
    """The types of ours that a declaration or a signature names: capitalised, with the crate before them if they are written so."""
    text = made.signature if made.kind == "operation" else "\n".join(made.code)
    text = "\n".join(line.split("//")[0] for line in text.split("\n"))
    own = {made.name, "Self", *made.constructors, *STANDARD}
    return [name for name in re.findall(r"(?:\w+::)*\b[A-Z]\w+", text) if name not in own]
