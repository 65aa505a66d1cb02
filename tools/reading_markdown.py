"""The pages of the reading list as Markdown, and the page that lists them (docs/reading).
"""
import re
import textwrap

from definitions import Definition
from project import Library
from reading import reading_order

WIDTH = 160

HEADER = """
These pages have every definition that the contracts of the operations and the printed statements rest on. To know what a statement says, read its page and the
pages that it rests on. You need neither the proofs nor the code.

The first page has document 01 alone. Each Job of document 02 has a page of its own. The last page has the C interface. A page shows each definition after those
that it uses. If an earlier page has a definition, there is a link to it. [STATEMENTS](../STATEMENTS.md) has each printed sentence, with a link to its statement
here.

`tools/believed --write` makes these pages from the source files and their comments. Change the files, not the pages: the gate fails if a page is stale.
`tools/believed.roots` lists the operations and statements that each page begins with. `tools/believed --html DIR` writes the same pages as HTML, in which every
name is a link to its definition. Definitions that only loops and inner functions need are not here. Most of them are in `specs/inner/`; `tools/believed --inner`
lists them all.
"""

ONE_END = """
Some contracts and statements name a relation that you need not believe. The proofs use only two facts about it: each run is in the relation, and two runs in it
leave the same result. So these pages do not show what it says. Such relations are in
"""

COUNTED = """
The lines are those of definitions and statements, without comments and blank lines. If the fields of a record are on several pages, the record's first line counts
once. The contracts have a column of their own, with their lines in the source.
"""

NOTATION = """
A definition has a line `name : type` and then its clauses, one for each case. A `record` is a list of statements that all hold. What a statement speaks of stands
in brackets before it. A `data` has one line for each way to make it. A `◌` in a name is where an argument stands. `abbrev` and `unfoldable` tell the prover when to
open a definition, and nothing else.

`(x : A) → B` is "for every x"; `(x : A) × B` is "there is an x"; `A × B` is "and"; `A ⊎ B` is "or"; `A → ⊥` is "not"; `a ≡ b` is equality. `r.f` is the field f of
r. `t.V` is the variant V of the type that a file calls t. A type of the source appears as a `data` with its variants, and a machine number as the number that it
is.

A contract is copied from the source. `requires` is what the caller must ensure; if there is none, the function accepts everything. `ensures` is what the function
makes true, and `result` is its answer; where there are several, each has a name in front of its braces. `x.now` is the list of the elements of a slice x that is
lent to be read; of one that may be written, `x.old` is that list when the function begins and `x.new` when it has ended. A number stands for itself.
"""

LIBRARY = """
These names are from Rattle's library, module by module, each with its type and with what the library's file says of it. The numbers of `Prim` are built into the
prover.
"""


# ── pieces of Markdown ──
def prose(text):
    """Wrapped, with no line's end in the words of a link; a line that begins like a list or a heading would become one."""
    text = re.sub(r"\[[^\]]*\]\(", lambda link: link.group().replace(" ", "\0"), " ".join(text.split()))
    lines = [line.replace("\0", " ") for line in textwrap.wrap(text, WIDTH - 1, break_long_words=False, break_on_hyphens=False)]
    begins = re.compile(r"^([-+*#>](?=\s|$)|\d+(?=[.)](\s|$)))")
    return [begins.sub(lambda start: start.group() + "\\" if start.group().isdigit() else "\\" + start.group(), line) for line in lines]


def paragraphs(text):
    return [line for part in text.strip().split("\n\n") for line in prose(part) + [""]]


def anchor(heading):
    return re.sub(r"[^\w\- ]", "", heading.lower()).replace(" ", "-")


def code(language, blocks):
    """One code block of several definitions, a blank line between two."""
    lines = [line for block in blocks for line in block + [""]]
    return [f"```{language}", *lines[:-1], "```", ""]


def shown(definitions):
    """The lines of each definition, with what stands above it."""
    return [above + made.fixity + made.comment + made.code for above, made in below_sections(definitions)]


def below_sections(definitions):
    """Each definition with the section and the modules that it stands in, where these are others than those of the one before."""
    section, outer = [], []
    for made in definitions:
        lines = made.section if made.section != section else []
        yield lines + [module for depth, module in enumerate(made.outer) if made.outer[:depth + 1] != outer[:depth + 1]], made
        section, outer = made.section, made.outer


def to_page(page, heading=None):
    """A link to a page, by its short name, or to a heading of it."""
    return f"[{short(page)}]({page.name}.md{'#' + anchor(heading) if heading else ''})"


def short(page):
    return page.title.split(":")[0]


def listed(links):
    return ", ".join(links)


def counted(number, noun):
    return f"{number:,} {noun}" + ("" if number == 1 else "s")


# ── what a file's names mean, where the page does not have its imports ──
def homonyms(believed):
    """The names that more than one definition has, as its own or as a constructor's."""
    names = [name for made in believed for name in ({made.name, *made.constructors} if isinstance(made, Definition) else {made.name})]
    return {name for name in names if names.count(name) > 1}


def owner(each, name):
    """Where a name is from, as the page says it: a type for its constructor, a file, a module of the library."""
    if isinstance(each, Library):
        return f"`{each.module}`"
    return f"`{each.name}`" if name in each.constructors else each.file.place


def told_apart(project, definitions, shared):
    """Which of several definitions of one name a file means."""
    owners = {}
    for made in definitions:
        for name, each in project.named(made):
            plain = name.rsplit(".", 1)[-1]
            if plain in shared and (isinstance(each, Library) or each.file is not made.file):
                owners.setdefault(owner(each, plain), {})[f"`{name}`"] = True
    said = [" and ".join(names) + (" are those of " if len(names) > 1 else " is that of ") + place for place, names in owners.items()]
    return prose(f"Here {', '.join(said)}.") + [""] if said else []


# ── a page ──
class Markdown:
    """Makes the pages of a reading list."""

    def __init__(self, reading):
        self.reading, self.project, self.shared = reading, reading.project, homonyms(reading.believed())
        self.orders = {page: reading_order(self.project, page) for page in reading.pages}

    def page(self, page):
        lines = [f"# {page.title}", "", *self.beginning(page), *self.contents(page)]
        for file, definitions in self.orders[page].items():
            lines += self.file(page, file, definitions)
        lines += self.operations(page) + self.library(page)
        return "\n".join(lines).rstrip("\n") + "\n"

    def beginning(self, page):
        rests = [to_page(other) for other in self.reading.rests_on(page)]
        text = f"{counted(len(page.definitions()), 'definition')} and statements in {counted(page.lines(), 'line')}"
        text += f", at most {page.limit:,}." if page.limit else "."
        text += f" This page rests on {listed(rests)}." if rests else " This page rests on no other page."
        lines = prose(text + " [How to read a page](README.md#how-to-read-a-page).") + [""]
        statements = [f"[`{made.name}`](#{anchor(made.name)})" for file in self.orders[page].values() for made in file if made in page.statements]
        if statements:
            lines += prose(f"The statements: {listed(statements)}.") + [""]
        if page.operations:
            lines += prose("The [operations](#operations): " + listed(f"`{made.name}`" for made in page.operations) + ".") + [""]
        return lines

    def contents(self, page):
        lines = ["| file | definitions | lines |", "|---|---|---|"]
        for file, definitions in self.orders[page].items():
            lines.append(f"| [`{file.place}`](#{anchor(file.place)}) | {len(definitions)} | {sum(made.lines() for made in definitions)} |")
        return lines + [""]

    def file(self, page, file, definitions):
        lines = [f"## {file.place}", "", *self.about(page, file), *told_apart(self.project, definitions, self.shared), *self.from_earlier(page, definitions)]
        block = []
        for made in [*definitions, None]:
            if made is not None and made not in page.statements:
                block.append(made)
            else:
                lines += code("rust" if file.place.endswith(".rt") else "agda", shown(block)) if block else []
                lines += self.statement(page, made) if made else []
                block = []
        return lines

    def about(self, page, file):
        """The header of the file, on the first page that shows some of it; on a later one, which those are."""
        others = [other for other in self.reading.pages[:page.number] if file in self.orders[other]]
        if others:
            return prose(f"More of this file is on {listed(to_page(other, file.place) for other in others)}.") + [""]
        return prose(" ".join(file.header)) + [""] if file.header else []

    def from_earlier(self, page, definitions):
        found = {}
        for each in self.reading.earlier(page, definitions):
            found.setdefault(self.reading.home[each], []).append(f"[`{each.name}`]({self.reading.home[each].name}.md#{anchor(each.file.place)})")
        said = [f"{short(other)} has {listed(links)}" for other, links in sorted(found.items(), key=lambda item: item[0].number)]
        return prose(f"From earlier pages: {'; '.join(said)}.") + [""] if said else []

    def statement(self, page, record):
        lines = [f"### {record.name}", ""]
        if record.whole is not record:
            others = [other for other in self.reading.pages if other is not page and any(each.whole is record.whole for each in other.statements)]
            lines += prose(f"This record has other fields on {listed(to_page(other, record.name) for other in others)}.") + [""]
        return lines + code("agda", shown([record]))

    def operations(self, page):
        lines = ["## Operations", ""] if page.operations else []
        for file in dict.fromkeys(made.file for made in page.operations):
            here = [made for made in page.operations if made.file is file]
            lines += [f"### The operations of {file.place}", "", *told_apart(self.project, here, self.shared), *self.from_earlier(page, here)]
            lines += code("rust", shown(here))
        return lines

    def library(self, page):
        names = [each for each in page.shown if isinstance(each, Library)]
        lines = ["## The library", "", *paragraphs(LIBRARY)] if names else []
        if names and page.number:
            lines += prose("These names are new on this page; earlier pages have the others.") + [""]
        for module in sorted({each.module for each in names}):
            lines += [f"**`{module}`**", ""]
            for each in sorted((each for each in names if each.module == module), key=lambda each: each.name):
                lines += library_line(each)
            lines.append("")
        return lines

    # ── the page that lists the others ──
    def readme(self):
        lines = ["# What a reader must believe", "", *paragraphs(HEADER)]
        if self.reading.passed_by:
            lines += prose(ONE_END + listed(f"`{place}`" for place in self.reading.passed_by) + ".") + [""]
        lines += ["## The pages", "", *self.table(), "", *paragraphs(COUNTED), "## How to read a page", "", *paragraphs(NOTATION)]
        return "\n".join(lines).rstrip("\n") + "\n"

    def table(self):
        pages = self.reading.pages
        yield "| page | rests on | definitions | lines | at most | contracts |"
        yield "|---|---|---|---|---|---|"
        for page in pages:
            rests = listed(short(other).removeprefix("Document ") for other in self.reading.rests_on(page))
            yield f"| [{page.title}]({page.name}.md) | {rests} | {len(page.definitions())} | {page.lines()} | {page.limit or ''} | {contracts(page)} |"
        made = {each.whole for page in pages for each in page.definitions()}
        lines, asked = sum(page.lines() for page in pages), sum(contracts(page) for page in pages)
        yield f"| {len(pages)} pages |  | {len(made)} | {lines:,} | {self.reading.limit or 0:,} | {asked} |"


def contracts(page):
    return sum(made.lines() for made in page.operations)


def library_line(each):
    """A name with its type and the first sentence of its comment, as far as the kit has them. A long sentence is about how it is made, not what it is."""
    made = each.found
    if made is None:
        return [f"- `{each.name}`"]
    if each.name in made.constructors:
        return [f"- `{each.name} : {' '.join(made.constructors[each.name]).split(' : ', 1)[1]}`"]
    typed = re.sub(r"^((abbrev|unfoldable|pub|record|data) )*", "", " ".join(made.code[0].split())).removesuffix(" where")
    said = re.split(r"(?<=\.)\s", " ".join(line.strip().lstrip("-").strip() for line in made.comment))[0]
    return [f"- `{typed}`" + (f": {said}" if said and len(said) + len(typed) < WIDTH - 8 else "")]
