"""The pages of the reading list: what tools/believed.roots puts on each, what that reaches, and which page has a definition first.
"""
from definitions import Definition, excerpt, fields, operation
from project import TOP

ROOTS = TOP / "tools" / "believed.roots"


class NoRoot(Exception):
    pass


class Page:
    """A page: its roots, and what it shows, which is what they reach and no earlier page has. `number` is its place among the pages."""

    def __init__(self, number, name, title):
        self.number, self.name, self.title, self.limit = number, name, title, None
        self.operations, self.statements, self.shown = [], [], []

    def definitions(self):
        return [each for each in self.shown if isinstance(each, Definition) and each.kind != "operation"]

    def lines(self):
        return sum(made.lines() for made in self.definitions())


class Reading:
    """All pages, in their order. `home` has the page of each definition and library name that is believed."""

    def __init__(self, project):
        self.project, self.pages, self.limit, self.passed_by, self.home = project, [], None, [], {}
        self.listed = {}  # each record, with the page that lists it whole under None, and the page of each field that is listed by its name
        take_roots(self)
        place_statements(self)
        for page in self.pages:
            page.shown = [each for each in reached(self, page.operations + page.statements) if each not in self.home]
            self.home.update({each: page for each in page.shown})
        self.home.update({made.whole: page for page in reversed(self.pages) for made in page.definitions()})

    def believed(self):
        """All that some page shows, records whole."""
        return {each.whole if isinstance(each, Definition) else each for each in self.home}

    def earlier(self, page, definitions):
        """What some definitions of a page use that an earlier page has, in the order in which they do."""
        used = dict.fromkeys(each for made in definitions for each in self.project.used(made))
        return [each for each in used if isinstance(each, Definition) and each in self.home and self.home[each].number < page.number]

    def rests_on(self, page):
        """The earlier pages that have something of what a page's roots reach."""
        found = {self.home[each] for each in reached(self, page.operations + page.statements) if isinstance(each, Definition)}
        return sorted(found - {page}, key=lambda other: other.number)


# ── tools/believed.roots ──
def take_roots(reading):
    for number, line in enumerate(ROOTS.read_text(encoding="utf-8").splitlines(), 1):
        words = line.split("#")[0].split()
        try:
            if words:
                take_root(reading, words[0], words[1:])
        except (ValueError, KeyError, IndexError, StopIteration, AttributeError):
            raise NoRoot(f"tools/believed.roots, line {number}: no such root: {line.strip()}") from None


def take_root(reading, kind, words):
    project, pages = reading.project, reading.pages
    if kind == "page":
        pages.append(Page(len(pages), words[0], " ".join(words[1:])))
    elif kind == "limit":
        (pages[-1] if pages else reading).limit = int(words[0])
    elif kind == "operation":
        crate, name = words
        pages[-1].operations.append(next(made for file in project.sources(crate) for made in [operation(file, name)] if made))
    elif kind == "statements":
        for name in words[1:]:
            list_statement(reading, records(project, words[0]), *name.split("."))
    elif kind == "one-end":
        reading.passed_by += [place for place in words if project.file(place).definitions]
    else:
        raise ValueError(kind)


def records(project, place):
    return {made.name: made for made in project.file(place).definitions if made.kind == "record"}


def list_statement(reading, found, name, field=None):
    """The last page lists a record, or one field of it. Either is listed once."""
    listed = reading.listed.setdefault(found[name], {})
    if field in listed or field and field not in fields(found[name]):
        raise ValueError(field)
    listed[field] = reading.pages[-1]


# ── which statement stands on which page ──
def place_statements(reading):
    """Each record on the page that lists it; where other pages list fields of it, an excerpt on each of them."""
    say_unlisted(reading)
    for record, listed in reading.listed.items():
        home = {field: listed.get(field) or listed.get(None) for field in fields(record) if {None, field} & set(listed)}
        pages = sorted(set(home.values()), key=lambda page: page.number)
        for page in pages:
            here = [field for field in home if home[field] is page]
            page.statements.append(excerpt(record, here, page is pages[0]) if len(pages) > 1 else record)


def say_unlisted(reading):
    """A record beside others that are listed is a statement too, and every field of it has a page."""
    for place in dict.fromkeys(record.file.place for record in reading.listed):
        for record in records(reading.project, place).values():
            missing = [field for field in fields(record) if not {None, field} & set(reading.listed.get(record, {}))]
            if missing:
                reading.project.faults.say(f"tools/believed.roots: no page lists {record.name} of {place}: {', '.join(missing)}")


# ── what the roots reach, and its order ──
def reached(reading, begin):
    """All that the roots mention, and what that mentions; a definition of proofs/ is a fault, and is not followed."""
    seen, open_ = {}, list(begin)
    while open_:
        made = open_.pop()
        if made in seen:
            continue
        seen[made] = True
        for each in reading.project.used(made) if isinstance(made, Definition) else []:
            if isinstance(each, Definition) and each.file.place in reading.passed_by:
                continue
            if isinstance(each, Definition) and each.file.place.split("/")[1] == "proofs":
                reading.project.faults.say(f"{made.file.place}: {made.name} needs {each.name} of {each.file.place}: a reader must not need proofs/")
            else:
                open_.append(each)
    return seen


def dependencies_first(items, uses):
    """The items in their order, but each behind those that it uses."""
    order, begun = [], set()

    def visit(item):
        if item not in begun:
            begun.add(item)
            for each in items:
                if each in uses(item):
                    visit(each)
            order.append(item)

    for item in items:
        visit(item)
    return order


def reading_order(project, page):
    """The files of a page with what it shows of them: crate by crate in the order of crates.txt, the types of the source, then specs/."""
    order, here = {}, {made.whole: made for made in page.definitions()}
    for crate in project.crates:
        shown = {file: [here[made] for made in file.definitions if made in here] for file in project.sources(crate) + project.specs(crate)}
        needs = {file: {each.file for made in shown[file] for each in project.used(made) if isinstance(each, Definition)} for file in shown}
        for file in dependencies_first([file for file in shown if shown[file]], lambda file: needs[file]):
            order[file] = dependencies_first(shown[file], project.used)
    return order
