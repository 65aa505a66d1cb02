"""The pages of the reading list as HTML, for a folder of the caller's: every name in a definition is a link to its definition. There are no scripts, and nothing
is taken from the net.
"""
import html
import re
from urllib.parse import quote, unquote

from definitions import Definition, is_comment, member_of
from project import Library
from reading import reached, reading_order
from reading_markdown import COUNTED, HEADER, LIBRARY, NOTATION, below_sections, counted, library_line, short

STYLE = """
:root { color-scheme: light dark; --ground: #fff; --ink: #1a1a1a; --quiet: #5f6672; --link: #0b57a4; --block: #f5f6f8; --line: #d9dce1; --mark: #fff3c4; }
@media (prefers-color-scheme: dark) {
  :root { --ground: #16181c; --ink: #e4e6ea; --quiet: #9aa1ad; --link: #7db7f5; --block: #1f2228; --line: #363b44; --mark: #4a4220; }
}
body { margin: 0 auto; max-width: 90rem; padding: 1rem 1.5rem 4rem; background: var(--ground); color: var(--ink); font: 16px/1.5 system-ui, sans-serif; }
p, ul, nav { max-width: 60rem; }
a { color: var(--link); text-decoration: none; }
a:hover, a:focus { text-decoration: underline; }
h2 { margin-top: 2.5rem; border-top: 1px solid var(--line); padding-top: 1rem; font-size: 1.15rem; }
h3 { font-size: 1rem; }
pre { margin: .6rem 0; padding: .6rem .8rem; overflow-x: auto; background: var(--block); border-radius: 4px; font: 13px/1.45 ui-monospace, monospace; }
code { font-family: ui-monospace, monospace; font-size: .9em; }
pre i { color: var(--quiet); font-style: normal; }
pre:target, pre :target, li:target { background: var(--mark); }
table { border-collapse: collapse; }
td, th { border-bottom: 1px solid var(--line); padding: .2rem .8rem .2rem 0; text-align: left; vertical-align: top; }
.names { columns: 16rem; padding: 0; list-style: none; max-width: none; }
"""

ANTT = re.compile(r"[(){},;]|[^\s(){},;]+")
RUST = re.compile(r"⟦.*?⟧|[^\s(){},;\[\]&<>:]+|.")
COMMENT = {".antt": re.compile(r"(^|(?<=\s))--(\s.*)?$"), ".rt": re.compile(r"//.*$")}


def html_texts(reading):
    """The text of each page, by the name of its file."""
    pages = Html(reading)
    return {"index.html": pages.index(), **{f"{page.name}.html": pages.page(page) for page in reading.pages}}


def broken_links(texts):
    """The links that lead nowhere."""
    places = {name: {html.unescape(place) for place in re.findall(r' id="([^"]*)"', text)} for name, text in texts.items()}
    for name, text in texts.items():
        for link in dict.fromkeys(re.findall(r'href="([^"]*)"', text)):
            page, _, place = link.partition("#")
            if place and unquote(place) not in places.get(page or name, ()):
                yield f"{name}: {link} leads nowhere"


def inline(text):
    """A line of prose: `code`, and links of the Markdown pages as their words."""
    text = re.sub(r"\[([^\]]*)\]\([^)]*\)", r"\1", text)
    return re.sub(r"`([^`]*)`", r"<code>\1</code>", html.escape(text, quote=False))


def paragraphs(text):
    return [f"<p>{inline(' '.join(part.split()))}</p>" for part in text.strip().split("\n\n")]


def document(title, body):
    head = f'<!DOCTYPE html>\n<html lang="en">\n<head>\n<meta charset="utf-8">\n<meta name="viewport" content="width=device-width">\n<title>{inline(title)}</title>'
    return "\n".join([head, f"<style>{STYLE}</style>", "</head>", "<body>", *body, "</body>", "</html>", ""])


def suffix(file):
    return ".rt" if file.place.endswith(".rt") else ".antt"


def id_of(each):
    """The name of a definition's place on its page."""
    if isinstance(each, Library):
        return f"{each.module}.{each.name}"
    return f"{each.file.place}:{each.name}"


class Html:
    """Makes the pages. `at` has the page of each definition and library name, `declared` the records and structs that have a field of each name."""

    def __init__(self, reading):
        self.reading, self.project, self.at = reading, reading.project, reading.home
        self.orders = {page: reading_order(self.project, page) for page in reading.pages}
        self.declared, self.reach = {}, {}
        for page, order in self.orders.items():
            for made in (made for definitions in order.values() for made in definitions if made not in page.statements):
                for name in field_names(made):
                    self.declared.setdefault(name, []).append(made)

    def link(self, each, text, page):
        """The text as a link to what it stands for."""
        if each not in self.at:
            return html.escape(text, quote=False)
        there = self.at[each]
        return f'<a href="{"" if there is page else there.name + ".html"}#{quote(id_of(each))}">{html.escape(text, quote=False)}</a>'

    # ── a definition ──
    def definition(self, made, page, above=()):
        above = [f"<i>{html.escape(line, quote=False)}</i>" for line in [*above, *made.fixity, *made.comment]]
        lines = [self.line(made, page, at, line) for at, line in enumerate(made.code)]
        return f'<pre id="{html.escape(id_of(made))}">' + "\n".join(above + lines) + "</pre>"

    def line(self, made, page, at, line):
        if is_comment(line):
            return f"<i>{html.escape(line, quote=False)}</i>"
        comment = COMMENT[suffix(made.file)].search(line)
        code, rest = (line[:comment.start()], comment.group()) if comment else (line, "")
        names, own = self.names(made, at), own_names(made, at)
        words = (RUST if suffix(made.file) == ".rt" else ANTT).sub(lambda word: self.word(made, page, word.group(), names, own), code)
        return words + (f"<i>{html.escape(rest, quote=False)}</i>" if rest else "")

    def names(self, made, at):
        """What the names on a line of a definition stand for."""
        types, *parts = self.project.named_in_parts(made)
        here = [part for part, (start, end) in zip(parts, made.spans) if start <= at < end]
        return {name: each for part in [types, *here] for name, each in reversed(part)}

    def word(self, made, page, word, names, own):
        if word in own:
            place = "" if word == made.name else f' id="{html.escape(id_of(made) + "." + word)}"'
            own.remove(word)
            return f"<b{place}>{html.escape(word, quote=False)}</b>"
        if word in names:
            return self.link(names[word], word, page)
        first, *fields = re.split(r"(?=\.)", word)
        if any(field[1:] in self.declared for field in fields):
            parts = [self.field(made, page, field) if field[1:] in self.declared else html.escape(field, quote=False) for field in fields]
            return (self.link(names[first], first, page) if first in names else html.escape(first, quote=False)) + "".join(parts)
        return html.escape(word, quote=False)

    def field(self, made, page, word):
        """The field of a record, as in `r.field`: of the one record with such a field that the definition reaches; of several, a link to where they are listed."""
        if made not in self.reach:
            self.reach[made] = reached(self.reading, [made])
        found = [each for each in self.declared[word[1:]] if each in self.reach[made]]
        return self.link(found[0], word, page) if len(found) == 1 else f'<a href="index.html#field{quote(word)}">{html.escape(word, quote=False)}</a>'

    # ── a page ──
    def page(self, page):
        body = [self.pages(page), f"<h1>{inline(page.title)}</h1>", *self.beginning(page)]
        for file, definitions in self.orders[page].items():
            body += [f'<h2 id="{html.escape(file.place)}">{inline(file.place)}</h2>', *self.about(page, file)]
            for above, made in below_sections(definitions):
                body += self.others(page, made) + [self.definition(made, page, above)]
        if page.operations:
            body += ['<h2 id="operations">Operations</h2>', *(self.definition(made, page) for made in page.operations)]
        return document(page.title, body + self.library(page))

    def pages(self, page):
        """The way to the other pages."""
        links = [inline(short(other)) if other is page else f'<a href="{other.name}.html">{inline(short(other))}</a>' for other in self.reading.pages]
        return "<nav>" + " · ".join(['<a href="index.html">All pages and names</a>', *links]) + "</nav>"

    def beginning(self, page):
        rests = ", ".join(f'<a href="{other.name}.html">{inline(short(other))}</a>' for other in self.reading.rests_on(page)) or "no other page"
        statements = ", ".join(self.link(made.whole, made.name, page) if self.at[made.whole] is page else f'<a href="#{quote(id_of(made))}">{made.name}</a>'
                               for made in page.statements)
        yield f"<p>{counted(len(page.definitions()), 'definition')} and statements in {counted(page.lines(), 'line')}. This page rests on {rests}.</p>"
        if statements:
            yield f"<p>The statements: {statements}.</p>"
        if page.operations:
            yield "<p>The operations: " + ", ".join(self.link(made, made.name, page) for made in page.operations) + ".</p>"

    def about(self, page, file):
        others = [other for other in self.reading.pages[:page.number] if file in self.orders[other]]
        if others:
            links = ", ".join(f'<a href="{other.name}.html#{quote(file.place)}">{inline(short(other))}</a>' for other in others)
            return [f"<p>More of this file is on {links}.</p>"]
        return paragraphs(" ".join(file.header)) if file.header else []

    def others(self, page, made):
        """Where the other fields of a record stand."""
        pages = [other for other in self.reading.pages if other is not page and any(each.whole is made.whole for each in other.statements)]
        links = ", ".join(f'<a href="{other.name}.html#{quote(id_of(made))}">{inline(short(other))}</a>' for other in pages)
        return [f"<p><code>{made.name}</code> has other fields on {links}.</p>"] if made.whole is not made and links else []

    def library(self, page):
        names = sorted((each for each in page.shown if isinstance(each, Library)), key=lambda each: (each.module, each.name))
        body = ['<h2 id="library">The library</h2>', *paragraphs(LIBRARY)] if names else []
        for module in sorted({each.module for each in names}):
            lines = [f'<li id="{html.escape(id_of(each))}">{inline(library_line(each)[0][2:])}</li>' for each in names if each.module == module]
            body += [f"<h3>{inline(module)}</h3>", "<ul>", *lines, "</ul>"]
        return body

    # ── all pages, all names ──
    def index(self):
        body = ["<h1>What a reader must believe</h1>", *paragraphs(HEADER), "<h2>The pages</h2>", *self.table(), *paragraphs(COUNTED)]
        body += ["<h2>How to read a page</h2>", *paragraphs(NOTATION), "<h2>All names</h2>", '<ul class="names">', *self.names_by_letter(), "</ul>"]
        body += ["<h2>Fields that several records have</h2>", "<ul>", *self.shared_fields(), "</ul>"]
        return document("What a reader must believe", body)

    def table(self):
        yield "<table><tr><th>page</th><th>rests on</th><th>definitions</th><th>lines</th></tr>"
        for page in self.reading.pages:
            rests = ", ".join(inline(short(other)) for other in self.reading.rests_on(page))
            title = f'<a href="{page.name}.html">{inline(page.title)}</a>'
            yield f"<tr><td>{title}</td><td>{rests}</td><td>{len(page.definitions())}</td><td>{page.lines()}</td></tr>"
        yield f"<tr><td></td><td></td><td></td><td>{sum(page.lines() for page in self.reading.pages):,}</td></tr></table>"

    def names_by_letter(self):
        """Every definition and operation, by its name, with its crate where several have it."""
        known = [each for each in self.at if isinstance(each, Definition) and each.whole is each]
        names = [each.name for each in known]
        for each in sorted(known, key=lambda each: (each.name.lower(), each.file.place)):
            crate = f" ({each.file.place.split('/')[0]})" if names.count(each.name) > 1 else ""
            yield f"<li>{self.link(each, each.name, None)}{crate}</li>"

    def shared_fields(self):
        for name, records in sorted(self.declared.items()):
            if len(records) > 1:
                links = ", ".join(f"{self.link(made, made.name, None)} ({made.file.place.split('/')[0]})" for made in records)
                yield f'<li id="field.{html.escape(name)}"><code>.{html.escape(name)}</code>: {links}</li>'


def field_names(made):
    """The fields of a record or a struct, which `r.field` names."""
    if made.kind == "struct":
        return re.findall(r"^    (?:pub )?(\w+):", "\n".join(made.code), re.M)
    return [name for start, end in made.spans[1:] for name in member_of(made.code[start:end])[0]] if made.kind == "record" else []


def own_names(made, at):
    """The names that a line defines: the definition's own on its first line, a member's on the member's first."""
    if at == 0:
        return [made.name]
    if made.kind in ("record", "data"):
        for start, end in made.spans[1:]:
            if at == next(line for line in range(start, end) if not is_comment(made.code[line])):
                return list(member_of(made.code[start:end])[0])
    return []
