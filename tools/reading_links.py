"""The links of docs/STATEMENTS.md to the pages of the reading list: each printed sentence, in *italics*, has one at the first name behind it.
"""
import re

from definitions import Definition, fields
from reading_markdown import WIDTH, anchor

LINK = re.compile(r"\[`([^`\]]+)`\]\(reading/([\w-]+)\.md#([\w-]+)\)")
TO_PAGE = re.compile(r"\]\(reading/[\w-]+\.md")
SENTENCE = re.compile(r"(?<![*\w])\*[^*\s][^*]*\*(?!\*)")
BLOCK = re.compile(r"\n\s*\n|\n(?=- |\d+\. )")
NAME = re.compile(r"\[?`([^`\n]+)`")


class Links:
    """Where each name stands: the page, and the heading of its statement or its file."""

    def __init__(self, reading):
        self.records = [record for page in reading.pages for record in page.statements]
        self.headings = {(page.name, anchor(record.name)): {record.name, *fields(record)} for page in reading.pages for record in page.statements}
        self.headings.update({(page.name, "operations"): {made.name for made in page.operations} for page in reading.pages})
        self.page_of = {record: page for page in reading.pages for record in page.statements}
        self.files = {}
        for each, page in reading.home.items():
            if isinstance(each, Definition) and each.kind != "operation" and each.whole is each:
                self.files.setdefault(each.name, []).append((page.name, anchor(each.file.place)))
                self.headings.setdefault((page.name, anchor(each.file.place)), set()).add(each.name)

    def place(self, name, before):
        """The page and heading of a name, or None. Of several records with such a field the one is meant that the section names last, or else the first."""
        found = [record for record in self.records if name == record.name] or [record for record in self.records if name in fields(record)]
        if found:
            section = before[before.rfind("\n## "):]
            record = max(found, key=lambda each: (section.rfind(f"`{each.name}`"), -found.index(each)))
            return self.page_of[record].name, anchor(record.name)
        return self.files[name][0] if len(self.files.get(name, ())) == 1 else None

    # ── what `tools/believed --write` does ──
    def turned(self, text):
        """The text with each link turned to the page that has its name below the same heading."""

        def turn(link):
            name, page, heading = link.groups()
            pages = [there for there, other in self.headings if other == heading and name in self.headings[there, other]]
            return f"[`{name}`](reading/{pages[0]}.md#{heading})" if pages and page not in pages else link.group()

        return LINK.sub(turn, text)

    def added(self, text):
        """The text with a link at the first name behind each printed sentence that has none."""
        for start, end in reversed(behind_sentences(text)):
            if TO_PAGE.search(text, start, end):
                continue
            for name in NAME.finditer(text, start, end):
                place = self.place(name.group(1), text[:name.start()])
                if place:
                    text = text[:name.start()] + f"[`{name.group(1)}`](reading/{place[0]}.md#{place[1]})" + text[name.end():]
                    break
        return "\n".join(folded for line in text.split("\n") for folded in fold(line))

    # ── what `tools/believed --check` says ──
    def faults(self, text):
        for name, page, heading in LINK.findall(text):
            if name not in self.headings.get((page, heading), ()):
                yield f"{name} does not stand in reading/{page}.md#{heading}"
        for start, end in behind_sentences(text):
            if not TO_PAGE.search(text, start, end):
                sentence = text[text.rfind("*", 0, start - 1) + 1:start - 1]
                yield f"no link to docs/reading behind the printed sentence {' '.join(sentence.split())[:80]}"


def without_code(text):
    """The text, as long as it was, with no star in code."""
    return re.sub(r"`[^`\n]*`", lambda code: code.group().replace("*", "."), text)


def behind_sentences(text):
    """What stands behind each printed sentence, from and to: up to the next one, or the end of its paragraph or list item."""
    found, start, plain = [], 0, without_code(text)
    for block in [*BLOCK.finditer(text), None]:
        end = block.start() if block else len(text)
        sentences = [sentence.span() for sentence in SENTENCE.finditer(plain, start, end)]
        found += [(behind, following) for (_, behind), following in zip(sentences, [begin for begin, _ in sentences[1:]] + [end])]
        start = block.end() if block else end
    return found


def fold(line):
    """A line that is too long, on several: broken at a space outside of code, where no list or heading would begin."""
    if len(line) <= WIDTH or line.startswith("|"):
        return [line]
    spaces = [at for at in range(WIDTH + 1) if line[at] == " " and line.count("`", 0, at) % 2 == 0 and line[:at].strip()]
    spaces = [at for at in spaces if not re.match(r" ([-+*#>]|\d+[.)])\s", line[at:])]
    if not spaces:
        return [line]
    margin = " " * len(re.match(r"\s*(- |\d+\. )?", line).group())
    return [line[:spaces[-1]], *fold(margin + line[spaces[-1] + 1:])]
