"""Pages in Markdown: headings, paragraphs, rows of tables, code blocks, and what stands in backticks in them."""

import re
from pathlib import Path

from . import tree

MARK = re.compile(r"<!-- (.*?) -->$")
SPAN = re.compile(r"`([^`]+)`")
LINK = re.compile(r"\[([^\]\[]*)\]\(([^)\s]+)\)")
ROW_EDGE = re.compile(r"(?<!\\)\|")


class Block:
    """A heading, paragraph, item, row or code block, with the titles of the headings that it stands under."""

    def __init__(self, kind, line, text, titles):
        self.kind, self.line, self.text, self.titles = kind, line, text, titles
        self.cells, self.header = [], []

    def spans(self):
        """Returns what stands in backticks: line, text, and what stands between it and the one before."""
        found, end = [], 0
        for match in SPAN.finditer(self.text):
            line = self.line + self.text.count("\n", 0, match.start())
            found.append(Span(line, " ".join(match[1].split()), self.text[end : match.start()]))
            end = match.end()
        return found


class Span:
    """What stands in backticks, and the text between it and the span before it."""

    def __init__(self, line, text, lead):
        self.line, self.text, self.lead = line, text, " ".join(lead.split())


class Page:
    """A page of the checkout."""

    def __init__(self, path):
        self.path = Path(path)
        self.name = str(self.path.relative_to(tree.TOP))
        self.lines = self.path.read_text().splitlines()
        self.blocks = list(read_blocks(self.lines))

    def anchors(self):
        """Returns the anchors of the headings, as they are made of their words."""
        words = (re.sub(r"[^\w\- ]", "", block.text.lower()) for block in self.blocks if block.kind == "heading")
        return {each.replace(" ", "-") for each in words}

    def text_blocks(self):
        return [block for block in self.blocks if block.kind in ("heading", "paragraph", "row")]


def cells_of(line):
    return [cell.strip() for cell in ROW_EDGE.split(line.strip().strip("|"))]


def read_blocks(lines):
    """Gives the blocks of a page, from the top. A list's items are paragraphs."""
    titles, header, at = [], None, 0
    while at < len(lines):
        line, begin = lines[at], at
        at += 1
        if not line.startswith("|"):
            header = None
        if line.startswith("```"):
            while not lines[at].startswith("```"):
                at += 1
            yield Block("code", begin + 2, "\n".join(lines[begin + 1 : at]), list(titles))
            at += 1
        elif line.startswith("#"):
            marks, title = line.split(" ", 1)
            titles = titles[: len(marks) - 1] + [title]
            yield Block("heading", begin + 1, title, list(titles))
        elif line.startswith("|"):
            block = Block("row", begin + 1, line, list(titles))
            block.cells, block.header = cells_of(line), header or []
            if header is None:
                header = block.cells
            elif not re.fullmatch(r"[|\-: ]+", line):
                yield block
        elif line.strip() and not MARK.match(line):
            while at < len(lines) and lines[at].strip() and not re.match(r"( *[-*\d]+\.? |#|\||```|<!--)", lines[at]):
                at += 1
            yield Block("paragraph", begin + 1, "\n".join(lines[begin:at]), list(titles))


def marked_parts(page):
    """Returns each part between marks: its name, the line after its mark, and the line of its end."""
    found, begin = [], None
    for number, line in enumerate(page.lines):
        mark = MARK.match(line)
        if mark and mark[1] == "end":
            if begin:
                found.append((begin[0], begin[1], number))
            begin = None
        elif mark:
            begin = (mark[1].split(":")[0], number + 1)
    return found


def pages():
    """Returns the pages that are checked."""
    tops = ("README.md", "CONTRIBUTING.md", "bench/README.md")
    paths = [*(tree.TOP / name for name in tops), *sorted((tree.TOP / "docs").glob("*.md"))]
    return [Page(path) for path in paths]
