#!/usr/bin/env python3
"""Checks what pages say of each other and of the sources; .ci/quotes runs it.

- Each link to a file or to a heading of a page leads to one.
- The index of docs/DECISIONS.md names each decision by its number and its title.
- In the tables after `<!-- claims -->` of docs/PROOF.md and docs/FILES.md, each name is in one of the files of its row.
- A fact of HOMES is told only on the pages that are its homes.

`pages.py --paragraphs` checks nothing. It lists the paragraphs and items that have more than 8 sentences or more than 150 words.
"""
import re
import sys
from pathlib import Path

TOP = Path(__file__).resolve().parent.parent

PAGES = ("*.md", "bench/*.md", "c/*/*.md", "crates/*/*.md", "docs/*.md")
# A pattern of a fact, and the pages that may tell it. All other pages link there.
HOMES = (
    (r"9 to 30 ms", {"docs/PERFORMANCE.md"}),  # how long it takes to make tables
    (r"17432572", {"docs/CALLING.md"}),  # the memory of `Tables`
    (r"\b17 MB|\b8\.8 MB", {"docs/C.md"}),  # the memory of tables from C
    (r"\b2048 bytes", {"docs/CALLING.md"}),  # the length of a strip
    (r"instead of every result", {"docs/CALLING.md"}),  # where contracts allow `OutOfMemory`
    (r"24 bytes for each", {"docs/CALLING.md", "docs/C.md"}),  # references to received shards, in Rattle and in C
    (r"release of the (Rattle )?toolchain", {"docs/ARCHITECTURE.md"}),  # what a kit is
    (r"`c/(choice|memory)\.h`", {"docs/C.md", "docs/ARCHITECTURE.md", "CONTRIBUTING.md"}),  # the parts of the C layer
    (r"least power of two", set()),  # say: rounded up to a power of two
    (r"message \**agrees\** with (this|received) shards? if", {"docs/DEFINITIONS.md"}),
)
# Pages in which HOMES are not looked for: a page that a script writes, and the change log.
APART = {"docs/THEOREM.md", "CHANGELOG.md"}


def wrong(text):
    """Ends with a message."""
    sys.exit(f"pages: {text}")


def lines(page):
    """The lines of a page that are not in a block of code, with their numbers."""
    within = False
    for number, line in enumerate((TOP / page).read_text().split("\n"), 1):
        if line.lstrip().startswith("```"):
            within = not within
        elif not within:
            yield number, line


def anchors(page):
    """The names by which links reach the headings of a page."""
    names = {}
    for _, line in lines(page):
        heading = re.match(r"#+ (.*)", line)
        if heading:
            text = re.sub(r"\[([^\]]*)\]\([^)]*\)", r"\1", heading[1]).strip().lower()
            name = re.sub(r"[^\w\- ]", "", text).replace(" ", "-")
            names[name] = names.get(name, -1) + 1
    return {name if n == 0 else f"{name}-{n}" for name, last in names.items() for n in range(last + 1)}


def check_links(pages):
    """Each link within the repository leads to a file, and to a heading if it names one."""
    known = {page: anchors(page) for page in pages}
    count = 0
    for page in pages:
        for number, line in lines(page):
            for target in re.findall(r"\]\(([^)\s]+)\)", line):
                if re.match(r"[a-z]+:", target):
                    continue
                path, _, anchor = target.partition("#")
                to = (TOP / page).parent / path if path else TOP / page
                if not to.exists():
                    wrong(f"{page}:{number} links to {target}, which is not there")
                name = str(to.resolve().relative_to(TOP))
                if anchor and name in known and anchor not in known[name]:
                    wrong(f"{page}:{number} links to {target}, and no heading has this name")
                count += 1
    print(f"pages: {count} links lead to files and headings")


def check_decisions():
    """The index of the decisions has their numbers and titles."""
    page = (TOP / "docs/DECISIONS.md").read_text()
    index = re.findall(r"(?m)^- \[(\d+)\]\(#decision-(\d+)\) (.*)$", page)
    decisions = re.findall(r"(?m)^### Decision (\d+)\n\n\*\*(.*?)\*\*", page)
    if [(n, title) for n, _, title in index] != decisions or any(n != to for n, to, _ in index):
        wrong("the index of docs/DECISIONS.md is not that of its decisions")
    if len({n for n, _ in decisions}) != len(decisions):
        wrong("two decisions have one number")
    print(f"pages: {len(decisions)} decisions are in the index")


def check_claims():
    """The names of the tables of claims are in the files of their rows."""
    count = 0
    for page in ("docs/PROOF.md", "docs/FILES.md"):
        table = (TOP / page).read_text().split("<!-- claims -->", 1)[1].strip().split("\n\n")[0]
        for row in table.split("\n")[2:]:
            check_claim(page, *row.strip("|").split(" | "))
            count += 1
    print(f"pages: the clauses of {count} claims are in the named files")


def check_claim(page, claim, clauses, files):
    """The names of a row of claims are in its files."""
    paths = [path if path.startswith("rs_") else f"reed_solomon_simd/{path}" for path in re.findall(r"`([^`]+)`", files)]
    text = "".join(re.sub(r"//.*", "", (TOP / "crates" / path).read_text()) for path in paths)
    for name in re.findall(r"\w+", " ".join(re.findall(r"`([^`]+)`", clauses))):
        if not re.search(rf"\b{name}\b", text):
            wrong(f"{page}: {name} is not in the files of the claim {claim.strip()!r}")


def check_homes(pages):
    """The homes of a fact tell it, and no other page does."""
    for pattern, homes in HOMES:
        for home in homes:
            if not re.search(pattern, (TOP / home).read_text()):
                wrong(f"{home} is a home of {pattern!r}, and does not tell it")
        for page in pages:
            if page in homes or page in APART:
                continue
            found = re.search(pattern, (TOP / page).read_text())
            if found:
                wrong(f"{page} says {found[0]!r}. Link to {' or '.join(sorted(homes)) or 'nothing: choose other words'}")
    print(f"pages: {len(HOMES)} facts are told only on their own pages")


def list_paragraphs(pages):
    """Prints the long paragraphs of pages."""
    for page in pages:
        paragraph, begin = [], 0
        for number, line in [*lines(page), (0, "")]:
            if paragraph and (not line.strip() or re.match(r"\s*([-*]|\d+\.) |[|#]|<!--", line)):
                text = re.sub(r"`[^`]*`", "C", " ".join(paragraph))
                sentences = len(re.findall(r"[.!?:](?=\s+[A-Z*\[(]|$)", text))
                if sentences > 8 or len(text.split()) > 150:
                    print(f"{page}:{begin}: {sentences} sentences, {len(text.split())} words")
                paragraph = []
            if line.strip() and not re.match(r"[|#]|<!--|    \S", line):
                begin = begin if paragraph else number
                paragraph.append(line)


def main():
    """Checks all pages."""
    pages = sorted(str(path.relative_to(TOP)) for pattern in PAGES for path in TOP.glob(pattern))
    if sys.argv[1:] == ["--paragraphs"]:
        list_paragraphs(pages)
        return
    check_links(pages)
    check_decisions()
    check_claims()
    check_homes(pages)


main()
