"""The documents, and where their links lead, for tools/check-documents, tools/install and tools/site.

By itself, `tools/documents.py FOLDER` prints the links in the documents of a folder that lead nowhere, as for tests/sessions/install.txt.
"""
import glob
import os
import re
import sys

TOP = os.path.dirname(os.path.dirname(os.path.realpath(__file__)))
PATTERNS = ["README.md", "CHANGELOG.md", "bench/*.md", "python/*.md", "docs/*.md"]
LINK = re.compile(r"\[[^\]]*\]\(([^)\s]+)\)")


def read(path, top=TOP):
    with open(f"{top}/{path}", encoding="utf-8") as file:
        return file.read()


def found(pattern, top=TOP):
    return sorted(os.path.relpath(it, top) for it in glob.glob(f"{glob.escape(top)}/{pattern}", recursive=True))


def documents(top=TOP):
    return [it for pattern in PATTERNS for it in found(pattern, top)]


def linked():
    """The files that the documents are made of, by path: they have the same place in what is installed, so that links lead there."""
    return [*documents(), *found("docs/pictures/*"), *found("examples/*")]


def prose_lines(text):
    """The lines without what is shown (blocks between fences, and indented lines after an empty one), with their numbers."""
    shown, before = False, ""
    for number, line in enumerate(text.split("\n"), 1):
        if line.startswith("```"):
            shown = not shown
        elif not shown and not (line.startswith("    ") and not before.strip().startswith(("-", "|"))):
            yield number, line
        before = line


def without_code(text):
    return "\n".join(line for _, line in prose_lines(text))


def anchors(text):
    """The headings of a document, as links name them."""
    headings = re.findall(r"^#+ (.*)$", text, re.M)
    return {re.sub(r"[^\w\- ]", "", it.lower()).replace(" ", "-") for it in headings}


def broken_links(top=TOP):
    for document in documents(top):
        for link in LINK.findall(without_code(read(document, top))):
            path, _, anchor = link.partition("#")
            if "://" in path:
                continue
            path = os.path.normpath(os.path.join(os.path.dirname(document), path)) if path else document
            if not os.path.exists(f"{top}/{path}"):
                yield f"{document}: the link {link} leads nowhere"
            elif anchor and anchor not in anchors(read(path, top)):
                yield f"{document}: {path} has no heading {anchor}"


if __name__ == "__main__":
    problems = [*broken_links(sys.argv[1])]
    print(*problems, sep="\n", end="\n" if problems else "")
    sys.exit(1 if problems else 0)
