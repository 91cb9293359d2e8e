"""Manual pages of file formats, made from the documents: tools/manual prints them, tools/install installs them."""
import re
import textwrap

# the pages of section 5: the document, and what the page is about
PAGES = {
    "ofswitch-events": ("EVENTS.md", "event files of ofswitch"),
    "ofswitch-flows": ("FLOWTEXT.md", "flow text: groups and flow tables of ofswitch"),
    "ofswitch-import": ("IMPORT.md", "flows of ovs-ofctl that ofswitch imports"),
}
# how wide a line is that is shown as it is, with the indentation of the page
WIDE = 68


def escaped(text):
    """The text with escapes for roff."""
    text = text.replace("\\", "\\e").replace("-", "\\-").replace("'", "\\(aq").replace("`", "\\(ga").replace("^", "\\(ha").replace("~", "\\(ti")
    return f"\\&{text}" if text.startswith(".") else text


def shown(lines):
    """Lines that are shown as they are; what is too long is broken, before a comment behind two spaces if there is one."""
    yield from (".PP", ".RS 4", ".EX")
    for line in lines:
        command, gap, told = re.match(r"^(.*?\S)(?:( {2,})(\S.*))?$", line).groups() if line.strip() else ("", None, None)
        if len(line) <= WIDE or not line.strip():
            yield escaped(line)
        elif gap and not line.startswith(" "):
            yield from map(escaped, broken(command))
            yield from map(escaped, textwrap.wrap(told, WIDE - 4, initial_indent="    ", subsequent_indent="    "))
        else:
            yield from map(escaped, broken(line))
    yield from (".EE", ".RE")


def broken(line):
    """A line in parts that fit; the parts after the first one are indented. A long word, such as a frame, is cut."""
    depth = len(line) - len(line.lstrip())
    return textwrap.wrap(line, WIDE, subsequent_indent=" " * (depth + 4), break_on_hyphens=False, drop_whitespace=True) or [""]


def marked(text):
    """Code and strong words in bold; a link is its text, and a document that is a page of its own is that page."""
    text = re.sub(r"\[([^\]]+)\]\(([^)]+)\)", r"\1", text)
    parts = re.split(r"(`[^`]+`|\*\*[^*]+\*\*)", text)
    return "".join(f"\\fB{escaped(it.strip('`*')).removeprefix(chr(92) + '&')}\\fR" if it[:1] in ("`", "*") and len(it) > 2 else escaped(it) for it in parts)


def guarded(line):
    """A line of text that roff does not take for a request."""
    return f"\\&{line}" if line.startswith((".", "'")) else line


def table(lines):
    """The rows of a table: the first cell is the term, the others are the text."""
    rows = [[it.strip().replace("\\|", "|") for it in re.split(r"(?<!\\)\|", line)[1:-1]] for line in lines]
    head, rows = rows[0], rows[2:]
    yield ".PP"
    yield guarded(" | ".join(f"\\fI{escaped(it)}\\fR" for it in head if it))
    for row in rows:
        yield from (".TP", guarded(marked(row[0]) or "\\&"), guarded(marked("; ".join(it for it in row[1:] if it))))


def body(text):
    """The requests of a document, without its title."""
    for block in re.split(r"\n\n+(?! {4})|\n(?=#)", re.sub(r"```\w*\n(.*?)```", lambda it: textwrap.indent(it[1], "    "), text, flags=re.S)):
        lines = block.strip("\n").split("\n")
        if lines[0].startswith("#"):
            depth, title = re.match(r"(#+) (.*)", lines.pop(0)).groups()
            if len(depth) > 1:
                yield f'.{"SH" if len(depth) == 2 else "SS"} "{escaped(title.replace("`", "")).upper() if len(depth) == 2 else escaped(title.replace("`", ""))}"'
        while lines:
            kind = kind_of(lines[0])
            part = [lines.pop(0)]
            while lines and (kind_of(lines[0]) == kind or kind == "shown" and not lines[0]):
                part.append(lines.pop(0))
            yield from FORMS[kind](part)


def kind_of(line):
    return "shown" if line.startswith("    ") else "table" if line.startswith("|") else "list" if line.startswith("- ") else "text"


def items(lines):
    for line in lines:
        yield from (".IP \\(bu 2", guarded(marked(line[2:])))


def paragraph(lines):
    if any(it.strip() for it in lines):
        yield from (".PP", *(guarded(marked(it)) for it in lines if it.strip()))


FORMS = {"shown": lambda lines: shown([it.removeprefix("    ") for it in lines]), "table": table, "list": items, "text": paragraph}


def page(name, text, version):
    """The page of a document."""
    about = PAGES[name][1]
    yield f'.TH {name.upper()} 5 "" "{escaped(version)}" "File Formats"'
    yield from (".SH NAME", f"{escaped(name)} \\- {escaped(about)}", ".SH DESCRIPTION")
    yield from body(text)
    yield from (".SH SEE ALSO", "\\fBofswitch\\fR(1), " + ", ".join(f"\\fB{escaped(it)}\\fR(5)" for it in PAGES if it != name))
