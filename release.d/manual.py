"""Manual pages in mdoc, made from the pages of docs/ and from what programs say to --help."""
from __future__ import annotations

import os
import re
from dataclasses import dataclass

import markdown
from markdown import Block, Code, Heading, Items, Paragraph, Table

WIDTH = 78
PAGES = {"STATEMENTS.md": "vsm-statements(5)", "MESSAGES.md": "vsm-messages(7)"}
# Signs that roff would print as others, or read as its own.
SIGNS = {"\\": "\\e", "-": "\\-", "'": "\\(aq", "`": "\\(ga", '"': "\\(dq"}
# Columns of a table whose text needs no label before it.
PLAIN = {"Meaning", "It does", "Why it came", "Why"}
# A title that mandoc takes for a misspelt one of its own, and the one that replaces it.
RENAMED = {"Lines": "Lines of a script"}


@dataclass(frozen=True)
class Page:
    """The place of a page, and the date of its sources."""
    name: str
    section: int
    date: str

    @property
    def file(self) -> str:
        return f"man{self.section}/{self.name}.{self.section}"


def escape(text: str) -> str:
    """Text that roff prints as it is."""
    return "".join(SIGNS.get(character, character) for character in text)


def shown_link(match: re.Match[str]) -> str:
    """A link's text, or, if that is a page's name, what the page is called here."""
    file = os.path.basename(match[2].partition("#")[0])
    return PAGES.get(file, match[1]) if match[1].endswith(".md") else match[1]


def inline(text: str) -> str:
    """The text of a paragraph: code and strong words bold, titles in italics."""
    text = re.sub(r"\[([^]]*)\]\(([^)]*)\)", shown_link, text)
    for file, page in PAGES.items():
        text = text.replace(f"docs/{file}", page)
    found = ""
    for part in re.split(r"(`[^`]+`|\*\*[^*]+\*\*|\*[^*]+\*)", text):
        if part.startswith("`"):
            found += rf"\fB{escape(part[1:-1])}\fR"
        elif part.startswith("**"):
            found += rf"\fB{escape(part[2:-2])}\fR"
        elif part.startswith("*") and len(part) > 1:
            found += rf"\fI{escape(part[1:-1])}\fR"
        else:
            found += escape(part).replace("\\-", "-")
    return found


def guarded(line: str) -> str:
    """A line that roff doesn't take for a request."""
    return rf"\&{line}" if line.startswith((".", "'")) else line


def filled(text: str) -> list[str]:
    """Lines of a paragraph: a sentence begins a line, and none is long."""
    lines: list[str] = []
    for sentence in re.split(r"(?<=[.?!:;)])\s+(?=\S)", inline(text).strip()):
        line = ""
        for word in sentence.split():
            if line and len(line) + len(word) >= WIDTH:
                lines.append(line)
                line = word
            else:
                line = f"{line} {word}".strip()
        lines.append(line)
    return [guarded(line) for line in lines if line]


def literal(lines: tuple[str, ...] | list[str]) -> list[str]:
    return [".Bd -literal -offset indent", *(guarded(escape(line)) for line in lines), ".Ed"]


def quoted(text: str) -> str:
    """The argument of a macro that is taken as it is."""
    return '"' + inline(text) + '"'


def listed(items: Items) -> list[str]:
    lines = [".Bl -enum" if items.is_numbered else ".Bl -bullet"]
    for item in items.items:
        lines += [".It", *filled(item)]
    return [*lines, ".El"]


def row(header: tuple[str, ...], found: tuple[str, ...]) -> list[str]:
    lines = [f".It {quoted(found[0] or '(any)')}"]
    for title, cell in zip(header[1:], found[1:]):
        if not cell:
            continue
        if len(lines) > 1:
            lines.append(".br")
        is_plain = len(header) == 2 or title in PLAIN
        lines += filled(cell if is_plain else f"{title}: {cell}")
    return lines


def tabled(table: Table) -> list[str]:
    """A row becomes an entry of a list, since a table is too wide for a terminal."""
    lines = [".Bl -tag -width Ds"]
    for found in table.rows:
        lines += row(table.header, found)
    return [*lines, ".El"]


def body(blocks: list[Block]) -> list[str]:
    """The text of a section, without a paragraph macro where none is allowed."""
    lines: list[str] = []
    for block in blocks:
        if isinstance(block, Heading):
            title = RENAMED.get(block.text, block.text)
            lines.append(f".Sh {quoted(title.upper())}" if block.level < 3 else f".Ss {quoted(title)}")
            continue
        is_first = not lines or lines[-1].startswith((".Sh", ".Ss"))
        if not is_first and not isinstance(block, Code):
            lines.append(".Pp")
        if isinstance(block, Paragraph):
            lines += filled(block.text)
        elif isinstance(block, Code):
            lines += literal(block.lines)
        elif isinstance(block, Items):
            lines += listed(block)
        else:
            lines += tabled(block)
    # A list and a display already have the distance before them.
    return [line for i, line in enumerate(lines)
            if line != ".Pp" or not lines[i + 1].startswith(".Bl")]


def head(page: Page, what: str) -> list[str]:
    what = what.strip().rstrip(".")
    return [f".Dd {page.date}", f".Dt {page.name.upper()} {page.section}", ".Os", ".Sh NAME",
            f".Nm {page.name}", f".Nd {escape(what[:1].lower() + what[1:])}"]


def see_also(page: Page, others: list[str]) -> list[str]:
    """The other pages. As text, since mandoc looks for references only in the system's manual."""
    found = sorted((it for it in others if it != f"{page.name}({page.section})"), key=lambda it: (it[-2], it))
    return [".Sh SEE ALSO", *filled(", ".join(f"**{it[:-3]}**{it[-3:]}" for it in found))] if found else []


def files() -> list[str]:
    return [".Sh FILES", *filled(
        "The other documents are in `share/doc/nilbozad`, below the folder that this is installed in; that's `/usr` for a "
        "package. ZOS.md says where z/OS differs, EXPLAIN.md how to find a mistake, TOOLS.md, VIEW.md, EDITORS.md, "
        "PROTOCOL.md and BENCH-IN-A-BROWSER.md what the other programs do, GLOSSARY.md the manuals' words, and LIMITS.md "
        "all limits. The scripts of `examples/` are there too; commands are for that folder.")]


def joined(*parts: list[str]) -> str:
    return "".join(f"{line}\n" for part in parts for line in part)


def page_of_docs(page: Page, what: str, text: str, others: list[str]) -> str:
    """A whole page of docs/: the text before the first section is its description."""
    blocks = [it for it in markdown.parse(text) if not (isinstance(it, Heading) and it.level == 1)]
    return joined(head(page, what), [".Sh DESCRIPTION"], body(blocks), files(), see_also(page, others))


def split_help(text: str) -> list[list[str]]:
    """The paragraphs of a help text."""
    return [part.split("\n") for part in re.split(r"\n{2,}", text.strip("\n"))]


def part_at(parts: list[list[str]], start: str) -> int:
    """Which paragraph of a help text begins so."""
    for number, part in enumerate(parts):
        if part[0].startswith(start):
            return number
    raise LookupError(f"the help of vsm has no paragraph {start!r}")


def page_of_vsm(page: Page, help_text: str, messages: str, others: list[str]) -> str:
    """The program's page: from its help, and from the options and the exit status in docs/MESSAGES.md."""
    blocks = markdown.parse(messages)
    options = markdown.section(blocks, "Options")
    status = markdown.section(blocks, "Standard error and exit status")
    if not options or not isinstance(options[0], Code):
        raise LookupError("the section 'Options' doesn't begin with the usage")
    usage, options = options[0], options[1:]
    # The last paragraph has the version.
    parts = split_help(help_text)[:-1]
    at, ends, example = (part_at(parts, it) for it in ("Options:", "Exit status:", "Example:"))
    description = [Paragraph(" ".join(it)) for it in [parts[0], *parts[at + 1:ends]]]
    examples: list[Block] = []
    for part in parts[example:]:
        text = " ".join(part).removeprefix("Example: ")
        is_code = part[0].startswith(" ")
        examples.append(Code(tuple(part)) if is_code else Paragraph(text[:1].upper() + text[1:]))
    return joined(head(page, parts[0][0].split(",")[0]), [".Sh SYNOPSIS"], literal(usage.lines),
                  [".Sh DESCRIPTION"], body(description), [".Sh OPTIONS"], body(options), files(),
                  [".Sh EXIT STATUS"], body(status), [".Sh EXAMPLES"], body(examples), see_also(page, others))


def page_of_tool(page: Page, help_text: str, others: list[str]) -> str:
    """A tool's page: its help, as it's printed."""
    parts = split_help(help_text)
    usage = [line.removeprefix("usage: ").removeprefix(" " * len("usage: ")) for line in parts[0]]
    rest = "\n\n".join("\n".join(part) for part in parts[1:]).split("\n")
    what = re.split(r"(?<=[.:])(\s|$)", parts[1][0])[0]
    return joined(head(page, what.rstrip(":")), [".Sh SYNOPSIS"], literal(usage),
                  [".Sh DESCRIPTION"], literal(rest), see_also(page, others))


def page_of_commands(page: Page, help_text: str, commands: list[str], others: list[str]) -> str:
    """The page of a program with commands: from its help, and that of each command, as it's printed."""
    parts = split_help(help_text)
    status = part_at(parts, "Exit status:")
    usages = [next(line for line in text.split("\n") if line.startswith("Usage: ")) for text in commands]
    told: list[str] = []
    for text in commands:
        about, usage, *rest = split_help(text)
        name = usage[0].removeprefix("Usage: ").split()[1]
        told += [f".Ss {escape(name)}", *body([Paragraph(" ".join(about))]),
                 *literal("\n\n".join("\n".join(part) for part in rest).split("\n"))]
    return joined(head(page, " ".join(parts[0]).split(":")[0]),
                  [".Sh SYNOPSIS"], literal([usage.removeprefix("Usage: ") for usage in usages]),
                  [".Sh DESCRIPTION"], body([Paragraph(" ".join(parts[0])),
                                             *(Paragraph(" ".join(it)) for it in parts[part_at(parts, "Options:") + 1:status])]),
                  [".Sh COMMANDS"], told, files(), [".Sh EXIT STATUS"], literal(parts[status][1:]), see_also(page, others))
