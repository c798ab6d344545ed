"""The manual pages, as troff: chipfire(1) and a page for each command, chipfire(3) of the header, and chipfire(5) of the page
about files."""
import re

import contents
from packing.repository import content

#: What troff writes for characters that it else takes for typographic ones.
PLAIN = str.maketrans(
    {"\\": "\\e", "-": "\\-", "'": "\\(aq", "`": "\\(ga", "^": "\\(ha", "~": "\\(ti", '"': "\\(dq"}
)
DOES = """\
chipfire stabilizes abelian sandpiles (chip-firing games): vertices of a directed graph fire until none can, on one thread or on
many, and the report says how many chips each vertex has then, and how often it fired. It is proved that every order of firing
has this result."""
GAMES = "The folder share/doc/chipfire/examples, beside the folder bin that has the program, has games to play."
EXIT = "Exit status: "
#: Where the pages are made from that no help has.
FORMATS, HEADER = "docs/FORMATS.md", "include/chipfire.h"
MARKS = re.compile(r"`([^`]+)`|\*\*([^*]+)\*\*|\*([^*]+)\*")
LINK = re.compile(r"\[([^\]]+)\]\([^)]+\)")
#: Of the header: a comment that begins a line, a line of one about an argument, the body of a function, and what the
#: compiler alone reads.
COMMENT = re.compile(r"^/\*(.*?)\*/", re.MULTILINE | re.DOTALL)
ARGUMENT = re.compile(r"^(\w+)  +(?=\S)", re.MULTILINE)
BODY = re.compile(r"\n\{\n.*?^\}$", re.MULTILINE | re.DOTALL)
NO_DECLARATION = re.compile(r'^(?:#(?:if|else|endif).*|extern "C" \{|\})$\n?', re.MULTILINE)


def escaped(text):
    """Returns a text of which troff takes no character for its own."""
    return "\n".join(
        f"\\&{line}" if line.startswith(".") else line for line in text.translate(PLAIN).split("\n")
    )


def bold(text):
    """Returns a text in bold."""
    return f"\\fB{escaped(text)}\\fR"


def entry(head, text):
    """Returns an entry of a list."""
    return [".TP", head, escaped(text)]


def head(name, section, version, day, summary):
    """Returns how a page begins."""
    title = f'.TH {name.upper()} {section} "{day}" "chipfire {version}" "chipfire"'
    return [title, ".SH NAME", f"{escaped(name)} \\- {escaped(summary[0].lower() + summary[1:])}"]


def option_lines(option):
    """Returns the entry of an option."""
    words = ", ".join(bold(it) for it in reversed(option.words()))
    return entry(f"{words} \\fI{option.value}\\fR" if option.value else words, option.text)


def notes(paragraphs):
    """Returns paragraphs, of which that on exit statuses has a heading of its own and comes last."""
    others = [it for it in paragraphs if not it.startswith(EXIT)]
    statuses = [it for it in paragraphs if it.startswith(EXIT)]
    lines = [line for it in others for line in (".PP", escaped(it))]
    return lines + [line for it in statuses for line in ('.SH "EXIT STATUS"', escaped(it))]


def see_also(*pages):
    """Returns what else there is to read."""
    return [".SH SEE ALSO", ", ".join(f"{bold(name)}({section})" for name, section in pages)]


def program_page(whole, commands, version, day):
    """Returns the page of the program."""
    lines = head("chipfire", 1, version, day, whole.summary)
    lines += [".SH SYNOPSIS", ".B chipfire", "[\\fICOMMAND\\fR [\\fIARGUMENTS\\fR ...]]"]
    lines += [".SH DESCRIPTION", escaped(DOES), ".SH COMMANDS"]
    for command in commands:
        lines += entry(f"\\fBchipfire\\-{command.name}\\fR(1)", f"{command.summary}.")
    lines.append(".SH OPTIONS")
    for option in whole.options:
        lines += option_lines(option)
    lines += [".SH NOTES", *notes(whole.notes)[1:], ".SH EXAMPLES", escaped(GAMES)]
    its = [(f"chipfire-{it.name}", 1) for it in commands]
    return lines + see_also(*its, ("chipfire", 3), ("chipfire", 5))


def command_page(command, version, day):
    """Returns the page of a command."""
    lines = head(f"chipfire-{command.name}", 1, version, day, command.summary)
    lines += [
        ".SH SYNOPSIS",
        escaped(command.usage),
        ".SH DESCRIPTION",
        f"{escaped(command.summary)}.",
    ]
    for name, text in command.operands:
        lines += entry(f"\\fI{escaped(name.strip('<>[]'))}\\fR", text)
    lines.append(".SH OPTIONS")
    for option in command.options:
        lines += option_lines(option)
    its = notes(command.notes)
    return (
        lines
        + ([".SH NOTES", *its[1:]] if its[:1] == [".PP"] else its)
        + see_also(("chipfire", 1), ("chipfire", 5))
    )


def marked(text):
    """Returns a text of Markdown on one line."""
    text, done, lines = LINK.sub(r"\1", text), 0, []
    for found in MARKS.finditer(text):
        lines.append(escaped(text[done : found.start()]))
        font = "I" if found[3] else "B"
        lines.append(f"\\f{font}{escaped(found[1] or found[2] or found[3])}\\fR")
        done = found.end()
    line = "".join([*lines, escaped(text[done:])])
    return f"\\&{line}" if line.startswith((".", "\\(aq")) else line


def table_lines(rows):
    """Returns a table of Markdown as a list. Its first cell is the head of an entry, and so is a name after a number. Of two
    halves side by side, with the same titles, the right one follows the left one."""
    titles, _, *rows = rows
    half = len(titles) // 2
    if titles[:half] == titles[half:]:
        rows = [*(row[:half] for row in rows), *(row[half:] for row in rows)]
    heads, entries = 2 if titles[0] == "Number" else 1, []
    for row in filter(any, rows):
        named = [f"{title}: {cell}." for title, cell in zip(titles[heads:], row[heads:]) if cell]
        text = row[-1] if len(row) == heads + 1 else " ".join(named)
        entries += [".TP", marked(" ".join(row[:heads])), marked(text or "none")]
    return entries


def block_lines(text):
    """Returns a block of Markdown: a table, a list, what is not filled, or a paragraph."""
    if text.startswith("|"):
        return table_lines(
            [[cell.strip() for cell in line.strip("|").split(" | ")] for line in text.split("\n")]
        )
    if text.startswith("```"):
        return [".PP", ".nf", *escaped(text).split("\n")[1:-1], ".fi"]
    if text.startswith("    "):
        return [".PP", ".nf", escaped(text), ".fi"]
    if text.startswith("## "):
        return [f".SH {escaped(text[3:].upper())}"]
    if text.startswith("- "):
        its = re.split(r"\n?^- ", text, flags=re.MULTILINE)[1:]
        return [line for it in its for line in (".IP \\(bu 2", marked(" ".join(it.split())))]
    return [".PP", marked(" ".join(text.split()))]


def formats_page(text, version, day):
    """Returns the page of the files, of the text of docs/FORMATS.md."""
    lines = head("chipfire", 5, version, day, "Files that chipfire reads and writes") + [
        ".SH DESCRIPTION"
    ]
    blocks = re.findall(r"^```.*?^```$|(?:^(?!```)[^\n]+\n?)+", text, re.MULTILINE | re.DOTALL)
    for block in blocks[1:]:
        lines += block_lines(block.rstrip("\n"))
    return lines + see_also(("chipfire", 1))


def comment_block(text):
    """Returns a block of a comment of the header: a heading, a list, what is not filled, or a paragraph."""
    if text.startswith("---- "):
        return [f".SS {escaped(text.removeprefix('---- '))}"]
    if text.startswith("    "):
        return [".PP", ".nf", escaped(text), ".fi"]
    if text.startswith("  - "):
        its = re.split(r"\n?^  - ", text, flags=re.MULTILINE)[1:]
        return [line for it in its for line in (".IP \\(bu 2", escaped(" ".join(it.split())))]
    if ARGUMENT.match(text):
        its = ARGUMENT.split(text)[1:]
        pairs = zip(its[::2], its[1::2])
        return [line for name, it in pairs for line in entry(escaped(name), " ".join(it.split()))]
    return [".PP", escaped(" ".join(text.split()))]


def comment_lines(text):
    """Returns a comment of the header."""
    text = re.sub(r"^ ?\*? ?", "", text, flags=re.MULTILINE).rstrip()
    return [line for it in re.split(r"\n\s*\n", text) for line in comment_block(it)]


def code_lines(text):
    """Returns the declarations of a part of the header, if it has any, without bodies and what is for the compiler."""
    code = NO_DECLARATION.sub("", BODY.sub(";", text)).strip("\n")
    return [".PP", ".nf", *map(bold, code.split("\n")), ".fi"] if code else []


def library_page(text, version, day):
    """Returns the page of the library, of the text of its header."""
    lines = head("chipfire", 3, version, day, "Chip-firing games in your own process")
    lines += [
        ".SH SYNOPSIS",
        ".B #include <chipfire.h>",
        ".PP",
        "Link with \\fB\\-lchipfire\\fR.",
        ".SH DESCRIPTION",
    ]
    parts = COMMENT.split(text)
    lines += comment_lines(parts[1])
    lines.append(".SH DECLARATIONS")
    for comment, code in zip(parts[3::2], parts[4::2]):
        lines += comment_lines(comment) + code_lines(code)
    return lines + see_also(("chipfire", 1))


def pages(whole, commands, version, day):
    """Returns all pages, texts by their places."""
    made = {contents.MANUAL: program_page(whole, commands, version, day)}
    for command in commands:
        made[contents.command_manual(command.name)] = command_page(command, version, day)
    made[contents.LIBRARY_MANUAL] = library_page(content(HEADER).decode(), version, day)
    made[contents.FORMATS_MANUAL] = formats_page(content(FORMATS).decode(), version, day)
    return {place: "\n".join(lines) + "\n" for place, lines in made.items()}
