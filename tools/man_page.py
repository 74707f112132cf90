#!/usr/bin/env python3
"""Makes the man page of docs/operations.md, which is the one text of both.

    python3 tools/man_page.py > man/pollrelay.1

It knows the forms that the guide has: headings of two depths, paragraphs, indented commands, tables, lists, and words set off by
backquotes or stars. The first cell of a table's row becomes a tag, and each cell after the second begins with its head, unless it says by itself what it is. A
sentence is a line, as mdoc wants it. The page's date is that of the newest entry of packaging/debian/changelog.
"""
import email.utils
import pathlib
import re
import sys

ROOT = pathlib.Path(__file__).resolve().parent.parent
GUIDE, CHANGES = ROOT / "docs/operations.md", ROOT / "packaging/debian/changelog"
# Sections that a man page calls otherwise.
NAMES = {"Messages": "DIAGNOSTICS"}
# Heads of cells that say by themselves what they are.
PLAIN = {"What it does", "What it is", "What it counts"}
WIDTH = 78
# How wide a line that is set off may be beside its indent, and how one begins that may be broken.
LITERAL_WIDTH = 66
COMMAND = re.compile(r"(?:pollrelay|python3|sh|install|docker|systemctl|\[) ")
# A word of such a line, or an option with its value.
WORDS = re.compile(r"--?[a-z][\w-]* (?:[^-\s&|]\S*|-(?= |$))|\S+")
# What keeps a word whole.
WHOLE = "\\%"
# A space at which no line is broken: in the guide's words while they are put into lines, and in the man page.
UNBROKEN, KEPT = "\x1f", "\\~"
# Where the Debian package has what the guide names beside itself.
DOCS = "/usr/share/doc/pollrelay"
INLINE = re.compile(r"`([^`]+)`|\*\*([^*]+)\*\*|\*([^*\s]+)\*")


def escaped(text):
    return text.replace("\\", "\\e").replace("-", "\\-")


def whole(text):
    """Words that no hyphen parts: a command that one parts can't be copied."""
    return " ".join(f"{WHOLE}{it}" for it in text.split(" "))


def inline(text):
    """Words set off, in bold, or in italics between single stars."""
    parts, at = [], 0
    for found in INLINE.finditer(text):
        parts += [text[at : found.start()].replace("\\", "\\e"), f"\\fI{escaped(found[3])}\\fP" if found[3] else f"\\fB{whole(escaped(found[1] or found[2]))}\\fP"]
        at = found.end()
    made = "".join(parts) + text[at:].replace("\\", "\\e")
    # (amid a word the sign would be a place for a hyphen: it goes ahead of a bracket)
    return re.sub(r"(?<!\S)([^\s\\]+\\fB)\\%", lambda it: WHOLE + it[1], made)


def width(text):
    """How long a text is for man, which reads a letter beyond ASCII as its number."""
    return len(re.sub(r"[^\x00-\x7f]", r"\\[u0000]", text))


def broken(sentence):
    """A sentence in lines, none of which begins as a request does."""
    lines = [""]
    for word in sentence.split(" "):
        if lines[-1] and width(lines[-1]) + 1 + width(word) > WIDTH:
            lines.append("")
        lines[-1] += f" {word}" if lines[-1] else word
    return [f"\\&{it}" if it[:1] in (".", "'") else it for it in lines]


def running(text):
    """A paragraph: each sentence on a line of its own."""
    sentences = re.split(r"(?<=[.?!])\s+(?=[A-Z`*\\])|(?<=[.?!]\*\*)\s+", " ".join(text.split()))
    return [line for it in sentences for line in broken(inline(it))]


def ended(text):
    """A cell as a sentence."""
    return text if text.endswith((".", ":")) else f"{text}."


def capital(text):
    return text[:1].upper() + text[1:]


def tag(text):
    # (quoted, so that no word is taken for a macro)
    return '.It "' + inline(text).replace('"', "\\(dq") + '"'


def cells(line):
    """The cells of a row, those without a word too."""
    return [it.strip() for it in re.split(r"(?<=\s)\|(?=\s)", f" {line.strip().strip('|')} ")]


def table(lines):
    """A list of tags; what stands behind the second cell is named by its head."""
    heads, made = cells(lines[0]), [".Bl -tag -width Ds"]
    for line in lines[2:]:
        row = cells(line)
        if len(row) != len(heads):
            raise ValueError(f"a row of {len(row)} cells below {len(heads)} heads: {line}")
        texts = [ended(capital(row[1]))] if row[1] and len(row) == 2 else []
        if len(row) > 2:
            texts = [ended(capital(text) if head in PLAIN else f"{head}: {text}") for head, text in zip(heads[1:], row[1:]) if text]
        made += [tag(row[0]), *(line for it in texts for line in running(it))]
    return [*made, ".El"]


def listed(kind, lines):
    made = [f".Bl -{kind}"]
    for line in lines:
        made += [".It", *running(re.sub(r"^(?:-|\d+\.) ", "", line))]
    return [*made, ".El"]


def continued(line):
    """A command in lines that are narrow enough, each but the last with a backslash at its end. An option stays beside its value, and
    where one line is too narrow for two commands, each begins one."""
    if len(line) <= LITERAL_WIDTH:
        return [line]
    made = [""]
    for at, command in enumerate(re.split(r"(?<= &&) ", line)):
        for number, word in enumerate(WORDS.findall(command)):
            begins = at > 0 and number == 0
            if made[-1] and (begins or len(made[-1]) + len(word) + 3 > LITERAL_WIDTH):
                made[-1] += " \\"
                made.append("   ")
            made[-1] += f" {word}" if made[-1] else word
    return made


def literal(lines):
    shown = [part for it in lines for part in (continued(it[4:]) if COMMAND.match(it[4:]) else [it[4:]])]
    # (a line that can't be broken, as one of a log, has no indent)
    indent = [" -offset indent"] * all(len(it) <= LITERAL_WIDTH for it in shown)
    shown = [it.replace("\\", "\\e") for it in shown]
    return ["".join([".Bd -literal", *indent]), *(f"\\&{it}" if it[:1] in (".", "'") else it for it in shown), ".Ed"]


def synopsis(lines):
    """Each way to call a program; a line that is indented further goes on with the one before."""
    made = []
    for at, line in enumerate(re.sub(r"\n {5,}", " ", "\n".join(lines)).splitlines()):
        program, _, words = line.strip().partition(" ")
        words = re.sub(r"\[[^]]*\]", lambda it: it[0].replace(" ", UNBROKEN), words)
        made += [".br"] * (at > 0) + broken(f"\\fB{escaped(program)}\\fP {whole(escaped(words)).replace(UNBROKEN, KEPT)}")
    return made


def name(text):
    called, does = re.fullmatch(r"`(\w+)`: (.*)", text).groups()
    return [f".Nm {called}", f".Nd {does}"]


def block(lines, section):
    """What one block of the guide becomes."""
    if section == "Name":
        return name(lines[0])
    if section == "Synopsis":
        return synopsis(lines)
    if is_heading(lines):
        return subsection(lines)
    if lines[0].startswith("|"):
        return table(lines)
    if lines[0].startswith("    "):
        return literal(lines)
    if re.match(r"- |\d+\. ", lines[0]):
        return listed("bullet" if lines[0].startswith("- ") else "enum", lines)
    return running(" ".join(lines))


def subsection(lines):
    """A heading below a section's, alone in its block."""
    found = re.fullmatch(r"### (\S.*)", "\n".join(lines))
    if not found:
        raise ValueError(f"no heading that is known: {lines[0]}")
    return [f".Ss {inline(found[1])}"]


def is_heading(lines):
    return lines[0].startswith("#")


def is_running(lines):
    return not lines[0].startswith(("|", "    ", "- ", "1. ", "#"))


def sections(text):
    """Each heading with the blocks below it; a block is its lines."""
    for part in re.split(r"^## ", text, flags=re.M)[1:]:
        head, _, rest = part.partition("\n")
        yield head, [it.splitlines() for it in re.split(r"\n{2,}", rest.strip("\n")) if it.strip()]


def date():
    stamp = re.search(r"^ -- .*>  (.*)$", CHANGES.read_text(), re.M)[1]
    return email.utils.parsedate_to_datetime(stamp).strftime("%B %-d, %Y")


def page(text):
    made = ['.\\" Made of docs/operations.md by tools/man_page.py. Look at it: man man/pollrelay.1']
    made += [f".Dd {date()}", ".Dt POLLRELAY 1", ".Os"]
    text = re.sub(r"`(?:\.\./(?=examples)|(?=[\w-]+\.md`))", f"`{DOCS}/", text)
    for head, blocks in sections(text):
        made.append(f".Sh {NAMES.get(head, head.upper())}")
        for at, lines in enumerate(blocks):
            is_first = at == 0 or is_heading(blocks[at - 1])
            made += [".Pp"] * (is_running(lines) and not is_first) + block(lines, head)
    return "\n".join(made) + "\n"


def main():
    sys.stdout.write(page(GUIDE.read_text()))


if __name__ == "__main__":
    main()
