"""Reads facts out of sources in Rattle: functions, constants, words in quotation marks."""

import re

FN = re.compile(r"^ *(?:pub(?:\(\w+\))? )?(?:const )?fn (\w+)", re.M)
CONST = re.compile(r"^ *(?:pub(?:\(\w+\))? )?const (\w+): [^=]+ = ([^;]+);", re.M)
TEXT = re.compile(r'b?"((?:[^"\\]|\\.)*)"')
ERROR = re.compile(r'#\[error\("([^"]+)"\)\]\s*(\w+)')
COMMENT = re.compile(r"//[^\n]*")


def without_comments(text):
    return COMMENT.sub("", text)


def functions(text):
    """Each function's text, from its head to the next one's; those of several of one name one behind the other."""
    code = without_comments(text)
    heads = list(FN.finditer(code))
    ends = [*(it.start() for it in heads[1:]), len(code)]
    found = {}
    for head, end in zip(heads, ends):
        found[head[1]] = found.get(head[1], "") + code[head.start() : end]
    return found


def unescaped(text):
    return text.replace("\\\n", "").replace("\\n", "\n").replace('\\"', '"').replace("\\\\", "\\")


def texts(code):
    """What stands in quotation marks, without its line feed at the end."""
    return [unescaped(it).removesuffix("\n") for it in TEXT.findall(code)]


def constants(text):
    """The constants of a file: texts as they are, numbers as numbers where they are sums and products of such."""
    found = {}
    for name, value in CONST.findall(without_comments(text)):
        said = TEXT.fullmatch(value.strip())
        found[name] = unescaped(said[1]) if said else number(value, found)
    return found


def number(value, known):
    """The number that an expression over constants is, or None."""
    value = re.sub(r"(?<=\d)_(?=\d)", "", re.sub(r" as \w+", "", value))
    value = re.sub(r"[A-Z][A-Z_0-9]*", lambda it: str(known.get(it[0], "?")), value).replace("/", "//")
    return int(eval(value)) if re.fullmatch(r"[\d\s+*()/<-]+", value) else None  # (digits and signs alone)


def grouped(value):
    """A number as pages write it."""
    return f"{value:,}"
