"""The lines of a relay's log, as docs/operations.md has them, of text and of JSON."""
import json
import re

from lib.waiting import comes

LINE = re.compile(
    r"(?P<moment>\d{4}-\d\d-\d\dT\d\d:\d\d:\d\d\.\d{3}Z) (?P<rule>\S+) (?P<client_id>\d+|-) (?P<target_id>\d+|-) "
    r"(?P<client>tcp:\S+|unix:\S*) (?P<target>tcp:\S+|unix:\S+) (?P<up>\d+) (?P<down>\d+) (?P<ms>\d+) "
    r"(?P<how>eof|idle|closed|drained|denied|full|rule full|source full|source rate|no memory|descriptors|no header|bad header|no target (?:refused|unreachable|timeout|descriptors|down)|"
    r"(?:read|write|accept) (?:reset|aborted|broken-pipe|refused|other)|target (?:down|up))"
)
LOST = re.compile(r"lost (\d+)")


def read_log(text):
    """The whole lines of a log as dictionaries, the sum of its `lost N`, and the lines that are neither."""
    lines, lost, others = [], 0, []
    for line in text.split("\n")[:-1]:
        if found := LOST.fullmatch(line):
            lost += int(found[1])
        elif found := LINE.fullmatch(line):
            lines.append(found.groupdict())
        else:
            others.append(line)
    return lines, lost, others


# The names of a line in JSON, in their order, and what each of them has.
KINDS = {
    "time": (str,), "rule": (str,), "client_id": (int, type(None)), "target_id": (int, type(None)), "client": (str,), "target": (str,),
    "up": (int,), "down": (int,), "ms": (int,), "how": (str,),
}


def text_of(line):
    """The line of text that says what a line in JSON says, or why it is no such line.

    It has to be what Python's writer makes of these names and values, so that nothing is left out, added or said twice."""
    try:
        said = json.loads(line)
    except ValueError as fault:
        return f"no JSON: {fault}: {line}"
    if not isinstance(said, dict) or json.dumps(said, separators=(",", ":")) != line:
        return f"no object, or spelled otherwise: {line}"
    if list(said) == ["lost"] and type(said["lost"]) is int:
        return f"lost {said['lost']}"
    if list(said) != list(KINDS) or any(type(said[name]) not in kinds for name, kinds in KINDS.items()):
        return f"other names or kinds: {line}"
    return " ".join("-" if it is None else str(it) for it in said.values())


def read_json_log(text):
    """The same as `read_log` of a log in JSON."""
    return read_log("".join(text_of(line) + "\n" for line in text.split("\n")[:-1]))


def logged(path, count):
    """The lines of a log, once it has so many; a loss, or a line that is none, is one more."""
    def read():
        with open(path, encoding="ascii") as file:
            lines, lost, others = read_log(file.read())
        return lines + [{"how": f"lost {lost}"}] * (lost > 0) + [{"how": it} for it in others]

    comes(lambda: len(read()) >= count)
    return read()
