"""Lines of an admin session, and which replies the protocol has for each, as docs/admin-protocol.md says."""
import re

from lib.meddler import MEDDLED

SHOWN = re.compile(
    r"show (\d+) rule [A-Za-z0-9_-]{1,16} side (?:client|target|listener) "
    r"peer (?:tcp:\d+\.\d+\.\d+\.\d+:\d+|unix:\S*) up \d+ down \d+ age \d+ quiet \d+"
)
TARGET = re.compile(
    r"target (?P<number>[1-9]\d*) rule (?P<rule>\S+) at (?P<at>\S+) state (?P<state>up|drained|down) since (?P<since>\d+) "
    r"set (?P<set>auto|up|drain|down) connections (?P<connections>\d+) connects (?P<connects>\d+) failures (?P<failures>\d+) "
    r"checks (?P<checks>on|off) passed (?P<passed>\d+) failed (?P<failed>\d+) last (?P<last>none|refused|unreachable|timeout)"
)
UNKNOWN = "error 404 no such connection"
NO_RULE, NO_TARGET, NO_COMMAND = "error 404 no such rule", "error 404 no such target", "error 400 bad command"


def ids_shown(lines):
    """The ids of lines of `show`, or None where one is no such line."""
    found = [SHOWN.fullmatch(it) for it in lines]
    return [int(it[1]) for it in found] if all(found) else None


def are_rising(ids, standing):
    """Whether these are ids, rising, and those that stand among them."""
    return ids is not None and ids == sorted(set(ids)) and set(standing) <= set(ids)


def is_reply(asked, reply, standing=()):
    """Whether these lines are a reply to this line, where these ids stand all the time."""
    word, *words = asked.split(" ")
    if asked == "show":
        return reply[-1] == "end" and are_rising(ids_shown(reply[:-1]), standing)
    if asked == "targets":
        return reply[-1] == "end" and all(map(TARGET.fullmatch, reply[:-1]))
    (text,) = reply
    if asked == "list":
        return bool(re.fullmatch(r"ids(?: \d+)*", text)) and are_rising([int(it) for it in text.split()[1:]], standing)
    if asked == "totals":
        return bool(re.fullmatch(r"totals up \d+ down \d+", text))
    if word == "show":
        return text == UNKNOWN or ids_shown([text]) == [int(words[0])]
    if word in ("close", "drain", "deadline"):
        return text in MEDDLED
    if word == "target" and len(words) == 3:
        return text in ("ok", NO_RULE, NO_TARGET)
    return text == ("ok" if word == "quit" else NO_COMMAND)
