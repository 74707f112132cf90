"""The lines that the program says on standard error and as verdicts, and the exit statuses, as `relay_command` and `relay_admin`
have them: the guide and the formats have each, and no other."""

import re

from lib.pages.markdown import bare, rows, section, spans
from lib.pages.rust import ERROR, functions, texts
from lib.pages.tree import GUIDE, HELP, UNIT

FAULTS = ("crates/relay_command/src/fault.rt", "crates/relay_admin/src/serve_fault.rt")
VERDICTS = "crates/relay_admin/src/rules/verdict.rt"
FORMATS = {"docs/rules-file.md": r"bad rules", "docs/trace-script.md": r"trace fault|bad line"}
BAD_LINE = "crates/lockword_script/src/printed_line.rt"
HEADS = re.compile(r"(?:bad (?:rules|command|line)|cannot \w+|relay fault|trace fault)\b")
MAIN = "crates/pollrelay/src/main.rt"
# What `serve` checks, in the guide's words, and the call of the code that checks it.
SERVING = "crates/relay_server/src/serving.rt"
CHECKS = {
    "rules file or configuration": "Config::read(", "poller": "Server::new(", "admin socket": "server.open(", "log": ".start_log(", "address for metrics": ".serve_metrics(",
}


def lines(tree):
    """Each fault by its variant's name, with what follows it as a letter or a word."""
    found = {}
    for path in FAULTS:
        found.update({name: text for text, name in ERROR.findall(tree.text(path)) if text != "{0}"})
    return {name: re.sub(r"\{0\}", "NAME", it) for name, it in found.items()}


def verdicts(tree):
    """The verdicts on bad rules, and that on a script's bad line, each with its number's letter."""
    said = texts(functions(tree.text(VERDICTS))["words"]) + texts(functions(tree.text(BAD_LINE))["print_bad_line"])
    return [it + ("N" if it.endswith(" ") else "") for it in said if it.startswith("bad ")]


def statuses(tree):
    """The exit status of each fault, by its variant's name."""
    body, found = functions(tree.text(FAULTS[0]))["status"], {}
    for arms, status in re.findall(r"([^{},=]+) => (\d+),", body):
        for variant in re.findall(r"Fault::(\w+)(?:\(ServeFault::(\w+))?", arms):
            found.setdefault(variant[1] or variant[0], int(status))
    return found


def check(tree, told):
    known, said = lines(tree), verdicts(tree)
    told.reads(len(known) > 8 and len(said) > 4, FAULTS[0], __file__)
    every = {*known.values(), *said}
    on_errors = {it for it in every if not it.startswith("bad line")}
    told.has_all(tree, GUIDE, sorted(on_errors), "the fault")
    for line, cells in rows(section(tree.text(GUIDE), "Messages")):
        for _, it in spans(cells[0]):
            told.holds(it in every, GUIDE, f"has a message `{it}`, which the code has not", line)
    text = re.sub(r"\s+", " ", tree.text(GUIDE))
    for it in re.findall(r'eprintln!\(rt; "([^"]*[a-z] [^"]*)"\)', tree.text(MAIN)):
        told.holds(re.search(re.sub(r"\\{\w+\\}", r"\\S+", re.escape(it)), text), GUIDE, f"says nothing of the line `{it}`, which the code has")
    for page, kinds in FORMATS.items():
        told.has_all(tree, page, sorted(it for it in every if re.match(kinds, it)), "the fault")
    for page in tree.pages():
        faults_in(told, page, tree.text(page), every)
    check_statuses(tree, told)
    in_tables(tree, told, every, statuses(tree))
    check_order(tree, told)


def check_order(tree, told):
    """The guide says in which order `serve` checks what it is given, as the code does."""
    said = re.search(r"`serve` checks in this order: (.*?)\.", tree.text(GUIDE))
    found, main = functions(tree.text(SERVING)), functions(tree.text(MAIN))
    # (what the program does ahead of its call of `serve`, what that does ahead of its call of `run`, and then what that does)
    code = main.get("run_relay", "").split(" serve(")[0] + found.get("serve", "").split(" = run(")[0] + found.get("run", "")
    if told.reads(all(it in code for it in CHECKS.values()), SERVING, __file__):
        wanted = sorted(CHECKS, key=lambda it: code.index(CHECKS[it]))
        given = [it for it in said[1].split(", ") if it in CHECKS] if said else []
        told.holds(given == wanted, GUIDE, f"`serve` checks in the order {wanted}, and it says {given}")


def faults_in(told, page, text, every):
    """A word in code's letters that begins as a fault does is one, or its begin."""
    for line, span in spans(text):
        if HEADS.match(span) and not span.endswith(".."):
            is_one = any(re.fullmatch(re.sub(r"\bN(AME)?\b", r"\\S+", re.escape(it)), span) or it.startswith(span) for it in every)
            told.holds(is_one, page, f"`{span}` is no line that the code says", line)


def said_of(tree):
    """The words that the line of each status has to have: what the code gives that status to."""
    found, known = {}, {**lines(tree), "BadRules": "bad rules"}
    for name, status in statuses(tree).items():
        kind = known.get(name, "").rsplit(": ", 1)[-1]
        if kind in ("memory", "bad rules", "bad command line"):
            found.setdefault(status, set()).add(kind)
    return found


def in_tables(tree, told, every, found):
    """A row with a fault, in a table that has a column of statuses, has the code's."""
    of = {text: found.get(name, found.get("Relay")) for name, text in lines(tree).items()}
    of.update({it: found["BadRules"] for it in every if it.startswith("bad rules") or it == "bad line N"})
    for page in tree.pages():
        column = None
        for line, cells in rows(tree.text(page)):
            column = cells.index("Status") if "Status" in cells else column
            for _, span in spans(cells[0]):
                if span in of and column and len(cells) > column and cells[column].isdigit():
                    told.holds(int(cells[column]) == of[span], page, f"`{span}` has status {of[span]}", line)


def check_statuses(tree, told):
    found, wanted = statuses(tree), said_of(tree)
    known = {0, 3, *found.values()}
    told.reads(len(found) > 5, FAULTS[0], __file__)
    cells = rows(section(tree.text(GUIDE), "Exit status"))
    table = {int(it[0]): bare(it[1]).lower() for _, it in cells if it[0].isdigit()}
    told.holds(set(table) == known, GUIDE, f"its table of exit statuses lacks or has too much: {sorted(set(table) ^ known)}")
    for status, words in wanted.items():
        for word in words:
            told.holds(word in table.get(status, ""), GUIDE, f"doesn't say that `{word}` is status {status}, as the code has it")
    lines_of_help = re.search(r"Status: (.*)\.", tree.text(HELP))
    told.holds(lines_of_help and {int(it) for it in re.findall(r"(\d) ", lines_of_help[1])} == known, HELP, "its statuses aren't the code's")
    unit = re.search(r"^RestartPreventExitStatus=(.*)$", tree.text(UNIT), re.M)
    lasting = {found.get("BadRules"), found.get("BadCommandLine")}
    told.holds(unit and {int(it) for it in unit[1].split()} == lasting, UNIT, f"RestartPreventExitStatus isn't {lasting}, which don't mend")
