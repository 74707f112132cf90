"""The limits, as constants of the code have them: the guide has each among its own, and wherever a page says one by the words
below it is the code's."""

import functools
import re

from lib.pages.limit_words import N, SAID, value_of
from lib.pages.markdown import bare, rows, section
from lib.pages.rust import constants, grouped
from lib.pages.tree import GUIDE, HELP, UNIT

# Where each constant stands. One whose name another has too has its crate ahead.
FILES = {
    "MAX_PAIRS": "crates/relay_core/src/connection_limit.rt",
    "DEFAULT_PAIRS": "crates/relay_core/src/connection_limit.rt",
    "MAX_LOOPS": "crates/relay_core/src/loops.rt",
    "MOST_BY_DEFAULT": "crates/relay_core/src/loops.rt",
    "DEFAULT_CONNECT_MS": "crates/relay_settings/src/defaults.rt",
    "config_values::DAY_MS": "crates/config_values/src/time.rt",
    "LOOP_BUFFER_BYTES": "crates/relay_core/src/buffers.rt",
    "MAX_RULES": "crates/relay_admin/src/rules/file.rt",
    "MAX_BYTES": "crates/relay_admin/src/rules/file.rt",
    "MAX_NAME_BYTES": "crates/relay_admin/src/rules/rule.rt",
    "MAX_PATH_BYTES": "crates/relay_admin/src/rules/addr.rt",
    "DAY_MS": "crates/relay_admin/src/text.rt",
    "MAX_ID": "crates/relay_admin/src/admin/command.rt",
    "MAX_LINES": "crates/relay_admin/src/admin/dialogue.rt",
    "MAX_LINE_BYTES": "crates/relay_admin/src/admin/dialogue.rt",
    "MOST_QUEUED_BYTES": "crates/relay_log/src/queue.rt",
    "MOST_CLIENTS": "crates/metrics_server/src/lib.rt",
    "LIMIT_NS": "crates/metrics_server/src/lib.rt",
    "PATIENCE_SECONDS": "crates/pollrelay/src/main.rt",
    "MAX_SILENCE_MS": "crates/relay_core/src/silence.rt",
    "MAX_SESSIONS": "crates/relay_core/src/session_limit.rt",
    "MAX_FAULTS_IN_A_ROW": "crates/relay_core/src/accept_ended.rt",
    "MAX_INTERRUPTIONS": "crates/stream_base/src/attempt.rt",
    "lockword_script::MAX_LINE_BYTES": "crates/lockword_script/src/script.rt",
    "HOLDERS": "crates/lockword_script/src/script.rt",
    "MAX_REFERENCES": "crates/lockword_core/src/word.rt",
    "MAX_WAITERS": "crates/lockword_core/src/word.rt",
    "MAX_SIGNALS": "crates/lockword_core/src/signals.rt",
    "TURNS_IN_A_ROW": "crates/relay_core/src/copying.rt",
    "ACCEPTS_IN_A_ROW": "crates/relay_core/src/accept_task.rt",
    "OWN_ROOM_BYTES": "crates/relay_core/src/kept.rt",
    "BUFFER_BYTES": "crates/relay_workers/src/buffers.rt",
    "KEYS": "crates/conntable/src/token.rt",
    "LAST_ID": "crates/conntable/src/token.rt",
    "MAX_TRY_BYTES": "crates/rwloops/src/limits.rt",
    "MAX_RETRIES": "crates/rwloops/src/limits.rt",
    "MAX_SOCKETS": "crates/listen_fds/src/protocol.rt",
    "lockword_script::MAX_LINES": "crates/lockword_script/src/script.rt",
    "readiness::MAX_PATH_BYTES": "crates/readiness/src/addr.rt",
    "MAX_DUE": "crates/deadline_core/src/timers.rt",
    "MAX_SHARES": "crates/relay_ledger/src/book.rt",
}
# What the wrapper gives connections to end where nobody says another time.
WRAPPER, FINISH = "packaging/pollrelay-run", re.compile(r"^finish=(\d+) ", re.M)
# Which of them a row of the limits has, that begins so.
ROWS = (
    ("connections at once", ("DEFAULT_PAIRS", "MAX_PAIRS")), ("rules", ("MAX_RULES",)), ("bytes of a rules file", ("MAX_BYTES",)),
    ("bytes of a rule's name", ("MAX_NAME_BYTES",)), ("bytes of a Unix path", ("MAX_PATH_BYTES",)), ("idle times and deadlines", ("DAY_MS",)),
    ("bytes of an admin line", ("MAX_LINE_BYTES",)), ("lines of an admin session", ("MAX_LINES",)), ("event loops", ("MAX_LOOPS",)),
)
# Which of them the guide's rows of options and of a rule's fields have, in the cells of these heads.
CELLS = {
    "--admin PATH": {"Range": ("MAX_PATH_BYTES",)}, "--loops LOOPS": {"Default": ("MOST_BY_DEFAULT",), "Range": ("MAX_LOOPS",)},
    "--connections CONNECTIONS": {"Default": ("DEFAULT_PAIRS",), "Range": ("MAX_PAIRS",)}, "--connections-per-rule N": {"Range": ("MAX_PAIRS",)},
    "--connect-timeout MS": {"Default": ("DEFAULT_CONNECT_MS",), "Range": ("config_values::DAY_MS",)}, "NAME": {"Form": ("MAX_NAME_BYTES",)},
    "LISTEN": {"Form": ("MAX_PATH_BYTES",)}, "IDLE": {"Form": ("DAY_MS",)},
}
# What the keys of `health` are without a value, and the most outcomes in a row, which the guide's table of these keys has.
CHECKS = "crates/relay_config/src/health.rt"
CHECK_KEYS = {"every": "DEFAULT_EVERY_MS", "timeout": "DEFAULT_TIMEOUT_MS", "fall": "DEFAULT_FALL", "rise": "DEFAULT_RISE"}
NEEDED = "crates/relay_command/src/descriptors.rt"
# The threads of a relay beside those of loops.
ABOUT_A_DOZEN = 12


def values(tree):
    """The number of each constant; of nanoseconds their milliseconds."""
    own = {path: constants(tree.text(path)) for path in set(FILES.values())}
    found = {name: own[path].get(name.split("::")[-1]) for name, path in FILES.items()}
    finish = FINISH.search(tree.text(WRAPPER))
    found["FINISH_MS"] = int(finish[1]) if finish else None
    return {name: it // 1_000_000 if name.endswith("_NS") and it else it for name, it in found.items()}


def check(tree, told):
    known = values(tree)
    if all([told.reads(isinstance(it, int), FILES.get(name, WRAPPER), __file__) for name, it in known.items()]):
        in_rows(told, tree.text(GUIDE), known)
        in_cells(told, tree.text(GUIDE), known)
        in_sentences(tree, told, known)
        of_checks(told, tree.text(GUIDE), constants(tree.text(CHECKS)))
        of_unit(tree, told, known, needed(tree, told, known))


def in_rows(told, text, known):
    """The guide's limits have each number in its row."""
    table = {bare(it[0]): set(re.findall(N, it[1])) for _, it in rows(section(text, "Limits"))}
    for label, names in ROWS:
        said = next((it for row, it in table.items() if row.startswith(label)), None)
        if told.holds(said is not None, GUIDE, f"has no limit of: {label}"):
            for name in names:
                told.holds(grouped(known[name]) in said, GUIDE, f"its limit of {label} isn't {grouped(known[name])}, as `{name}` is")


def in_cells(told, text, known):
    """The guide's options and a rule's fields have their limits in the cells of their heads."""
    heads, found = [], {}
    for _, cells in [*rows(section(text, "Commands")), *rows(section(text, "Rules"))]:
        heads = cells if cells[0] in ("Option", "Field") else heads
        found[bare(cells[0])] = dict(zip(heads, cells))
    for row, wanted in CELLS.items():
        for head, names in wanted.items():
            said = re.findall(N, found.get(row, {}).get(head, ""))
            for name in names:
                told.holds(grouped(known[name]) in said, GUIDE, f"the {head} of {row} isn't {grouped(known[name])}, as `{name}` is")


def of_checks(told, text, known):
    """The guide's keys of `health` have their defaults, and those that count their most."""
    found = {bare(cells[0]): [bare(it) for it in cells] for _, cells in rows(section(text, "Health of targets")) if len(cells) == 4}
    if not told.reads({*CHECK_KEYS.values(), "MAX_IN_A_ROW"} <= set(known), CHECKS, __file__):
        return
    for key, name in CHECK_KEYS.items():
        *_, value, default = found.get(key, ("", ""))
        wanted = f"{known[name] // 1_000}s" if name.endswith("_MS") else f"{known[name]}"
        told.holds(default == wanted, GUIDE, f"the Default of {key} isn't {wanted}, as `{name}` is")
        is_range = name.endswith("_MS") or value == f"1 to {known['MAX_IN_A_ROW']}"
        told.holds(is_range, GUIDE, f"the Value of {key} isn't 1 to {known['MAX_IN_A_ROW']}, as `MAX_IN_A_ROW` is")


@functools.cache
def said_in(text):
    """Each number that a text says by the words of a limit: the constant's name, the number, the words and the line."""
    found = []
    for pattern, *names in SAID:
        for it in re.finditer(pattern.replace(" ", r"\s+"), text):
            line = text.count("\n", 0, it.start()) + 1
            found += [(name, value_of(said), " ".join(it[0].split()), line) for name, said in zip(names, it.groups())]
    return found


def in_sentences(tree, told, known):
    """Each number that is said by the words of a limit, and that each constant is said so somewhere."""
    seen = set()
    for page in (*tree.pages(), *tree.samples(), HELP):
        for name, value, words, line in said_in(tree.text(page)):
            seen.add(name)
            told.holds(value == known[name], page, f"“{words}”: {grouped(known[name])}, as `{name}` is", line)
    for name in known:
        told.holds(name in seen, GUIDE, f"no page says the limit `{name}` by words that tests/lib/pages/limit_words.py has")


def needed(tree, told, known):
    """The most descriptors of a relay, which counts clients of the metrics by the limit that they have, and of which the guide says
    the same, as of one without options."""
    own = constants(tree.text(NEEDED))
    name, limit = "METRICS_CLIENTS", "MOST_CLIENTS"
    told.holds(own.get(name) == known[limit], NEEDED, f"`{name}` isn't {known[limit]}, as `{limit}` is")
    others = 2 * known["MAX_RULES"] + known["MAX_SESSIONS"] + sum(own.get(it) or 0 for it in (name, "OTHERS"))
    formula = f"2 × (connections + loops + {known['MAX_RULES']}) + {others - 2 * known['MAX_RULES']}"
    told.holds(formula in tree.text(GUIDE), GUIDE, f"doesn't say that a relay needs {formula} descriptors")
    for pairs, loops in (("DEFAULT_PAIRS", "MOST_BY_DEFAULT"), ("MAX_PAIRS", "MAX_LOOPS")):
        most = 2 * known[pairs] + 2 * known[loops] + others
        said = rf"{grouped(most)} with {grouped(known[pairs])}( connections)? on {known[loops]}\b"
        told.holds(re.search(said, tree.text(GUIDE)), GUIDE, f"doesn't say that {known[pairs]} connections on {known[loops]} loops need {most} descriptors")
    return most


def of_unit(tree, told, known, files):
    """The unit leaves the relay the descriptors and threads that its greatest numbers take, those that its own remarks name, and
    the time that its connections have to end."""
    text = tree.text(UNIT)
    given = {name: int(it) for name, it in re.findall(r"^(LimitNOFILE|TasksMax|TimeoutStopSec)=(\d+)$", text, re.M)}
    named = [value_of(it) for line in text.splitlines() if line.startswith("#") for it in re.findall(rf"{N}(?= descriptors| at most)", line)]
    finish = re.search(r"^ExecStart=.*--finish[ =](\d+)", text, re.M)
    least = {
        "LimitNOFILE": (files, "what the greatest relay needs"),
        "TasksMax": (known["MAX_LOOPS"] + ABOUT_A_DOZEN, "a loop's each and a dozen"),
        "TimeoutStopSec": (int(finish[1]) // 1_000 + 1 if finish else 1, "what connections have to end"),
    }
    for name, (wanted, why) in least.items():
        told.holds(given.get(name, 0) >= wanted, UNIT, f"{name} is {given.get(name)}, below {wanted}: {why}")
    told.holds(given.get("LimitNOFILE", 0) >= max(named, default=0), UNIT, f"LimitNOFILE is below what a remark in the unit asks for: {max(named, default=0)}")
