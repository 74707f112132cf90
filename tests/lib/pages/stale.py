"""What pages said once and the code has made false, and what they say that the code could make false unseen. A row has what in the code
makes it so, and by which words it is said."""

import re

from lib.pages.tree import GUIDE

ROWS = (
    # (an operator who believes it restarts the service for each rule, which cuts every connection)
    ("crates/relay_admin/src/admin/command.rt", r'b"reload"', r"read at the start alone|rules[^.\n]{0,60}systemctl restart pollrelay|systemctl restart pollrelay[^.\n]{0,40}\brules", "rules are read anew by `reload`"),
    ("crates/relay_command/src/job.rt", r'== "--" =>', r"`--`[^|.\n]*\| ?Refused|`--` is refused", "a `--` at the end is taken"),
    ("crates/readiness/src/holding.rt", r"pub struct HeldSocket", r"entry for it \(`Held`\)", "the entry of a table is `HeldSocket`"),
    # (an author who looks for that thread's locks finds none)
    ("crates/relay_main/src/admin_socket.rt", r"pub struct AdminTask", r"the admin thread", "admin sessions are tasks of the main thread"),
    # (a sceptic finds a program that was built and proved by nobody)
    ("tools/unproved.py", r"checks in place of proofs", r"prover checks before the program is built|built only after a prover|aren't all proved isn't built", "`rt try` builds a program with nothing proved"),
    # (a sceptic who looks for the symbols finds them in a benchmark)
    ("crates/bench_calls/src/handles.rt", r"handle\.read\(", r"`FdHandle::read` and `write` are called by no program", "a benchmark calls `FdHandle::read`"),
    # (an operator counts on it that only the clients of a target that goes down change theirs)
    ("crates/target_pick/src/picking.rt", r"source % total", r"same target as long as the list is the same\.", "the remainder changes with the targets that are up"),
    # (a listener that came by a reload has a greater id than connections that stand)
    ("crates/relay_admin/src/admin/command.rt", r'b"reload"', r"whose ids come first", "after a reload a listener may have any id"),
)
# What a page says of sockets: the page, its words, files of the code, what they set, and whether they do. (Keepalives are
# asked for in one file alone.)
OPTIONS = (
    (GUIDE, r"TCP connections have `TCP_NODELAY`", r"crates/readiness/src/(?:sock|open)\.rt", r"\bset_nodelay\(true\)", True),
    (GUIDE, r"TCP keepalive is off without `keepalive`", r"crates/(?:readiness|listen_fds|net|relay\w*)/src/(?!socket_options|sock_control|conn_options).*\.rt", r"SO_KEEPALIVE|set_keepalive", False),
)


def of_sockets(tree, told):
    for page, words, files, option, is_set in OPTIONS:
        if told.reads(re.search(words, tree.text(page)), page, __file__):
            for path in tree.paths(files):
                told.holds(bool(re.search(option, tree.text(path))) == is_set, page, f"says “{words}”, and {path} says otherwise")


def check(tree, told):
    of_sockets(tree, told)
    pages = {it: tree.text(it) for it in (*tree.pages(), *tree.samples())}
    for file, fact, words, said in ROWS:
        if not told.reads(re.search(fact, tree.text(file)), file, __file__):
            continue
        for page, text in pages.items():
            told.passed += 1
            for it in re.finditer(words, text):
                told.holds(False, page, f"{said}, and it says “{it[0]}”", text.count("\n", 0, it.start()) + 1)
