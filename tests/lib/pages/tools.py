"""What the lines of shell in pages call beside the program: scripts of this repository, the kit's `rt`, and programs of the system."""

import functools
import os
import re

from lib.pages.kit import said_by_kit
from lib.pages.links import ANY

# What is called in lines of shell, each with the part of the tests that tries such lines, or with why none does.
CALLED = {
    "sh": None,
    "python3": None,
    "rt": "the gate is made of the kit's commands; that there is one of this name is asked of `rt help`",
    "cargo": "compiles the benches, which measure and show nothing",
    "install": "writes below /usr; that what it installs is there is looked up",
    "apt": "`package`",
    "systemctl": "`systemd_unit`",
    "haproxy": "`rolling_restart`",
    "ulimit": "is the shell's own",
    "socat": "`rolling_restart`",
    "docker": "`container`",
    "curl": "`quickstart`",
    "promtool": "`monitoring`",
    "kubectl": "`kubernetes_manifest`",
}
# Programs of the system that a page might call too. One that it does call comes into the table above.
OTHERS = set("apt-get cat chmod chown chroot cp dash dpkg git groupadd iptables journalctl kill logrotate ls make mkdir mv nc "
             "openssl pkill podman prlimit redis-cli rm sed service setsid ss sudo tail tar timeout tmux unshare useradd watch wget".split())
# Scripts that no part runs as a page says it, each with the part that tries it or with why none does.
UNTRIED = {
    ".ci/run": "is the gate itself",
    "tests/run.sh": "`run_test`",
    "examples/first_connection.sh": "`first_connection`",
    "examples/trace_picture.py": "`pictures_test`",
    "examples/prometheus/pollrelay_textfile.py": "`relay_program`",
    "tools/build.py": "`build_test`",
    "tools/man_page.py": "`man_page`",
    "tools/net_reference.py": "`pages`",
    "tools/unproved.py": "`first_connection`",
    "tools/vendor.py": "`vendor_test`",
    "tools/clauses.py": "`clauses_test`",
    "tools/crate_picture.py": "`pictures_test`",
    "tools/headline_picture.py": "`pictures_test`",
    "tools/wrong_bodies_list.py": "prints a list",
    "packaging/deb.sh": "`package`",
    "bench/go_word/build.sh": "makes a bench of Go's word, which measures and shows nothing",
    "bench/relay/calls.py": "measures and shows nothing",
    "bench/relay/tail.py": "measures and shows nothing",
    "bench/relay/memory.py": "measures and shows nothing",
    "bench/relay/instructions.py": "measures and shows nothing",
    "bench/echo/run.py": "measures and shows nothing",
    "bench/echo_turns.py": "measures and shows nothing",
}
MADE = re.compile(r"(?:^|/)out/")
OPTION = re.compile(r"--[a-z][\w-]*")


@functools.cache
def words_of_kit():
    """The words of what the kit says of itself; none where there is no kit."""
    return set(re.findall(r"[\w-]+", said_by_kit("help")))


class Scripts:
    """The scripts of a tree, and which parts run them."""

    def __init__(self, tree):
        self.tree, self.called = tree, set()
        self.rows = re.findall(r"^\| `(\w+)` \| \w+ \| \d+ \|[^|]*\| `([^`]+)` \|", tree.text("tests/README.md"), re.M)
        self.crates = set(re.findall(r"^(\w+)[^:\n#]*:", tree.text("crates.txt"), re.M))

    def wrong(self, words, page):
        """What is wrong with such a line of a page, or nothing."""
        first, *rest = words
        self.called.add(first)
        if first in OTHERS:
            return f"no part of the tests tries `{first}`, and tests/lib/pages/tools.py has no reason for it"
        if first in ("sh", "python3"):
            return self.wrong_script(rest, os.path.dirname(page)) if rest and rest[0] not in ("-", "-c", "-m") else None
        if first == "rt":
            return self.wrong_of_kit(rest)
        if first == "install":
            sources = [it for it in rest[:-1] if "/" in it and not MADE.search(it)]
            return next((f"there is no {it}" for it in sources if not self.tree.has(it)), None)
        return None

    def wrong_script(self, words, folder):
        path = re.sub(r"^(?:\.\./)+|^\$\w+/", "", words[0])
        if ANY.search(path) or path.startswith("$"):
            return None
        # (a page may have its reader in its own folder)
        path = f"{folder}/{path}" if not self.tree.has(path) and self.tree.has(f"{folder}/{path}") else path
        if not self.tree.has(path):
            return f"there is no {path}"
        text = self.tree.text(path) + "".join(self.tree.text(it) for it in self.read_by(path))
        lacking = [it for word in words[1:] for it in OPTION.findall(word.split("=")[0]) if it[2:] not in text]
        if lacking:
            return f"{path} has no option {lacking[0]}"
        if path == "tests/run.sh":
            return self.wrong_part(words[1:])
        is_tried = path in UNTRIED or any(path in command.split() for _, command in self.rows)
        return None if is_tried else f"no part of the tests runs {path}, and tests/lib/pages/tools.py has no reason for it"

    def read_by(self, path):
        """What a script hands its words on to: the runner, and what it takes its words by."""
        beside = {"tests/run.sh": ["tests/gate/run.py"], ".ci/run": []}.get(path, [])
        return [*beside, "tests/lib/stages.py"]

    def wrong_part(self, words):
        named = {name for name, _ in self.rows} | self.crates | {"full", "outside", "quick", "program"}
        for word in words:
            if not word.startswith("-") and not ANY.search(word) and not word.isdigit() and word not in named:
                return f"there is no part {word}"
        return None

    def wrong_of_kit(self, words):
        if not words or ANY.search(words[0]) or words[0].startswith("-"):
            return None
        known = words_of_kit()
        return f"the kit has no command `{words[0]}`" if known and words[0] not in known else None

    def check_tables(self, told):
        """Each part that tries what was called is there, and so is each script."""
        names = {name for name, _ in self.rows}
        for what in sorted(self.called & set(CALLED) | set(UNTRIED)):
            for part in re.findall(r"^`(\w+)`$", {**CALLED, **UNTRIED}[what] or ""):
                told.holds(part in names, "tests/lib/pages/tools.py", f"`{what}` is tried by `{part}`, which is no part of the tests")
        for path in UNTRIED:
            told.holds(self.tree.has(path), "tests/lib/pages/tools.py", f"there is no {path}")
