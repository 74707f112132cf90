"""Samples for operators: rules are five words each, what asks a relay for its figures is right of one whose rules were read anew, and
the quickstart says of the unit and of the manifest what they have."""

import os
import re
import socket
import subprocess
import sys
import tempfile
import threading

from lib.pages.markdown import bare, rows
from lib.pages.tree import HELP, UNIT

TEXTFILE, MANIFEST, FIRST_STEPS = "examples/prometheus/pollrelay_textfile.py", "examples/kubernetes/pollrelay.yaml", "docs/quickstart.md"
# Where the unit lets what be written, and how the quickstart says so.
WRITTEN = (("RuntimeDirectory", "/run", r"own Unix socket belongs below `([^`]*)`"), ("LogsDirectory", "/var/log", r"a log below `([^`]*)`"))
RULE = re.compile(r"^\s*(?:#\s+)?relay [\w-]+ (?:tcp|unix):")
# A relay that read its rules anew: a listener has a greater id than the two connections that stand.
SHOWN = [f"show {it} rule web side {side} peer unix: up 6 down 17 age 9 quiet 9" for it, side in
         ((2, "client"), (3, "target"), (4, "client"), (5, "target"), (6, "listener"))]
REPLIES = {
    "totals": "totals up 12 down 34",
    "list": "ids 2 3 4 5 6",
    "show": "\n".join([*SHOWN, "end"]),
    **{f"show {it.split()[1]}": it for it in SHOWN},
    "quit": "ok",
}
SECONDS = 10


def check(tree, told):
    hides_tmp = "\nPrivateTmp=yes" in tree.text(UNIT)
    for page in (*tree.pages(), *tree.samples(), HELP):
        for line, said in enumerate(tree.text(page).splitlines(), 1):
            if RULE.match(said) and "$" not in said:
                words = said.split("#")[-1].split()
                told.holds(len(words) == 5 and re.fullmatch(r"never|[1-9]\d*|[A-Z]+", words[4]), page, f"no rule: {said.strip()}", line)
                told.holds(not hides_tmp or "unix:/tmp/" not in said, page, f"the unit hides /tmp: {said.strip()}", line)
    if tree.has(TEXTFILE):
        figures(tree, told)
    first_steps(tree, told)


def first_steps(tree, told):
    """The quickstart's folders are the unit's, and its pages for probes are the manifest's."""
    text, unit, manifest = (tree.text(it) for it in (FIRST_STEPS, UNIT, MANIFEST))
    for key, top, words in WRITTEN:
        said, given = re.search(words, text), re.search(rf"^{key}=(\S+)", unit, re.M)
        if told.reads(said, FIRST_STEPS, __file__) and told.reads(given, UNIT, __file__):
            told.holds(said[1] == f"{top}/{given[1]}", FIRST_STEPS, f"says {said[1]}, and the unit has {key}={given[1]}")
    table = {bare(cells[0]): cells[-1] for _, cells in rows(text)}
    for kind, path in re.findall(r"(\w+)Probe:\s+httpGet:\s+path: (\S+)", manifest):
        told.holds(f"`{path}`" in table.get(kind, ""), FIRST_STEPS, f"its row {kind} hasn't {path}, which the manifest asks")


def figures(tree, told):
    """What the sample writes for a stub of a relay."""
    with tempfile.TemporaryDirectory(prefix="pages-") as folder:
        script, admin, output = (os.path.join(folder, it) for it in ("script.py", "admin", "figures"))
        with open(script, "w", encoding="utf-8") as file:
            file.write(tree.text(TEXTFILE))
        with open(f"{folder}/rules", "w", encoding="ascii") as file:
            file.write("relay web unix:/a unix:/b never\n")
        words = [sys.executable, script, "--admin", admin, "--output", output]
        words += ["--rules", f"{folder}/rules"] if '"--rules"' in tree.text(TEXTFILE) else []
        with socket.socket(socket.AF_UNIX) as listener:
            listener.bind(admin)
            listener.listen()
            listener.settimeout(SECONDS)
            threading.Thread(target=serve, args=(listener,), daemon=True).start()
            ran = subprocess.run(words, capture_output=True, text=True, timeout=SECONDS, check=False)
        text = ""
        if told.holds(ran.returncode == 0 and os.path.exists(output), TEXTFILE, f"ended with status {ran.returncode}: {ran.stderr[-300:]}"):
            with open(output, encoding="ascii") as file:
                text = file.read()
        told.holds("\npollrelay_connections 2\n" in text, TEXTFILE, f"2 connections stand, and it says: {text}")


def serve(listener):
    """Answers sessions as a relay does, one after the other."""
    try:
        while True:
            session, _ = listener.accept()
            with session, session.makefile("r", encoding="ascii") as lines:
                for line in lines:
                    session.sendall((REPLIES.get(line.strip(), "error 400 bad command") + "\n").encode())
                    if line.strip() == "quit":
                        break
    except OSError:
        pass  # (the check is over)
