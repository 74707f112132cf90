"""The pictures in docs/pictures are those that examples/trace_picture.py draws of the sample scripts, and it refuses what
is no run; those of the crates and of the lock word's headline are what tools/crate_picture.py draws of crates.txt, and
tools/headline_picture.py.

    python3 tests/gate/pictures_test.py
"""
import subprocess
import sys
import tempfile

sys.path.insert(1, f"{sys.path[0]}/..")
from lib.places import ROOT

SCRIPTS = f"{ROOT}/examples/scripts"

# Each picture with the sample script that it shows.
PICTURES = {"queue_for_a_lock": "first_steps", "close_with_a_waiter": "close_with_a_waiter"}

# Scripts and answers that aren't of one run.
UNFIT = {
    "an answer that is no line of a trace": ("1 incref\n", "held 8 0 0 -\n"),
    "more answers than lines": ("1 incref\n", "held 0000000000000008 0 0 -\n" * 3),
}


def drawn(script, answers):
    command = [sys.executable, f"{ROOT}/examples/trace_picture.py", script, answers]
    return subprocess.run(command, capture_output=True, text=True)


def is_current(picture, name):
    with open(f"{ROOT}/docs/pictures/{picture}.svg", encoding="utf-8") as kept:
        return drawn(f"{SCRIPTS}/{name}.script", f"{SCRIPTS}/{name}.expected").stdout == kept.read()


def is_drawn_by(tool, picture):
    command = [sys.executable, f"{ROOT}/tools/{tool}.py"]
    with open(f"{ROOT}/docs/pictures/{picture}.svg", encoding="utf-8") as kept:
        return subprocess.run(command, capture_output=True, text=True).stdout == kept.read()


def is_refused(script, answers):
    with tempfile.TemporaryDirectory() as folder:
        for name, text in (("script", script), ("answers", answers)):
            with open(f"{folder}/{name}", "w", encoding="ascii") as file:
                file.write(text)
        ran = drawn(f"{folder}/script", f"{folder}/answers")
    return ran.returncode == 1 and not ran.stdout and ran.stderr.startswith("trace_picture: ")


def main():
    rows = [(f"the picture {it} is current", is_current(it, name)) for it, name in PICTURES.items()]
    rows.append(("the picture of the crates is current", is_drawn_by("crate_picture", "crates")))
    rows.append(("the picture of the headline is current", is_drawn_by("headline_picture", "headline")))
    rows += [(f"refused: {it}", is_refused(*texts)) for it, texts in UNFIT.items()]
    for row in (it for it, well in rows if not well):
        print("FAILED:", row)
    failed = sum(not well for _, well in rows)
    print(f"{len(rows) - failed} passed, {failed} failed")
    return 1 if failed else 0


if __name__ == "__main__":
    sys.exit(main())
