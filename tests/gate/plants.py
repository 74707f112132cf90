"""Has each plant of `tests/plants/` seen: a wrong body of what the running relay decides, in a program that is built unproved.

    python3 tests/gate/plants.py [PLANT..]               tries those plants, or all
    python3 tests/gate/plants.py --times 3 [PLANT..]     so many times each
    python3 tests/gate/plants.py --write                 writes the table of plants in docs/testing.md, and tries none

All plants stand in one program, of which the environment has one on (`tests/lib/planted.py`). First each script and stage that a
plant names is run with none on, and has to pass. Then each plant is on, and the check that it names has to fail. Plants that the
tests of a crate see are tried in a copy of the sources, once without them and then with them. The last line is `N passed, M
failed`, of runs.
"""
import argparse
import os
import re
import subprocess
import sys
import time
from concurrent.futures import ThreadPoolExecutor

sys.path.insert(1, f"{sys.path[0]}/..")
from lib import planted
from lib.pages import plants as page
from lib.places import ROOT, TESTS

# The longest that a stage takes, with a plant on too.
SECONDS = 300
# The same of the tests of a crate, which are built for it: on a machine that is full of other work that takes minutes.
CRATE_SECONDS = 1200
# Stages side by side: some have threads of their own beside the relay's.
LANES = max(1, len(os.sched_getaffinity(0)) // 2)


def run(program, script, stage, number):
    """The status of a stage of a script on the program where this plant is on, and which checks failed."""
    env = {**os.environ, "POLLRELAY": program, "PLANT": str(number)}
    words = [sys.executable, f"{TESTS}/system/{script}.py", stage]
    try:
        ran = subprocess.run(words, env=env, stdout=subprocess.PIPE, stderr=subprocess.STDOUT, text=True, timeout=SECONDS, check=False)
    except subprocess.TimeoutExpired:
        return 1, [f"not over in {SECONDS} s"]
    failed = re.findall(r"^FAILED (.*)", ran.stdout, re.M)
    return ran.returncode, failed or ran.stdout.splitlines()[-1:] * (ran.returncode != 0)


def tell(name, is_well, began, said):
    print(f"{'ok' if is_well else 'FAILED':6}  {name} ({time.monotonic() - began:.0f} s){said}", flush=True)
    return is_well


def passes(program, stage):
    """Whether a stage passes with no plant on."""
    began = time.monotonic()
    status, failed = run(program, *stage, 0)
    return tell(" ".join(stage), status == 0, began, f": {failed[:2]}" if status else "")


def is_seen(program, plant):
    """Whether the check that a plant names fails where it is on."""
    began = time.monotonic()
    _, failed = run(program, plant.script, plant.stage, plant.number)
    seen = any(it.startswith(plant.check) for it in failed)
    return tell(plant.name, seen, began, "" if seen else f": `{plant.check}` of {plant.script} {plant.stage} didn't fail, but {failed[:2]}")


def says_in_its_crate(plant, is_on):
    """Whether the tests of a crate say what they have to: the row of the plant fails where it is on, and none where it isn't."""
    began = time.monotonic()
    try:
        said, passed = planted.tried_in_its_crate(plant, is_on, CRATE_SECONDS)
    except subprocess.TimeoutExpired:
        said, passed = f"not over in {CRATE_SECONDS} s", False
    is_well = not passed and f"    {plant.check}:" in said if is_on else passed
    return tell(plant.name if is_on else f"{plant.script} without it", is_well, began, "" if is_well else f": {said[-300:]!r}")


def try_all(chosen, times, lanes):
    """How many runs were as they have to be, of all."""
    of_crates = [it for it in chosen if it.is_for_a_crate()]
    of_relay = [it for it in chosen if not it.is_for_a_crate()]
    program = planted.program(planted.plants()) if of_relay else None
    stages = sorted({(it.script, it.stage) for it in of_relay})
    with ThreadPoolExecutor(lanes) as pool:
        held = list(pool.map(lambda it: passes(program, it), stages))
        held += pool.map(lambda it: says_in_its_crate(it, False), {it.script: it for it in of_crates}.values())
        held += pool.map(lambda it: is_seen(program, it), of_relay * times)
        held += pool.map(lambda it: says_in_its_crate(it, True), of_crates * times)
    return sum(held), len(held)


def arguments():
    words = argparse.ArgumentParser(description=__doc__.split("\n")[0])
    words.add_argument("plants", nargs="*", metavar="PLANT")
    words.add_argument("--times", type=int, default=1, metavar="N", help="so many times each")
    words.add_argument("--lanes", type=int, default=LANES, metavar="N", help="stages side by side")
    words.add_argument("--write", action="store_true", help="write the table of docs/testing.md")
    given = words.parse_args()
    if unknown := set(given.plants) - {it.name for it in planted.plants()}:
        words.error(f"no plant {' '.join(sorted(unknown))}")
    return given


def write_table():
    with open(f"{ROOT}/{page.PAGE}", encoding="utf-8") as file:
        text = file.read()
    with open(f"{ROOT}/{page.PAGE}", "w", encoding="utf-8") as file:
        file.write(page.with_table(text))


def main():
    given = arguments()
    if given.write:
        write_table()
        return 0
    chosen = [it for it in planted.plants() if it.name in (given.plants or [it.name])]
    held, count = try_all(chosen, given.times, given.lanes)
    print(f"{held} passed, {count - held} failed")
    return 0 if held == count else 1


if __name__ == "__main__":
    sys.exit(main())
