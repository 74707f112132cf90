"""The command line of a script, and its stages, each in a folder of its own."""
import argparse
import random
import subprocess
import tempfile
import time

from lib.checks import Checks
from lib.relay import allow_descriptors

# What may cut a stage short: it has failed then, and those after it are run.
FAULTS = (OSError, EOFError, RuntimeError, TypeError, StopIteration, subprocess.SubprocessError)


def options(doc, stages=(), **defaults):
    """What a script is asked: some of its stages, and an option for each default, a flag where that is False.

    A `seed` of None is drawn, and said, so that a run can be made again."""
    words = argparse.ArgumentParser(description=doc, formatter_class=argparse.RawDescriptionHelpFormatter)
    for name, default in defaults.items():
        kind = {"action": "store_true"} if default is False else {"default": default, "type": int if default is None else type(default)}
        words.add_argument(f"--{name}", **kind)
    if stages:
        words.add_argument("stages", nargs="*", metavar="STAGE", help=" ".join(stages))
    given = words.parse_args()
    if unknown := set(getattr(given, "stages", ())) - set(stages):
        words.error(f"no stage {' '.join(sorted(unknown))}")
    if "seed" in defaults:
        given.seed = random.randrange(1 << 32) if given.seed is None else given.seed
        print(f"--seed {given.seed}", flush=True)
    return given


def run_stages(checks, stages, chosen=()):
    """Runs all stages, or those chosen: each is given the checks and a folder that goes with it."""
    for name in chosen or stages:
        began = time.monotonic()
        with tempfile.TemporaryDirectory(prefix=f"{name}-") as folder:
            try:
                stages[name](checks, folder)
            except FAULTS as fault:
                checks.holds(name, False, f"cut short by {fault!r}")
        print(f"{name}: {time.monotonic() - began:.1f} s", flush=True)


def run_script(doc, stages, given=None):
    """Runs the stages for which a script is asked, with as many descriptors as it may have, and gives its exit status.

    `given` is what it was asked, where it has options of its own."""
    given, checks = given or options(doc, stages), Checks()
    allow_descriptors()
    run_stages(checks, stages, given.stages)
    return checks.end()
