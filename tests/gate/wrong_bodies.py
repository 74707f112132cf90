"""Tries the wrong bodies of `crates/NAME/wrong-bodies/*.edit`: each has to be refused at a goal of the function that it names.

    python3 tests/gate/wrong_bodies.py [NAME..]            those of the named crates, or of all, that have no receipt, and a
                                                           sample of those that have one (`tests/lib/receipts.py`)
    python3 tests/gate/wrong_bodies.py --write [NAME..]    the same, and writes the receipts of what was refused
    python3 tests/gate/wrong_bodies.py --all [NAME..]      every one, and writes their receipts anew

An edit is written as those of `must-fail/`, with one line more, `refused: FUNCTION`, the name as a check prints it. Edits
of different functions are tried in one check of the functions that they name. What isn't refused there is tried with fewer
beside it, and alone at last. The last line is `N passed, M failed`, of those that were tried.
"""

import argparse
import os
import re
import sys
import tempfile
import threading
import time
from collections import namedtuple
from concurrent.futures import ThreadPoolExecutor
from functools import partial

sys.path.insert(1, f"{sys.path[0]}/..")
from lib import checker, receipts
from lib.edits import applied_together, apply, bodies, edits_of, packed

# What became of an edit: whether it was refused as it has to be, and what was said.
Verdict = namedtuple("Verdict", "is_refused why")

# What only follows from another error says nothing of its own.
NAMES_WHAT_IS_GONE = re.compile(r"has no field|is not in scope|has no `|was not admitted|which was rejected")
UNREADABLE = re.compile(r"is not in scope|has no field|is no name|operand is missing|expected the end|cannot continue")

printing = threading.Lock()
started = time.monotonic()


def own_goal(function, text):
    """What a check's text says that it refuses of the function itself: a goal, or an error at its own answers; else None."""
    said = re.search(rf"^fn {re.escape(function)}: (.*)", text, re.M)
    goals = re.search(r"`search` did not prove (`[^`]*`(?:, `[^`]*`)*)", said[1]) if said else None
    if goals:
        return f"`search` did not prove {goals[1]}"
    if not said or not said[1].startswith(("not proved", "no proof")):
        return None
    errors = errors_in("proofs/" + "/".join([*function.split("::")[1:], ""]), text)
    return next((it for it in errors if not NAMES_WHAT_IS_GONE.search(it)), None)


def errors_in(path, text):
    """What a check says of each error in files whose paths begin so. An error goes on in lines that are indented."""
    return re.findall(rf"^(?:\./)?{re.escape(path)}\S*?:\d+:\d+: error: (.*(?:\n  .*)*)", text, re.M)


def unreadable(text):
    """The error by which a check says that it can't read a text of src/ or specs/, where a false statement would read well."""
    for said in errors_in("src/", text) + errors_in("specs/", text):
        if not re.match(r"`[^`]*`: ", said) or UNREADABLE.search(re.sub(r"`[^`]*`", "", said)):
            return said
    return None


def others_refused(text, batch, names):
    """The functions refused at goals of their own which no edit of the batch changes or names."""
    refused = re.findall(r"^fn (\S+): no[t ]", text, re.M)
    known = {it.refused for it in batch}
    return [it for it in refused if it not in known and not names & set(re.split(r"::|\+", it)) and own_goal(it, text)]


def judged(run, batch, names):
    """A verdict on each edit of a batch, from what the check of it said."""
    last = run.text.rstrip("\n").split("\n")[-1]
    if run.status != 1 or not last.startswith("only="):
        reached = re.search(r"^only=\d+ proved=\d+$", last) and run.status == 0
        why = "NOT REFUSED: it is proved" if reached else f"no verdict, or it doesn't compile: {first_error(run.text)}"
        return [Verdict(False, why)] * len(batch)
    bad = unreadable(run.text)
    if bad:
        return [Verdict(False, f"a text can't be read: {one_line(bad)}")] * len(batch)
    broken = others_refused(run.text, batch, names) if names else []
    if broken:
        return [Verdict(False, f"it breaks a function that it doesn't name: {broken[0]}")] * len(batch)
    return [judged_alone(run.text, it.refused) for it in batch]


def first_error(text):
    errors = re.findall(r"^.*(?:error|no verdict|cannot be used).*", text, re.M)
    return one_line((errors or [text])[0])


def one_line(text):
    return " ".join(text.split())[:160]


def judged_alone(text, function):
    """A verdict on one edit. Of a function that calls what isn't proved, the goals that wait for it are not tried."""
    said = re.search(rf"^fn {re.escape(function)}: (.*)", text, re.M)
    if not said:
        return Verdict(False, f"the check says nothing of {function}")
    if said[1].startswith("proved"):
        return Verdict(False, f"NOT REFUSED: {function} is proved")
    goal = own_goal(function, text)
    if goal:
        return Verdict(True, one_line(goal))
    gone = next((it for it in errors_in("proofs/", text) if NAMES_WHAT_IS_GONE.search(it)), "")
    if gone:
        return Verdict(False, f"refused only because a proof file names what is gone: {one_line(gone)}")
    return Verdict(False, f"{function} isn't refused at a goal of its own: {one_line(said[1])}")


def try_batch(batch, check, read):
    """Yields each edit with its verdict and its share of the processor seconds. `check` runs texts for some functions."""
    run = check(applied_together(batch, read), [it.refused for it in batch])
    changed = [bodies(it, read) for it in batch]
    names = {name for it in changed for _, _, name in it} if all(changed) else set()
    verdicts = dict(zip(batch, judged(run, batch, names)))
    rest = [it for it in batch if not verdicts[it].is_refused and len(batch) > 1]
    for edit in batch:
        if edit not in rest:
            yield edit, verdicts[edit], run.seconds / len(batch)
    half = len(rest) // 2 if len(rest) == len(batch) else len(rest)
    for part in (rest[:half], rest[half:]):
        if part:
            yield from try_batch(part, check, read)


class CrateRun:
    """The edits of a crate: which are to be tried, which were refused or failed, and the processor seconds so far."""

    def __init__(self, crate, standing):
        self.crate, self.edits = crate, edits_of(crate)
        self.digests = {it: standing.of_body(crate, it.name) for it in self.edits}
        self.to_try, self.sampled = self.edits, set()
        self.refused, self.failed, self.seconds = [], [], 0

    def read(self, path):
        with open(f"{self.crate.folder}/{path}", encoding="utf-8") as file:
            return file.read()

    def with_receipt(self, known):
        return [it for it in self.edits if known.get(f"{it.crate}/{it.name}") == self.digests[it]]

    def tell(self, edit, verdict, seconds=0):
        (self.refused if verdict.is_refused else self.failed).append(edit)
        count = f"{len(self.refused) + len(self.failed)} of {len(self.to_try)}"
        state = f"refused, {edit.refused}" if verdict.is_refused else "FAILED"
        if not verdict.is_refused and edit in self.sampled:
            state += ", though its receipt says that it is refused"
        minutes, rest = divmod(int(time.monotonic() - started), 60)
        with printing:
            where = f"{minutes}:{rest:02} {self.crate.name} {count}, {edit.name}"
            print(f"{where}: {state}: {verdict.why} ({seconds:.1f} s)", flush=True)

    def check(self, kept, texts, functions):
        flags = [flag for it in functions for flag in ("--only", it.partition("::")[2])]
        run = checker.check(self.crate, texts, flags, kept)
        self.seconds += run.seconds
        return run

    def try_all(self):
        wrong = {it: apply(it, self.read)[1] for it in self.to_try}
        for edit, why in wrong.items():
            if why:
                self.tell(edit, Verdict(False, f"it doesn't apply: {why}"))
        with tempfile.TemporaryDirectory(prefix="wrong-bodies-") as kept:
            for batch in packed([it for it, why in wrong.items() if not why], self.read):
                for told in try_batch(batch, partial(self.check, kept), self.read):
                    self.tell(*told)


def pass_over(runs, chosen_by):
    """Takes out of each run what has a receipt, save the sample, and says how many have one and how many of these are tried."""
    known = receipts.read()
    stand = {run.crate.name: run.with_receipt(known) for run in runs}
    batches = [batch for run in runs for batch in packed(stand[run.crate.name], run.read)]
    sampled = set(receipts.sample(batches, chosen_by))
    for run in runs:
        passed_over = set(stand[run.crate.name]) - sampled
        run.sampled = sampled & set(run.edits)
        run.to_try = [it for it in run.edits if it not in passed_over]
    return sum(map(len, stand.values())), len(sampled)


def write_receipts(runs):
    """Keeps the receipts of the other crates, and of these what was refused now or still stands."""
    kept = receipts.read()
    own = {run.crate.name for run in runs}
    found = {body: it for body, it in kept.items() if body.partition("/")[0] not in own}
    for run in runs:
        passed_over = [it for it in run.with_receipt(kept) if it not in run.to_try]
        found |= {f"{it.crate}/{it.name}": run.digests[it] for it in [*passed_over, *run.refused]}
    receipts.write(found)


def try_all(runs):
    """Tries the edits of all runs, the longest first. Says whether their crates are proved, without which none is tried."""
    runs = [it for it in runs if it.to_try]
    if not all([checker.prove(it.crate) for it in runs]):
        return False
    longest_first = sorted(runs, key=lambda it: -len(it.to_try) * len(it.crate.below()))
    with ThreadPoolExecutor(checker.lanes()) as pool:
        for _ in pool.map(CrateRun.try_all, longest_first):
            pass
    for it in longest_first:
        print(f"{it.crate.name}: {len(it.to_try)} tried in {it.seconds:.0f} s of processor time")
    return True


def arguments(words):
    found = argparse.ArgumentParser(description="Tries the wrong bodies of the named crates, or of all.")
    found.add_argument("names", nargs="*", metavar="NAME")
    found.add_argument("--all", action="store_true", help="every one, and write their receipts")
    found.add_argument("--write", action="store_true", help="write the receipts of what was refused")
    return found.parse_args(words)


def main(words):
    given, crates = arguments(words), checker.crates()
    standing = receipts.Standing(receipts.judges())
    chosen = [it for it in crates if os.path.isdir(f"{it.folder}/wrong-bodies")]
    runs = [CrateRun(it, standing) for it in chosen if it.name in (given.names or [it.name])]
    unknown = set(given.names) - {it.crate.name for it in runs}
    if unknown:
        print(f"no crate with wrong bodies: {', '.join(sorted(unknown))}")
        return 2
    stand, sampled = (0, 0) if given.all else pass_over(runs, receipts.seed(crates, standing))
    if not try_all(runs):
        print("a crate is not proved, so a refusal would say nothing of the edit\n0 passed, 1 failed")
        return 1
    if given.all or given.write:
        write_receipts(runs)
    failed = [f"{it.crate}/{it.name}" for run in runs for it in run.failed]
    if failed:
        print(f"FAILED: {' '.join(failed)}")
    print(f"{stand - sampled} taken from receipts; of {stand} that have one, {sampled} were tried all the same")
    print(f"{sum(len(it.refused) for it in runs)} passed, {len(failed)} failed")
    return 1 if failed else 0


if __name__ == "__main__":
    sys.exit(main(sys.argv[1:]))
