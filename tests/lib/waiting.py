"""Waits for what comes about elsewhere, and looks at what a process takes meanwhile."""
import contextlib
import glob
import os
import threading
import time

# The most turns of a millisecond that a script waits for what comes about at once.
TURNS = 10_000
# The seconds of each turn of a wait that says how long it is.
TURN_SECONDS = 0.005


def wait_until(is_so, seconds):
    """Asks until the answer is true, so many seconds at least, and gives the last answer: on a busy machine, where a turn takes longer, it
    waits longer too."""
    return comes(is_so, round(seconds / TURN_SECONDS), TURN_SECONDS)


def processor_seconds(pid):
    """The processor seconds so far of a process, and of those of its children that have ended."""
    with open(f"/proc/{pid}/stat", encoding="ascii", errors="replace") as file:
        ticks = file.read().rpartition(")")[2].split()[11:15]
    return sum(map(int, ticks)) / os.sysconf("SC_CLK_TCK")


def unhindered(*pids):
    """The moment by a clock that stands while threads of these processes are ready to run and wait for a processor."""
    waited = 0
    for path in (it for pid in pids for it in glob.glob(f"/proc/{pid}/task/*/schedstat")):
        with contextlib.suppress(OSError), open(path, encoding="ascii") as file:
            waited += int(file.read().split()[1])
    return time.monotonic() - waited / 1e9


def threads_of(pid):
    """What the system says of each thread of a process: its state, how long it ran and waited for a processor, and how often."""
    found = []
    for path in glob.glob(f"/proc/{pid}/task/*"):
        try:
            with open(f"{path}/stat", encoding="ascii", errors="replace") as stat, open(f"{path}/schedstat", encoding="ascii") as times:
                found.append((path, stat.read().rpartition(")")[2].split()[0], times.read()))
        except OSError:
            found.append((path, "gone", ""))
    return found


class Asleep(threading.Thread):
    """Counts for how many seconds all threads of a process sleep, until it ends. A thread that waits for a processor doesn't sleep, so a
    machine that is full of other work adds nothing."""

    def __init__(self, pid):
        super().__init__()
        self.pid, self.seconds = pid, 0.0

    def run(self):
        then, before = time.monotonic(), threads_of(self.pid)
        while any(state not in ("Z", "X", "gone") for _, state, _ in before):
            time.sleep(TURN_SECONDS)
            now, after = time.monotonic(), threads_of(self.pid)
            if after == before and all(state == "S" for _, state, _ in after):
                self.seconds += now - then
            then, before = now, after


def comes(is_so, turns=TURNS, turn_seconds=0.001):
    """Asks until the answer is true, so many times at most, and gives the last answer: no time is too late for it."""
    for _ in range(turns):
        if answer := is_so():
            return answer
        time.sleep(turn_seconds)
    return is_so()
