#!/usr/bin/env python3
"""What `pollrelay trace` prints of scripts of the lock word, and its status.

    python3 tests/system/traces.py [STAGE]..

references  references, closes and the destruction.
locks       locks, those who wait for them, and signals.
drains      drained words, which let nobody in.
limits      the most references, waiters and names.
bad         the first bad line ends a script.
devices     an output that fails is told, and where nobody can be told it is a status.
"""
import os
import subprocess
import sys

sys.path.insert(1, f"{sys.path[0]}/..")
from lib.checks import Checks
from lib.places import PROGRAM
from lib.stages import options, run_stages

# What the checks of a program that isn't proved may take.
WAIT_SECONDS = 600
# Scripts and what they print.
REFERENCES = (
    ("", ""),
    ("1 incref\n", "held 0000000000000008 0 0 -\n"),
    ("1 incref", "held 0000000000000008 0 0 -\n"),
    ("1 incref\n1 decref\n", "held 0000000000000008 0 0 -\nkept 0000000000000000 0 0 -\n"),
    ("1 decref\n", "misuse 0000000000000000 0 0 -\n"),
    ("0+2 incref\n", "held 0000000000000010 0 0 -\n"),
    (
        "1 close\n2 close\n1 decref\n1 destroy\n",
        "closing 0000000000000009 0 0 -\nclosed 0000000000000009 0 0 -\nlast 0000000000000001 0 0 -\n"
        "done 0000000000000001 0 0 1\n",
    ),
)
LOCKS = (
    (
        "1 rlock\n2 rlock\n1 runlock\n1 rsignal\n2 rwake\n",
        "held 000000000000000a 0 0 -\nqueued 000000000800000a 0 0 -\nowes 0000000000000000 0 0 -\n"
        "signalled 0000000000000000 1 0 -\nwoken 0000000000000000 0 0 -\n",
    ),
    ("1 rlock\n2 wlock\n", "held 000000000000000a 0 0 -\nheld 0000000000000016 0 0 -\n"),
    (
        "1 rlock\n2 rlock\n3 close\n3 rsignal\n2 rwake\n2 rlock\n3 decref\n1 runlock\n1 destroy\n",
        "held 000000000000000a 0 0 -\nqueued 000000000800000a 0 0 -\nclosing 0000000000000013 0 0 -\n"
        "signalled 0000000000000013 1 0 -\nwoken 0000000000000013 0 0 -\nclosed 0000000000000013 0 0 -\n"
        "kept 000000000000000b 0 0 -\nlast 0000000000000001 0 0 -\ndone 0000000000000001 0 0 1\n",
    ),
    (
        "1 wlock\n2 wlock\n1 wunlock\n2 wwake\n1 wsignal\n2 wwake\n",
        "held 000000000000000c 0 0 -\nqueued 000020000000000c 0 0 -\nowes 0000000000000000 0 0 -\n"
        "notyet 0000000000000000 0 0 -\nsignalled 0000000000000000 0 1 -\nwoken 0000000000000000 0 0 -\n",
    ),
    (
        "1 rlock\n2 rlock\n1 runlock\n3 close\n3 decref\n1 rsignal\n2 rwake\n3 destroy\n",
        "held 000000000000000a 0 0 -\nqueued 000000000800000a 0 0 -\nowes 0000000000000000 0 0 -\n"
        "closing 0000000000000009 0 0 -\nlast 0000000000000001 0 0 -\nsignalled 0000000000000001 1 0 -\n"
        "woken 0000000000000001 0 0 -\ndone 0000000000000001 0 0 3\n",
    ),
    (
        "1 rlock\n2 rlock\n3 close\n3 decref\n",
        "held 000000000000000a 0 0 -\nqueued 000000000800000a 0 0 -\nclosing 0000000000000013 0 0 -\n"
        "misuse 0000000000000013 0 0 -\n",
    ),
    ("1000+1000 rsignal\n", "misuse 0000000000000000 0 0 -\n"),
)
DRAINS = (
    (
        "1 rlock\n2 rlock\n3 drain\n3 rsignal\n2 rwake\n2 rlock\n1 runlock\n5 close\n5 decref\n5 destroy\n",
        "held 000000000000000a 0 0 -\nqueued 000000000800000a 0 0 -\ndrained 800000000000000a 0 0 -\n"
        "signalled 800000000000000a 1 0 -\nwoken 800000000000000a 0 0 -\ndraining 800000000000000a 0 0 -\n"
        "kept 8000000000000000 0 0 -\nclosing 8000000000000009 0 0 -\nlast 8000000000000001 0 0 -\n"
        "done 8000000000000001 0 0 5\n",
    ),
    (
        "1 rlock\n2 wlock\n3 rlock\n4 wlock\n5 drain\n5 drain\n5 wsignal\n5 wsignal\n5 rsignal\n5 drain\n",
        "held 000000000000000a 0 0 -\nheld 0000000000000016 0 0 -\nqueued 0000000008000016 0 0 -\n"
        "queued 0000200008000016 0 0 -\ndrained 8000000000000016 0 0 -\nmisuse 8000000000000016 0 0 -\n"
        "signalled 8000000000000016 0 1 -\nmisuse 8000000000000016 0 1 -\nsignalled 8000000000000016 1 1 -\n"
        "draining 8000000000000016 1 1 -\n",
    ),
    (
        "1 drain\n1 wlock\n1 close\n2 drain\n2 incref\n",
        "drained 8000000000000000 0 0 -\ndraining 8000000000000000 0 0 -\nclosing 8000000000000009 0 0 -\n"
        "closed 8000000000000009 0 0 -\nclosed 8000000000000009 0 0 -\n",
    ),
)
LIMITS = (
    # (ten million steps, twenty seconds of an unproved program)
    ("10000000+10000000 rsignal\n", "misuse 0000000000000000 0 0 -\n"),
    (
        "1+1048575 incref\n0 incref\n0 rlock\n0 close\n0 decref\n1 decref\n0 rlock\n2000000 rlock\n0 runlock\n0 rsignal\n"
        "2000000 rwake\n1 incref\n0 drain\n2000000 incref\n2000000 close\n",
        "held 00000000007ffff8 0 0 -\nheld 0000000000800000 0 0 -\nmisuse 0000000000800000 0 0 -\n"
        "misuse 0000000000800000 0 0 -\nkept 00000000007ffff8 0 0 -\nkept 00000000007ffff0 0 0 -\n"
        "held 00000000007ffffa 0 0 -\nqueued 00000000087ffffa 0 0 -\nowes 00000000007ffff0 0 0 -\n"
        "signalled 00000000007ffff0 1 0 -\nwoken 00000000007ffff0 0 0 -\nheld 00000000007ffff8 0 0 -\n"
        "drained 80000000007ffff8 0 0 -\ndraining 80000000007ffff8 0 0 -\nclosing 8000000000800001 0 0 -\n",
    ),
    (
        "1 rlock\n2+262143 rlock\n0 rlock\n",
        "held 000000000000000a 0 0 -\nqueued 00001ffff800000a 0 0 -\ntoomany 00001ffff800000a 0 0 -\n",
    ),
    (
        "1 wlock\n2+262143 wlock\n0 wlock\n0 close\n",
        "held 000000000000000c 0 0 -\nqueued 7fffe0000000000c 0 0 -\ntoomany 7fffe0000000000c 0 0 -\n"
        "closing 0000000000000015 0 0 -\n",
    ),
    ("4194304 incref\n", "held 0000000000000008 0 0 -\n"),
    ("67108863 incref\n", "held 0000000000000008 0 0 -\n"),
)
BAD = (
    ("1 incref\n01 incref\n1 decref\n", "held 0000000000000008 0 0 -\nbad line 2\n"),
    ("67108864 incref\n", "bad line 1\n"),
    ("1+0 incref\n", "bad line 1\n"),
    ("\n", "bad line 1\n"),
    ("1 incref\r\n", "bad line 1\n"),
    ("1 open\n", "bad line 1\n"),
    ("67108863+2 incref\n", "bad line 1\n"),
    ("10000000+10000000 rsignals\n", "bad line 1\n"),
    ("10000000+10000000 rsignals", "bad line 1\n"),
    ("1 incref\n\n1 decref\n", "held 0000000000000008 0 0 -\nbad line 2\n"),
    ("x" * 26, "bad line 1\n"),
    ("\0", "bad line 1\n"),
)


def trace(script, **how):
    return subprocess.run([PROGRAM, "trace"], input=script.encode(), capture_output=not how, timeout=WAIT_SECONDS, check=False, **how)


def compared(checks, name, status, rows):
    for script, prints in rows:
        done = trace(script)
        told = (done.returncode, done.stdout.decode(), done.stderr.decode())
        checks.expect(f"{name}: {script!r}", (status, prints, ""), told)


def references(checks, _):
    compared(checks, "references", 0, REFERENCES)


def locks(checks, _):
    compared(checks, "locks", 0, LOCKS)


def drains(checks, _):
    compared(checks, "drains", 0, DRAINS)


def limits(checks, _):
    compared(checks, "limits", 0, LIMITS)


def bad(checks, _):
    compared(checks, "bad", 1, BAD)


def devices(checks, _):
    closed = {"stdout": subprocess.DEVNULL, "stderr": subprocess.DEVNULL, "preexec_fn": lambda: (os.close(1), os.close(2))}
    checks.expect("devices: neither output takes a byte", 3, trace("1 incref\n", **closed).returncode)


STAGES = {it.__name__: it for it in (references, locks, drains, limits, bad, devices)}


def main():
    given, checks = options(__doc__, STAGES), Checks()
    run_stages(checks, STAGES, given.stages)
    return checks.end()


if __name__ == "__main__":
    sys.exit(main())
