#!/usr/bin/env python3
"""How long connects to targets took, and how long connections were open, as the metrics of a relay count it for each rule.

    python3 tests/system/durations.py [STAGE]..

open  a connection that stands longer is in the bucket of a longer bound; the sum has all.
slow  a connect is counted once it is made, by how long it took.
"""
import contextlib
import re
import sys
import time

sys.path.insert(1, f"{sys.path[0]}/..")
from lib.metrics import comes_to_tell, told
from lib.sockets import BlackHole, some_address
from lib.stages import options, run_script
from lib.tried import Tried

# The histograms of a rule.
NAMES = ("connect", "connection")
# A connection that stands for so long, and the bound below that.
STOOD, SHORTER = 1.2, "1"
# A connect to a queue that has no room is tried again by the system after a second: a bound below that, and none.
BELOW, ALL = "0.5", "+Inf"


def histogram(metrics, name, rule):
    """The buckets of a rule by their bounds, the sum and the count."""
    front, values = f'pollrelay_{name}_seconds_', {}
    for line in told(metrics):
        if line.startswith(front) and f'rule="{rule}"' in line:
            figure, value = line.removeprefix(front).rsplit(" ", 1)
            bound = re.search(r',le="([^"]+)"', figure)
            values[bound[1] if bound else figure.split("{")[0]] = float(value)
    return values


def is_whole(found):
    """Whether no bucket has fewer than the one ahead, and the last has all."""
    buckets = [count for bound, count in found.items() if bound not in ("sum", "count")]
    return buckets == sorted(buckets) and buckets[-1] == found["count"]


def whole(it, metrics):
    """Sees that the buckets of each histogram add up."""
    for name in NAMES:
        found = histogram(metrics, name, "a")
        it.holds(f"the buckets of {name} add up", is_whole(found), found)


def is_open(checks, _):
    metrics = some_address()
    with Tried(checks, "open", options=("--metrics", metrics)) as it:
        it.expect("nothing took long before", {0}, {value for name in NAMES for value in histogram(metrics, name, "a").values()})
        began = time.monotonic()
        first, second = it.ends(), it.ends()
        it.holds("both pass bytes", first.pass_both() and second.pass_both(), "they don't")
        it.holds("one ends at once", first.finish(), "it doesn't")
        time.sleep(STOOD)
        it.holds("the other ends later", second.finish(), "it doesn't")
        comes_to_tell(it, metrics, 'pollrelay_connection_seconds_count{rule="a"} 2')
        passed, stood = time.monotonic() - began, histogram(metrics, "connection", "a")
        it.holds("by bounds", stood[SHORTER] <= 1 and stood[ALL] == 2, stood)
        it.holds("as long as they stood", STOOD <= stood["sum"] <= 2 * passed, stood)
        made = histogram(metrics, "connect", "a")
        it.holds("two connects, in less than all that", made["count"] == 2 and 0 < made["sum"] < 2 * passed, made)
        whole(it, metrics)
        it.stop()


def slow(checks, _):
    metrics, hole = some_address(), BlackHole()
    rules = f"relay a {{0}} {hole.address} never\n"
    with contextlib.closing(hole), Tried(checks, "slow", rules=rules, options=("--metrics", metrics)) as it:
        it.client()
        time.sleep(0.3)
        it.expect("one that isn't made isn't counted", 0, histogram(metrics, "connect", "a")["count"])
        make_room(hole)
        comes_to_tell(it, metrics, 'pollrelay_connect_seconds_count{rule="a"} 1')
        made = histogram(metrics, "connect", "a")
        it.expect("by bounds", (0, 1), (made[BELOW], made[ALL]))
        it.holds("as long as it took", made["sum"] >= float(BELOW), made)
        whole(it, metrics)
        it.stop()


def make_room(hole):
    """Takes what waits in the queue out of it, and lets nothing else come but what the relay sends."""
    for it in hole.fill:
        it.close()
    hole.sock.settimeout(0.2)
    with contextlib.suppress(TimeoutError):
        while True:
            hole.sock.accept()[0].close()


STAGES = {"open": is_open, "slow": slow}


if __name__ == "__main__":
    sys.exit(run_script(__doc__, STAGES))
