"""What the benchmarks call, with no word: it makes a small run of each, and prints what is stored beside its crate.

    python3 tests/system/bench_calls.py
"""
import subprocess
import sys

sys.path.insert(1, f"{sys.path[0]}/..")
from lib.checks import Checks
from lib.example_programs import program
from lib.places import ROOT

SECONDS = 900


def main():
    checks = Checks()
    with open(f"{ROOT}/crates/bench_calls/stdin", "rb") as given, open(f"{ROOT}/crates/bench_calls/stdout", "rb") as stored:
        ran = subprocess.run([program("bench_calls")], stdin=given, capture_output=True, timeout=SECONDS, check=False)
        checks.expect("its status and output", (0, stored.read(), b""), (ran.returncode, ran.stdout, ran.stderr))
    return checks.end()


if __name__ == "__main__":
    sys.exit(main())
