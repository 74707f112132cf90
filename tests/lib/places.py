"""Where things are: the repository, its tests, and the built program that the scripts try."""
import os

LIB = os.path.dirname(os.path.realpath(__file__))
TESTS = os.path.dirname(LIB)
ROOT = os.path.dirname(TESTS)
# The program is the one that POLLRELAY names, or else the proved one.
PROGRAM = os.path.abspath(os.environ.get("POLLRELAY", f"{ROOT}/crates/pollrelay/out/pollrelay"))
