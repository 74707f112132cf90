"""What a check says, for tests that play the checker."""

from lib import checker

# Of a function that it refuses, behind the function's name.
SEARCHED = "no proof: expected answers in ./proofs/x/Answers.antt; `search` did not prove `returns`"


def says(*lines, last="only=1 proved=0", status=1):
    """A check that printed these lines, the last of which counts, and ended so."""
    return checker.Run("\n".join([*lines, last]) + "\n", status, 6.0, {})
