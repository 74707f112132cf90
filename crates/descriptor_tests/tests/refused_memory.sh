#!/bin/sh
# Refuses each allocation of each test in turn: a test that gives up or holds is right, one that faults or hangs is wrong.
# The test `a_refused_word_drops_the_halves` makes one allocation of its own; the next five are those of `open`, and it has to
# hold at each of their refusals. A drain makes none: the seventh would be its own. It takes some minutes.
cd "$(dirname "$0")/.." || exit 1
for n in 2 3 4 5 6 7; do
    echo "allocation $n refused"
    rt try --test --fail-alloc "$n" 2>&1 | grep -E "a_refused_word_drops_the_halves .* ok" || exit 1
done
