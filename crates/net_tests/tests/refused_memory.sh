#!/bin/sh
# Refuses each allocation of each test in turn: a test that gives up or holds is right, one that faults or hangs is wrong.
# The three tests `a_refused_*_leaves_nothing_open` have to hold each time, until each says that what was refused came behind its
# round: then all of its allocations were tried. Each is a build of its own, so that it takes hours.
cd "$(dirname "$0")/.." || exit 1
for n in $(seq 400); do
    told=$(rt try --test --fail-alloc "$n" 2>&1)
    held=$(echo "$told" | grep -cE "a_refused_[a-z_]*_leaves_nothing_open .* ok")
    behind=$(echo "$told" | grep -cE "^ *refused behind the round$")
    echo "allocation $n refused: $held of 3 hold, and $behind made fewer"
    [ $((held + behind)) = 3 ] || exit 1
    [ "$behind" = 3 ] && exit 0
done
echo "more allocations are made, which weren't tried"
exit 1
