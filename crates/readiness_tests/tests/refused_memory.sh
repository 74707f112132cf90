#!/bin/sh
# Refuses each allocation of each test in turn: a test that gives up or holds is right, one that faults or hangs is wrong. The test
# `a_refused_setting_up_leaves_no_file_open` has to hold each time. It takes some minutes.
cd "$(dirname "$0")/.." || exit 1
for n in 1 2 3 4 5 6 7 8 9 10 11 12 13 14 15 16; do
    echo "allocation $n refused"
    rt try --test --fail-alloc "$n" 2>&1 | grep -E "a_refused_setting_up_leaves_no_file_open .* ok" || exit 1
done
