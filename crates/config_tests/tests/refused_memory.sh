#!/bin/sh
# Refuses each of the first 40 allocations of each test in turn: a text is read as what it says, or refused for its first
# fault, or for want of memory. A test that reads otherwise, faults or hangs is wrong.
cd "$(dirname "$0")/.." || exit 1
for n in $(seq 40); do
    echo "allocation $n refused"
    rt try --test --fail-alloc "$n" 2>&1 | grep -E "^test result: ok" || exit 1
done
