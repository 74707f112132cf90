#!/bin/sh
# Refuses each allocation of each test in turn. `LockWord::new` makes three, and only the tests of many words
# make more. Where one is refused, the test `a_word_drops_its_halves_once` holds, and each other test that can't
# have its memory says so: none faults, fails otherwise or hangs. It takes three minutes.
cd "$(dirname "$0")/.." || exit 1
allocations=3
many='a_close_or_a_drain_under_load_ends_a_hundred_rounds\|each_queued_waiter_ends_as_closed_or_as_draining\|nobody_misses_an_end_that_comes_as_he_parks'
report=$(mktemp)
trap 'rm -f "$report"' EXIT
wrong() {
    cat "$report"
    echo "allocation $n refused: $1"
    exit 1
}
for n in $(seq $((allocations + 1))); do
    rt try --test --fail-alloc "$n" >"$report" 2>&1
    grep -q 'a_word_drops_its_halves_once \.\.\. ok$' "$report" || wrong "the halves"
    failed=$(grep -c '\.\.\. FAILED$' "$report")
    gave_up=$(grep -c 'no memory for a word' "$report")
    [ "$failed" -eq "$gave_up" ] || wrong "a test fails in another way"
    others=$(grep '\.\.\. FAILED$' "$report" | grep -vc "$many")
    if [ "$n" -le "$allocations" ]; then
        [ "$others" -gt 0 ] || wrong "no test noticed"
    else
        [ "$others" -eq 0 ] || wrong "one allocation more than is known"
    fi
    echo "allocation $n refused: $failed tests give up, the others hold"
done
