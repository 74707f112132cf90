#!/bin/sh
# Runs a million random steps, by 2 to 50 holders, on Go's own fd_mutex.go and on the built program, and compares every
# answer, and every word by its fields, since Go's counts have other widths; a panic of Go's is `toomany` or `misuse`
# here. A tenth of the steps runs on a copy of Go's file with our widths, where the limits are compared too. Go's file
# is copied out of Debian's golang-src when this runs; nothing of it is kept. Then two wrong copies of it must be told
# apart.
#
#     sh tests/system/against_go.sh [STEPS]
. "$(dirname "$0")/../lib/shell.sh"
set -e
program=${POLLRELAY:-$PWD/crates/pollrelay/out/pollrelay}
steps=${1:-1000000}
need go:golang-go
ls /usr/share/go-*/src/internal/poll/fd_mutex.go > /dev/null 2>&1 || install_packages golang-src
work=$scratch
export GOCACHE="$work/cache" GOFLAGS=-mod=mod GO111MODULE=on
mkdir "$work/right"
cp tests/system/against_go/*.go "$work/right/"
# Go's file as it is, but for its package and for the two functions that the runtime gives it.
sed -e 's/^package poll$/package main/' -e '/^func runtime_Sem[a-z]*(sema \*uint32)$/d' \
    "$(ls /usr/share/go-*/src/internal/poll/fd_mutex.go | tail -n 1)" > "$work/right/fd_mutex.go"
printf 'module against\n\ngo 1.18\n' > "$work/right/go.mod"

# build NAME EDIT: a copy with this edit of Go's file, which has to change it
build() {
    [ "$1" = right ] || cp -r "$work/right" "$work/$1"
    sed -i "$2" "$work/$1/fd_mutex.go"
    [ "$1" = right ] || ! cmp -s "$work/right/fd_mutex.go" "$work/$1/fd_mutex.go"
    (cd "$work/$1" && go build -o "../against-$1" .)
}

build right ''
"$work/against-right" -program "$program" -steps "$steps"
build our_widths 's/(1<<20 - 1) << 3$/(1<<24 - 1) << 3/; s/= 1 << 23$/= 1 << 27/; s/= 1 << 43$/= 1 << 45/
    s/(1<<20 - 1) << 23$/(1<<18 - 1) << 27/; s/(1<<20 - 1) << 43$/(1<<18 - 1) << 45/'
[ "$(grep -Ec '<< (3|27|45)$' "$work/our_widths/fd_mutex.go")" -eq 6 ]
"$work/against-our_widths" -program "$program" -steps $((steps / 10))
build keeps_waiters 's/new &^= mutexRMask | mutexWMask/new \&^= mutexRMask/'
build forgets_a_waiter 's/new -= mutexWait/new -= mutexWait - mutexWait/'
for wrong in keeps_waiters forgets_a_waiter; do
    if "$work/against-$wrong" -program "$program" -steps "$steps" > "$work/told"; then
        echo "a wrong copy of Go's word ($wrong) was not told apart"
        exit 1
    fi
    echo "a wrong copy of Go's word ($wrong) is told apart: $(head -n 1 "$work/told")"
done
