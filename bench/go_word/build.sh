#!/bin/sh
# Builds bench/target/go_word: Go's own lock word, for the benchmark lock_word. Go's file is copied out of Debian's
# golang-src; nothing of it is kept in the repository.
set -eu
here=$(cd "$(dirname "$0")" && pwd)
if ! command -v go > /dev/null || ! ls /usr/share/go-*/src/internal/poll/fd_mutex.go > /dev/null 2>&1; then
    apt-get update -q > /dev/null
    apt-get install -y -q golang-go golang-src > /dev/null
fi
work=$(mktemp -d)
trap 'rm -rf "$work"' EXIT
cp "$here/main.go" "$work/"
sed -e 's/^package poll$/package main/' -e '/^func runtime_Sem[a-z]*(sema \*uint32)$/d' \
    "$(ls /usr/share/go-*/src/internal/poll/fd_mutex.go | tail -n 1)" > "$work/fd_mutex.go"
# a file of assembly lets a function have its body elsewhere
touch "$work/elsewhere.s"
printf 'module go_word\n\ngo 1.18\n' > "$work/go.mod"
mkdir -p "$here/../target"
(cd "$work" && GOCACHE="$work/cache" go build -o "$here/../target/go_word" .)
