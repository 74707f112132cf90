#!/bin/sh
# A first connection: builds pollrelay, starts it in front of an echo server, sends a line through it, asks its admin
# socket, stops it, and leaves nothing behind.
#
#     sh examples/first_connection.sh              builds it with checks in place of proofs, within two minutes
#     sh examples/first_connection.sh --proved     proves every crate first, which takes up to an hour on 4 processors
#
# It needs the Rattle kit's rt on the path, and python3. What was built of the same text isn't built again, so a later run
# takes seconds. POLLRELAY names a program that is built already.
set -eu
cd "$(dirname "$0")/.."

case ${1-} in
    "" | --proved) ;;
    *) echo "usage: sh examples/first_connection.sh [--proved]" >&2; exit 2 ;;
esac

if [ -n "${POLLRELAY:-}" ]; then
    program=$POLLRELAY
elif [ "${1-}" = --proved ]; then
    echo "Proving and building: python3 tools/build.py pollrelay"
    python3 tools/build.py pollrelay
    program=$PWD/crates/pollrelay/out/pollrelay
else
    echo "Building pollrelay with nothing proved (--proved proves it): python3 tools/unproved.py"
    program=$(python3 tools/unproved.py)
fi

scratch=$(mktemp -d)
relay= echo_server=
clean_up() {
    for process in $relay $echo_server; do kill "$process" 2>/dev/null || true; done
    rm -rf "$scratch"
}
trap clean_up EXIT
trap 'exit 1' INT TERM

# await COMMAND..: tries until it succeeds, for 10 seconds at most.
await() {
    tries=0
    until "$@" 2>/dev/null; do
        tries=$((tries + 1))
        [ $tries -lt 100 ] || { echo "gave up: $*"; exit 1; }
        sleep 0.1
    done
}

# The target: it sends back what one connection sends. It says its port, and another that is free for the relay.
python3 -c '
import socket
target = socket.create_server(("127.0.0.1", 0))
with socket.create_server(("127.0.0.1", 0)) as free:
    print(target.getsockname()[1], free.getsockname()[1], flush=True)
conn, _ = target.accept()
while data := conn.recv(4096):
    conn.sendall(data)
' >"$scratch/ports" &
echo_server=$!
await test -s "$scratch/ports"
read -r target listen <"$scratch/ports"

echo "relay first tcp:127.0.0.1:$listen tcp:127.0.0.1:$target never" >"$scratch/rules"
echo "The rules: $(cat "$scratch/rules")"
"$program" check --rules "$scratch/rules"
"$program" serve --rules "$scratch/rules" --admin "$scratch/admin.sock" >"$scratch/said" &
relay=$!
await grep -q '^listening' "$scratch/said"
cat "$scratch/said"

# A client of the relay, and an admin session while it is connected.
python3 - "$listen" "$scratch/admin.sock" <<'END'
import socket, sys
client = socket.create_connection(("127.0.0.1", int(sys.argv[1])), timeout=10)
client.sendall(b"hello through the relay\n")
print("The client sent a line, and had back:", client.makefile().readline(), end="")
admin = socket.socket(socket.AF_UNIX)
admin.settimeout(10)
admin.connect(sys.argv[2])
lines = admin.makefile("rw")
for command in ("list", "totals", "stop"):
    lines.write(command + "\n")
    lines.flush()
    print(">", command)
    print("<", lines.readline(), end="")
END

wait "$relay" && status=0 || status=$?
relay=
tail -n 1 "$scratch/said"
echo "pollrelay ended with status $status"
exit "$status"
