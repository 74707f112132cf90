#!/bin/sh
# Tries packaging/container/Dockerfile without docker: the package is unpacked into a root of its own, beside the few files that the
# image has of Debian, and the words of ENTRYPOINT are run there as process 1 and as nobody, beside an admin socket
# that a killed one has left. It serves a connection, takes rules anew by HUP, passes its HEALTHCHECK, and ends by TERM with status 0
# and no path left. Takes root.
#
#     sh tests/packaging/container.sh
. "$(dirname "$0")/../lib/shell.sh"
need dpkg-shlibdeps:dpkg-dev strip:binutils unshare:util-linux
recipe=packaging/container/Dockerfile
root=$scratch/root
admin=$root/run/pollrelay/admin.sock

# The words of a line of the recipe.
words_of() {
    sed -n "s/^$1 .*\[\(.*\)\]\$/\1/p; s/^$1 \[\(.*\)\]\$/\1/p" $recipe | head -n 1 | tr -d '",'
}

# copy FILE..: a program of this machine with its libraries.
copy() {
    for file; do
        ldd "$file" | grep -o '/[^ ]*' | while read -r library; do
            install -D "$library" "$root$library"
        done
        install -D "$(readlink -f "$file")" "$root$file"
    done
}

# await COMMAND..: tries until it succeeds, for 10 seconds at most.
await() {
    tries=0
    until "$@" 2>/dev/null; do
        tries=$((tries + 1))
        [ $tries -lt 1000 ] || return 1
        sleep 0.01
    done
}

# inside [-pf] COMMAND..: runs it in the root as nobody, with an image's path; with -pf as process 1.
inside() {
    kind=
    if [ "$1" = -pf ]; then kind=-pf && shift; fi
    # shellcheck disable=SC2016
    exec env -i PATH=/usr/sbin:/usr/bin:/sbin:/bin unshare -m $kind sh -c '
        mount --bind /dev "$0/dev" && mount -t proc proc "$0/proc" && exec chroot --userspec=65534:65534 "$0" "$@"
    ' "$root" "$@"
}

asks() {
    (inside "$@")
}

# comes_back PORT: whether a line through the relay comes back, once it listens there.
comes_back() {
    python3 - "$1" <<'PYTHON'
import socket, sys, time
for _ in range(10_000):
    try:
        client = socket.create_connection(("127.0.0.1", int(sys.argv[1])), timeout=10)
        break
    except ConnectionRefusedError:
        time.sleep(0.001)
client.sendall(b"hello\n")
sys.exit(client.makefile("rb").readline() != b"hello\n")
PYTHON
}

holds root test "$(id -u)" = 0
package=$(sh packaging/deb.sh "$scratch/out") || exit 1
holds unpacking dpkg-deb -x "$package" "$root"
copy /bin/sh /usr/bin/sleep /usr/bin/dirname "$root/usr/bin/pollrelay"
install -d "$root/dev" "$root/proc"
install -d -o 65534 -m 700 "$root/run/pollrelay"
for word in USER STOPSIGNAL ENTRYPOINT HEALTHCHECK; do holds "$word" grep -q "^$word " $recipe; done

python3 -c '
import socket, threading
target = socket.create_server(("127.0.0.1", 0))
frees = [socket.create_server(("127.0.0.1", 0)) for _ in range(2)]
print(target.getsockname()[1], *[it.getsockname()[1] for it in frees], flush=True)
for it in frees: it.close()
def echo(conn):
    while data := conn.recv(4096): conn.sendall(data)
    conn.close()
while True: threading.Thread(target=echo, args=(target.accept()[0],), daemon=True).start()
' >"$scratch/ports" &
target_process=$!
trap 'kill $target_process; rm -rf "$scratch"' EXIT
await test -s "$scratch/ports"
read -r target first second <"$scratch/ports"
echo "relay first tcp:127.0.0.1:$first tcp:127.0.0.1:$target never" >"$root/etc/pollrelay/rules"

# What a killed one left.
python3 -c 'import socket, sys; socket.socket(socket.AF_UNIX).bind(sys.argv[1])' "$admin"
chown 65534 "$admin"

# shellcheck disable=SC2046
inside -pf $(words_of ENTRYPOINT) >"$scratch/printed" 2>"$scratch/errors" &
unshared=$!
holds "it listens" await grep -q listening "$scratch/printed"
relay=$(cut -d ' ' -f 1 "/proc/$unshared/task/$unshared/children")
holds "it is process 1" grep -q '^NSpid:.*[[:space:]]1$' "/proc/$relay/status"
holds "it has no privilege" grep -q '^CapEff:[[:space:]]*0*$' "/proc/$relay/status"
holds "a connection" comes_back "$first"
# shellcheck disable=SC2046
holds "its health" asks $(words_of HEALTHCHECK)
echo "relay second tcp:127.0.0.1:$second tcp:127.0.0.1:$target never" >>"$root/etc/pollrelay/rules"
kill -HUP "$relay"
holds "rules that are taken anew" comes_back "$second"
kill -TERM "$relay"
wait $unshared
holds "its status" test $? = 0
holds "its totals" grep -qx 'up 12 down 12' "$scratch/printed"
none "its errors" "$(grep -vx 'ok\|rules 2' "$scratch/errors")"
holds "no path is left" test ! -e "$admin"
finish
