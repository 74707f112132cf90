#!/bin/sh
# Checks examples/systemd/pollrelay.service: that systemd reads it without a complaint, that its numbers fit each other, and that what
# the program asks the system for in a life of one connection, and the wrapper in one that is steered by signals and in one with
# sockets of systemd's, is what the unit's sandbox leaves them; and pollrelay.socket beside it. Installs systemd and strace if they
# are missing.
#
#     sh tests/packaging/systemd_unit.sh
. "$(dirname "$0")/../lib/shell.sh"
need systemd-analyze:systemd strace:strace
program=${POLLRELAY:-$PWD/crates/pollrelay/out/pollrelay}
unit=examples/systemd/pollrelay.service

# The programs are where the unit looks for them only once they are installed.
ln -s "$program" "$scratch/pollrelay"
ln -s "$PWD/packaging/pollrelay-run" "$scratch/pollrelay-run"
sed "s#/usr/local/bin/#$scratch/#" $unit >"$scratch/pollrelay.service"
none "systemd-analyze verify" "$(systemd-analyze verify --man=no "$scratch/pollrelay.service" 2>&1)"
cp examples/systemd/pollrelay.socket "$scratch/pollrelay.socket"
none "systemd-analyze verify, with sockets" "$(systemd-analyze verify --man=no "$scratch"/pollrelay.s* 2>&1)"

# number_of KEY: the number that the unit gives an option or a setting.
number_of() {
    sed -n "s/^[A-Z].*--$1 \([0-9]*\).*/\1/p; s/^$1=\([0-9]*\)\$/\1/p" $unit
}
holds "a stop has more time than its connections" test "$(number_of TimeoutStopSec)000" -gt "$(number_of finish)"
holds "descriptors for 50,000 connections, 64 rules and 64 loops" test "$(number_of LimitNOFILE)" -ge 100368
holds "threads for 64 loops" test "$(number_of TasksMax)" -ge 80

# The names of a set of calls, with those of the sets in it.
calls_of() {
    for name in $(systemd-analyze syscall-filter "$1" | sed '1d; s/#.*//'); do
        case $name in
            @*) (calls_of "$name") ;;
            *) echo "$name" ;;
        esac
    done
}
calls_of "$(sed -n 's/^SystemCallFilter=//p' $unit)" | sort -u >"$scratch/allowed"
named=$(sed -n 's/^RestrictAddressFamilies=//p' $unit)
families=$(echo "$named" | sed 's/ /,|/g; s/$/,/')

cat >"$scratch/traced" <<END
#!/bin/sh
exec strace -f -qq -a1 -o "$scratch/log.\$1" "$program" "\$@"
END
chmod +x "$scratch/traced"
holds "a traced connection" env POLLRELAY="$scratch/traced" sh examples/first_connection.sh

# The unit's start, with its paths in a folder of this run: HUP, and TERM once the admin socket is there.
start=$(sed -n "s#^ExecStart=/usr/local/bin/#$scratch/#p" $unit | sed "s#/run/pollrelay/#$scratch/#; s#/etc/pollrelay/#$scratch/#")
: >"$scratch/rules"
# shellcheck disable=SC2086
strace -D -f -qq -a1 -o "$scratch/log.wrapped" $start >"$scratch/printed" 2>"$scratch/told" &
wrapped=$!
for signal in HUP TERM; do
    tries=0
    until [ -S "$scratch/admin.sock" ] || [ $tries = 1000 ]; do tries=$((tries + 1)) && sleep 0.01; done
    kill -$signal $wrapped
    tries=0
    until grep -q '^rules 0$' "$scratch/told" || [ $tries = 1000 ]; do tries=$((tries + 1)) && sleep 0.01; done
done
wait $wrapped
holds "a wrapped relay ends by TERM" test $? = 0
holds "its lines" grep -qx 'up 0 down 0' "$scratch/printed"

# The same with its sockets given: the first question starts it.
echo "relay one unix:$scratch/one.sock unix:$scratch/none never" >"$scratch/rules"
systemd-socket-activate -l "$scratch/one.sock" -l "$scratch/given.sock" strace -D -f -qq -a1 -o "$scratch/log.given" \
    "$scratch/pollrelay-run" --rules "$scratch/rules" --admin "$scratch/given.sock" >"$scratch/printed" 2>"$scratch/told" &
given=$!
tries=0
until [ -S "$scratch/given.sock" ] || [ $tries = 1000 ]; do tries=$((tries + 1)) && sleep 0.01; done
holds "a relay that is given its sockets" test "$("$program" ctl --admin "$scratch/given.sock" list)" = 'ids 1'
kill -TERM $given
wait $given
holds "it ends by TERM" test $? = 0
none "what it doesn't use" "$(grep 'unused socket' "$scratch/told")"
holds "it leaves their paths" test -S "$scratch/one.sock" -a -S "$scratch/given.sock"

# IPv6, under a filter of calls as systemd makes one of RestrictAddressFamilies: sockets of other families are refused.
cat >"$scratch/restricted.py" <<'END'
"""Runs a program that is given sockets of these families alone: restricted.py "FAMILY.." PROGRAM.."""
import ctypes
import errno
import os
import socket
import struct
import sys

# By linux/filter.h and linux/seccomp.h: each step has a code, how many steps are skipped where a word is its value and where it
# isn't, and that value. The words are a call's number, of which socket has 41 on x86-64, and its first argument, at byte 16.
LOAD, IS_EQUAL, ANSWER = 0x20, 0x15, 0x06
REFUSED, ALLOWED = 0x50000 | errno.EAFNOSUPPORT, 0x7FFF0000
PR_SET_NO_NEW_PRIVS, PR_SET_SECCOMP, SECCOMP_MODE_FILTER = 38, 22, 2

families = [getattr(socket, name) for name in sys.argv[1].split()]
steps = [(LOAD, 0, 0, 0), (IS_EQUAL, 0, len(families) + 2, 41), (LOAD, 0, 0, 16)]
steps += [(IS_EQUAL, len(families) - place, 0, family) for place, family in enumerate(families)]
steps += [(ANSWER, 0, 0, REFUSED), (ANSWER, 0, 0, ALLOWED)]
code = ctypes.create_string_buffer(b"".join(struct.pack("=HBBI", *step) for step in steps))
filter_of_calls = ctypes.create_string_buffer(struct.pack("@HP", len(steps), ctypes.addressof(code)))
libc = ctypes.CDLL(None, use_errno=True)
libc.prctl.argtypes = [ctypes.c_int] + [ctypes.c_ulong] * 4
if libc.prctl(PR_SET_NO_NEW_PRIVS, 1, 0, 0, 0) or libc.prctl(PR_SET_SECCOMP, SECCOMP_MODE_FILTER, ctypes.addressof(filter_of_calls), 0, 0):
    sys.exit(f"no filter of calls: {os.strerror(ctypes.get_errno())}")
os.execvp(sys.argv[2], sys.argv[2:])
END
cat >"$scratch/line.py" <<'END'
"""A line through a relay that listens at one host, to a target at another: line.py LISTEN TARGET, and words ahead of the program's."""
import sys

sys.path.insert(1, "tests")
from lib.counting_target import CountingTarget
from lib.echoes import comes_back
from lib.relay import Relay, StartFault
from lib.sockets import free_port

listens, host, *before = sys.argv[1:]
address, target = f"tcp:{listens}:{free_port()}", CountingTarget(host=host)
rule = f'[[rule]]\nname = "six"\nlisten = ["{address}"]\ntarget = [{{ at = "{target.address}" }}]\n'
try:
    with Relay(f'admin = "{{folder}}/admin.sock"\nlog = "{{folder}}/log"\n{rule}', form="config", before=before, env={}) as relay:
        came, ended = comes_back(address), relay.stop()[:2]
        with open(f"{relay.folder}/log", encoding="ascii") as log:
            sys.exit(0 if came and ended == (0, (5, 5)) else f"no line comes back: {log.read()}{ended}")
except StartFault as fault:
    sys.exit(f"it doesn't start: {fault.errors}")
END
# line LISTEN TARGET "FAMILY..": a line through a relay under that filter, traced.
line() {
    POLLRELAY=$program python3 "$scratch/line.py" "$1" "$2" python3 "$scratch/restricted.py" "$3" strace -A -f -qq -a1 -o "$scratch/log.six"
}
if python3 -c 'import sys; sys.path.insert(1, "tests"); from lib.sockets import has_ipv6; sys.exit(not has_ipv6())'; then
    holds "a rule at [::1] under the unit's families" line "[::1]" 127.0.0.1 "$named"
    holds "a target at [::1] under the unit's families" line 127.0.0.1 ::1 "$named"
    line "[::1]" 127.0.0.1 "AF_INET AF_UNIX" >"$scratch/told" 2>&1
    holds "a rule at [::1] where they lack AF_INET6" grep -qx "it doesn't start: cannot listen six" "$scratch/told"
else
    echo "NOT TRIED: this machine has no ::1, so that the unit is tried with none of IPv6"
fi

# The file system as ProtectSystem=strict shows it, in a mount namespace of its own: only the unit's folders can be written. There the
# program takes a log in LogsDirectory, and none elsewhere.
folder=/var/log/$(sed -n 's/^LogsDirectory=//p' $unit)
cat >"$scratch/strict" <<'END'
log=$1 folder=$2 program=$3 rules=$4
mount -t tmpfs tmpfs /run && mkdir -p /run/pollrelay && mount -t tmpfs tmpfs /var/log && mkdir -p "$folder" || exit 9
mount --bind "$folder" "$folder" && mount -o remount,ro,bind /var/log && mount -o remount,ro,bind / || exit 9
"$program" serve --rules "$rules" --admin /run/pollrelay/admin.sock --log "$log" &
relay=$!
until "$program" ctl --admin /run/pollrelay/admin.sock stop 2>/dev/null; do kill -0 $relay 2>/dev/null || break; sleep 0.01; done
wait $relay || exit
[ -f "$log" ]
END
# strict LOG: whether a relay under these mounts starts, with its log there.
strict() {
    unshare -m sh "$scratch/strict" "$1" "$folder" "$program" "$scratch/rules" >"$scratch/printed" 2>"$scratch/told"
}
: >"$scratch/rules"
holds "a log in the unit's LogsDirectory" strict "$folder/relay.log"
strict /var/log/relay.log
holds "a log elsewhere is a fault" grep -qx 'cannot open log' "$scratch/told"
holds "the guide has that folder" grep -q -e "--log $folder/relay.log" docs/operations.md

sed -n 's/^[0-9]* *\(<\.\.\. \)\{0,1\}\([a-z_0-9]*\)[( ].*/\2/p' "$scratch"/log.* | sort -u >"$scratch/used"
none "calls outside the unit's filter" "$(comm -13 "$scratch/allowed" "$scratch/used" | grep -v '^execve$')"
none "address families" "$(grep -h 'socket(' "$scratch"/log.* | grep -Ev "$families")"
none "memory to write and to run" "$(grep -h 'PROT_WRITE|PROT_EXEC' "$scratch"/log.*)"
holds "the trace" test "$(wc -l <"$scratch/used")" -gt 20
echo "$(wc -l <"$scratch/used") kinds of calls were used"
finish
