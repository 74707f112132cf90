#!/bin/sh
# Makes the Debian package of a program that is built, twice, and checks it: both are the same bytes, lintian finds no error,
# and what is unpacked runs from there, without the kit on the path: a script, a check of its rules, and a relayed
# connection. Installs lintian, dpkg-dev and systemd if they are missing.
#
#     sh tests/packaging/package.sh [--install]
#
# With --install, as root, the package is installed too, its program is run, upgraded while it runs, and it is removed and purged:
# nothing is left.
. "$(dirname "$0")/../lib/shell.sh"
need lintian:lintian dpkg-shlibdeps:dpkg-dev strip:binutils systemd-analyze:systemd

# without_kit COMMAND..: runs it with the system's own folders as its path, and no other variable.
without_kit() {
    env -i PATH=/usr/sbin:/usr/bin:/sbin:/bin "$@"
}

# runs PROGRAM: a script with its answers, a file of rules, and a refused command line.
runs() {
    without_kit "$1" <examples/scripts/first_steps.script | cmp - examples/scripts/first_steps.expected || return 1
    without_kit "$1" check --rules "$2" | grep -qx 'rules 0' || return 1
    without_kit "$1" check
    [ $? -eq 2 ]
}

package=$(sh packaging/deb.sh "$scratch/first") || exit 1
again=$(sh packaging/deb.sh "$scratch/again") || exit 1
holds "two runs give one package" cmp "$package" "$again"
holds lintian lintian --fail-on error --tag-display-limit 0 "$package"

unpacked=$scratch/unpacked
holds unpacking dpkg-deb -x "$package" "$unpacked"
for file in usr/bin/pollrelay usr/bin/pollrelay-run usr/share/man/man1/pollrelay.1.gz usr/share/man/man1/pollrelay-run.1.gz lib/systemd/system/pollrelay.service etc/pollrelay/rules \
    usr/share/doc/pollrelay/copyright usr/share/doc/pollrelay/changelog.Debian.gz usr/share/doc/pollrelay/examples/rules/web.rules \
    usr/share/doc/pollrelay/examples/systemd/pollrelay.socket; do
    holds "$file" test -s "$unpacked/$file"
done
# What pages and the man page name as a sample or a page is there, by its path from theirs.
docs=usr/share/doc/pollrelay
for path in $(grep -oh '`\.\{0,2\}/\{0,1\}examples/[^` ]*`' "$unpacked/$docs"/*.md | tr -d '`' | sort -u); do
    holds "sample $path" test -e "$unpacked/$docs/$path"
done
for path in $(zcat "$unpacked/usr/share/man/man1/pollrelay.1.gz" | sed 's/\\-/-/g' | grep -o "/$docs/[a-zA-Z_./-]*[a-zA-Z]" | sort -u); do
    holds "the man page's $path" test -e "$unpacked$path"
done
holds "the unpacked program" runs "$unpacked/usr/bin/pollrelay" "$unpacked/etc/pollrelay/rules"
holds "a connection" without_kit POLLRELAY="$unpacked/usr/bin/pollrelay" sh examples/first_connection.sh
sed "s#/usr/bin/#$unpacked/usr/bin/#" "$unpacked/lib/systemd/system/pollrelay.service" >"$scratch/pollrelay.service"
holds "the unit" systemd-analyze verify --man=no "$scratch/pollrelay.service"

if [ "${1:-}" = --install ]; then
    holds "dpkg -i" dpkg -i "$package"
    holds "the installed program" runs /usr/bin/pollrelay /etc/pollrelay/rules
    env -i PATH=/usr/sbin:/usr/bin:/sbin:/bin pollrelay-run --rules /etc/pollrelay/rules --admin "$scratch/admin.sock" >"$scratch/printed" 2>/dev/null &
    running=$!
    until [ -S "$scratch/admin.sock" ]; do sleep 0.01; done
    holds "an upgrade" dpkg -i "$package"
    holds "it leaves the relay that runs" without_kit pollrelay ctl --admin "$scratch/admin.sock" list
    kill -TERM $running
    wait $running
    holds "that ends by TERM" test $? = 0
    holds "dpkg -r" dpkg -r pollrelay
    holds "no program is left" test ! -e /usr/bin/pollrelay -a ! -e /usr/bin/pollrelay-run
    holds "the rules stay until the purge" test -s /etc/pollrelay/rules
    holds "dpkg -P" dpkg -P pollrelay
    holds "no rules are left" test ! -e /etc/pollrelay
fi

finish
