#!/bin/sh
# Makes a Debian package of a pollrelay that is built, and prints its path.
#
#     sh packaging/deb.sh [FOLDER]
#
# The package comes into FOLDER, packaging/out where none is named. POLLRELAY names another program than
# crates/pollrelay/out/pollrelay. It takes dpkg-deb (dpkg), dpkg-shlibdeps (dpkg-dev) and strip (binutils). The version, the
# maintainer and the date stand in packaging/debian/changelog alone; two runs of one program give the same bytes.
set -eu
umask 022
cd "$(dirname "$0")/.."

program=${POLLRELAY:-crates/pollrelay/out/pollrelay}
folder=${1:-packaging/out}
[ -x "$program" ] || { echo "there is no program at $program: python3 tools/build.py pollrelay" >&2; exit 1; }
for tool in dpkg-deb dpkg-shlibdeps strip; do
    command -v $tool >/dev/null || { echo "$tool is missing: apt-get install dpkg-dev binutils" >&2; exit 1; }
done

scratch=$(mktemp -d)
trap 'rm -rf "$scratch"' EXIT
root=$scratch/root
changes=packaging/debian/changelog
version=$(sed -n '1s/.*(\(.*\)).*/\1/p' $changes)
maintainer=$(sed -n 's/^ -- \(.*>\)  .*/\1/p' $changes | head -n 1)
SOURCE_DATE_EPOCH=$(date -d "$(sed -n 's/^ -- .*>  //p' $changes | head -n 1)" +%s)
export SOURCE_DATE_EPOCH
architecture=$(dpkg --print-architecture)

# put MODE FILE PLACE: a file into its place in the package.
put() {
    install -D -m "$1" "$2" "$root/$3"
}

# put_zipped FILE PLACE: the same, compressed.
put_zipped() {
    put 644 "$1" "$2"
    gzip -9n "$root/$2"
}

put 755 "$program" usr/bin/pollrelay
strip --strip-unneeded --remove-section=.comment "$root/usr/bin/pollrelay"
put 755 packaging/pollrelay-run usr/bin/pollrelay-run
put_zipped man/pollrelay.1 usr/share/man/man1/pollrelay.1
ln -s pollrelay.1.gz "$root/usr/share/man/man1/pollrelay-run.1.gz"
put 644 packaging/debian/rules.sample etc/pollrelay/rules

# The unit of examples/, with the programs where the package has it, and without the words on how to install it.
sed '/^$/,$!d; s#/usr/local/bin/#/usr/bin/#' examples/systemd/pollrelay.service | sed 1d >"$scratch/pollrelay.service"
put 644 "$scratch/pollrelay.service" lib/systemd/system/pollrelay.service

docs=usr/share/doc/pollrelay
put 644 packaging/debian/copyright $docs/copyright
put_zipped $changes $docs/changelog.Debian
put_zipped CHANGELOG.md $docs/changelog
for page in quickstart operations from-haproxy-nginx-socat rules-file admin-protocol trace-script; do put 644 docs/$page.md $docs/$page.md; done
# (there the samples stand beside the pages. What pages and samples name as a sample is there: tests/lib/pages/packaged.py)
sed -i 's#\.\./examples#examples#g' "$root/$docs"/*.md
for file in $(git ls-files examples); do put 644 "$file" $docs/$file; done

mkdir "$root/DEBIAN" "$scratch/debian"
for script in postinst prerm postrm; do put 755 packaging/debian/$script DEBIAN/$script; done
echo /etc/pollrelay/rules >"$root/DEBIAN/conffiles"
# dpkg-shlibdeps asks for a source package's control file.
printf 'Source: pollrelay\n\nPackage: pollrelay\nArchitecture: any\n' >"$scratch/debian/control"
libraries=$(cd "$scratch" && dpkg-shlibdeps -O root/usr/bin/pollrelay | sed 's/^shlibs:Depends=//')
size=$(du -ks --apparent-size --exclude=DEBIAN "$root" | cut -f 1)
sed "s/@VERSION@/$version/; s/@ARCHITECTURE@/$architecture/; s/@MAINTAINER@/$maintainer/; s/@SIZE@/$size/
     s/@LIBRARIES@/$libraries/" packaging/debian/control >"$root/DEBIAN/control"
(cd "$root" && find . -path ./DEBIAN -prune -o -type f -printf '%P\n' | LC_ALL=C sort | xargs md5sum >DEBIAN/md5sums)
find "$root" -exec touch -h -d "@$SOURCE_DATE_EPOCH" {} +

mkdir -p "$folder"
package=$folder/pollrelay_${version}_$architecture.deb
dpkg-deb --root-owner-group --build "$root" "$package" >/dev/null
echo "$package"
