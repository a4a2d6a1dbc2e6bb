#!/bin/sh
# Makes a Debian package of the programs, in build/. Called by `make deb`.
# usage: deb.sh VERSION [1]      1: of the unproved programs; MAINTAINER in the environment: who answers for the package
set -eu
cd "$(dirname "$0")/.."
version=$1 unproved=${2:-}
maintainer=${MAINTAINER:-$(git log -1 --format='%an <%ae>')}
name=kaudit${unproved:+-unproved}
root=build/deb/$name
rm -rf "$root"
mkdir -p "$root/DEBIAN"
make -s install DESTDIR="$root" PREFIX=/usr UNPROVED="$unproved"
doc=$root/usr/share/doc/$name
[ "$name" = kaudit ] || mv "$root/usr/share/doc/kaudit" "$doc"
for program in "$root"/usr/bin/*; do
    head -c 4 "$program" | grep -q ELF && strip --strip-unneeded --remove-section=.comment --remove-section=.note "$program"
done
[ -z "$unproved" ] || for page in "$root"/usr/share/man/man1/k*.1.gz; do
    case $page in */ktriage.1.gz) ;; *) mv "$page" "${page%.1.gz}-unproved.1.gz" ;; esac
done
[ -z "$unproved" ] || for words in "$root"/usr/share/bash-completion/completions/k*; do
    case $words in */ktriage) ;; *) mv "$words" "$words-unproved" ;; esac
done
cat > "$doc/copyright" <<'T'
Format: https://www.debian.org/doc/packaging-manuals/copyright-format/1.0/
Upstream-Name: kaudit
Comment: No license has been chosen yet. Until one is, all rights are reserved
 by the authors, and this package may not be handed on.

Files: *
Copyright: 2026 the authors of kaudit
License: none-chosen
 No license has been chosen yet.
T
{
    echo "$name ($version) unstable; urgency=medium"
    echo
    echo "  * Packaged from its repository by make deb."
    echo
    echo " -- $maintainer  $(date -R -d "@${SOURCE_DATE_EPOCH:-$(git log -1 --format=%ct 2>/dev/null || date +%s)}")"
} | gzip -9n > "$doc/changelog.gz"
find "$root" -type d -exec chmod 755 {} +
find "$doc" -type f -exec chmod 644 {} +
cat > "$root/DEBIAN/control" <<T
Package: $name
Version: $version
Section: devel
Priority: optional
Architecture: amd64
Maintainer: $maintainer
Installed-Size: $(du -k -s "$root" | cut -f1)
Depends: libc6 (>= 2.34)
Recommends: python3 (>= 3.9)
Description: auditor of kernel data structures in crash dumps
 kaudit reads the memory of a crashed x86-64 Linux kernel and names the first
 broken structure: its rule, its address, and the words of the dump that show
 it. kmatch says whether types and map belong to the dump, kwhy what lies at an
 address and which word repairs a structure, and ktriage runs them all.
T
(cd "$root" && find usr -type f -print0 | sort -z | xargs -0 md5sum > DEBIAN/md5sums)
chmod 644 "$root/DEBIAN/control" "$root/DEBIAN/md5sums"
dpkg-deb --root-owner-group -Zxz --build "$root" "build/${name}_${version}_amd64.deb" >&2
echo "build/${name}_${version}_amd64.deb"
