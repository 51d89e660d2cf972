#!/usr/bin/env bash
# Makes the Debian package of the files that `make install` has put into a folder:
#
#     package/debian.sh STAGE OUT VERSION
#
# STAGE has the files below usr/, OUT gets the package. The times of all files are SOURCE_DATE_EPOCH, so that the same
# files give the same package.
set -euo pipefail
stage=$1 out=$2 version=$3
: "${SOURCE_DATE_EPOCH:?the time of all files, in Unix seconds}"
export SOURCE_DATE_EPOCH
maintainer='Movaliren maintainers <maintainers@users.noreply.movaliren.example>'
documents=$stage/usr/share/doc/movaliren

mkdir -p "$stage/DEBIAN" "$documents" "$out"
printf 'Movaliren formats calendar values as text.\n\nNo licence has been granted yet: all rights are reserved by its authors.\n' \
    >"$documents/copyright"
printf 'movaliren (%s) unstable; urgency=medium\n\n  * What changed is told by CHANGELOG.md of the project.\n\n -- %s  %s\n' \
    "$version" "$maintainer" "$(date --utc --rfc-email --date="@$SOURCE_DATE_EPOCH")" | gzip -9n >"$documents/changelog.gz"
gzip -9n "$stage/usr/share/man/man1/movaliren.1"
mkdir -p "$stage/usr/share/zsh/vendor-completions"
mv "$stage/usr/share/zsh/site-functions/_movaliren" "$stage/usr/share/zsh/vendor-completions"
rmdir "$stage/usr/share/zsh/site-functions"
# It is linked statically, so that it runs on every system.
mkdir -p "$stage/usr/share/lintian/overrides"
echo 'movaliren: statically-linked-binary [usr/bin/movaliren]' >"$stage/usr/share/lintian/overrides/movaliren"
cat >"$stage/DEBIAN/control" <<END
Package: movaliren
Version: $version
Section: utils
Priority: optional
Architecture: amd64
Maintainer: $maintainer
Installed-Size: $(du --summarize --apparent-size --block-size=1K "$stage/usr" | cut -f1)
Recommends: tzdata
Description: formats the moments of the lines of logs
 Movaliren reads lines from files or standard input and writes them with their
 times as text: Unix time in seconds down to nanoseconds, or texts of RFC 3339,
 in UTC, at an offset or in a zone, by a format or a description. It is proved
 what each line becomes.
END
(cd "$stage" && find usr -type f -printf '%P\0' | LC_ALL=C sort -z | sed -z 's|^|usr/|' | xargs -0 md5sum >DEBIAN/md5sums)
find "$stage" -type d -exec chmod 755 {} +
find "$stage" -type f -exec chmod 644 {} +
chmod 755 "$stage/usr/bin/movaliren"
find "$stage" -exec touch --no-dereference --date="@$SOURCE_DATE_EPOCH" {} +
dpkg-deb --root-owner-group -Zxz --threads-max=1 --build "$stage" "$out/movaliren_${version}_amd64.deb" >/dev/null
