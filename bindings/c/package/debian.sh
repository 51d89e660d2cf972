#!/usr/bin/env bash
# Makes the two Debian packages of the files that `make install` has put into a folder:
#
#     package/debian.sh STAGE OUT VERSION
#
# STAGE has the files below usr/, OUT gets the packages. The times of all files are SOURCE_DATE_EPOCH, so that the same
# files give the same packages.
set -euo pipefail
stage=$1 out=$2 version=$3
here=$(dirname "$0")
: "${SOURCE_DATE_EPOCH:?the time of all files, in Unix seconds}"
export SOURCE_DATE_EPOCH
lib=usr/lib/x86_64-linux-gnu
room=$(mktemp -d)
trap 'rm -rf "$room"' EXIT

# The newest version of the C library whose symbols the shared library names.
needed_libc() {
    objdump -T "$stage/$lib/libmovaliren.so.0" | grep -o 'GLIBC_[0-9.]*' | sed 's/GLIBC_//' | sort -Vu | tail -n 1
}

# The files that each package has beside its own.
add_documents() {
    local to=$room/$1/usr/share/doc/$1
    mkdir -p "$to"
    cp "$here/debian/copyright" "$to/copyright"
    printf 'movaliren (%s) unstable; urgency=medium\n\n  * What changed is told by CHANGELOG.md of the project.\n\n -- %s  %s\n' \
        "$version" "$maintainer" "$(date --utc --rfc-email --date="@$SOURCE_DATE_EPOCH")" | gzip -9n >"$to/changelog.gz"
}

# Writes the control file: the package, its section, what it depends on, and its description.
control() {
    local name=$1 section=$2 depends=$3 what=$4 size
    size=$(du --summarize --apparent-size --block-size=1K "$room/$name" | cut -f1)
    mkdir -p "$room/$name/DEBIAN"
    cat >"$room/$name/DEBIAN/control" <<END
Package: $name
Source: movaliren
Version: $version
Section: $section
Priority: optional
Architecture: amd64
Multi-Arch: same
Maintainer: $maintainer
Installed-Size: $size
Depends: $depends
Description: moments as text, by a proved formatter - $what
 Movaliren writes moments as texts of RFC 3339, RFC 2822 and ISO 8601, and of
 descriptions made of components and literals. It is proved that each text is
 what the definition of its format says, and that the returned length is right.
 .
 $5
END
}

build() {
    local name=$1
    (cd "$room/$name" && find usr -type f -printf '%P\0' | LC_ALL=C sort -z | sed -z 's|^|usr/|' |
        xargs -0 md5sum >DEBIAN/md5sums)
    find "$room/$name" -type d -exec chmod 755 {} +
    find "$room/$name" -type f -exec chmod 644 {} +
    find "$room/$name" -exec touch --no-dereference --date="@$SOURCE_DATE_EPOCH" {} +
    dpkg-deb --root-owner-group -Zxz --threads-max=1 --build "$room/$name" "$out/${name}_${version}_amd64.deb" >/dev/null
}

maintainer='Movaliren maintainers <maintainers@users.noreply.movaliren.example>'

mkdir -p "$room/libmovaliren0/$lib" "$room/libmovaliren-dev/usr/share" "$out"
cp "$stage/$lib/libmovaliren.so.0" "$room/libmovaliren0/$lib"
add_documents libmovaliren0
control libmovaliren0 libs "libc6 (>= $(needed_libc))" 'shared library' 'This package has the shared library.'
echo 'libmovaliren 0 libmovaliren0' >"$room/libmovaliren0/DEBIAN/shlibs"
echo 'activate-noawait ldconfig' >"$room/libmovaliren0/DEBIAN/triggers"
{
    echo 'libmovaliren.so.0 libmovaliren0 #MINVER#'
    echo '* Build-Depends-Package: libmovaliren-dev'
    nm -D --defined-only "$stage/$lib/libmovaliren.so.0" | sed 's/.* //; s/^/ /; s/$/@Base 0.1.0/' | LC_ALL=C sort
} >"$room/libmovaliren0/DEBIAN/symbols"
build libmovaliren0

cp -r "$stage/usr/include" "$room/libmovaliren-dev/usr"
mkdir -p "$room/libmovaliren-dev/$lib"
cp -r "$stage/$lib"/{libmovaliren.a,pkgconfig,cmake} "$room/libmovaliren-dev/$lib"
ln -s libmovaliren.so.0 "$room/libmovaliren-dev/$lib/libmovaliren.so"
cp -r "$stage/usr/share/man" "$room/libmovaliren-dev/usr/share"
gzip -9n "$room/libmovaliren-dev/usr/share/man/man3/movaliren.3"
add_documents libmovaliren-dev
control libmovaliren-dev libdevel "libmovaliren0 (= $version)" 'development files' \
    'This package has the header, the static library, the man page, and what
 pkg-config and CMake read.'
build libmovaliren-dev
