#!/bin/bash
# Debian's packages: built from a copy of the tree, judged by lintian, installed into a scratch root, and used from there.
cd "$(dirname "$0")/../.." || exit 2
scratch=$PWD/c/out/package root=$PWD/c/out/package/root
rm -rf "$scratch" && mkdir -p "$scratch/tree" "$root/var/lib/dpkg" || exit 1
tar -c --exclude=./c/out --exclude=./crates/*/out --exclude=./.git . | tar -x -C "$scratch/tree" || exit 1
(cd "$scratch/tree" && dpkg-buildpackage -b -us -uc) || exit 1
lintian --fail-on error "$scratch"/*.changes || exit 1
touch "$root/var/lib/dpkg/status"
dpkg --root="$root" --force-depends --log=/dev/null -i "$scratch"/gasnet-yuspelgna{,-dev,-doc}_*.deb || exit 1
"$root/usr/bin/gasnetcc" c/examples/ring.c -o "$scratch/ring" && "$root/usr/bin/gasnetrun" -n 4 "$scratch/ring" || exit 1
libs=$(echo "$root"/usr/lib/*-linux-gnu)
PKG_CONFIG_PATH=$libs/pkgconfig gcc c/examples/ring.c -o "$scratch/shared" $(PKG_CONFIG_PATH=$libs/pkgconfig pkg-config --cflags --libs gasnet) &&
    LD_LIBRARY_PATH=$libs "$root/usr/bin/gasnetrun" -n 4 "$scratch/shared" && [ -e "$root/usr/share/man/man3/gasnet.3.gz" ]
