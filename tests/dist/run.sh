#!/bin/bash
# The package: made in two folders with the same bytes; run where there is nothing but its own files; its pages followed word by word; and
# installed below a folder with a space in its name, and taken away again.
set -euo pipefail
cd "$(dirname "$0")/../.."
at=$(mktemp -d)
trap 'rm -rf "$at"' EXIT

bash scripts/dist.sh 2> "$at/log" || { cat "$at/log"; exit 1; }

# The second folder has the same commit. What was proved and compiled by the kit is lent to it; the programs are linked and packed anew.
git clone -q . "$at/other folder"
git -C "$at/other folder" checkout -q "$(git rev-parse HEAD)"
mkdir -p "$at/other folder/build"
cp -a build/lib "$at/other folder/build/lib"
for program in report pool; do
    mkdir "$at/other folder/crates/$program/out"
    cp -a "crates/$program/out/$program" "crates/$program/out/$program.o" "$at/other folder/crates/$program/out"
done
[[ ! -r build/verdict ]] || cp build/verdict "$at/other folder/build/verdict"
find "$at/other folder"/crates/*/out "$at/other folder/build/lib" -exec touch -h {} +
if [[ -z $(git status --porcelain) ]]; then
    bash "$at/other folder/scripts/dist.sh" 2> "$at/log" || { cat "$at/log"; exit 1; }
    diff build/dist/SHA256SUMS "$at/other folder/build/dist/SHA256SUMS" || { echo "dist: two folders, and not the same bytes" >&2; exit 1; }
    (cd build/dist && sha256sum --quiet -c SHA256SUMS)
    echo "dist: the same bytes from two folders"
else
    echo "dist: the tree is not as it was committed, so the second package was not made"
fi

# Nothing is there but the package's own files: no shell, no library.
mkdir "$at/root"
tar -xzf build/dist/gemzuleg-*.tar.gz -C "$at/root" --strip-components=1
walked=$at/root/bin
if [[ $(id -u) == 0 ]] && chroot "$at/root" /bin/gemzuleg --version > /dev/null 2>&1; then
    chroot "$at/root" /bin/gemzuleg example > "$at/bench.sheet"
    chroot "$at/root" /bin/gemzuleg report - < "$at/bench.sheet" | cmp - examples/document.report
    echo "dist: answers in a root with nothing else in it"
else
    echo "dist: no root may be changed here, so it ran in this one"
    "$walked/gemzuleg" example | "$walked/gemzuleg" report - | cmp - examples/document.report
fi
GEMZULEG=$walked python3 tests/command/walk.py

if command -v dpkg-deb > /dev/null; then
    dpkg-deb -x build/dist/gemzuleg_*_amd64.deb "$at/deb"
    "$at/deb/usr/bin/gemzuleg" example | "$at/deb/usr/bin/gemzuleg" report - | cmp - examples/document.report
    echo "dist: the Debian package's files answer"
fi

bash scripts/install.sh "$at/a prefix" > "$at/log" 2>&1 || { cat "$at/log"; exit 1; }
"$at/a prefix/bin/gemzuleg" report examples/document.sheet | cmp - examples/document.report
if command -v pkg-config > /dev/null; then
    eval "flags=($(PKG_CONFIG_PATH="$at/a prefix/lib/pkgconfig" pkg-config --cflags --libs gemzuleg))"
    gcc -std=c11 -o "$at/example" examples/portal.c "${flags[@]}"
    LD_LIBRARY_PATH="$at/a prefix/lib" "$at/example" examples/document.sheet order mailpw mailpw mailpw+token token | cmp - examples/portal.expected
fi
bash scripts/install.sh --uninstall "$at/a prefix" > /dev/null
left=$(find "$at/a prefix" -mindepth 1)
[[ -z $left ]] || { echo "uninstall: left behind: $left" >&2; exit 1; }
echo "dist: installed below a folder with a space, and taken away whole"
