#!/bin/bash
# Installs the command with its completion, the portal's library, its header, the pkg-config file, the programs `report` and `pool`, and the
# manual pages: install.sh PREFIX. `install.sh --uninstall PREFIX` takes the same files away, and the folders that are empty then.
# DESTDIR stands before every path that is written to, and in no file.
set -euo pipefail
cd "$(dirname "$0")/.."

remove=false
[[ $1 == --uninstall ]] && { remove=true; shift; }
prefix=$1
to=${DESTDIR:-}$prefix
[[ $prefix == /* ]] || { echo "install: PREFIX must be a path from the root on" >&2; exit 1; }

version=$(sed -n 's/^#define PORTAL_VERSION \([0-9]*\)$/\1/p' include/portal.h)
dotted=$((version / 10000)).$((version / 100 % 100)).$((version % 100))
shared=libportal.so.$((version / 10000))

# put MODE FILE FOLDER: one file to its folder, or away from it.
put() {
    if $remove; then
        rm -f "$to/$3/${4:-${2##*/}}"
        folders+=("$3")
    else
        install -D -m "$1" "$2" "$to/$3/${4:-${2##*/}}"
    fi
}

folders=()
$remove || bash scripts/gemzuleg.sh
put 644 include/portal.h include
put 644 build/lib/libportal.a lib
put 755 "build/lib/$shared" lib
for program in gemzuleg report pool; do
    put 755 "build/bin/$program" bin
done
for page in gemzuleg.1 report.1 pool.1 portal.3 gemzuleg.5; do
    put 644 "man/$page" "share/man/man${page##*.}"
done
put 644 rust/gemzuleg/gemzuleg.bash share/bash-completion/completions gemzuleg

if $remove; then
    rm -f "$to/lib/libportal.so" "$to/lib/pkgconfig/gemzuleg.pc"
    for folder in lib/pkgconfig "${folders[@]}" share/man share/bash-completion share; do
        rmdir "$to/$folder" 2> /dev/null || true
    done
    echo "uninstall: version $dotted is gone from $to"
    exit 0
fi
ln -sf "$shared" "$to/lib/libportal.so"
mkdir -p "$to/lib/pkgconfig"
bash scripts/pkgconfig.sh "$prefix" "$dotted" > "$to/lib/pkgconfig/gemzuleg.pc"
echo "install: version $dotted to $to"
echo "install: the shared library is $shared; run ldconfig where $prefix/lib is one of its folders, or set LD_LIBRARY_PATH=$prefix/lib"
