#!/bin/bash
# Makes the portal's library in build/lib: the static library portal_c, which exports all calls, as an archive and as a shared library. Says
# how far it is; what the prover prints is shown where it fails.
set -euo pipefail
cd "$(dirname "$0")/.."

lib=build/lib
objects=$(mktemp -d)
trap 'rm -rf "$objects"' EXIT
major=$(($(sed -n 's/^#define PORTAL_VERSION \([0-9]*\)$/\1/p' include/portal.h) / 10000))

mkdir -p "$lib"
# The kit's verdict names the axioms that a static library stands on; ours stands on none, and prove.py fails where it does.
python3 scripts/prove.py lib build/lib.log portal_c
archive=$PWD/crates/portal_c/out/libportal_c.a
(cd "$objects" && ar x "$archive")
rm -f "$lib"/libportal.*
gcc -shared -Wl,-soname,"libportal.so.$major" -Wl,-z,noexecstack -o "$lib/libportal.so.$major" "$objects"/*.o
# A copy and no link: `rt ci` refuses links below the folder that it is run in.
cp "$lib/libportal.so.$major" "$lib/libportal.so"
# last, since its time tells whether the library is older than a source
ar rcs "$lib/libportal.a" "$objects"/*.o
echo "lib: $(nm "$lib/libportal.a" | grep -c ' T portal_') calls in $lib/libportal.a and $lib/libportal.so.$major"
