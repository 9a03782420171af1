#!/bin/bash
# Builds the C client and the example with warnings as errors, as C and as C++, with the archive and with the shared library,
# and runs them. The library's global names are the header's. `run.sh stack` prints instead how small a stack each call ran with,
# `run.sh speed` what C pays for a call, and how many scores one thread and two work out.
set -euo pipefail
cd "$(dirname "$0")/../.."
lib=build/lib
out=build/c
flags=(-Wall -Wextra -Wpedantic -Wconversion -Wshadow -Werror -O2 -Iinclude)
mkdir -p "$out"

gcc -std=c11 -D_GNU_SOURCE "${flags[@]}" -pthread -o "$out/client" tests/c/client.c "$lib/libportal.a"
if [[ ${1:-} == stack ]]; then
    exec "$out/client" stack
fi
if [[ ${1:-} == speed ]]; then
    gcc -std=c11 -D_GNU_SOURCE "${flags[@]}" -pthread -o "$out/speed" tests/c/speed.c "$lib/libportal.a"
    exec "$out/speed" examples/document.sheet
fi
gcc -std=c11 -D_GNU_SOURCE "${flags[@]}" -pthread -o "$out/client-shared" tests/c/client.c "$lib/libportal.so"
gcc -std=c11 "${flags[@]}" -o "$out/example" examples/portal.c "$lib/libportal.a"
examples=("$out/example")
if command -v g++ > /dev/null; then
    g++ -std=c++17 "${flags[@]}" -o "$out/example-c++" -x c++ examples/portal.c -x none "$lib/libportal.a"
    examples+=("$out/example-c++")
    # No function has a struct's name: C++ needs no `struct` in front.
    g++ -std=c++17 "${flags[@]}" -fsyntax-only -x c++ - <<< '#include "portal.h"
        portal_closure_result opened(const uint64_t *words) { return portal_closure(words, PORTAL_SETUP_WORDS, 0); }'
fi

diff <(nm "$lib/libportal.a" | sed -n 's/.* T //p' | sort) <(sed -n 's/^\(uint64_t\|bool\|struct [a-z_]*\) \(portal_[a-z_]*\)(.*/\2/p' include/portal.h | sort) ||
    { echo "c client: the library has other names than the header" >&2; exit 1; }
"$out/client"
LD_LIBRARY_PATH=$lib "$out/client-shared"
for example in "${examples[@]}"; do
    "$example" examples/document.sheet order mailpw mailpw mailpw+token token | diff examples/portal.expected - ||
        { echo "c client: $example prints something else than examples/portal.expected" >&2; exit 1; }
done
echo "c client: the example prints what is stored, ${#examples[@]} times"
