#!/bin/bash
# Installs to a folder of its own, and builds and runs the example, the command, `report` and `pool` from there, as a buyer would.
set -euo pipefail
cd "$(dirname "$0")/../.."
at=$(mktemp -d)
trap 'rm -rf "$at"' EXIT

make --no-print-directory install PREFIX="$at" > "$at.log" 2>&1 || { cat "$at.log"; exit 1; }
rm -f "$at.log"
if command -v pkg-config > /dev/null; then
    read -ra flags < <(PKG_CONFIG_PATH=$at/lib/pkgconfig pkg-config --cflags --libs gemzuleg)
else
    flags=("-I$at/include" "-L$at/lib" -lportal)
fi
gcc -std=c11 -Wall -Wextra -Werror -o "$at/example" examples/portal.c "${flags[@]}"
LD_LIBRARY_PATH=$at/lib "$at/example" examples/document.sheet order mailpw mailpw mailpw+token token | cmp - examples/portal.expected
"$at/bin/report" < examples/document.sheet | cmp - examples/document.report
"$at/bin/pool" examples/first-lab.sheet examples/second-lab.sheet | cmp - examples/both-labs.sheet
"$at/bin/gemzuleg" report examples/document.sheet | cmp - examples/document.report
[[ -s $at/share/bash-completion/completions/gemzuleg ]] || { echo "installed: no completion" >&2; exit 1; }
for page in man1/gemzuleg.1 man1/report.1 man1/pool.1 man3/portal.3 man5/gemzuleg.5; do
    [[ -s $at/share/man/$page ]] || { echo "installed: no $page" >&2; exit 1; }
done
echo "installed: the example, gemzuleg, report and pool run from there"
