#!/bin/bash
# What can be told of the tree without a proof, in seconds: layout, contracts, rows, the map of the crates, the index, the header, the command.
set -euo pipefail
cd "$(dirname "$0")/.."

echo "quick: layout"
mapfile -t sources < <(find crates/*/src crates/*/specs crates/*/proofs -name '*.rt' -o -name '*.antt' | sort)
"$(dirname "$(rt doc)")/bin/rattle" fmt --check "${sources[@]}"
for script in contracts rows map index header command; do
    python3 "scripts/$script.py"
done
