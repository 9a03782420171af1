#!/bin/bash
# Makes a file that is missing, or older than a source: make_older.sh FILE COMMAND ... The command says on standard error how far
# it is; what else it prints is shown where it fails.
set -euo pipefail
cd "$(dirname "$0")/.."

made=$1
shift
if [[ ! -f $made || -n $(find crates/*/src -newer "$made") ]]; then
    log=$(mktemp)
    trap 'rm -f "$log"' EXIT
    "$@" > "$log" || { cat "$log"; exit 1; }
fi
