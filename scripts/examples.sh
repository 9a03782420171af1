#!/bin/bash
# Prints the report of every sheet of examples/ and compares it with the stored one: by the proved program, and by the
# brute force; and pools the two labs. Names each that differs. REPORT=program and POOL=program run others in the proved
# programs' place.
set -euo pipefail
shopt -s nullglob
cd "$(dirname "$0")/.."

report=${REPORT:-crates/report/out/report}
pool=${POOL:-crates/pool/out/pool}
brute=build/cargo/release/examples/report
out=$(mktemp)
trap 'rm -f "$out"' EXIT
faults=0

fault() {
    echo "examples: $1" >&2
    faults=$((faults + 1))
}

# compare NAME PROGRAM: what PROGRAM prints for the sheet NAME is the stored report, byte for byte.
compare() {
    local stored=examples/$1.report
    if ! "$2" < "examples/$1.sheet" > "$out"; then
        fault "$1: $2 failed"
    elif ! cmp -s "$out" "$stored"; then
        fault "$1: $2 prints another report"
        diff -u "$stored" "$out" | head -n 20 >&2 || true
    fi
}

[[ -x $report ]] || { echo "examples: $report is missing (make gemzuleg builds it)" >&2; exit 1; }
[[ -x $pool ]] || { echo "examples: $pool is missing (make gemzuleg builds it)" >&2; exit 1; }
(cd tests && cargo build --release --quiet --example report)

sheets=(examples/*.sheet)
((${#sheets[@]} > 0)) || fault "no sheet found"
for sheet in "${sheets[@]}"; do
    name=$(basename "$sheet" .sheet)
    grep -qxF "## $name" examples/README.md || fault "$name: no note in examples/README.md"
    if [[ -f examples/$name.report ]]; then
        compare "$name" "$report"
        compare "$name" "$brute"
    else
        fault "$name: no report"
    fi
done
for stored in examples/*.report; do
    [[ -f ${stored%.report}.sheet ]] || fault "$(basename "$stored" .report): no sheet"
done

# The two labs, pooled; the program's own run has copies of the three sheets.
"$pool" examples/first-lab.sheet examples/second-lab.sheet | cmp -s - examples/both-labs.sheet || fault "both-labs: $pool writes another sheet"
for copy in data/first-lab.sheet=first-lab data/second-lab.sheet=second-lab stdout=both-labs; do
    cmp -s "crates/pool/${copy%=*}" "examples/${copy#*=}.sheet" || fault "${copy#*=}: crates/pool/${copy%=*} is another sheet"
done

# The README shows the first example whole.
for shown in examples/document.sheet examples/document.report; do
    [[ -s $shown && $(< README.md) == *"$(sed 's/./    &/' "$shown")"* ]] || fault "README.md does not show $shown"
done

((faults == 0)) || exit 1
echo "examples: ${#sheets[@]} reports as stored; two labs pooled"
