#!/bin/bash
# Everything that is to hold before a change lands. The last line is `rt ci`'s own `N passed, 0 failed`, printed again
# if and only if all else has passed too.
set -euo pipefail
cd "$(dirname "$0")/.."
began=$(date +%s)
log=build/gate.log
mkdir -p build
rm -f "$log"

bash scripts/quick.sh

echo "test: the examples of the definitions"
python3 tests/definitions/alter.py --examples

# The brute force needs nothing that is proved: it is compiled beside the first proofs, which leave a core idle now and then.
(cd tests && cargo test --release --quiet --no-run -p brute > /dev/null 2>&1) &

# Its lines go to build/gate.log as well, each behind the second at which it came. Where it fails, this script ends with its status.
echo "test: proofs, must-fail edits and programs"
rt ci 2>&1 | python3 scripts/gate_times.py --stamp "$began" "$log"
verdict=$(tail -n 1 "$log" | cut -d ' ' -f 2-)
[[ $verdict =~ ^[0-9]+\ passed,\ 0\ failed$ ]] || { echo "test: rt ci did not pass" >&2; exit 1; }
# `rt ci` passes where an edit could not be tried, and says so on its line `rt: ok`.
grep -qE '^[0-9]+ rt: ok' "$log" || { echo "test: rt ci has no line rt: ok" >&2; exit 1; }
if grep -E '^[0-9]+ rt: ok.*, [1-9][0-9]* bad' "$log"; then
    echo "test: must-fail edits are bad" >&2
    exit 1
fi
python3 scripts/refusals.py "$log"
python3 scripts/prove.py --after-gate

# These come after `rt ci`, which removes what was built: they use what it has proved.
echo "test: the portal's library, from C"
bash scripts/lib.sh
bash tests/c/run.sh
bash tests/c/installed.sh

echo "test: the command, built; its pages followed word by word"
bash scripts/rust.sh
bash scripts/gemzuleg.sh
python3 tests/command/walk.py

echo "test: papers, beside the brute force"
python3 tests/command/papers.py

echo "test: the command where files, input or output fail, and on a terminal"
python3 tests/command/faults.py

echo "test: course days through the command, beside the brute force"
(cd tests && cargo run --release --quiet -p day -- gate)

echo "test: the package"
echo "$(git rev-parse HEAD) $verdict" > build/verdict
bash tests/dist/run.sh

echo "test: the examples' reports"
bash scripts/examples.sh

echo "test: failures of input and output"
python3 tests/io/failures.py

echo "test: the brute force, in Rust"
(cd tests && cargo test --release --quiet)

echo "test: the proved code and the brute force, side by side"
(cd tests && cargo run --release --quiet -p harness -- gate)

# scripts/gate_times.py reads these lines, and those of `rt ci`.
{
    echo "test: took $((($(date +%s) - began + 30) / 60)) minutes on $(nproc) cores, $(date +%F)"
    echo "$verdict"
} | python3 scripts/gate_times.py --stamp "$began" "$log"
