#!/bin/bash
# Compares the proved code with the brute force on fresh inputs, and then for a quarter of the time course days through the command:
# fuzz.sh SECONDS [SEED]. The seed is printed, and the same seed gives the same inputs.
set -euo pipefail
cd "$(dirname "$0")/.."

for_seconds=$1
seed=${2:-$(od -An -N6 -tu8 /dev/urandom | tr -d ' ')}

bash scripts/gemzuleg.sh
echo "fuzz: seed $seed, for $for_seconds seconds"
cd tests
cargo run --release --quiet -p harness -- fuzz "$seed" "$for_seconds"
cargo run --release --quiet -p day -- fuzz "$seed" "$((for_seconds / 4 + 1))"
