#!/bin/bash
# Makes the command in build/bin, with the proved programs `report` and `pool` beside it, where it looks for them. Says how far it is.
set -euo pipefail
cd "$(dirname "$0")/.."

bash scripts/make_older.sh build/lib/libportal.a bash scripts/lib.sh
for program in report pool; do
    bash scripts/make_older.sh "crates/$program/out/$program" python3 scripts/prove.py gemzuleg "build/$program.log" "$program"
done
echo "gemzuleg: compiles the command" >&2
(cd rust && cargo build --release --quiet -p gemzuleg)
mkdir -p build/bin
install -m 755 build/cargo/release/gemzuleg crates/report/out/report crates/pool/out/pool build/bin
echo "gemzuleg: build/bin/gemzuleg; put $PWD/build/bin on your PATH, and see docs/COURSE.md" >&2
