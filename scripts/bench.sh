#!/bin/bash
# Times the proved code beside the same algorithm in Rust, and writes docs/PERFORMANCE.md with its charts and records/performance.md:
#   bench.sh [quick | typical | marking | rows | reports | forecast | next | living | closing | opens | cuts | intruders | register | bags | pool]
# With quick it makes few rounds and writes to build/bench/docs and build/bench/records instead; with another word it only prints tables:
# typical those of typical labs and of a class, marking that of marks, rows that of the report with the most rows, reports those of reading and of reports, forecast that of forecasts,
# next that of next sets, living those of calls that change a setup, closing that of closures, opens that of quick answers, cuts that of
# cut sets, intruders that of kinds of intruder, register that of the class register, bags that of bag scores, pool that of two sheets
# pooled.
set -euo pipefail
cd "$(dirname "$0")/.."

bash scripts/make_older.sh build/lib/libportal.a bash scripts/lib.sh
bash scripts/make_older.sh crates/report/out/report python3 scripts/prove.py bench build/report.log report

(cd tests && cargo build --release --quiet -p bench)
build/cargo/release/bench "$@"
