# `make` alone says what there is. `make test` proves and tests everything; its last line is the verdict.
.PHONY: help test quick report pool gemzuleg definitions prove lib install uninstall dist fuzz bench mutate alter check-contracts clean

ALONE = @bash scripts/alone.sh

help:
	@echo 'make gemzuleg   makes the command for a course day, build/bin/gemzuleg; docs/COURSE.md shows it'
	@echo 'make report     prints the report of examples/document.sheet; SHEET=file, that of another sheet'
	@echo 'make pool       pools two sheets: FIRST=file SECOND=file'
	@echo 'make lib        makes the library for C in build/lib, with include/portal.h'
	@echo 'make install    command, library, header, programs, manual pages and completion to PREFIX=/usr/local'
	@echo 'make uninstall  takes these away again'
	@echo 'make dist       a tarball and a Debian package in build/dist, which need no kit'
	@echo 'make definitions  prints every definition that must be believed; DEMAND=3, CALL=portal_kinds, POINT=9 for what one rests on'
	@echo 'make quick      layout, contracts, rows, map, index and header, in seconds'
	@echo 'make test       the gate: proves every crate, tries the edits that must fail, runs all tests (about an hour of processor time where nothing was proved before)'
	@echo 'make prove      the proofs alone'
	@echo 'make fuzz       fresh inputs against the brute force; SECONDS=600, SEED=7'
	@echo 'make bench, make mutate, make alter   measurements and records: README has a line for each'
	@echo 'make clean      removes what was built: build/, and out/ of each crate'

test:
	$(ALONE) test rt python3 cargo gcc g++ -- bash scripts/test.sh

# What can be told without a proof.
quick:
	$(ALONE) quick rt python3 -- bash scripts/quick.sh

# The report of a sheet, and nothing else on standard output: what is built first goes to build/report.log.
report: export SHEET ?= examples/document.sheet
report:
	@test -r "$$SHEET" || { echo "report: cannot read $$SHEET" >&2; exit 1; }
	$(ALONE) report rt python3 -- python3 scripts/prove.py report build/report.log report
	@crates/report/out/report < "$$SHEET"

# The pooled sheet of two sheets, and nothing else on standard output.
pool: export FIRST ?= examples/first-lab.sheet
pool: export SECOND ?= examples/second-lab.sheet
pool:
	$(ALONE) pool rt python3 -- python3 scripts/prove.py pool build/pool.log pool
	@crates/pool/out/pool "$$FIRST" "$$SECOND"

# The command for a course day, with the proved programs that it runs: build/bin.
gemzuleg:
	$(ALONE) gemzuleg rt python3 cargo gcc ar -- bash scripts/gemzuleg.sh

# Every definition that must be believed, in reading order, as one text; DEMAND=3, CALL=portal_kinds or POINT=9, what that rests on.
definitions:
	@python3 scripts/definitions.py $(if $(DEMAND),--demand $(DEMAND)) $(if $(CALL),--call $(CALL)) $(if $(POINT),--point $(POINT))

# The proofs alone: no must-fail edits, no programs, no Rust or C.
prove:
	$(ALONE) prove rt -- rt all check

# The portal's library for C: build/lib/libportal.a and a shared library, with include/portal.h.
lib:
	$(ALONE) lib rt python3 gcc ar -- bash scripts/lib.sh

# The command, library, header, pkg-config file, the programs `report` and `pool`, manual pages and completion: make install PREFIX=/usr/local.
PREFIX = /usr/local
install:
	$(ALONE) install rt python3 cargo gcc ar -- bash scripts/install.sh "$(PREFIX)"

# Takes away what `make install` put there.
uninstall:
	@bash scripts/install.sh --uninstall "$(PREFIX)"

# A tarball and a Debian package in build/dist: static programs that need no kit.
dist:
	$(ALONE) dist rt python3 cargo gcc ar git -- bash scripts/dist.sh

# Fresh inputs against the brute force: make fuzz, make fuzz SECONDS=600, make fuzz SEED=7 to repeat a run.
SECONDS = 60
fuzz:
	$(ALONE) fuzz rt python3 cargo gcc ar -- bash scripts/fuzz.sh $(SECONDS) $(SEED)

# The proved code beside the same algorithm in Rust; writes docs/PERFORMANCE.md and records/performance.md. On a machine with nothing else to do.
bench:
	$(ALONE) bench rt python3 cargo gcc ar -- bash scripts/bench.sh

# Small edits of every function, each of which the prover must refuse; writes records/mutation.md. make mutate CRATE=bases tries one crate.
mutate:
	$(ALONE) mutate rt python3 -- python3 scripts/mutate.py $(CRATE)

# Each definition altered, and an example that notices it: records/definitions.md.
alter:
	$(ALONE) alter rt python3 -- python3 tests/definitions/alter.py

check-contracts:
	@python3 scripts/contracts.py

clean:
	$(ALONE) clean -- rm -rf crates/*/out build/bench build/bin build/cargo build/cargo-static build/dist build/lib build/report.log build/pool.log build/lib.log build/proved
