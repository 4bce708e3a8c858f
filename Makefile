# check: for the working day.  try: runs the program in a minute or two, without a proof.  quick: proves, tests and tries with its
# edits what differs from main.  build: proves and builds the program.  test: the gate.  demo: the examples.  demo-live: a rollout
# under traffic, and one that its analysis takes back.  demo-fleet: a fleet of three machines on one.  bench: times, and ratios
# beside the baseline.  tools: one file of the Python tools.  share: completions and manual pages of bgctl.  lint: judges what no
# proof reads.  test-tools: the tests of the tools.  model: all searches of the model of a fleet.  NAME: proves and builds the
# library NAME and what it stands on.
CRATES := $(shell sed -n 's/^\([a-z_]*\)[^:]*:.*/\1/p' crates.txt)
LIBRARIES := $(foreach crate,$(CRATES),$(if $(wildcard crates/$(crate)/src/lib.rt),$(crate)))
# The libraries that a crate stands on, by its line of crates.txt.
below = $(filter $(LIBRARIES),$(shell sed -n 's/^$(1)\( [^:]*\)*: *//p' crates.txt))
PROCESSORS := $(shell nproc)
# How many checks the gate makes side by side, each with one job: memory holds three, and one that is split into four jobs
# costs a sixth more processor time.
CHECKS := $(shell count=$$(nproc); [ $$count -lt 3 ] || count=3; echo $$count)
# How many checks a build begins. Half of them wait for crates below, so this is more than there are processors.
BUILDS := $(shell count=$$(nproc); [ $$count -lt 4 ] || count=4; echo $$((count * 3 / 2)))
BENCHES := $(filter-out bench/run.sh,$(wildcard bench/*.sh)) bench/sick_endpoint.py
ARCHIVE := out/bg_switch_tools.pyz
# Parts of the gate that wait for no clock, so they run side by side.
APART := model-small whole-program refused-memory package

.PHONY: check try quick build test gate lint tools share test-tools model deb dist demo demo-live demo-fleet bench $(APART) $(LIBRARIES)

check:
	rt all check
	scripts/whole_program.sh

# Interprets the program from its sources, with these words and this input. No proof is made, and the last line says so.
WORDS := check
INPUT := examples/direct.json
try:
	cd crates/bg_switch && rt try -- $(WORDS) < $(abspath $(INPUT))
	@echo 'try: the program was interpreted, and nothing of it was proved'

# FROM is a commit; without it, what differs is told from where the branch left main.
quick:
	scripts/quick.py $(FROM)

# What is built already is kept up by one command, since rt locks a crate and all crates below it. Each check has one job: a check
# that is split into several jobs costs more processor time in all, since each job reads the libraries.
build:
	scripts/first_build.py
	cd crates/bg_switch && rt all check --jobs $(BUILDS)
	cd crates/bg_switch && rt run --jobs 1 -- check < ../../examples/direct.json > /dev/null

$(foreach crate,$(LIBRARIES),$(eval $(crate): $(call below,$(crate))))

$(LIBRARIES):
	cd crates/$@ && rt lib

# What each crate and the whole gate cost stands at the end, in units of bg_openlist's proof.
test:
	RT_JOBS=$(CHECKS) scripts/gate_cost.py $(MAKE) --no-print-directory gate

gate: lint
	python3 -m unittest discover -q -s scripts
	rt ci
	scripts/try_edits.py
	bin/bg_switch check < examples/direct.json > /dev/null
	$(MAKE) --no-print-directory --jobs=$(PROCESSORS) --output-sync=target --keep-going $(APART)
	$(MAKE) --no-print-directory test-tools
	scripts/live.sh

model-small:
	model/check.py small
whole-program:
	scripts/whole_program.sh
refused-memory:
	scripts/refused_memory.sh
package:
	scripts/package.sh

lint:
	scripts/lint.sh

# They need no switch: a thread answers at a control port of its own.
test-tools:
	PYTHONPATH=lib:scripts python3 -B -m tests

# Each search needs up to 6 GB of memory and a few minutes. The gate makes the small ones.
model:
	model/check.py all

tools:
	@mkdir -p out
	@find lib -name __pycache__ -prune -exec rm -rf {} +
	@python3 -m zipapp lib --python '/usr/bin/env python3' --output $(ARCHIVE)
	@chmod 755 $(ARCHIVE)
	@echo 'the tools are one file now, $(ARCHIVE): $(ARCHIVE) operator 8082 status, $(ARCHIVE) controller PLAN.json'

# Completions and manual pages of bgctl, in out/share.
share:
	tools/bgctl_share.py out/share

# A Debian package, and a tar with the same files, of the built program or of the one that BG_SWITCH_PROGRAM names.
deb: $(if $(BG_SWITCH_PROGRAM),,build)
	packaging/build.sh deb

dist: $(if $(BG_SWITCH_PROGRAM),,build)
	packaging/build.sh dist

demo: build
	bin/bg_switch check < examples/direct.json
	bin/bg_switch check < examples/tested_before_and_after.json
	examples/demo.sh

demo-live: build
	examples/live/demo.py
	examples/live/bad_revision.py

# It needs etcd, haproxy and curl.
demo-fleet: build
	examples/fleet/fleet_demo.py

# Each bench, one after the other, with its ratios beside those of bench/baseline.json; it fails at the end where one did.
bench: build
	@bench/compare.py $(BENCHES)
