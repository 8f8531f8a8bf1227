# The commands of this repository; `make help` lists them. The toolchain's `rt` must be on the PATH; tests, benchmark and the measure of the stack also use `cargo` or `cc`.
.PHONY: report check test bench stack fmt help

# Temporary files lie in memory where that is fit for them. A TMPDIR that is set stays.
export TMPDIR := $(shell scripts/temporary.sh)

# The study whose report `make report` prints.
STUDY = studies/case_a.hex

# What `rt` builds of the crates, and what it is built of.
PROGRAM = crates/report/out/report
LIBRARY = crates/exports/out/libexports.a
SOURCES = crates.txt $(shell find crates -name out -prune -o \( -path '*/src/*.rt' -o -name '*.antt' \) -print)

report: $(PROGRAM) ## Print the report of a study: STUDY=studies/case_a.hex or another. Proves and builds the program if need be
	@scripts/bytes.sh $(STUDY) | $(PROGRAM)

# Proved, then built, and tried on no input: a program that is not proved is not there.
$(PROGRAM): $(SOURCES)
	@scripts/prove.sh run report < /dev/null || { rm -f $@; exit 1; }
	@touch $@

$(LIBRARY): $(SOURCES)
	@scripts/prove.sh lib exports || { rm -f $@; exit 1; }
	@touch $@

check: ## Prove one crate and what it depends on: CRATE=name. What has not changed is not proved again
	@test -n "$(CRATE)" || { echo "say which crate: make check CRATE=name, with a name of crates.txt" >&2; exit 2; }
	@scripts/prove.sh check $(CRATE) && tail -n 1 target/prove.log

# The last line is the verdict.
test: ## Prove every crate from nothing, see every must-fail edit refused, run the programs, compare with a second implementation
	@scripts/test.sh

bench: $(LIBRARY) ## Time the proved report, opening, writing, bounds of classes and loads and chances of surviving beside a plain Rust port of the same algorithms
	@cd harness && cargo run --offline --quiet --release --bin bench

stack: $(LIBRARY) ## Print how many bytes of stack the calls need, for the heaviest study and a small one
	@scripts/stack.sh

fmt: ## Lay out every source, definition and proof
	@for crate in crates/*/; do (cd $$crate && rt fmt) || exit; done
	@cd harness && cargo fmt

help: ## List these commands
	@awk -F ':.*## ' '/^[a-z]+:.*## / { printf "make %-7s %s\n", $$1, $$2 }' Makefile
