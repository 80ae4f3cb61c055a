# make test: everything that has to hold. 'rt ci' refuses what is not laid out, proves all and tries the wrong programs; the library that the
# tests run over is built of what it proved, so it comes before them, two at a time. Its count is repeated as the last line.
.PHONY: test tests fmt prove console compare test-compare samples bench

test: prove console
	@$(MAKE) --no-print-directory -j2 --output-sync=target tests
	@tail -n 1 build/ci.log

tests: limits names samples compare test-compare test-tool

# Lays out the files of every crate.
fmt:
	for crate in crates/*/; do (cd $$crate && rt fmt) || exit 1; done

# A wrong program that is none, since its text no longer stands, fails here too: 'rt ci' counts it on its line 'rt: ok', as ", 1 bad".
prove:
	@mkdir -p build
	bash -o pipefail -c 'rt ci | tee build/ci.log'
	@! grep '^rt: ok.*, [1-9][0-9]* bad' build/ci.log

# The C header by itself, as C99 and as C++, and the sources of the tool over it.
console: build/header-checked
	$(CC) $(TOOL_FLAGS) -fsyntax-only $(TOOL_SOURCES)

include tool.mk

# The proved library beside a second implementation; the samples; times beside C. docs/PERFORMANCE.md keeps the last table.
COUNT ?= 5000
SEED ?= 1
QUIET := --release --offline --quiet
CARGO := cd compare && SEQOPCHI_LIB=$(CURDIR)/build cargo

compare: $(SEQOPCHI_LIB)
	$(CARGO) run $(QUIET) --bin compare -- --count $(COUNT) --seed $(SEED)

# The tests of the second implementation itself.
test-compare: $(SEQOPCHI_LIB)
	$(CARGO) test $(QUIET)

samples: $(SEQOPCHI_LIB)
	$(CARGO) run $(QUIET) --bin samples

bench: $(SEQOPCHI_LIB)
	$(CARGO) run $(QUIET) --bin bench
