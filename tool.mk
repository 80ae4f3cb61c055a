# The command line tool, its tests and the demo, and the check of the header: included by the Makefile.
.PHONY: tool demo charts limits names test-tool

SEQOPCHI_LIB ?= build/libseqopchi.a
TOOL_SOURCES := $(sort $(wildcard tool/*.c))
TOOL_HEADERS := $(wildcard tool/*.h) include/seqopchi.h
LIMITS_SOURCES := $(sort $(wildcard tool/limits/*.c))
TOOL_WARNINGS := -Wall -Wextra -Wpedantic -Werror
TOOL_FLAGS := -std=c99 -D_XOPEN_SOURCE=700 -Iinclude $(TOOL_WARNINGS)
TOOL_SANITIZE := -O1 -g -fsanitize=address,undefined -fno-sanitize-recover=all
DEMO_LOSS := 1@16

tool: build/seqopchi

# Proved and built anew when a source or a proof has changed: 'rt lib' builds only what it has proved, and begins with what earlier checks kept
# in out/.
build/libseqopchi.a: crates.txt $(shell find crates -name out -prune -o -type f -print 2>/dev/null)
	cd crates/seqopchi_c && rt lib
	@mkdir -p build
	cp crates/seqopchi_c/out/libseqopchi_c.a $@

build/seqopchi: $(TOOL_SOURCES) $(TOOL_HEADERS) $(SEQOPCHI_LIB)
	@mkdir -p build
	$(CC) -O2 $(TOOL_FLAGS) $(TOOL_SOURCES) $(SEQOPCHI_LIB) -o $@

build/seqopchi-sanitized: $(TOOL_SOURCES) $(TOOL_HEADERS) $(SEQOPCHI_LIB)
	@mkdir -p build
	$(CC) $(TOOL_SANITIZE) $(TOOL_FLAGS) $(TOOL_SOURCES) $(SEQOPCHI_LIB) -o $@

# The header by itself, as C and as C++.
build/header-checked: include/seqopchi.h
	@mkdir -p build
	echo '#include "seqopchi.h"' >build/header.c
	$(CC) $(TOOL_FLAGS) -fsyntax-only build/header.c
	$(CXX) -std=c++11 -Iinclude $(TOOL_WARNINGS) -x c++ -fsyntax-only build/header.c
	@touch $@

# The header's limits and lengths against the library's, through the calls.
limits: build/limits
	build/limits

build/limits: $(LIMITS_SOURCES) tool/limits/limits.h include/seqopchi.h $(SEQOPCHI_LIB)
	@mkdir -p build
	$(CC) $(TOOL_SANITIZE) $(TOOL_FLAGS) $(LIMITS_SOURCES) $(SEQOPCHI_LIB) -o $@

# What the library needs from outside: these two of the C library, and no other.
NEEDED := memcpy memset

names: $(SEQOPCHI_LIB)
	@needed=$$(echo $$(nm -u $< | awk '$$1 == "U" { print $$2 }' | sort -u)); \
	test "$$needed" = "$(NEEDED)" \
		|| { echo "the library needs $$needed from outside, not $(NEEDED)"; exit 1; }; \
	echo "names: the library needs $$needed from outside"

test-tool: build/seqopchi-sanitized build/header-checked
	tool/test.sh build/seqopchi-sanitized

# A class's oscilloscope captures: planned, listed, one node lost, one more fit asked
# for, two charts.
demo: build/seqopchi
	@mkdir -p demo
	@build/seqopchi pack examples/oscilloscope.txt -o demo/oscilloscope.job
	@build/seqopchi plan demo/oscilloscope.job -o demo/oscilloscope.plan
	@build/seqopchi list demo/oscilloscope.job
	@echo
	@build/seqopchi replay demo/oscilloscope.job demo/oscilloscope.plan \
		--lose $(DEMO_LOSS)
	@echo
	@build/seqopchi ask demo/oscilloscope.job demo/oscilloscope.plan \
		examples/one-more-fit.txt
	@build/seqopchi chart demo/oscilloscope.job demo/oscilloscope.plan \
		-o demo/plan.svg
	@build/seqopchi chart demo/oscilloscope.job demo/oscilloscope.plan \
		--lose $(DEMO_LOSS) -o demo/loss.svg
	@echo
	@echo "The charts are demo/plan.svg and demo/loss.svg."

# The charts that the README shows. tool/test.sh holds them to what the tool draws.
charts: build/seqopchi
	@mkdir -p demo
	build/seqopchi pack examples/oscilloscope.txt -o demo/oscilloscope.job
	build/seqopchi plan demo/oscilloscope.job -o demo/oscilloscope.plan
	build/seqopchi pack examples/oscilloscope-passed.txt \
		--job demo/oscilloscope.job -o demo/passed.plan
	build/seqopchi chart demo/oscilloscope.job demo/oscilloscope.plan \
		-o examples/oscilloscope-plan.svg
	build/seqopchi chart demo/oscilloscope.job demo/passed.plan \
		--lose $(DEMO_LOSS) -o examples/oscilloscope-loss.svg
	build/seqopchi chart demo/oscilloscope.job demo/passed.plan \
		--lose $(DEMO_LOSS) --times examples/friday-times.txt \
		-o examples/friday-times.svg
	build/seqopchi times demo/oscilloscope.job examples/friday-log.txt \
		-o demo/next.job
	build/seqopchi plan demo/next.job -o demo/next.plan
	build/seqopchi chart demo/next.job demo/next.plan \
		-o examples/oscilloscope-next.svg
	build/seqopchi pack examples/oscilloscope-shared.txt \
		--job demo/oscilloscope.job -o demo/shared.plan
	build/seqopchi chart demo/oscilloscope.job demo/shared.plan \
		--lose 3@10 -o examples/oscilloscope-shared.svg
	build/seqopchi pack examples/oscilloscope-clash.txt \
		--job demo/oscilloscope.job -o demo/clash.plan
	build/seqopchi chart demo/oscilloscope.job demo/clash.plan \
		--lose 1@3 -o examples/oscilloscope-clash.svg
	build/seqopchi pack examples/lessons.txt -o demo/lessons.job
	build/seqopchi plan demo/lessons.job -o demo/lessons.plan
	build/seqopchi chart demo/lessons.job demo/lessons.plan \
		-o examples/lessons-plan.svg
	build/seqopchi pack examples/drawer.txt -o demo/drawer.job
	build/seqopchi plan demo/drawer.job -o demo/drawer.plan
	build/seqopchi chart demo/drawer.job demo/drawer.plan --lose 5@8 \
		-o examples/drawer-loss.svg
