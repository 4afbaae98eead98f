# test: rt ci of the whole repository, which proves every crate, tries every must-fail edit and runs every program; then the reference, the
# examples and the differential test. A bad edit, of which rt ci only tells, fails it too. The gate's own line comes last.
SHELL = /bin/bash
.SHELLFLAGS = -o pipefail -c

LOG = target/ci.log

.PHONY: test
test:
	@mkdir -p target && rt ci | tee $(LOG)
	@grep -q '^rt: ok' $(LOG) && ! grep '^rt: ok.*, [1-9][0-9]* bad' $(LOG)
	@for p in $(PROGRAMS); do install -D crates/$$p/out/$$p target/bin/$$p || exit 1; done
	@$(MAKE) --no-print-directory -j2 reference $(ARCHIVE)
	@$(MAKE) --no-print-directory -j2 example differential
	@tail -n 1 $(LOG)

# The programs run by themselves. One that is missing is proved and built; after rt ci test takes those that rt ci has built.
PROGRAMS = planner programs calls diagrams
SOURCES = crates.txt $(wildcard crates/*/src/*.rt)

# run: the planner on FILE (make run FILE=plan.rtp), without FILE on empty input, so on its built-in case.
.PHONY: run
run: target/bin/planner
	@$< <"$(or $(FILE),/dev/null)"

target/bin/%: $(SOURCES)
	@cd crates/$* && rt run </dev/null >/dev/null
	@install -D crates/$*/out/$* $@

# The archive is that of brennigou_c, under its old name: the seven functions of include/brennigou.h.
ARCHIVE = target/staticlib/libbrennigou.a

$(ARCHIVE): $(SOURCES)
	@cd crates/brennigou_c && rt lib >&2
	@install -D -m 644 crates/brennigou_c/out/libbrennigou_c.a $@

# The reference, and what links it or the archive.
X = target/x86-64
# without make's own variables, in which rustc would look for its job server
RUSTC = env -u MAKEFLAGS -u MFLAGS rustc
FLAGS = --edition 2021 -C opt-level=3 -C codegen-units=1 -C panic=abort

$(X)/libreference.rlib: $(wildcard reference/*.rs)
	@$(RUSTC) $(FLAGS) --crate-type rlib --crate-name reference --out-dir $(@D) reference/lib.rs

$(X)/differential $(X)/bench: $(X)/%: tests/%.rs tests/archive.rs tests/files.rs $(X)/libreference.rlib $(ARCHIVE)
	@$(RUSTC) $(FLAGS) --extern reference=$(X)/libreference.rlib -L $(dir $(ARCHIVE)) -o $@ $<

# reference: its own checks, by enumeration and on the recorded calls.
$(X)/reference: reference/tests.rs $(X)/libreference.rlib
	@$(RUSTC) $(FLAGS) --extern reference=$(X)/libreference.rlib -o $@ $<

.PHONY: reference
reference: $(X)/reference
	@$<

# example: the library from C and from Rust; both list what the planner lists.
$(X)/pages_c: examples/pages.c include/brennigou.h $(ARCHIVE)
	@mkdir -p $(X) && cc -O2 -Wall -Wextra -Iinclude -o $@ $< $(ARCHIVE)

$(X)/pages_rs: examples/pages.rs $(ARCHIVE)
	@mkdir -p $(X) && $(RUSTC) $(FLAGS) -L $(dir $(ARCHIVE)) -o $@ $<

.PHONY: example
example: $(X)/pages_c $(X)/pages_rs target/bin/planner
	@for f in examples/*.rtp; do \
	    target/bin/planner <$$f | sed '/^dual/d; /^primal/d' >$(X)/planner.out && \
	    $(X)/pages_c $$f | cmp - $(X)/planner.out && \
	    $(X)/pages_rs $$f | cmp - $(X)/planner.out || exit 1; \
	done
	@echo "examples: both list what the planner lists"

# differential: seeded random calls of the archive beside the reference. fuzz: N of another SEED.
SEED = 1
N = 100000

.PHONY: differential fuzz
differential: $(X)/differential
	@$< 1 100000

fuzz: $(X)/differential
	@$< $(SEED) $(N)

# memcheck: some of those calls, every access watched.
.PHONY: memcheck
memcheck: $(X)/differential
	@valgrind -q --error-exitcode=1 $< $(SEED) 4000 bare

# bench: times beside the reference. instructions: counts of the same calls.
.PHONY: bench instructions
bench: $(X)/bench
	@$(RUSTC) --version
	@$<

instructions: $(X)/bench
	@tools/instructions.sh $<

# install: the program, the archive, its header and the page of the manual.
PREFIX = /usr/local
ROOT = $(DESTDIR)$(PREFIX)

.PHONY: install
install: target/bin/planner $(ARCHIVE)
	@install -d $(ROOT)/bin $(ROOT)/lib $(ROOT)/include $(ROOT)/share/man/man1
	@install target/bin/planner $(ROOT)/bin
	@install -m 644 $(ARCHIVE) $(ROOT)/lib
	@install -m 644 include/brennigou.h $(ROOT)/include
	@install -m 644 man/planner.1 $(ROOT)/share/man/man1
