# The message library of the cabin hubs. Needed: the Rattle kit (rt), gcc and cargo; no network.

PREFIX = /usr/local
# make fuzz: how many calls, and a seed to repeat a run (empty: another one each time)
CALLS = 1000000
SEED =
# make library, make check-target: another processor, aarch64-unknown-linux-gnu or riscv64-unknown-linux-gnu
TARGET =
# make stack: the recorded calls to make besides the generated ones
RECORDED = crates/replay

RT = rt
CARGO = cargo
CC = gcc
CXX = g++
WARNINGS = -Wall -Wextra -Wconversion -Wsign-conversion -Wshadow -Werror -pedantic

VERSION := $(shell sed -n 's/^\#define ICEHUB_VERSION "\(.*\)"/\1/p' include/icehub.h)
LIBRARY = target/staticlib/libicehub.a
# The crates that the library is made of: icehub and all that it depends on.
LIBRARY_CRATES := $(shell awk -F: '{ sub(/ staticlib$$/, "", $$1); needs[$$1] = $$2 } END { split("icehub", todo); count = 1; \
	for (i = 1; i <= count; i++) if (todo[i] in needs && !(todo[i] in seen)) { seen[todo[i]]; print todo[i]; \
	more = split(needs[todo[i]], next_, " "); for (j = 1; j <= more; j++) todo[++count] = next_[j] } }' crates.txt)
LIBRARY_SOURCES := $(shell find $(LIBRARY_CRATES:%=crates/%) -name out -prune -o '(' -name '*.rt' -o -name '*.antt' ')' -print)
TOOL = target/tool/icehub
TOOL_SOURCES := $(shell find tools/icehub/src bindings/rust/src -name '*.rs') \
	tools/icehub/Cargo.toml bindings/rust/Cargo.toml bindings/rust/build.rs

export ICEHUB_LIB_DIR = $(CURDIR)/target/staticlib
export CARGO_TARGET_DIR = $(CURDIR)/target/cargo
INDEPENDENT = --offline --release --manifest-path tests/independent/Cargo.toml --features library

.PHONY: help run test callers library check-target tool example fuzz bench stack bindings samples install clean
.NOTPARALLEL:

## help: list what can be made
help:
	@sed -n 's/^## \([a-z-]*\): /make \1\t/p' Makefile | expand -t 18

## run: build the library and the tool icehub, show the sample messages and set a member of one
run: $(TOOL)
	@echo && echo '--- a report of a frost guard'
	@$(TOOL) show samples/report.table 3 samples/report.message
	@echo && echo '--- a fault from a newer sender, by the older table of a hub'
	@$(TOOL) show samples/fault.table ::Guard::Fault samples/fault.message
	@echo && echo '--- the same fault, by its sender'\''s table'
	@$(TOOL) show samples/fault-newer.table ::Guard::Fault samples/fault.message
	@echo && echo '--- its frost delay set to an hour by the older table, and shown by its sender'\''s'
	@$(TOOL) set --overwrite samples/fault.table ::Guard::Fault samples/fault.message 1 3600 target/fault-hour.message
	@$(TOOL) show samples/fault-newer.table ::Guard::Fault target/fault-hour.message
	@echo && echo '--- the same fault, damaged'
	@$(TOOL) show samples/fault.table ::Guard::Fault samples/fault-damaged.message || [ $$? -eq 1 ]
	@echo && echo '--- a valve state that is not on its list'
	@$(TOOL) show samples/valve.table 3 samples/valve-between.message || [ $$? -eq 1 ]
	@echo && echo '--- an owner'\''s name that is no text'
	@$(TOOL) show samples/owner.table 1 samples/owner-latin.message || [ $$? -eq 1 ]

## test: the gate: prove every crate, try the wrong edits, run the programs, then `make callers`
test:
	.ci/run

## callers: test the library from C and from Rust: example, bindings, the independent implementation and 100,000 compared calls
callers: example bindings
	$(CARGO) test $(INDEPENDENT)
	$(CARGO) run $(INDEPENDENT) --bin fuzz -- 100000 20261116

## library: prove and build the static library, target/staticlib/libicehub.a; with TARGET target/TARGET/libicehub.a
library: $(if $(TARGET),target/$(TARGET)/libicehub.a,$(LIBRARY))

$(LIBRARY): $(LIBRARY_SOURCES)
	cd crates/icehub && $(RT) lib
	@mkdir -p $(@D)
	cp crates/icehub/out/libicehub.a $@

target/%/libicehub.a: $(LIBRARY_SOURCES) tools/cross/library
	RT=$(RT) tools/cross/library $*

## check-target: make the gate's recorded calls by the library of TARGET, under qemu
check-target:
	tools/cross/check $(TARGET)

## tool: build the tool icehub, target/tool/icehub
tool: $(TOOL)

$(TOOL): $(LIBRARY) $(TOOL_SOURCES)
	$(CARGO) build --offline --release --manifest-path tools/icehub/Cargo.toml
	@mkdir -p $(@D)
	install -m 755 target/cargo/release/icehub $@

## example: compile each of examples/*.c and tests/c/*.c against the library, as C99 and as C++98, and run it
example: $(LIBRARY)
	@mkdir -p target/example
	@for source in examples/*.c tests/c/*.c; do \
		program=target/example/$$(basename $$source .c); \
		echo "--- $$source"; \
		$(CC) -std=c99 $(WARNINGS) -Iinclude $$source $(LIBRARY) -o $$program && $$program || exit 1; \
		if command -v $(CXX) >/dev/null; then \
			$(CXX) -x c++ -std=c++98 $(WARNINGS) -Iinclude $$source -x none $(LIBRARY) -o $$program-c++ && \
				$$program-c++ >/dev/null || exit 1; \
		else \
			echo 'no $(CXX): not compiled as C++'; \
		fi; \
	done

## fuzz: compare the library with the independent implementation on CALLS calls from SEED
fuzz: $(LIBRARY)
	$(CARGO) run $(INDEPENDENT) --bin fuzz -- $(CALLS) $(SEED)

## bench: compare the speed of the two on the same inputs; fails where a bar is missed
bench: $(LIBRARY)
	$(CARGO) run $(INDEPENDENT) --bin bench

## stack: measure the deepest stack of each call, on the gate's recorded calls (or RECORDED) and generated ones
stack: $(LIBRARY)
	$(CARGO) run $(INDEPENDENT) --bin stack -- $(RECORDED)

## bindings: test the Rust crate and the tool over the library; the crate's copies of header and samples are those of the repository
bindings: $(LIBRARY)
	diff -r samples bindings/rust/samples
	diff include/icehub.h bindings/rust/include/icehub.h
	$(CARGO) test --offline --manifest-path bindings/rust/Cargo.toml
	$(CARGO) test --offline --manifest-path tools/icehub/Cargo.toml

## samples: write the sample files again from samples/README.md
samples:
	samples/make.sh
	cp samples/* bindings/rust/samples

## install: copy tool, header, library and pkg-config file below PREFIX
install: $(TOOL)
	install -d '$(DESTDIR)$(PREFIX)/bin' '$(DESTDIR)$(PREFIX)/include' '$(DESTDIR)$(PREFIX)/lib/pkgconfig'
	install -m 755 $(TOOL) '$(DESTDIR)$(PREFIX)/bin'
	install -m 644 include/icehub.h '$(DESTDIR)$(PREFIX)/include'
	install -m 644 $(LIBRARY) '$(DESTDIR)$(PREFIX)/lib'
	sed 's|@PREFIX@|$(PREFIX)|; s|@VERSION@|$(VERSION)|' include/icehub.pc.in >'$(DESTDIR)$(PREFIX)/lib/pkgconfig/icehub.pc'

## clean: remove all that was built, proofs' results too
clean:
	rm -rf target crates/*/out
