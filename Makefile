# make help lists the commands.
.PHONY: help run prove test
SHELL := bash

help:                ## Lists these commands.
	@awk -F ':.*## ' '/^[a-z]+:.*## / { printf "make %-14s %s\n", $$1, $$2 }' $(MAKEFILE_LIST)

run:                 ## Proves and builds the program bucketlines, and shows it on the examples.
	@bash examples/build
	@bash examples/run

prove:               ## Proves every crate.
	@rt all check

test:                ## Everything that the gate runs: every proof, every edit, every test; the last line counts them all.
	@bash tests/run

.PHONY: edits
edits:               ## Tries the edits of tests/edits, of the crates CRATES or of all.
	@bash tests/edits/run $(CRATES)

.PHONY: definitions
N ?= 600
definitions:         ## Holds the definitions to N stored vectors (600), by computing.
	@python3 tests/definitions/vectors.py $(N)

# The Rust's own functions, built out of the folder RUST, are compared with the numbers that FORMAT.md gives, on LISTS lists of each call; then the
# archive's six calls with both, on CALLS lists of each call and twice as many applies.
.PHONY: oracle
LISTS ?= 20000
CALLS ?= 40000
oracle:              ## RUST=dir: builds the Rust's own functions out of dir, and compares the definitions' model and the calls with them.
	@test -f "$(RUST)/src/write_alloc.rs" || { echo "usage: make oracle RUST=dir, where dir has the Rust text under its own paths" >&2; exit 2; }
	cd oracle/rust && RUST="$(abspath $(RUST))" cargo test --release --offline
	cd oracle/rust && RUST="$(abspath $(RUST))" cargo run --release --offline --bin compare -- $(LISTS)
	bash tools/build zerglaz
	cd oracle/rust && RUST="$(abspath $(RUST))" cargo run --release --offline --features archive --bin archive -- $(CALLS)

# The six calls, also on lists that are only read, beside a copy of the same bytes. With RUST=dir also the calls beside the Rust's own functions, which are
# built from dir; that chart goes to the file CHART.
.PHONY: bench
CHART ?= target/benchmarks.svg
bench:               ## Times the calls; with RUST=dir also beside the Rust's own functions.
	bash tools/build zerglaz
	cd rust && cargo bench --offline --bench calls
ifneq ($(RUST),)
	@test -f "$(RUST)/src/write_alloc.rs" || { echo "usage: make bench RUST=dir, where dir has the Rust text under its own paths" >&2; exit 2; }
	cd oracle/rust && RUST="$(abspath $(RUST))" cargo run --profile timed --offline --features archive --bin bench -- "$(abspath $(CHART))"
else
	@echo "The calls beside the Rust's own functions: make bench RUST=dir, where dir has the Rust text under its own paths"
endif

# Below DESTDIR too, where that is set. The archive is built where there is none.
.PHONY: install
PREFIX ?= /usr/local
installed = $(DESTDIR)$(abspath $(PREFIX))
version = $(shell sed -n 's/^version = "\(.*\)"/\1/p' rust/Cargo.toml)
install: target/staticlib/libzerglaz.a ## PREFIX=dir: installs the header, the archive and a pkg-config file below dir.
	install -d "$(installed)/include" "$(installed)/lib/pkgconfig"
	install -m 644 include/zerglaz.h "$(installed)/include/"
	install -m 644 target/staticlib/libzerglaz.a "$(installed)/lib/"
	sed -e 's|@PREFIX@|$(abspath $(PREFIX))|' -e 's|@VERSION@|$(version)|' include/zerglaz.pc.in > "$(installed)/lib/pkgconfig/zerglaz.pc"

target/staticlib/libzerglaz.a:
	bash tools/build zerglaz

-include tests/headers/headers.mk
