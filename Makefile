# Two commands: `make run` plays document 01's run to check by hand, explained; `make test` is the gate.
#   make                builds the command line, target/hawsermole
#   make bench          measures the figures of docs/FIGURES.md
#   make board          the archives for boards in target/board, tried under emulators; see board/board.mk
#   make compare N=..   compares the proved machine with the independent program on more inputs
#   make diagrams       draws docs/diagrams again, from what the machine does, and what is made from docs/events.tsv
#   make oldest         tests the Rust crate with the oldest Rust that it is for (fetches it from Debian's archive)
#   make manual         docs/MANUAL.md as target/manual.pdf, and card.pdf, narrowings.pdf and events.pdf beside it
#                       (needs pandoc, weasyprint, poppler-utils, fonts-liberation and fonts-dejavu-core)
include tools/host.mk

ARCHIVE = target/staticlib/libhawsermole.a
N = 100000
CALLERS = 50000

.PHONY: all run test users bench library cross independent rust oldest cli scenarios c sanitize compare diagrams \
	pictures manual

all: target/hawsermole

cross:
	tools/cross.sh

# The proved functions, for C and Rust to link.
library:
	@tools/library.sh

$(ARCHIVE): library ;

# The module that the archive is compiled from, for other processors.
target/module/hawsermole.bc: library
	tools/module.sh $@

target/native/libhawsermole.a: target/module/hawsermole.bc
	tools/native.sh $< target/native

target/hawsermole: library cross
	@echo "command line: compiling target/hawsermole"
	@cd cli && $(CARGO) build --offline --quiet --release --locked
ifeq ($(EMULATOR),)
	cp cli/target/$(RELEASE)/hawsermole $@
else
	cp cli/target/$(RELEASE)/hawsermole $@.x86_64
	printf '#!/bin/sh\nexec $(EMULATOR) "$$(dirname "$$0")/hawsermole.x86_64" "$$@"\n' > $@
	chmod +x $@
endif

run: target/hawsermole
	@echo "playing document 01's run to check by hand, explained: examples/twelve_rows.script"
	@target/hawsermole --explain examples/twelve_rows.script

# Links no archive, so that it runs as it is on every machine.
independent:
	cd independent && cargo test --offline --quiet

# clippy knows since when Rust has each function that the crate calls, and holds it to its rust-version; it is of this
# machine's own processor.
rust: library cross $(NATIVE)/libhawsermole.a
	cd rust && $(CARGO) test --offline --quiet
	if cargo clippy --version > /dev/null 2>&1; then cd rust && \
	HAWSERMOLE_LIB_DIR=$(abspath $(NATIVE)) cargo clippy --offline --quiet --locked -- -D warnings; \
	else echo "rust: no clippy here, so that nothing holds the crate to its rust-version"; fi
	cd cli && $(CARGO) test --offline --quiet

oldest: library cross
	CC="$(CC)" EMULATOR="$(EMULATOR)" tools/oldest.sh

cli: target/hawsermole
	tests/cli/run.sh target/hawsermole

scenarios:
	sh tests/scenarios/check.sh

compare: library cross
	cd compare && $(CARGO) test --offline --quiet
	cd compare && $(CARGO) run --offline --quiet --release -- $(N)

bench: $(NATIVE)/libhawsermole.a cross
	cd bench && $(CARGO) test --offline --quiet
	cd bench && $(CARGO) build --offline --quiet --release
	bench/instructions.sh bench/target/$(RELEASE)/bench
	cd bench && HAWSERMOLE_LIB_DIR=$(abspath $(NATIVE)) cargo run --offline --quiet --release -- time

diagrams: library cross
	cd diagrams && $(CARGO) run --offline --quiet --locked -- --events ..
	cd diagrams && $(CARGO) run --offline --quiet --locked -- ../docs/diagrams

# The pictures, the manual's quotes and the page of replies are what the programs give.
pictures: target/hawsermole
	cd diagrams && $(CARGO) test --offline --quiet --locked
	cd diagrams && $(CARGO) run --offline --quiet --locked -- --check-events ..
	cd diagrams && $(CARGO) run --offline --quiet --locked -- --check ../docs/diagrams
	CC="$(CC)" EMULATOR="$(EMULATOR)" diagrams/quotes.sh target/hawsermole
	diagrams/replies.sh target/hawsermole

manual:
	diagrams/print.sh

include tests/c/c.mk
include board/board.mk

# All that links the archive or reads beside it; `test` is this after the proofs.
users: independent rust cli scenarios pictures c sanitize board compare

test:
	tools/gate.sh
