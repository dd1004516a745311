# make            the proved archive and the command
# make test       what the gate (.ci/run) runs, but for `rt ci`, which proves every crate and tries
#                 every edit
# make install    archive, header, ed2k.pc, command, manual page and bash completion under PREFIX
#                 (with DESTDIR before it)
# make uninstall  takes them away again
# make clean      removes what was built, but not what was proved
#
# The archive is made by the Rattle kit (`rt`), as rust/build.rs asks for it. With ED2K_ARCHIVE=FILE
# that archive is taken.

PREFIX = /usr/local
DESTDIR =

# cargo is run in rust/.
ifneq ($(ED2K_ARCHIVE),)
override ED2K_ARCHIVE := $(abspath $(ED2K_ARCHIVE))
export ED2K_ARCHIVE
endif
BUILT := $(if $(filter /%,$(CARGO_TARGET_DIR)),$(CARGO_TARGET_DIR),rust/$(or $(CARGO_TARGET_DIR),target))
COMMAND := $(BUILT)/release/ed2k
ARCHIVE := $(or $(ED2K_ARCHIVE),target/staticlib/libed2k.a)
# Not what `rt` leaves in crates/*/out.
CRATES := $(wildcard crates/*/src crates/*/specs crates/*/proofs)
SOURCES := $(shell find $(CRATES) crates.txt rust/src rust/build.rs rust/Cargo.toml rust/Cargo.lock -type f)
VERSION := $(shell sed -n 's/^version = "\(.*\)"/\1/p' rust/Cargo.toml)

BIN = $(DESTDIR)$(PREFIX)/bin
LIB = $(DESTDIR)$(PREFIX)/lib
INCLUDE = $(DESTDIR)$(PREFIX)/include
MAN = $(DESTDIR)$(PREFIX)/share/man/man1
COMPLETION = $(DESTDIR)$(PREFIX)/share/bash-completion/completions

.PHONY: all test install uninstall clean

all: $(COMMAND) $(ARCHIVE)

$(COMMAND): $(SOURCES) $(ED2K_ARCHIVE)
	cd rust && cargo build --release --locked
	touch "$@"

# Made when the command was; it may have been removed since.
target/staticlib/libed2k.a: | $(COMMAND)
	test -f "$@" || { (cd crates/ed2k_c && rt lib) && mkdir -p "$(@D)" && cp crates/ed2k_c/out/libed2k_c.a "$@"; }

# One of the tests runs the reading program. The bench is reported and not tested: times are no test.
test:
	cd rust && cargo fmt --check
	cd bench && cargo fmt --check
	cd crates/reading && rt run < stdin > /dev/null
	cd rust && cargo clippy --release --all-targets --locked -- -D warnings
	cd rust && cargo test --release --locked
	bash examples/run
	cd bench && cargo clippy --release --all-targets --locked -- -D warnings
	cd bench && cargo run --release --locked || echo "bench: a bar is not met"

install: $(COMMAND) $(ARCHIVE)
	install -d "$(BIN)" "$(LIB)/pkgconfig" "$(INCLUDE)" "$(MAN)" "$(COMPLETION)"
	install -m 755 "$(COMMAND)" "$(BIN)/ed2k"
	install -m 644 "$(ARCHIVE)" "$(LIB)/libed2k.a"
	install -m 644 include/ed2k.h "$(INCLUDE)/ed2k.h"
	sed 's|@PREFIX@|$(PREFIX)|; s|@VERSION@|$(VERSION)|' include/ed2k.pc.in > "$(LIB)/pkgconfig/ed2k.pc"
	chmod 644 "$(LIB)/pkgconfig/ed2k.pc"
	install -m 644 man/ed2k.1 "$(MAN)/ed2k.1"
	install -m 644 rust/completion/ed2k.bash "$(COMPLETION)/ed2k"

uninstall:
	rm -f "$(BIN)/ed2k" "$(LIB)/libed2k.a" "$(INCLUDE)/ed2k.h" "$(LIB)/pkgconfig/ed2k.pc" "$(MAN)/ed2k.1" "$(COMPLETION)/ed2k"

clean:
	cd rust && cargo clean
	cd bench && cargo clean
