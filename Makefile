# Over the toolchain's command `rt`, which has to be on the PATH.
# The program lies in out/, which the gate leaves alone; it sets crates/*/out aside while it runs.
PROGRAM = out/unwrap
MADE = crates/unwrap/out/unwrap
SOURCES = $(shell find crates -name out -prune -o -type f -print) crates.txt HANDLES
PREFIX ?= /usr/local
SHARE = $(DESTDIR)$(PREFIX)/share
ARGS ?= unwrap

.PHONY: all build run test bench install deb

all: build

build: $(PROGRAM)

# `rt run` links the program and runs it once, here on empty input; it proves what tools/prove has
# not, which is the program's own crate.
$(PROGRAM): $(SOURCES)
	@tools/prove >&2
	@cd crates/unwrap && rt run -- unwrap < /dev/null >&2
	@install -D $(MADE) $(PROGRAM)

run: build
	@$(PROGRAM) $(ARGS)

# Where the gate passes, it leaves the program that it proved as out/unwrap.
test:
	@.ci/run

bench: build
	bench/headers $(PROGRAM)
	bench/quoted $(PROGRAM)
	bench/text $(PROGRAM)
	bench/encode

install: build
	install -d $(DESTDIR)$(PREFIX)/bin $(SHARE)/man/man1 $(SHARE)/bash-completion/completions
	install -m 755 $(PROGRAM) $(DESTDIR)$(PREFIX)/bin/unwrap
	install -m 755 tools/indexes $(DESTDIR)$(PREFIX)/bin/unwrap-indexes
	install -m 644 docs/unwrap.1 docs/unwrap-indexes.1 $(SHARE)/man/man1
	install -m 644 completions/unwrap.bash $(SHARE)/bash-completion/completions/unwrap

# A Debian package in out/.
deb: build
	tools/deb $(PROGRAM) out
