# Builds what stands around the proved crates: the library under its own name, archive and shared; examples; the text tool. Installs, tests,
# measures. `make help` says what there is. Every path is quoted where a shell sees it: the checkout, PREFIX, DESTDIR, PROVED and
# PROVED_REPORT may have blanks in them. Paths inside the checkout have none, so they are written relative to it.

PREFIX ?= /usr/local
CC ?= cc
CFLAGS ?= -O2 -g -Wall -Wextra
INSTALL ?= install

# The header says which version this is.
VERSION := $(shell sed -n 's/^#define SEASON_CHECKER_VERSION "\(.*\)"/\1/p' include/season_checker.h)
MAJOR := $(firstword $(subst ., ,$(VERSION)))

LIBRARY = target/libseason_checker.a
SHARED = target/libseason_checker.so
ARCHIVE = target/staticlib/libchecker_c.a
# What is proved: no edit that has to fail, and nothing of what rt keeps beside it.
SOURCES = crates.txt $(shell find crates \( -name must-fail -o -name out \) -prune -o -type f -print)
INCLUDE = $(DESTDIR)$(PREFIX)/include
LIB = $(DESTDIR)$(PREFIX)/lib

all: $(LIBRARY) $(SHARED)

help:
	@echo 'make                      target/libseason_checker.a, proved and built by rt, and target/libseason_checker.so'
	@echo 'make report               target/bin/season_report, proved and built by rt; ./season-report does this by itself'
	@echo 'make install              header, archive, shared library and pkg-config file to PREFIX (default /usr/local; DESTDIR is honoured)'
	@echo 'make uninstall            removes them'
	@echo 'make console text         target/console (examples/console.c), target/season-text (docs/TEXT.md)'
	@echo 'make host-test            the tests of what the proof does not cover; .ci/run runs all tests'
	@echo 'make bench                docs/BENCHMARKS.md'
	@echo 'make clean                removes target/ and what rt keeps in crates/*/out, so that everything is proved and built again'
	@echo 'PROVED=FILE               takes a ready archive and proves nothing; PROVED_REPORT=FILE the same for the program season_report'
	@echo 'Needs rt (the Rattle toolchain), make and cc; cargo for text, host-test and bench. For x86-64 only.'

$(ARCHIVE): $(SOURCES)
	host/prove.sh checker_c

ifdef PROVED_REPORT
target/bin/season_report: FORCE
	@mkdir -p target/bin
	@cmp -s "$(PROVED_REPORT)" $@ || cp "$(PROVED_REPORT)" $@
	@touch $@
else
target/bin/season_report: $(SOURCES)
	host/prove.sh season_report
endif

report: target/bin/season_report

ifdef PROVED
$(LIBRARY): FORCE
	@mkdir -p target
	@cmp -s "$(PROVED)" $@ || cp "$(PROVED)" $@
else
$(LIBRARY): $(ARCHIVE) FORCE
	@cmp -s $< $@ || cp $< $@
endif

# The archive as it was proved, and the helpers of the header as functions.
$(SHARED): host/c/helpers.c include/season_checker.h $(LIBRARY)
	$(CC) $(CFLAGS) -fPIC -shared -Wl,-soname,libseason_checker.so.$(MAJOR) -Wl,-z,defs -Iinclude host/c/helpers.c \
	    -Wl,--whole-archive $(LIBRARY) -Wl,--no-whole-archive -o $@

install: all
	sed -e 's|@PREFIX@|$(subst &,\&,$(PREFIX))|' -e 's|@VERSION@|$(VERSION)|' season_checker.pc.in > target/season_checker.pc
	$(INSTALL) -d "$(INCLUDE)" "$(LIB)/pkgconfig"
	$(INSTALL) -m 644 include/season_checker.h include/season_explain.h "$(INCLUDE)"
	$(INSTALL) -m 644 $(LIBRARY) "$(LIB)"
	$(INSTALL) -m 755 $(SHARED) "$(LIB)/libseason_checker.so.$(VERSION)"
	ln -sf libseason_checker.so.$(VERSION) "$(LIB)/libseason_checker.so.$(MAJOR)"
	ln -sf libseason_checker.so.$(MAJOR) "$(LIB)/libseason_checker.so"
	$(INSTALL) -m 644 target/season_checker.pc "$(LIB)/pkgconfig"

uninstall:
	rm -f "$(INCLUDE)/season_checker.h" "$(INCLUDE)/season_explain.h" "$(LIB)/libseason_checker.a" "$(LIB)/pkgconfig/season_checker.pc"
	rm -f "$(LIB)/libseason_checker.so" "$(LIB)/libseason_checker.so.$(MAJOR)" "$(LIB)/libseason_checker.so.$(VERSION)"

console: target/console

target/console: examples/console.c include/season_checker.h $(LIBRARY)
	$(CC) $(CFLAGS) -Iinclude examples/console.c $(LIBRARY) -o $@

text: $(LIBRARY)
	@mkdir -p target
	CARGO_TARGET_DIR=target/cargo cargo build --profile checked --offline --quiet --manifest-path host/Cargo.toml --package season-text
	@cmp -s target/cargo/checked/season-text target/season-text || cp target/cargo/checked/season-text target/season-text

host-test: all report
	host/test.sh

bench: $(LIBRARY)
	bench/run.sh

clean:
	rm -rf target crates/*/out

FORCE:

.PHONY: all help report install uninstall console text host-test bench clean FORCE
