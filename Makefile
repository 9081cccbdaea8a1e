# Builds, tests and installs Stephylax.
#
#   make                              the command, the static and the shared library; proves the library first where it is not proved yet
#   make install PREFIX=/usr/local    writes them under PREFIX, with the header, the series, the module for Python, the man page, the
#                                     completion for bash and what pkg-config reads; DESTDIR stands before each path that is written
#   make uninstall PREFIX=/usr/local  removes them again, and the folders that are empty then
#   make check                        everything that the gate tries but the proofs

PREFIX ?= /usr/local
DESTDIR ?=
CC = gcc
PYTHONDIR ?= $(PREFIX)/share/stephylax/python
override PREFIX := $(abspath $(PREFIX))
VERSION := $(shell sed -n 's/^version = "\(.*\)"/\1/p' host/Cargo.toml | head -n 1)

ARCHIVE = target/staticlib/libstephylax.a
INNER = target/staticlib/libinner_rules.a
COMMAND = host/target/release/stephylax
SONAME = libstephylax.so.1
SHARED = target/shared/libstephylax.so.$(VERSION)
MADE = target/install/stephylax.pc target/install/stephylax.1
SERIES = $(wildcard data/vsop87d/*.txt)

# Without what the checks leave in each crate's out/.
CRATES := $(shell find crates -path 'crates/*/out' -prune -o -type f -print) crates.txt
HOST := $(shell find host -path host/target -prune -o -path host/tests -prune -o -type f -print)

.PHONY: all install uninstall check FORCE

all: $(COMMAND) $(SHARED)

$(ARCHIVE): $(CRATES)
	packaging/archive.sh stephylax

$(INNER): $(CRATES) | $(ARCHIVE)
	packaging/archive.sh inner_rules

# The host's build script makes an archive only if it is missing or older than its sources.
$(COMMAND): $(HOST) $(ARCHIVE) $(INNER)
	cargo build --offline --release --manifest-path host/Cargo.toml --bin stephylax
	touch $@

$(SHARED): $(ARCHIVE) packaging/shared.sh
	CC=$(CC) packaging/shared.sh
	touch $@

FILL = sed -e 's|@PREFIX@|$(PREFIX)|g' -e 's|@PYTHONDIR@|$(PYTHONDIR)|g' -e 's|@VERSION@|$(VERSION)|g'

# Made anew each time, as PREFIX may be another.
target/install/stephylax.pc: packaging/stephylax.pc.in FORCE
	mkdir -p $(@D)
	$(FILL) $< > $@

target/install/stephylax.1: packaging/stephylax.1.in $(COMMAND) FORCE
	mkdir -p $(@D)
	$(COMMAND) --help | sed -e 's/\\/\\e/g' -e 's/-/\\-/g' -e 's/^\([.'"'"']\)/\\\&\1/' > $(@D)/help
	$(FILL) -e '/^@HELP@$$/r $(@D)/help' -e '/^@HELP@$$/d' $< > $@

BIN = $(DESTDIR)$(PREFIX)/bin
INCLUDE = $(DESTDIR)$(PREFIX)/include
LIB = $(DESTDIR)$(PREFIX)/lib
SHARE = $(DESTDIR)$(PREFIX)/share
PYTHONHERE = $(DESTDIR)$(PYTHONDIR)
COMPLETIONS = $(SHARE)/bash-completion/completions

install: $(COMMAND) $(ARCHIVE) $(SHARED) $(MADE)
	install -d $(BIN) $(INCLUDE) $(LIB)/pkgconfig $(SHARE)/stephylax/vsop87d $(SHARE)/man/man1 $(COMPLETIONS) $(PYTHONHERE)
	install -m 755 $(COMMAND) $(BIN)/stephylax
	install -m 644 include/stephylax.h $(INCLUDE)/stephylax.h
	install -m 644 $(ARCHIVE) $(LIB)/libstephylax.a
	install -m 755 $(SHARED) $(LIB)/$(notdir $(SHARED))
	ln -sf $(notdir $(SHARED)) $(LIB)/$(SONAME)
	ln -sf $(SONAME) $(LIB)/libstephylax.so
	install -m 644 target/install/stephylax.pc $(LIB)/pkgconfig/stephylax.pc
	install -m 644 $(SERIES) $(SHARE)/stephylax/vsop87d
	install -m 644 target/install/stephylax.1 $(SHARE)/man/man1/stephylax.1
	install -m 644 packaging/stephylax.bash $(COMPLETIONS)/stephylax
	install -m 644 python/stephylax.py $(PYTHONHERE)/stephylax.py
	install -m 644 python/example.py $(SHARE)/stephylax/example.py

# The folders from the innermost out; one that holds something else stays.
uninstall:
	rm -f $(BIN)/stephylax $(INCLUDE)/stephylax.h $(LIB)/libstephylax.a $(LIB)/$(notdir $(SHARED)) $(LIB)/$(SONAME) $(LIB)/libstephylax.so
	rm -f $(LIB)/pkgconfig/stephylax.pc $(SHARE)/man/man1/stephylax.1 $(COMPLETIONS)/stephylax
	rm -f $(addprefix $(SHARE)/stephylax/vsop87d/,$(notdir $(SERIES)))
	rm -f $(PYTHONHERE)/stephylax.py $(PYTHONHERE)/__pycache__/stephylax.*.pyc $(SHARE)/stephylax/example.py
	for folder in $(PYTHONHERE)/__pycache__ $(PYTHONHERE) $(SHARE)/stephylax/vsop87d $(SHARE)/stephylax $(COMPLETIONS) \
		$(SHARE)/bash-completion $(SHARE)/man/man1 $(SHARE)/man $(SHARE) $(LIB)/pkgconfig $(LIB) $(INCLUDE) $(BIN); do \
		rmdir $$folder 2>/dev/null || :; done

check:
	.ci/tests
