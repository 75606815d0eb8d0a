# What `make` does here is done by `rt`, the command of Rattle's kit; see README.md.
#
#   make try                merges real files in two orders with the unproved program, which it builds first if it is not there
#   make unproved           builds crates/dexkit/out/dexkit-unproved: the program with checks at run time and no proof
#   make                    proves the program and all that it depends on, crate by crate, and builds crates/dexkit/out/dexkit;
#                           what is proved is kept, so a run that was interrupted goes on where it was
#   make check              the gate: proves what it has not passed on this machine, runs all cases, makes each allocation,
#                           read and write of the proved program fail once, and runs the scripts that tests/gate/run lists
#   make lib                proves the library for C and makes it in lib/out, a folder to be installed as a prefix
#   make lib-check          compares it with the program and with right answers, from C, Python and Java, and at its edges
#   make documents          checks links, sizes, names and versions in the documents, and words in all text and names
#   make install PREFIX=..  installs the proved program with manual, completions, documents and examples, and the library if
#                           make lib has made it, in LIBDIR (lib); PREFIX is /usr/local if not given; what was not proved
#                           from the files of this tree is refused
#   make dist               packs both as a tar file and as Debian packages in dist/, with the same condition
#   make vectors            packs tests/program with its data, for programs of others, in dist/
#   make clean              removes what checks and builds keep

PREFIX ?= /usr/local
DESTDIR ?=
LIBDIR ?= lib

# Installs a page of the manual, with the version in its foot.
define manual
	install -D -m 644 docs/dexkit.$(1) $(DESTDIR)$(PREFIX)/share/man/man$(1)/dexkit.$(1)
	sed -i 's/^\(\.TH DEXKIT .*\)"dexkit[^"]*"/\1"dexkit $(VERSION)"/' $(DESTDIR)$(PREFIX)/share/man/man$(1)/dexkit.$(1)
endef

# How many tasks a check may have at a time.
JOBS ?= $(shell nproc)

# The program, once `make` has proved and built it, and once `make unproved` has built it.
PROGRAM = crates/dexkit/out/dexkit
UNPROVED = crates/dexkit/out/dexkit-unproved

VERSION := $(shell sed -n 's/.*const VERSION: &str = "\([^ "]*\).*/\1/p' crates/dexargs/src/help.rt)

# The crates of the program, each after those that it depends on; the program is the last one.
CRATES := $(shell tools/libraries dexkit)
SOURCES := $(foreach crate,$(CRATES),$(wildcard crates/$(crate)/src/*.rt crates/$(crate)/src/*/*.rt))

.PHONY: all try unproved check lib lib-check documents install install-program install-library dist vectors clean

all:
	@set -e; number=0; \
	for crate in $(CRATES); do \
		number=$$((number + 1)); \
		echo "crate $$number of $(words $(CRATES)): $$crate"; \
		cd crates/$$crate; \
		if [ $$crate = dexkit ]; then rt run --jobs $(JOBS) -- --version; else rt lib --jobs $(JOBS); fi; \
		cd ../..; \
	done
	@tools/proved note program

try: $(UNPROVED)
	@tools/try $(UNPROVED)

unproved: $(UNPROVED)
	@echo "$(UNPROVED) has checks at run time and no proof: for trying dexkit out, and not for use."

$(UNPROVED): $(SOURCES)
	@echo "Compiling dexkit without proofs: a minute and a half on four idle cores, several beside other work."
	@tools/unproved

# `rt ci`, and then the scripts that need nothing but this machine: the last line is that of `rt ci`.
check:
	@tests/gate/run
	@tools/proved note program

lib:
	JOBS=$(JOBS) tools/lib lib/out
	@tools/proved note library

lib-check:
	JOBS=$(JOBS) tests/library/check $(PROGRAM)

documents:
	tests/documents/run
	tests/words/run
	[ ! -x tests/cases/run ] || tests/cases/run

install: install-program
	@if [ -d lib/out ]; then $(MAKE) -s install-library; else echo "the library for C was not made with make lib"; fi

install-program:
	@tools/proved ask program
	install -D -m 755 $(PROGRAM) $(DESTDIR)$(PREFIX)/bin/dexkit
	$(call manual,1)
	install -D -m 644 docs/completions/dexkit.bash $(DESTDIR)$(PREFIX)/share/bash-completion/completions/dexkit
	install -D -m 644 docs/completions/_dexkit $(DESTDIR)$(PREFIX)/share/zsh/site-functions/_dexkit
	install -D -m 644 docs/completions/dexkit.fish $(DESTDIR)$(PREFIX)/share/fish/vendor_completions.d/dexkit.fish
	tools/documents $(DESTDIR)$(PREFIX)/share/doc/dexkit

install-library:
	@tools/proved ask library
	install -D -m 644 lib/out/include/dexkit.h $(DESTDIR)$(PREFIX)/include/dexkit.h
	install -D -m 644 lib/out/lib/libdexkit.a $(DESTDIR)$(PREFIX)/$(LIBDIR)/libdexkit.a
	install -D -m 644 lib/out/lib/libdexkit.so.1 $(DESTDIR)$(PREFIX)/$(LIBDIR)/libdexkit.so.1
	ln -sf libdexkit.so.1 $(DESTDIR)$(PREFIX)/$(LIBDIR)/libdexkit.so
	install -d $(DESTDIR)$(PREFIX)/$(LIBDIR)/pkgconfig
	sed 's|^prefix=.*|prefix=$${libdir}/$(shell echo $(LIBDIR) | sed "s|[^/][^/]*|..|g")|' lib/out/lib/pkgconfig/dexkit.pc \
		>$(DESTDIR)$(PREFIX)/$(LIBDIR)/pkgconfig/dexkit.pc
	$(call manual,3)

dist:
	@tools/proved ask program
	@tools/proved ask library
	@rm -rf dist/stage
	@umask 022; $(MAKE) -s install DESTDIR=dist/stage PREFIX=/usr LIBDIR=lib/x86_64-linux-gnu
	@tools/dist dist/stage $(VERSION)
	@rm -rf dist/stage

vectors:
	@tools/vectors $(VERSION)

clean:
	rm -rf crates/*/out lib/out dist
