# `make help` lists the targets. PREFIX, LIBDIR, INCLUDEDIR and DESTDIR are as everywhere.
PREFIX ?= /usr/local
LIBDIR ?= $(PREFIX)/lib
INCLUDEDIR ?= $(PREFIX)/include

LIB := target/staticlib/libsign.a
VERSION = $(shell awk '$$2 == "SIGN_VERSION_MAJOR" { v = $$3 } $$2 == "SIGN_VERSION_MINOR" { print v "." $$3 }' include/sign.h)
# What the proofs depend on: files, and folders too, which are newer where a file is gone.
SOURCES := $(shell find kit crates.txt crates/*/src crates/*/specs crates/*/proofs)
CPU := --cpu=x86-64
# None of make's own rules is tried on each of these.
MAKEFLAGS += -r

lib: $(LIB)             ## the library for C, target/staticlib/libsign.a (this is what make alone does)
show: target/bin/show   ## the sample program, target/bin/show
tell: target/bin/tell   ## the technician's program, target/bin/tell
show_lounge: target/bin/show_lounge    ## the sample program of the old lounge module, target/bin/show_lounge
salvage: target/bin/salvage    ## the program that salvages a file of blocks, target/bin/salvage
vet: target/bin/vet     ## the program that vets other people's bytes, target/bin/vet

# rt leaves a product as it is where nothing but times changed. It makes each in its crate's own folder, out/, and would make it for
# processors since about 2009; what is made here runs on every x86-64 one.
target/staticlib/lib%.a: $(SOURCES)
	cd crates/$* && rt lib $(CPU)
	@mkdir -p $(@D) && cp -p crates/$*/out/lib$*.a $@ && touch $@

# To make a program rt also runs it: on no input and no argument, which each program takes.
target/bin/%: $(SOURCES)
	cd crates/$* && rt run $(CPU) </dev/null >/dev/null
	@mkdir -p $(@D) && cp -p crates/$*/out/$* $@ && touch $@

demo: target/bin/show $(LIB)    ## runs show and two host programs in C, and shows what they print
	. tests/tools.sh && need c && $$RUN target/bin/show < examples/greeting.bin
	tests/run.sh example

test:    ## the gate: all proofs from nothing, the edits that must be refused, the tests of the compiled code
	.ci/run

install: $(LIB)    ## library, header and pkg-config file under PREFIX (or LIBDIR, INCLUDEDIR), behind DESTDIR
	$(if $(filter-out /%,$(PREFIX) $(LIBDIR) $(INCLUDEDIR)),$(error PREFIX, LIBDIR, INCLUDEDIR must begin with / and have no blank))
	umask 022 && mkdir -p "$(DESTDIR)$(LIBDIR)/pkgconfig" "$(DESTDIR)$(INCLUDEDIR)"
	install -m 644 $(LIB) "$(DESTDIR)$(LIBDIR)/libsign.a"
	install -m 644 include/sign.h "$(DESTDIR)$(INCLUDEDIR)/sign.h"
	sed 's|@PREFIX@|$(PREFIX)|; s|@LIBDIR@|$(LIBDIR)|; s|@INCLUDEDIR@|$(INCLUDEDIR)|; s|@VERSION@|$(VERSION)|' sign.pc.in \
		>"$(DESTDIR)$(LIBDIR)/pkgconfig/sign.pc"
	chmod 644 "$(DESTDIR)$(LIBDIR)/pkgconfig/sign.pc"

uninstall:    ## removes the three files of install, with the same PREFIX, LIBDIR, INCLUDEDIR and DESTDIR
	rm -f "$(DESTDIR)$(LIBDIR)/libsign.a" "$(DESTDIR)$(LIBDIR)/pkgconfig/sign.pc" "$(DESTDIR)$(INCLUDEDIR)/sign.h"

clean:    ## removes target/ and each crate's out/, with all that was proved and built
	rm -rf target crates/*/out

help:    ## this list
	@awk -F ':.*## ' '/^[a-z_]+:.*## / { printf "make %-11s %s\n", $$1, $$2 }' Makefile

# Two provers at once would write the same files; rt uses the cores by itself.
.NOTPARALLEL:
.DELETE_ON_ERROR:
.PHONY: lib show tell show_lounge salvage vet demo test install uninstall clean help
