# Builds and installs the library and the command. Proving takes minutes the first time.
#
#   make                      the program, the command, the static and the shared library
#   make install PREFIX=DIR   puts them in place, /usr/local unless PREFIX names another
#   make uninstall PREFIX=DIR
#
# DESTDIR goes before each installed path, for a package. `make check-install` tries it all out.

PREFIX ?= /usr/local
LIBDIR ?= $(PREFIX)/lib
INCLUDEDIR ?= $(PREFIX)/include
MANDIR ?= $(PREFIX)/share/man
# The command looks for its program and its example from where it stands itself.
BINDIR := $(PREFIX)/bin
LIBEXECDIR := $(PREFIX)/libexec
DATADIR := $(PREFIX)/share

CC ?= cc
CFLAGS ?= -O2
INSTALL ?= install

VERSION := $(shell sed -n 's/^\#define WATCHER_VERSION "\(.*\)"/\1/p' include/watcher.h)
MAJOR := $(firstword $(subst ., ,$(VERSION)))
SHARED := libwatcher.so.$(VERSION)
SONAME := libwatcher.so.$(MAJOR)

out := target/install
archive := target/staticlib/libwatcher.a

.PHONY: all built install uninstall check-install

all: $(out)/libwatcher.a $(out)/$(SHARED) $(out)/watcher.1

# Proves and builds what is older than its sources, and says nothing else.
built:
	@tools/build

$(archive): built ;

$(out):
	@mkdir -p $@

# The texts of the numbers, from the one table of them.
$(out)/text.c: bindings/c/text.awk bindings/rust/refusals.txt | $(out)
	awk -f bindings/c/text.awk bindings/rust/refusals.txt > $@.part
	mv $@.part $@

$(out)/text.o: $(out)/text.c include/watcher.h
	$(CC) -std=c11 -Wall -Wextra $(CFLAGS) -fPIC -Iinclude -c -o $@ $<

$(out)/libwatcher.a: $(archive) $(out)/text.o
	cp $(archive) $@.part
	$(AR) rs $@.part $(out)/text.o 2>/dev/null
	mv $@.part $@

$(out)/$(SHARED): $(archive) $(out)/text.o bindings/c/exports.map
	$(CC) -shared $(LDFLAGS) -Wl,-soname,$(SONAME) -Wl,--version-script=bindings/c/exports.map \
	  -Wl,--no-undefined -o $@ \
	  -Wl,--whole-archive $(archive) -Wl,--no-whole-archive $(out)/text.o -lc

$(out)/watcher.1: docs/watcher.1 include/watcher.h | $(out)
	sed 's/@VERSION@/$(VERSION)/' docs/watcher.1 > $@

$(out)/watcher.pc: bindings/c/watcher.pc.in FORCE | $(out)
	sed -e 's|@PREFIX@|$(PREFIX)|' -e 's|@LIBDIR@|$(LIBDIR)|' -e 's|@INCLUDEDIR@|$(INCLUDEDIR)|' \
	  -e 's|@VERSION@|$(VERSION)|' $< > $@

FORCE:

install: all $(out)/watcher.pc
	$(INSTALL) -d $(DESTDIR)$(BINDIR) $(DESTDIR)$(LIBDIR)/pkgconfig $(DESTDIR)$(INCLUDEDIR) \
	  $(DESTDIR)$(LIBEXECDIR)/watcher $(DESTDIR)$(DATADIR)/watcher/example $(DESTDIR)$(MANDIR)/man1
	$(INSTALL) -m 755 target/tools/release/watch $(DESTDIR)$(BINDIR)/watcher
	$(INSTALL) -m 755 target/bin/watcher $(DESTDIR)$(LIBEXECDIR)/watcher/watcher
	$(INSTALL) -m 644 $(out)/libwatcher.a $(DESTDIR)$(LIBDIR)/libwatcher.a
	$(INSTALL) -m 755 $(out)/$(SHARED) $(DESTDIR)$(LIBDIR)/$(SHARED)
	ln -sf $(SHARED) $(DESTDIR)$(LIBDIR)/$(SONAME)
	ln -sf $(SONAME) $(DESTDIR)$(LIBDIR)/libwatcher.so
	$(INSTALL) -m 644 $(out)/watcher.pc $(DESTDIR)$(LIBDIR)/pkgconfig/watcher.pc
	$(INSTALL) -m 644 include/watcher.h $(DESTDIR)$(INCLUDEDIR)/watcher.h
	$(INSTALL) -m 644 examples/logger/rules.txt examples/logger/log.txt \
	  $(DESTDIR)$(DATADIR)/watcher/example
	$(INSTALL) -m 644 $(out)/watcher.1 $(DESTDIR)$(MANDIR)/man1/watcher.1

uninstall:
	rm -f $(DESTDIR)$(BINDIR)/watcher $(DESTDIR)$(LIBDIR)/libwatcher.a \
	  $(DESTDIR)$(LIBDIR)/$(SHARED) $(DESTDIR)$(LIBDIR)/$(SONAME) $(DESTDIR)$(LIBDIR)/libwatcher.so \
	  $(DESTDIR)$(LIBDIR)/pkgconfig/watcher.pc $(DESTDIR)$(INCLUDEDIR)/watcher.h \
	  $(DESTDIR)$(MANDIR)/man1/watcher.1
	rm -rf $(DESTDIR)$(LIBEXECDIR)/watcher $(DESTDIR)$(DATADIR)/watcher

check-install:
	tests/install
