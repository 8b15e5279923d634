# Builds the library for C and installs it: make, make install [PREFIX=/usr/local] [DESTDIR=], make uninstall. `rt` is the Rattle kit's tool; it proves
# the library before it compiles it.
PREFIX ?= /usr/local
INCLUDEDIR ?= $(PREFIX)/include
LIBDIR ?= $(PREFIX)/lib
PKGCONFIGDIR ?= $(LIBDIR)/pkgconfig
DESTDIR ?=
INSTALL ?= install
RT ?= rt

HEADER = include/duskclamp.h
ARCHIVE = target/staticlib/liblock_engine_c.a
# The header states the version; the library answers the same by duskclamp_version.
NUMBER = $(shell sed -n 's/^.define DUSKCLAMP_VERSION_$(1) //p' $(HEADER))
VERSION = $(call NUMBER,MAJOR).$(call NUMBER,MINOR).$(call NUMBER,PATCH)

SOURCES = crates.txt $(shell find crates -name out -prune -o \( -name '*.rt' -o -name '*.antt' \) -print)

.PHONY: all install uninstall

all: $(ARCHIVE)

$(ARCHIVE): $(SOURCES)
	@command -v $(RT) >/dev/null || { echo "make: $(RT) is not found: the library is built by the Rattle kit's rt" >&2; exit 1; }
	RT=$(RT) tools/build.sh library

install: $(ARCHIVE)
	$(INSTALL) -d "$(DESTDIR)$(INCLUDEDIR)" "$(DESTDIR)$(LIBDIR)" "$(DESTDIR)$(PKGCONFIGDIR)"
	$(INSTALL) -m 644 $(HEADER) "$(DESTDIR)$(INCLUDEDIR)/duskclamp.h"
	$(INSTALL) -m 644 $(ARCHIVE) "$(DESTDIR)$(LIBDIR)/libduskclamp.a"
	sed -e 's|@PREFIX@|$(PREFIX)|' -e 's|@INCLUDEDIR@|$(INCLUDEDIR)|' -e 's|@LIBDIR@|$(LIBDIR)|' -e 's|@VERSION@|$(VERSION)|' duskclamp.pc.in \
		>"$(DESTDIR)$(PKGCONFIGDIR)/duskclamp.pc"
	chmod 644 "$(DESTDIR)$(PKGCONFIGDIR)/duskclamp.pc"

uninstall:
	rm -f "$(DESTDIR)$(INCLUDEDIR)/duskclamp.h" "$(DESTDIR)$(LIBDIR)/libduskclamp.a" "$(DESTDIR)$(PKGCONFIGDIR)/duskclamp.pc"
