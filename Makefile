# `make` proves every crate, builds the static library, the two programs and the C examples, and runs document 01's example; `make test` is the gate;
# `make stock` compares the library with the second resolver on the rules files of Debian's xkb-data, which it installs if they are not there;
# `make keymap-test` compares keymaps; `make bench` measures, `make bench-all` at length; `make shared` makes a shared library;
# `make install PREFIX=/usr/local DESTDIR=` and `make uninstall` do what they say.
.PHONY: all test bench bench-all bench-needs stock keymap-test shared install install-shared uninstall clean

CFLAGS = -O2 -Wall -Wextra
CPPFLAGS =
LDFLAGS =
STOCK = /usr/share/X11/xkb/rules
LIB = target/staticlib/libxkbrules.a
TOOL = target/xkbrules
TOOL_SOURCES = $(wildcard tools/*.c)
HEADERS = include/xkbrules.h include/xkbrules-keymap.h
COMPILE = $(CC) -std=c99 -Iinclude $(CPPFLAGS) $(CFLAGS) $(LDFLAGS)

PREFIX = /usr/local
BINDIR = $(PREFIX)/bin
LIBDIR = $(PREFIX)/lib
INCLUDEDIR = $(PREFIX)/include
MANDIR = $(PREFIX)/share/man
COMPLETIONSDIR = $(PREFIX)/share/bash-completion/completions
VERSION = $(shell sed -n 's/^.define XKBRULES_VERSION "\(.*\)"/\1/p' include/xkbrules.h)
SONAME = libxkbrules.so.$(firstword $(subst ., ,$(VERSION)))
SHARED = target/libxkbrules.so.$(VERSION)

all:
	rt all check
	tools/archive
	$(MAKE) --no-print-directory $(TOOL)
	$(COMPILE) -o target/seat examples/seat.c $(LIB)
	$(COMPILE) -o target/card examples/card.c $(LIB)
	tools/program
	tail -n +5 crates/xkbresolve/stdin | target/seat /dev/stdin pc us,fr ,bepo ctrl:nocaps

# Only where it is not there, so that an install proves nothing anew; after a change of the crates it is `make` that makes it.
$(LIB):
	tools/archive

$(TOOL): $(TOOL_SOURCES) tools/tool.h $(HEADERS) $(LIB)
	$(COMPILE) -o $@ $(TOOL_SOURCES) $(LIB)

# The archive's code may stand at any address, so the same code makes a shared library.
shared: $(SHARED)

$(SHARED): $(LIB)
	$(CC) -shared $(LDFLAGS) -Wl,-soname,$(SONAME) -Wl,-z,defs -o $@ -Wl,--whole-archive $(LIB) -Wl,--no-whole-archive

test:
	bash .ci/run

stock:
	test -e $(STOCK)/evdev || { apt-get update && apt-get install -y xkb-data; }
	tools/archive
	bash tests/compare/run stock $(STOCK)/evdev $(STOCK)/evdev.lst
	bash tests/compare/run stock $(STOCK)/base $(STOCK)/base.lst

# Keymaps that libxkbcommon makes of our strings and by itself, over Debian's xkb-data; both are installed if they are not there.
keymap-test: $(TOOL)
	{ test -e $(STOCK)/evdev && pkg-config --exists xkbcommon; } || { apt-get update && apt-get install -y xkb-data libxkbcommon-dev pkg-config; }
	bash tests/keymap/run $(TOOL) $(STOCK)/evdev $(STOCK)/evdev.lst

install: $(LIB) $(TOOL)
	install -d "$(DESTDIR)$(BINDIR)" "$(DESTDIR)$(LIBDIR)/pkgconfig" "$(DESTDIR)$(INCLUDEDIR)" "$(DESTDIR)$(MANDIR)/man1" "$(DESTDIR)$(COMPLETIONSDIR)"
	install -m 755 $(TOOL) "$(DESTDIR)$(BINDIR)/xkbrules"
	install -m 644 $(LIB) "$(DESTDIR)$(LIBDIR)/libxkbrules.a"
	install -m 644 $(HEADERS) "$(DESTDIR)$(INCLUDEDIR)"
	install -m 644 docs/xkbrules.1 "$(DESTDIR)$(MANDIR)/man1/xkbrules.1"
	install -m 644 tools/completion.bash "$(DESTDIR)$(COMPLETIONSDIR)/xkbrules"
	sed -e 's|@PREFIX@|$(PREFIX)|; s|@LIBDIR@|$(LIBDIR)|; s|@INCLUDEDIR@|$(INCLUDEDIR)|; s|@VERSION@|$(VERSION)|' tools/xkbrules.pc.in \
	    | install -m 644 /dev/stdin "$(DESTDIR)$(LIBDIR)/pkgconfig/xkbrules.pc"

install-shared: install $(SHARED)
	install -m 755 $(SHARED) "$(DESTDIR)$(LIBDIR)"
	ln -sf libxkbrules.so.$(VERSION) "$(DESTDIR)$(LIBDIR)/$(SONAME)"
	ln -sf $(SONAME) "$(DESTDIR)$(LIBDIR)/libxkbrules.so"

uninstall:
	rm -f "$(DESTDIR)$(BINDIR)/xkbrules" "$(DESTDIR)$(LIBDIR)/libxkbrules.a" "$(DESTDIR)$(LIBDIR)/pkgconfig/xkbrules.pc" \
	    "$(DESTDIR)$(LIBDIR)/libxkbrules.so" "$(DESTDIR)$(LIBDIR)/$(SONAME)" "$(DESTDIR)$(LIBDIR)/libxkbrules.so.$(VERSION)" \
	    "$(DESTDIR)$(INCLUDEDIR)/xkbrules.h" "$(DESTDIR)$(INCLUDEDIR)/xkbrules-keymap.h" "$(DESTDIR)$(MANDIR)/man1/xkbrules.1" \
	    "$(DESTDIR)$(COMPLETIONSDIR)/xkbrules"

clean:
	rm -rf target crates/*/out

# What a resolve costs, on Debian's stock rules files and on hard ones: docs/PERFORMANCE.md.
bench-needs:
	{ test -e $(STOCK)/base && command -v valgrind > /dev/null; } || { apt-get update && apt-get install -y xkb-data valgrind; }
	tools/archive

# The stock files and the ten worst of the hard ones.
bench: bench-needs
	python3 bench/run

# Every hard file, in seven sizes.
bench-all: bench-needs
	python3 bench/run --all
