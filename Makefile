# The C package: library, header, pkg-config file, documents and examples; and the commands for archives. `make help` says what there is;
# GNU make.

VERSION = 1.13.3

PREFIX = /usr/local
INCLUDEDIR = $(PREFIX)/include
LIBDIR = $(PREFIX)/lib
DOCDIR = $(PREFIX)/share/doc/waxwingrack
BINDIR = $(PREFIX)/bin
LIBEXECDIR = $(PREFIX)/libexec/waxwingrack
MANDIR = $(PREFIX)/share/man

CC = gcc
CFLAGS = -std=c99 -O2 -g -Wall -Wextra -Wpedantic -Wshadow -Wconversion
INSTALL = install

LIBRARY = target/lib/libwaxwingrack.a
HEADER = include/waxwingrack.h
PLAYBACK = target/bin/playback
BLOCK = target/bin/waxwingrack-block
EXAMPLES := $(sort $(wildcard examples/*.c))
# what C-INTERFACE.md, STATE.md and PROTOCOL.md link to is here too
DOCUMENTS = $(addprefix docs/,C-INTERFACE.md STATE.md PROTOCOL.md DECISIONS.md PROVED.md CHANGES.md LICENCE.md BLOCKS.md COMPARE.md COUNTS.md)
PLAY_DOCUMENT = docs/PLAYBACK.md
CHARTS := $(sort $(wildcard docs/protocol/*.svg))

# neither edits that the prover must refuse nor what rt has made comes into the library
SOURCES := crates.txt $(shell find crates -name out -prune -o -type f ! -name '*.edit' -print)

# beneath DOCDIR the documents keep the places that they have beneath docs/
INSTALLED = $(INCLUDEDIR)/waxwingrack.h $(LIBDIR)/libwaxwingrack.a $(LIBDIR)/pkgconfig/waxwingrack.pc \
            $(DOCUMENTS:docs/%=$(DOCDIR)/%) $(CHARTS:docs/%=$(DOCDIR)/%) $(EXAMPLES:%=$(DOCDIR)/%) $(INSTALLED_PLAY) \
            $(BINDIR)/waxwingrack-block $(MANDIR)/man1/waxwingrack-block.1
INSTALLED_PLAY = $(BINDIR)/waxwingrack-play $(LIBEXECDIR)/playback $(MANDIR)/man1/waxwingrack-play.1 $(PLAY_DOCUMENT:docs/%=$(DOCDIR)/%)
below_prefix = $(patsubst $(PREFIX)/%,$${prefix}/%,$(1))

# The toolchain compiles for x86-64 Linux alone. `make install-play`, `uninstall` and `help` need no compiler.
ifneq (,$(filter-out install-play uninstall help absolute built-play,$(or $(MAKECMDGOALS),all)))
ifneq (,$(shell command -v $(firstword $(CC)) 2>/dev/null))
ifeq (,$(filter yes,$(shell printf '\043if defined __x86_64__ && defined __LP64__ && defined __linux__\nyes\n\043endif\n' | $(CC) $(CFLAGS) -x c -E -P - 2>/dev/null)))
$(error $(strip $(CC) $(filter -m%,$(CFLAGS))) compiles for another machine than x86-64 Linux, and the library can be had for no other today: \
the Rattle toolchain has one back end (docs/C-INTERFACE.md, "Machines"))
endif
endif
endif

.PHONY: all examples install install-play uninstall absolute built built-play help
.DELETE_ON_ERROR:

all: $(LIBRARY) $(PLAYBACK) $(BLOCK)

$(LIBRARY): $(SOURCES)
	tools/library

$(PLAYBACK): $(SOURCES) play/waxwingrack-play.in
	tools/player

build_block = $(CC) $(CFLAGS) -DVERSION='"$(VERSION)"' -Iinclude play/block.c $(LIBRARY) -o $(BLOCK)

$(BLOCK): play/block.c Makefile $(HEADER) $(LIBRARY)
	mkdir -p $(@D)
	$(build_block)

examples: $(EXAMPLES:%.c=target/%)

target/examples/%: examples/%.c $(HEADER) $(LIBRARY)
	mkdir -p $(@D)
	$(CC) $(CFLAGS) -Iinclude $< $(LIBRARY) -o $@

install: absolute built install-play
	$(INSTALL) -d '$(DESTDIR)$(INCLUDEDIR)' '$(DESTDIR)$(LIBDIR)/pkgconfig' \
	    '$(DESTDIR)$(DOCDIR)/protocol' '$(DESTDIR)$(DOCDIR)/examples'
	$(INSTALL) -m 644 $(HEADER) '$(DESTDIR)$(INCLUDEDIR)'
	$(INSTALL) -m 644 $(LIBRARY) '$(DESTDIR)$(LIBDIR)'
	sed -e 's|@PREFIX@|$(PREFIX)|' -e 's|@INCLUDEDIR@|$(call below_prefix,$(INCLUDEDIR))|' \
	    -e 's|@LIBDIR@|$(call below_prefix,$(LIBDIR))|' -e 's|@VERSION@|$(VERSION)|' \
	    waxwingrack.pc.in >'$(DESTDIR)$(LIBDIR)/pkgconfig/waxwingrack.pc'
	chmod 644 '$(DESTDIR)$(LIBDIR)/pkgconfig/waxwingrack.pc'
	$(INSTALL) -m 644 $(DOCUMENTS) '$(DESTDIR)$(DOCDIR)'
	$(INSTALL) -m 644 $(CHARTS) '$(DESTDIR)$(DOCDIR)/protocol'
	$(INSTALL) -m 644 $(EXAMPLES) '$(DESTDIR)$(DOCDIR)/examples'
	$(INSTALL) -m 755 $(BLOCK) '$(DESTDIR)$(BINDIR)'
	$(call manual,waxwingrack-block)

# a command's manual page
manual = sed -e 's|@VERSION@|$(VERSION)|' -e 's|@DOCDIR@|$(DOCDIR)|' play/$(1).1.in >'$(DESTDIR)$(MANDIR)/man1/$(1).1' \
	    && chmod 644 '$(DESTDIR)$(MANDIR)/man1/$(1).1'

# the playback command alone, for a machine that reads archives: it needs neither toolchain nor compiler
install-play: absolute built-play
	$(INSTALL) -d '$(DESTDIR)$(BINDIR)' '$(DESTDIR)$(LIBEXECDIR)' '$(DESTDIR)$(MANDIR)/man1' '$(DESTDIR)$(DOCDIR)'
	$(INSTALL) -m 755 $(PLAYBACK) '$(DESTDIR)$(LIBEXECDIR)'
	sed 's|@PROGRAM@|$(LIBEXECDIR)/playback|' play/waxwingrack-play.in >'$(DESTDIR)$(BINDIR)/waxwingrack-play'
	chmod 755 '$(DESTDIR)$(BINDIR)/waxwingrack-play'
	$(call manual,waxwingrack-play)
	$(INSTALL) -m 644 $(PLAY_DOCUMENT) '$(DESTDIR)$(DOCDIR)'

# directories that others use too stay
uninstall: absolute
	@rm -f $(INSTALLED:%='$(DESTDIR)%')
	@for directory in '$(DESTDIR)$(DOCDIR)/protocol' '$(DESTDIR)$(DOCDIR)/examples' '$(DESTDIR)$(DOCDIR)' '$(DESTDIR)$(LIBEXECDIR)'; do \
	    [ ! -d "$$directory" ] || rmdir "$$directory"; \
	done
	@echo 'removed from $(DESTDIR)$(PREFIX)'

# the file for pkg-config holds these, so they may be neither relative nor in need of quotes
absolute:
	@for path in '$(PREFIX)' '$(INCLUDEDIR)' '$(LIBDIR)' '$(DOCDIR)' '$(BINDIR)' '$(LIBEXECDIR)' '$(MANDIR)'; do case $$path in \
	    *[!-A-Za-z0-9_.+~/]*|[!/]*|'') \
	        echo "make: '$$path' is not an absolute path of letters, digits and -_.+~/" >&2; exit 2 ;; \
	esac; done

# An install proves nothing anew if a library is there: what `make` has built is what root installs.
built:
	@[ -e $(LIBRARY) ] || $(MAKE) --no-print-directory $(LIBRARY)
	@$(MAKE) --no-print-directory --question $(LIBRARY) || \
	    echo "make: $(LIBRARY) is older than crates/ and is installed as it is; 'make' builds it anew" >&2
	@mkdir -p $(dir $(BLOCK))
	@[ $(BLOCK) -nt $(LIBRARY) ] && [ $(BLOCK) -nt play/block.c ] || $(build_block)

built-play:
	@[ -e $(PLAYBACK) ] || $(MAKE) --no-print-directory $(PLAYBACK)
	@$(MAKE) --no-print-directory --question $(PLAYBACK) || \
	    echo "make: $(PLAYBACK) is older than crates/ and is installed as it is; 'make' builds it anew" >&2

help:
	@echo 'make                 proves and builds $(LIBRARY), $(PLAYBACK) and $(BLOCK), if not there or older than crates/'
	@echo 'make examples        builds the C examples into target/examples'
	@echo 'make install         installs version $(VERSION) below PREFIX ($(PREFIX)); no proof if the library is there'
	@echo 'make install-play    installs the playback command and its manual page alone'
	@echo 'make uninstall       removes what an install with the same variables has put there'
	@echo
	@echo 'Variables: PREFIX, BINDIR, LIBEXECDIR, MANDIR, INCLUDEDIR, LIBDIR, DOCDIR (absolute paths), DESTDIR (put before all of them, for packagers),'
	@echo 'CC, CFLAGS, INSTALL. A build of the library needs the Rattle toolchain (rt); an install of a built one does not.'
