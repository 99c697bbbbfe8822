# The main job: builds the library and the desk program, and replays the order's story through them.
demo:
	@tools/prove desk sundr
	@demo/run

# The library, for C and Rust to link: target/staticlib/libsundr.a, with include/sundr.h.
lib:
	@tools/prove sundr

# The desk program: target/bin/desk.
desk:
	@tools/prove desk

# All proofs, then all tests. The last line is 'N passed, 0 failed'.
test:
	@tests/run

# Instructions, stack and speed, beside portable C and OpenSSL, or the second implementation.
bench: lib desk
	@tests/bench/run

# The same, kept in the README and in docs/figures.svg, with the commit's name.
figures: lib desk
	@tests/bench/run --keep

# Where things are installed. PREFIX is where they will be used; DESTDIR, if given, stands before each path that is
# written, and in none of the files.
PREFIX = /usr/local
BINDIR = $(PREFIX)/bin
LIBDIR = $(PREFIX)/lib
INCLUDEDIR = $(PREFIX)/include
MANDIR = $(PREFIX)/share/man

archive = $(DESTDIR)$(LIBDIR)/libsundr.a
header = $(DESTDIR)$(INCLUDEDIR)/sundr.h
pc = $(DESTDIR)$(LIBDIR)/pkgconfig/sundr.pc
program = $(DESTDIR)$(BINDIR)/desk
program_page = $(DESTDIR)$(MANDIR)/man1/desk.1
library_page = $(DESTDIR)$(MANDIR)/man3/sundr.3

# The header alone states the version; it is filled in where the others have @VERSION@.
version = $(shell sed -n 's/.*SUNDR_VERSION "\(.*\)"/\1/p' include/sundr.h)

# The archive, the header, pkg-config's file, the desk program and the manual pages.
install: lib desk
	install -D -m 644 target/staticlib/libsundr.a '$(archive)'
	install -D -m 644 include/sundr.h '$(header)'
	install -D -m 644 sundr.pc.in '$(pc)'
	install -D -m 755 target/bin/desk '$(program)'
	install -D -m 644 man/desk.1 '$(program_page)'
	install -D -m 644 man/sundr.3 '$(library_page)'
	@sed -i 's|@VERSION@|$(version)|; s|@PREFIX@|$(PREFIX)|; s|@LIBDIR@|$(LIBDIR)|; s|@INCLUDEDIR@|$(INCLUDEDIR)|' \
		'$(pc)' '$(program_page)' '$(library_page)'

# Removes these files, and no folder.
uninstall:
	rm -f '$(archive)' '$(header)' '$(pc)' '$(program)' '$(program_page)' '$(library_page)'

# Two of these at once would write the same target/.
.NOTPARALLEL:
.PHONY: demo lib desk test bench figures install uninstall
