# The C library, and where it is installed. rt proves the library before it compiles it.
PREFIX ?= /usr/local
DESTDIR ?=
VERSION = 0.7.0
ARCHIVE = target/staticlib/libprobewarden.a

all: $(ARCHIVE)

# rt knows by itself what has changed since
$(ARCHIVE): FORCE
	cd crates/probewarden_c && rt lib
	mkdir -p $(dir $(ARCHIVE))
	cp crates/probewarden_c/out/libprobewarden_c.a $(ARCHIVE)

install: $(ARCHIVE)
	mkdir -p $(DESTDIR)$(PREFIX)/lib/pkgconfig $(DESTDIR)$(PREFIX)/include
	cp $(ARCHIVE) $(DESTDIR)$(PREFIX)/lib/libprobewarden.a
	cp include/probewarden.h $(DESTDIR)$(PREFIX)/include/probewarden.h
	sed -e 's|@PREFIX@|$(PREFIX)|' -e 's|@VERSION@|$(VERSION)|' probewarden.pc.in >$(DESTDIR)$(PREFIX)/lib/pkgconfig/probewarden.pc

uninstall:
	rm -f $(DESTDIR)$(PREFIX)/lib/libprobewarden.a $(DESTDIR)$(PREFIX)/include/probewarden.h \
		$(DESTDIR)$(PREFIX)/lib/pkgconfig/probewarden.pc

FORCE:
.PHONY: all install uninstall FORCE
