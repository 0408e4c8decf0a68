# The cabinet library: `make` proves and builds it, `make install PREFIX=/usr/local` puts library, headers and a pkg-config file there.
PREFIX ?= /usr/local
VERSION = 1
ARCHIVE = target/staticlib/libcabinet.a
CFLAGS ?= -O2 -g
STRICT = -std=gnu11 -Wall -Wextra -Werror -Iinclude

all: $(ARCHIVE)

# proved and built where it was not yet, or where a source is newer; `rt` is asked for nothing else
CRATES := $(shell bin/below cabinet_c)
$(ARCHIVE): crates.txt $(shell find $(foreach c,$(CRATES),$(wildcard crates/$(c)/src crates/$(c)/specs crates/$(c)/proofs)))
	bin/archive cabinet

target/cabinets: examples/cabinets/cabinets.c include/cabinet.h $(ARCHIVE)
	$(CC) $(CFLAGS) $(STRICT) -o $@ $< $(ARCHIVE)

target/cabinet_tests: examples/cabinets/tests.c include/cabinet.h $(ARCHIVE)
	$(CC) $(CFLAGS) $(STRICT) -o $@ $< $(ARCHIVE)

target/cabinet_from_rust: examples/cabinet_from_rust.rs include/cabinet.rs $(ARCHIVE)
	rustc --edition 2021 -O -L native=target/staticlib -o $@ $<

examples: target/cabinets target/cabinet_tests target/cabinet_from_rust

# what `make` has built: rt is not asked again
install:
	@test -f $(ARCHIVE) || { echo "make install: run make first" >&2; exit 1; }
	install -d $(DESTDIR)$(PREFIX)/lib/pkgconfig $(DESTDIR)$(PREFIX)/include
	install -m 644 $(ARCHIVE) $(DESTDIR)$(PREFIX)/lib/libcabinet.a
	install -m 644 include/cabinet.h include/cabinet.rs $(DESTDIR)$(PREFIX)/include/
	sed -e 's|@PREFIX@|$(PREFIX)|; s|@VERSION@|$(VERSION)|' include/cabinet.pc.in > $(DESTDIR)$(PREFIX)/lib/pkgconfig/cabinet.pc

uninstall:
	rm -f $(DESTDIR)$(PREFIX)/lib/libcabinet.a $(DESTDIR)$(PREFIX)/include/cabinet.h $(DESTDIR)$(PREFIX)/include/cabinet.rs $(DESTDIR)$(PREFIX)/lib/pkgconfig/cabinet.pc

.PHONY: all examples install uninstall
