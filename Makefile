# Installs what is built here for others: header, archive, pkg-config file, commands, man page, and what these refer to.
#
#     make install PREFIX=/usr/local     (DESTDIR= is put before it, for packages)
#     make uninstall PREFIX=/usr/local
#
# What is missing or older than its sources is proved and built first.
PREFIX ?= /usr/local
DESTDIR ?=
INSTALL ?= install

to = $(DESTDIR)$(PREFIX)
version = $(shell sed -n 's/^.define SOCK_VERSION "\(.*\)"$$/\1/p' include/sock.h)

.PHONY: build install uninstall

build:
	tools/build-sock
	tools/build-handover

install: build
	$(INSTALL) -d "$(to)/include" "$(to)/lib/pkgconfig" "$(to)/bin" "$(to)/share/man/man1" "$(to)/share/doc/sock/examples"
	$(INSTALL) -m 644 include/sock.h "$(to)/include/sock.h"
	$(INSTALL) -m 644 target/staticlib/libcabinet.a "$(to)/lib/libcabinet.a"
	sed -e 's|@PREFIX@|$(PREFIX)|' -e 's|@VERSION@|$(version)|' tools/sock.pc.in >"$(to)/lib/pkgconfig/sock.pc"
	chmod 644 "$(to)/lib/pkgconfig/sock.pc"
	$(INSTALL) -m 755 target/tools/release/sock "$(to)/bin/sock"
	$(INSTALL) -m 755 target/bin/handover "$(to)/bin/handover"
	sed -e 's|@VERSION@|$(version)|' docs/sock.1 >"$(to)/share/man/man1/sock.1"
	chmod 644 "$(to)/share/man/man1/sock.1"
	$(INSTALL) -m 644 docs/FORMAT.md docs/TEXT.md docs/TUTORIAL.md "$(to)/share/doc/sock"
	$(INSTALL) -m 644 examples/*.sock "$(to)/share/doc/sock/examples"

uninstall:
	rm -f "$(to)/include/sock.h" "$(to)/lib/libcabinet.a" "$(to)/lib/pkgconfig/sock.pc" "$(to)/bin/sock" "$(to)/bin/handover" \
	    "$(to)/share/man/man1/sock.1"
	if cd "$(to)/share/doc" 2>/dev/null && [ -d sock ]; then \
	    rm -f sock/FORMAT.md sock/TEXT.md sock/TUTORIAL.md $(addprefix sock/,$(wildcard examples/*.sock)); \
	    rmdir sock/examples sock; \
	fi
