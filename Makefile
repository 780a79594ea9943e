# Installs the headers, the static archive and a file for pkg-config: make install PREFIX=/usr/local [DESTDIR=..]
# The archive is target/staticlib/liblemondarts.a, which tools/archive builds with the Rattle kit (rt) where the sources are newer; ARCHIVE=.. names another.

PREFIX ?= /usr/local
ARCHIVE ?= target/staticlib/liblemondarts.a
VERSION := $(shell sed -n 's/^\#define LEMONDARTS_VERSION "\(.*\)"$$/\1/p' include/lemondarts.h)

HEADERS = lemondarts.h lemondarts_sheet.h lemondarts_text.h
include_folder = $(DESTDIR)$(PREFIX)/include
lib_folder = $(DESTDIR)$(PREFIX)/lib

.PHONY: help install uninstall

help:
	@echo 'make install PREFIX=..      installs headers, archive and lemondarts.pc ($(VERSION))'
	@echo 'make uninstall PREFIX=..    removes them'

target/staticlib/liblemondarts.a: $(wildcard crates/*/src/*.rt)
	tools/archive

install: $(ARCHIVE)
	install -d '$(include_folder)' '$(lib_folder)/pkgconfig'
	install -m 644 $(addprefix include/,$(HEADERS)) '$(include_folder)'
	install -m 644 '$(ARCHIVE)' '$(lib_folder)/liblemondarts.a'
	sed -e 's|@PREFIX@|$(abspath $(PREFIX))|' -e 's|@VERSION@|$(VERSION)|' include/lemondarts.pc.in > '$(lib_folder)/pkgconfig/lemondarts.pc'
	chmod 644 '$(lib_folder)/pkgconfig/lemondarts.pc'

uninstall:
	rm -f $(foreach header,$(HEADERS),'$(include_folder)/$(header)') '$(lib_folder)/liblemondarts.a' '$(lib_folder)/pkgconfig/lemondarts.pc'
