# The library as files for C, Rust and Python. `make lib` wants the Rattle toolchain (rt) and gcc on Linux.
#
#     make lib                            target/libchains.a and target/libchains.so
#     make install PREFIX=/usr/local      header, both libraries, chains.pc, the Python module; DESTDIR stands before every path
#     make test                           says which command tests

PREFIX = /usr/local
DESTDIR =
# The Python module finds the library in the folder above its own.
PYTHONDIR = $(PREFIX)/lib/python
CC = gcc

version := $(shell cat VERSION)
archive := target/staticlib/libexports.a

.PHONY: lib install test FORCE

lib: target/libchains.a target/libchains.so

# Proved and built where a source file of the library has changed, which is told by hashes and not by times: minutes where nothing is
# proved yet, with a line for each crate. target/exports.log has what the prover says.
$(archive): FORCE
	@tools/changed --run target/exports.stamp exports $@ tools/prove exports target/exports.log $@

target/libchains.a: $(archive)
	cp $(archive) $@

# Every symbol is bound when the library is loaded, so that no call of it needs more stack than the archive's.
target/libchains.so: $(archive) chains.map
	$(CC) -shared -nostartfiles -Wl,--whole-archive $(archive) -Wl,--no-whole-archive -Wl,-soname,libchains.so \
	    -Wl,--version-script=chains.map -Wl,-z,defs -Wl,-z,now -Wl,-z,noexecstack -Wl,-z,text -o $@

install: lib
	install -d "$(DESTDIR)$(PREFIX)/include" "$(DESTDIR)$(PREFIX)/lib/pkgconfig" "$(DESTDIR)$(PYTHONDIR)"
	install -m 644 include/chains.h "$(DESTDIR)$(PREFIX)/include/chains.h"
	install -m 644 target/libchains.a "$(DESTDIR)$(PREFIX)/lib/libchains.a"
	install -m 755 target/libchains.so "$(DESTDIR)$(PREFIX)/lib/libchains.so"
	sed 's|@PREFIX@|$(PREFIX)|; s|@VERSION@|$(version)|' chains.pc.in >"$(DESTDIR)$(PREFIX)/lib/pkgconfig/chains.pc"
	chmod 644 "$(DESTDIR)$(PREFIX)/lib/pkgconfig/chains.pc"
	install -m 644 python/chains.py "$(DESTDIR)$(PYTHONDIR)/chains.py"

test:
	@echo "bash .ci/run tests everything; docs/TESTING.md has the parts"
