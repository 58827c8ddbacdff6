# The library for C and for what calls C. Run it at the top of the repository, or by the Makefile there.
#
# make library            proves and builds it, into LIBRARY (dist/lib)
# make install-library    installs it below PREFIX (/usr/local), with its header and its file for pkg-config
# make bench-library      measures how long a call takes
#
# The version is that of the program. A shared object of one first number serves callers of all its versions.

RT ?= rt
CC ?= cc
LD ?= ld
AR ?= ar
OBJCOPY ?= objcopy
PREFIX ?= /usr/local
LIBRARY ?= dist/lib
KIT ?= $(dir $(shell $(RT) doc))

# what the checker proved and the compiler made of it
ARCHIVE ?= crates/cssmin_c/out/libcssmin_c.a
SOURCES ?= crates.txt $(shell find crates -path '*/out' -prune -o \( -name '*.rt' -o -name '*.antt' \) -print)
CALLS := cssmin_min cssmin_min_report cssmin_cmp cssmin_lint cssmin_version
VERSION := $(shell sed -n 's/^pub const VERSION: &str = "\(.*\)";$$/\1/p' crates/command_texts/src/texts.rt)
MAJOR := $(firstword $(subst ., ,$(VERSION)))
SHARED := $(LIBRARY)/libcssmin.so.$(VERSION)

library: $(LIBRARY)/libcssmin.a $(LIBRARY)/libcssmin.so

$(ARCHIVE): $(SOURCES)
	@echo 'Proving each function, then compiling: long from nothing, minutes after a change.'
	cd crates/cssmin_c && $(RT) lib

# One object with these calls alone, which needs the C library alone.
$(LIBRARY)/libcssmin.a: $(ARCHIVE) library/library.mk
	mkdir -p $(LIBRARY)
	$(LD) -r --gc-sections $(CALLS:%=-u %) -o $(LIBRARY)/cssmin.o $(ARCHIVE) $(KIT)/c/liblibc_c.a
	$(OBJCOPY) $(CALLS:%=--keep-global-symbol=%) $(LIBRARY)/cssmin.o
	rm -f $@
	$(AR) rcsD $@ $(LIBRARY)/cssmin.o
	rm $(LIBRARY)/cssmin.o

$(SHARED): $(LIBRARY)/libcssmin.a
	printf 'CSSMIN_$(MAJOR) { global: $(CALLS:%=%;) local: *; };\n' >$(LIBRARY)/exports.map
	$(CC) -shared -s -Wl,-soname,libcssmin.so.$(MAJOR) -Wl,--version-script=$(LIBRARY)/exports.map \
		-Wl,--gc-sections -Wl,-z,defs $(CALLS:%=-Wl,-u,%) -o $@ $<
	rm $(LIBRARY)/exports.map

$(LIBRARY)/libcssmin.so: $(SHARED)
	ln -sf libcssmin.so.$(VERSION) $(LIBRARY)/libcssmin.so.$(MAJOR)
	ln -sf libcssmin.so.$(MAJOR) $@

install-library: library
	install -D -m 644 library/cssmin.h '$(DESTDIR)$(PREFIX)/include/cssmin.h'
	install -D -m 644 $(LIBRARY)/libcssmin.a '$(DESTDIR)$(PREFIX)/lib/libcssmin.a'
	install -D -m 755 $(SHARED) '$(DESTDIR)$(PREFIX)/lib/libcssmin.so.$(VERSION)'
	ln -sf libcssmin.so.$(VERSION) '$(DESTDIR)$(PREFIX)/lib/libcssmin.so.$(MAJOR)'
	ln -sf libcssmin.so.$(MAJOR) '$(DESTDIR)$(PREFIX)/lib/libcssmin.so'
	mkdir -p '$(DESTDIR)$(PREFIX)/lib/pkgconfig'
	sed 's|@PREFIX@|$(PREFIX)|; s|@VERSION@|$(VERSION)|' library/cssmin.pc.in >'$(DESTDIR)$(PREFIX)/lib/pkgconfig/cssmin.pc'

bench-library: $(LIBRARY)/libcssmin.a
	$(CC) -std=c11 -D_POSIX_C_SOURCE=200809L -O2 -Ilibrary -o $(LIBRARY)/calls bench/calls.c $<
	$(LIBRARY)/calls $(filter-out %.min.css,$(wildcard examples/*.css))

.PHONY: library install-library bench-library
