# Builds, checks and installs Netbuff's C library and programs.
#
#   make                builds the library (static and shared) and the programs; needs the Rattle
#                       toolchain (rt), unless they are built already
#   make library, make programs
#                       one of the two
#   make check          tests the library, an installed tree and the programs
#   make install        PREFIX=/usr/local, DESTDIR= and the like as usual
#   make uninstall      removes what install wrote
#   make install-library, make install-programs
#   make clean          removes what was built, and keeps the proofs
#
# The version is that of include/netbuff.h; .ci/library holds the manual pages and Cargo.toml to it.

PREFIX ?= /usr/local
BINDIR ?= $(PREFIX)/bin
LIBDIR ?= $(PREFIX)/lib
INCLUDEDIR ?= $(PREFIX)/include
MANDIR ?= $(PREFIX)/share/man
DOCDIR ?= $(PREFIX)/share/doc/netbuff
DESTDIR ?=
INSTALL ?= install

# The commands; each has a page man/NAME.1. They are made in C around the proved programs of
# target/bin, which are not installed.
PROGRAMS := $(patsubst %.c,target/%,$(wildcard tools/*.c))
HEADERS := include/netbuff.h include/netbuff_structs.h
LICENCES := LICENSE LICENSE-MIT LICENSE-APACHE NOTICE

number = $(shell sed -n 's/^\#define NETBUFF_VERSION_$(1) \([0-9]*\)$$/\1/p' include/netbuff.h)
MAJOR := $(call number,MAJOR)
MINOR := $(call number,MINOR)
VERSION := $(MAJOR).$(MINOR).$(call number,PATCH)
# What a program asks for: as long as major is 0, a new minor is a new interface.
SOVERSION := $(if $(filter 0,$(MAJOR)),$(MAJOR).$(MINOR),$(MAJOR))

ARCHIVE := target/staticlib/libnetbuff.a
VERSIONED := target/staticlib/versioned
SHARED := target/lib/libnetbuff.so.$(VERSION)
SOURCES := $(wildcard crates/*/src/*.rt crates/*/specs/*.antt crates/*/specs/*/*.antt) crates.txt

# What install writes, without DESTDIR.
INSTALLED_LIBRARY := $(HEADERS:include/%=$(INCLUDEDIR)/%) $(LIBDIR)/libnetbuff.a \
	$(LIBDIR)/libnetbuff.so $(LIBDIR)/libnetbuff.so.$(SOVERSION) \
	$(LIBDIR)/libnetbuff.so.$(VERSION) $(LIBDIR)/pkgconfig/netbuff.pc \
	$(LIBDIR)/cmake/netbuff/netbuffConfig.cmake $(LIBDIR)/cmake/netbuff/netbuffConfigVersion.cmake \
	$(MANDIR)/man3/netbuff.3 $(DOCDIR)/example.c $(LICENCES:%=$(DOCDIR)/%)
INSTALLED_PROGRAMS := $(addprefix $(BINDIR)/,$(notdir $(PROGRAMS))) \
	$(patsubst %,$(MANDIR)/man1/%.1,$(notdir $(PROGRAMS)))

ifneq ($(filter install% uninstall,$(MAKECMDGOALS)),)
$(foreach name,PREFIX BINDIR LIBDIR INCLUDEDIR MANDIR DOCDIR,$(if $(filter /%,$($(name))),,\
	$(error $(name) is no whole path: '$($(name))')))
endif

.PHONY: all library programs check install install-library install-programs uninstall clean version
# Two runs of rt at a time would wait for each other.
.NOTPARALLEL:
all: library programs
library: $(VERSIONED) $(SHARED)
programs: $(PROGRAMS)

$(ARCHIVE): $(SOURCES)
	bash .ci/archive

# The one object that is not proved is made anew without the others.
$(VERSIONED): $(ARCHIVE) c/version.c include/netbuff.h
	$(CC) -std=c99 -O2 -fPIC -Wall -Wextra -Wpedantic -Werror -Iinclude -c c/version.c \
		-o target/staticlib/netbuff_version.o
	$(AR) r $(ARCHIVE) target/staticlib/netbuff_version.o
	touch $@

$(SHARED): $(VERSIONED) c/netbuff.map
	@mkdir -p $(@D)
	$(CC) -shared -o $@ -Wl,-soname,libnetbuff.so.$(SOVERSION) -Wl,--version-script=c/netbuff.map \
		-Wl,-z,defs -Wl,-z,relro -Wl,-z,now $(LDFLAGS) \
		-Wl,--whole-archive $(ARCHIVE) -Wl,--no-whole-archive
	cp $@ target/lib/libnetbuff.so.$(SOVERSION)
	cp $@ target/lib/libnetbuff.so

target/bin/%: $(SOURCES)
	bash .ci/prove $*
	touch $@

# The proved program's object, with the command's own start, reads and writes around it, and below it
# the C that the toolchain links its programs with.
target/tools/layout-lister: tools/layout-lister.c target/bin/layout_lister include/netbuff.h
	@mkdir -p $(@D)
	$(CC) -std=c11 -D_GNU_SOURCE -O2 -Wall -Wextra -Werror -DNETBUFF_VERSION='"$(VERSION)"' -o $@ $< \
		target/obj/layout_lister.o -Wl,--wrap=main,--wrap=read,--wrap=lseek,--wrap=write \
		$(addprefix $(dir $(shell rt doc))c/,libos_c.a liblibc_c.a)

check: all
	bash .ci/declarations
	bash .ci/library
	bash .ci/install
	bash tools/test

install: install-library install-programs

# Names in a template: relative to the library, so that a CMake package may be moved.
INCLUDE_FROM_LIB = $(shell realpath -m --relative-to=$(LIBDIR) $(INCLUDEDIR))
filled = sed $(foreach name,PREFIX LIBDIR INCLUDEDIR INCLUDE_FROM_LIB VERSION SOVERSION MAJOR MINOR,\
	-e 's|@$(name)@|$($(name))|g')

install-library: library
	$(INSTALL) -d $(sort $(dir $(INSTALLED_LIBRARY:%=$(DESTDIR)%)))
	$(INSTALL) -m 644 $(HEADERS) $(DESTDIR)$(INCLUDEDIR)
	$(INSTALL) -m 644 $(ARCHIVE) $(DESTDIR)$(LIBDIR)
	$(INSTALL) -m 755 $(SHARED) $(DESTDIR)$(LIBDIR)
	ln -sf libnetbuff.so.$(VERSION) $(DESTDIR)$(LIBDIR)/libnetbuff.so.$(SOVERSION)
	ln -sf libnetbuff.so.$(SOVERSION) $(DESTDIR)$(LIBDIR)/libnetbuff.so
	$(filled) packaging/netbuff.pc.in > $(DESTDIR)$(LIBDIR)/pkgconfig/netbuff.pc
	$(filled) packaging/netbuffConfig.cmake.in > $(DESTDIR)$(LIBDIR)/cmake/netbuff/netbuffConfig.cmake
	$(filled) packaging/netbuffConfigVersion.cmake.in \
		> $(DESTDIR)$(LIBDIR)/cmake/netbuff/netbuffConfigVersion.cmake
	$(INSTALL) -m 644 man/netbuff.3 $(DESTDIR)$(MANDIR)/man3
	$(INSTALL) -m 644 $(LICENCES) examples/c/example.c $(DESTDIR)$(DOCDIR)

install-programs: programs
	$(INSTALL) -d $(sort $(dir $(INSTALLED_PROGRAMS:%=$(DESTDIR)%)))
	$(INSTALL) -m 755 $(PROGRAMS) $(DESTDIR)$(BINDIR)
	$(INSTALL) -m 644 $(patsubst %,man/%.1,$(notdir $(PROGRAMS))) $(DESTDIR)$(MANDIR)/man1

uninstall:
	rm -f $(INSTALLED_LIBRARY:%=$(DESTDIR)%) $(INSTALLED_PROGRAMS:%=$(DESTDIR)%)
	rmdir $(DESTDIR)$(LIBDIR)/cmake/netbuff $(DESTDIR)$(DOCDIR) 2> /dev/null || true

# What is proved stays proved.
clean:
	rm -rf target/c target/declarations target/lib target/library target/staticlib target/tools

version:
	@echo $(VERSION)
