# Builds, tests and installs the library for hosts in C, C++ and other languages, and builds the runner. `make help`
# lists the targets.
#
# `rt` proves the crates and builds the archive and the runner. Make asks it to do so again when a source of theirs is
# newer than what was built. The shared library is that archive linked whole; it exports the functions that the header
# declares and no other. The version is read from the header.

PREFIX ?= /usr/local
DESTDIR ?=
LIBDIR ?= $(PREFIX)/lib
INCLUDEDIR ?= $(PREFIX)/include
RT ?= rt
NM ?= nm
OBJCOPY ?= objcopy
INSTALL ?= install

header := include/sinewhopa.h
number = $(shell sed -n 's/^.define SINEWHOPA_VERSION_$(1) \([0-9]*\)$$/\1/p' $(header))
major := $(call number,MAJOR)
minor := $(call number,MINOR)
ifneq ($(words $(major) $(minor)),2)
$(error $(header) does not say its major and its minor version)
endif

archive := target/staticlib/libsinewhopa.a
built := target/shared
link_name := libsinewhopa.so
soname := $(link_name).$(major)
file_name := $(soname).$(minor)
shared := $(built)/$(file_name)
runner := target/bin/runner
files_archive := target/staticlib/libfiles.a
runner_with_status := target/runner

# Folders are among the sources, so that a file which was removed is noticed too.
sources := crates.txt $(shell find $(wildcard crates/*/src crates/*/specs crates/*/proofs))

.DELETE_ON_ERROR:
.PHONY: all archive shared runner test install uninstall help

all: archive shared

archive: $(archive)

shared: $(shared) $(built)/$(soname) $(built)/$(link_name)

runner: $(runner) $(runner_with_status)

has_rt = @command -v $(RT) >/dev/null || \
    { echo '$@ is missing or older than its sources, and $(RT) is not here to build it' >&2; exit 1; }

$(archive): $(sources)
	$(has_rt)
	cd crates/sinewhopa && $(RT) lib
	@mkdir -p $(@D)
	cp crates/sinewhopa/out/libsinewhopa.a $@

# `rt run` proves and builds a program, and runs it: here on no files, which count as empty.
$(runner): $(sources)
	$(has_rt)
	cd crates/runner && $(RT) run </dev/null >/dev/null
	@mkdir -p $(@D)
	cp crates/runner/out/runner $@

# Rattle gives the system to the `main` of a program alone, and never to a function that C calls. So the function of
# this archive is the whole program files_c, whose entry is renamed. It answers the exit status.
$(files_archive): $(sources)
	$(has_rt)
	cd crates/files_c && $(RT) run </dev/null >/dev/null
	@mkdir -p $(@D)
	rm -f $@
	$(OBJCOPY) --redefine-sym main=sinewhopa_files crates/files_c/out/files_c.o target/files_c.o
	$(AR) rcs $@ target/files_c.o

# The kit's C functions, which std calls, are linked beside it.
$(runner_with_status): start/runner.c $(files_archive)
	kit=$$(dirname "$$($(RT) doc)") && \
	    $(CC) -Wall -Wextra -Werror $^ "$$kit/c/libos_c.a" "$$kit/c/liblibc_c.a" -o $@

# The functions that the header declares, one name on a line.
$(built)/functions: $(header) Makefile
	@mkdir -p $(built)
	sed -n 's/^[a-z0-9_]* \(sinewhopa_[a-z0-9_]*\)(.*/\1/p' $(header) | LC_ALL=C sort >$@

$(built)/exports.map: $(built)/functions
	{ echo '{ global:'; sed 's/$$/;/' $<; echo 'local: *; };'; } >$@

# An archive of other sources than the header's is noticed by what it exports.
$(shared): $(archive) $(built)/exports.map
	$(CC) -shared -nostartfiles $(LDFLAGS) -Wl,-soname,$(soname) -Wl,--version-script=$(built)/exports.map \
	    -Wl,-z,defs -Wl,-z,relro -Wl,-z,now -Wl,-z,noexecstack \
	    -Wl,--whole-archive $(archive) -Wl,--no-whole-archive -o $@
	@$(NM) -D --defined-only $@ | sed 's/.* //' | LC_ALL=C sort | diff $(built)/functions - || \
	    { echo '$(archive) does not have the functions that $(header) declares (lines with <)' >&2; exit 1; }

# Other names of the same file, and no symbolic links: `rt ci` refuses a folder that has one below it.
$(built)/$(soname) $(built)/$(link_name): $(shared)
	ln -f $< $@

test:
	bash .ci/run

# A file of pkg-config names full paths, and a blank in one of them would end it.
checked = $(if $(filter-out 1,$(words $(1)))$(filter-out /%,$(1)),$(error $(1) is not a full path without blanks))
under_prefix = $(patsubst $(PREFIX)/%,$${prefix}/%,$(1))

install: all
	$(call checked,$(PREFIX))$(call checked,$(LIBDIR))$(call checked,$(INCLUDEDIR))
	sed -e 's|@PREFIX@|$(PREFIX)|' -e 's|@LIBDIR@|$(call under_prefix,$(LIBDIR))|' \
	    -e 's|@INCLUDEDIR@|$(call under_prefix,$(INCLUDEDIR))|' -e 's|@VERSION@|$(major).$(minor)|' \
	    packaging/sinewhopa.pc.in >$(built)/sinewhopa.pc
	$(INSTALL) -d '$(DESTDIR)$(INCLUDEDIR)' '$(DESTDIR)$(LIBDIR)/pkgconfig'
	$(INSTALL) -m 644 $(header) '$(DESTDIR)$(INCLUDEDIR)/sinewhopa.h'
	$(INSTALL) -m 644 $(archive) '$(DESTDIR)$(LIBDIR)/libsinewhopa.a'
	$(INSTALL) -m 755 $(shared) '$(DESTDIR)$(LIBDIR)/$(file_name)'
	ln -sf $(file_name) '$(DESTDIR)$(LIBDIR)/$(soname)'
	ln -sf $(file_name) '$(DESTDIR)$(LIBDIR)/$(link_name)'
	$(INSTALL) -m 644 $(built)/sinewhopa.pc '$(DESTDIR)$(LIBDIR)/pkgconfig/sinewhopa.pc'

uninstall:
	rm -f '$(DESTDIR)$(INCLUDEDIR)/sinewhopa.h' '$(DESTDIR)$(LIBDIR)/libsinewhopa.a' \
	    '$(DESTDIR)$(LIBDIR)/$(file_name)' '$(DESTDIR)$(LIBDIR)/$(soname)' '$(DESTDIR)$(LIBDIR)/$(link_name)' \
	    '$(DESTDIR)$(LIBDIR)/pkgconfig/sinewhopa.pc'

help:
	@echo 'make            build $(archive) and $(shared)'
	@echo 'make runner     build the runner, $(runner), and as a C program with an exit status, $(runner_with_status)'
	@echo 'make test       run the whole gate: prove everything and run every test'
	@echo 'make install    install header, archive, shared library and sinewhopa.pc (needs no rt if all is built)'
	@echo 'make uninstall  remove what install has installed'
	@echo
	@echo 'PREFIX=$(PREFIX)  LIBDIR=$(LIBDIR)  INCLUDEDIR=$(INCLUDEDIR)  DESTDIR=$(DESTDIR)'
	@echo 'RT=$(RT)  CC=$(CC)  NM=$(NM)  OBJCOPY=$(OBJCOPY)  LDFLAGS=$(LDFLAGS)'
