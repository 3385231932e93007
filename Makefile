# The C kit and the command: builds, tests, installs and removes them. With GNU make, gcc and Python 3.10 or later.
#
#   make                                     the archive, the shared object and the pkg-config file, below target/
#   make test                                the clients, the header, the module, the command and an installation, tried
#   make install PREFIX=/usr/local           everything below PREFIX; with DESTDIR=.. below that folder, for packages
#   make uninstall PREFIX=/usr/local         what `make install` put there
#   make clean                               removes what `make` wrote, but for the archive
#
# The archive is the one that the variable SERPENTGLEAM_LIBRARY names, or target/staticlib/libserpentgleam.a; where that is
# not there, library/prove.sh proves the library and writes it, with the Rattle toolchain's `rt`. After a change of the
# crates, `make prove` does so again.

PREFIX = /usr/local
DESTDIR =
INSTALL = install
PYTHON = python3

SHELL = /bin/sh
BUILT = target/staticlib
SONAME = libserpentgleam.so.1
ARCHIVE = $(if $(SERPENTGLEAM_LIBRARY),$(SERPENTGLEAM_LIBRARY),$(BUILT)/libserpentgleam.a)
VERSION := $(shell sed -n 's/^\#define SERPENTGLEAM_VERSION "\(.*\)"$$/\1/p' include/serpentgleam.h)
REAL_NAME = libserpentgleam.so.$(VERSION)
PLACE = $(DESTDIR)$(PREFIX)

# What an installation has beside the package, each below PREFIX.
INSTALLED = lib/libserpentgleam.a lib/$(REAL_NAME) lib/$(SONAME) lib/libserpentgleam.so lib/pkgconfig/serpentgleam.pc \
    include/serpentgleam.h bin/serpentgleam share/man/man1/serpentgleam.1
# The folder of the package, which has nothing else: python/serpentgleam/library.py looks for the library from there.
PACKAGE = share/serpentgleam

all: shared-object pkg-config

# Both scripts see for themselves whether there is something to do: an archive can be another one without being newer.
shared-object:
	@bash library/shared_object.sh

prove:
	bash library/prove.sh

# PREFIX may be another one each time, so this is written each time.
pkg-config: prefix
	@mkdir -p $(BUILT)
	@sed -e 's|@PREFIX@|$(PREFIX)|' -e 's|@VERSION@|$(VERSION)|' library/serpentgleam.pc.in > $(BUILT)/serpentgleam.pc
	@echo $(BUILT)/serpentgleam.pc

prefix:
	@case '$(PREFIX)' in \
	*[!A-Za-z0-9/._+-]*) echo 'make: PREFIX has a character beside letters, digits and / . _ + -: $(PREFIX)' >&2; exit 2;; \
	/*) ;; \
	*) echo 'make: PREFIX must begin with /: $(PREFIX)' >&2; exit 2;; \
	esac

# Those of python/tests that need nothing but the library.
TESTED = test_header test_premiums test_module test_factors test_no_positions test_command \
    test_output test_text test_text_faults test_day test_day_command test_knocked_out \
    test_whole_reais test_instalments test_instalments_command test_take_apart test_blocked \
    test_load test_load_command test_long_expiries

test: all
	SERPENTGLEAM_LIBRARY='$(ARCHIVE)' bash clients/check.sh
	cd python/tests && $(PYTHON) -m unittest $(TESTED)
	bash tests/install.sh

install: all
	$(INSTALL) -d '$(PLACE)/lib/pkgconfig' '$(PLACE)/include' '$(PLACE)/bin' '$(PLACE)/share/man/man1'
	$(INSTALL) -m 644 '$(ARCHIVE)' '$(PLACE)/lib/libserpentgleam.a'
	$(INSTALL) -m 755 $(BUILT)/$(SONAME) '$(PLACE)/lib/$(REAL_NAME)'
	ln -sf $(REAL_NAME) '$(PLACE)/lib/$(SONAME)'
	ln -sf $(SONAME) '$(PLACE)/lib/libserpentgleam.so'
	$(INSTALL) -m 644 $(BUILT)/serpentgleam.pc '$(PLACE)/lib/pkgconfig/serpentgleam.pc'
	$(INSTALL) -m 644 include/serpentgleam.h '$(PLACE)/include/serpentgleam.h'
	rm -rf '$(PLACE)/$(PACKAGE)'
	$(INSTALL) -d '$(PLACE)/$(PACKAGE)/serpentgleam'
	$(INSTALL) -m 644 python/serpentgleam/*.py '$(PLACE)/$(PACKAGE)/serpentgleam'
	$(INSTALL) -m 755 python/bin/serpentgleam '$(PLACE)/bin/serpentgleam'
	$(INSTALL) -m 644 man/serpentgleam.1 '$(PLACE)/share/man/man1/serpentgleam.1'

# Folders that others use too are left.
uninstall: prefix
	for file in $(INSTALLED); do rm -f '$(PLACE)'/"$$file" || exit 1; done
	rm -rf '$(PLACE)/$(PACKAGE)'

clean:
	rm -f $(BUILT)/$(SONAME) $(BUILT)/$(SONAME).archive_sum $(BUILT)/serpentgleam.pc

.PHONY: all shared-object prove pkg-config prefix test install uninstall clean
