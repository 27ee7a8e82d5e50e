# Builds and installs Topzerad, by GNU make.
#
## make               the program ztxg, the library for C, the hub and the extension of SQLite. The program's crates are
##                    built without a proof, in minutes
## make PROVED=1      the same with the program that the prover made; proves all crates first if a source is newer
## make install       puts them below PREFIX, /usr/local if not given. DESTDIR is put before all its paths
## make uninstall     removes what that put there
## make check         runs all checks of the program; they prove nothing
## make gate          the whole test: proves all from nothing, and runs all checks
## make dist          a tarball of the proved program, the clients and the pages
## make deb          a package of the proved program, the library and the pages for Debian
## make clean         removes the folder build, and leaves what the prover keeps in crates/*/out
##
## Variables: PROVED, PREFIX, BINDIR, LIBDIR, INCLUDEDIR, MANDIR, DESTDIR, CC, CPPFLAGS, CFLAGS, LDFLAGS, BUILD

PREFIX ?= /usr/local
BINDIR ?= $(PREFIX)/bin
LIBDIR ?= $(PREFIX)/lib
INCLUDEDIR ?= $(PREFIX)/include
DATADIR ?= $(PREFIX)/share
MANDIR ?= $(DATADIR)/man
PKGCONFIGDIR ?= $(LIBDIR)/pkgconfig
COMPLETIONDIR ?= $(DATADIR)/bash-completion/completions
UNITDIR ?= $(DATADIR)/topzerad
PLUGINDIR ?= $(LIBDIR)/nbdkit/plugins
INSTALL ?= install
PYTHON ?= python3
BUILD ?= build

# The program that is installed. That of BUILD is made here.
ZTXG ?= $(BUILD)/ztxg
PROVED_ZTXG = crates/ztxg/out/ztxg
SOURCES = crates.txt $(shell find crates -name out -prune -o -name '*.rt' -print -o -name '*.antt' -print)
VERSION := $(shell sed -n 's/^.define TOPZERAD_VERSION "\(.*\)".*/\1/p' clients/c/topzerad.h)
SONAME = libtopzerad.so.$(basename $(VERSION))
SHARED = libtopzerad.so.$(VERSION)
PLUGIN = $(BUILD)/nbdkit/topzerad-plugin.so
HAS_NBDKIT = $(CC) $(CPPFLAGS) -include nbdkit-plugin.h -E -x c /dev/null > /dev/null 2>&1
HAS_HUB = echo '\#include <sys/socket.h>' | $(CC) $(CPPFLAGS) -D_GNU_SOURCE -dM -E -x c - 2> /dev/null \
	| grep -q SO_PEERCRED
HUB = $(BUILD)/hub
EXTENSION = $(BUILD)/sqlite/topzerad.so
HAS_SQLITE = $(CC) $(CPPFLAGS) -include sqlite3ext.h -E -x c /dev/null > /dev/null 2>&1
in_prefix = $(patsubst $(PREFIX)/%,$${prefix}/%,$(1))

RELEASE = topzerad-$(VERSION)-x86_64-linux
STAGE = $(BUILD)/$(RELEASE)
LEFT_OUT = $(addprefix --exclude=,out target __pycache__ build '*.egg-info' Cargo.lock .gitignore)
RELEASED = README.md CHANGES.md clients docs tools/__init__.py tools/model
MAINTAINER = $(or $(shell git log -1 --format='%an <%ae>' 2> /dev/null),nobody)
EPOCH = $(or $(SOURCE_DATE_EPOCH),$(shell git log -1 --format=%ct 2> /dev/null || echo 0))

FOLDERS = $(BINDIR) $(LIBDIR) $(PKGCONFIGDIR) $(INCLUDEDIR) $(MANDIR)/man1 $(MANDIR)/man3 $(COMPLETIONDIR)
INSTALLED = $(BINDIR)/ztxg $(MANDIR)/man1/ztxg.1 $(MANDIR)/man3/topzerad.3 $(COMPLETIONDIR)/ztxg \
	$(INCLUDEDIR)/topzerad.h $(addprefix $(LIBDIR)/,libtopzerad.a libtopzerad.so $(SONAME) $(SHARED)) \
	$(PKGCONFIGDIR)/topzerad.pc $(PLUGINDIR)/nbdkit-topzerad-plugin.so \
	$(addprefix $(BINDIR)/,ztxg-hub ztxg-ctl) $(addprefix $(MANDIR)/man1/,ztxg-hub.1 ztxg-ctl.1) \
	$(addprefix $(UNITDIR)/,ztxg-hub@.service ztxg-hub@.socket ztxg-hub-metrics@.socket) $(LIBDIR)/topzerad.so

all: $(ZTXG) library hub plugin extension

ifneq ($(filter-out 0,$(PROVED)),)
$(BUILD)/ztxg: $(PROVED_ZTXG)
	mkdir -p $(BUILD)
	cp $< $@

# One that is there without a proof is replaced.
ifneq ($(shell [ ! -x $(BUILD)/ztxg ] || $(BUILD)/ztxg --version | grep unproved),)
.PHONY: $(BUILD)/ztxg
endif
else
$(BUILD)/ztxg: $(SOURCES)
	mkdir -p $(BUILD)
	$(PYTHON) tools build_program ztxg $@
endif

$(PROVED_ZTXG): $(SOURCES)
	cd crates/ztxg && rt run -- --version

library:
	$(MAKE) -C clients/c OUT=$(abspath $(BUILD))/c

hub: library
	@if $(HAS_HUB); then $(MAKE) -C clients/hub OUT=$(abspath $(HUB)) LIBRARY=$(abspath $(BUILD))/c/libtopzerad.a; \
	else echo "skipped the hub: the system has no SO_PEERCRED"; fi

plugin:
	@if $(HAS_NBDKIT); then $(MAKE) -C clients/nbdkit OUT=$(abspath $(BUILD))/nbdkit; \
	else echo "skipped the plugin of nbdkit: nbdkit-plugin.h isn't installed"; fi

extension:
	@if $(HAS_SQLITE); then $(MAKE) -C clients/sqlite OUT=$(abspath $(BUILD))/sqlite; \
	else echo "skipped the extension of SQLite: sqlite3ext.h isn't installed"; fi

install: all
	$(INSTALL) -d $(addprefix $(DESTDIR),$(FOLDERS))
	$(INSTALL) -m 755 $(ZTXG) $(DESTDIR)$(BINDIR)/ztxg
	$(INSTALL) -m 644 docs/ztxg.1 $(DESTDIR)$(MANDIR)/man1
	$(INSTALL) -m 644 docs/topzerad.3 $(DESTDIR)$(MANDIR)/man3
	$(INSTALL) -m 644 docs/ztxg.bash $(DESTDIR)$(COMPLETIONDIR)/ztxg
	$(INSTALL) -m 644 clients/c/topzerad.h $(DESTDIR)$(INCLUDEDIR)
	$(INSTALL) -m 644 $(BUILD)/c/libtopzerad.a $(DESTDIR)$(LIBDIR)
	$(INSTALL) -m 755 $(BUILD)/c/$(SHARED) $(DESTDIR)$(LIBDIR)
	ln -sf $(SHARED) $(DESTDIR)$(LIBDIR)/$(SONAME)
	ln -sf $(SONAME) $(DESTDIR)$(LIBDIR)/libtopzerad.so
	sed -e 's|@PREFIX@|$(PREFIX)|' -e 's|@LIBDIR@|$(call in_prefix,$(LIBDIR))|' -e 's|@VERSION@|$(VERSION)|' \
		-e 's|@INCLUDEDIR@|$(call in_prefix,$(INCLUDEDIR))|' clients/c/topzerad.pc.in > $(BUILD)/topzerad.pc
	$(INSTALL) -m 644 $(BUILD)/topzerad.pc $(DESTDIR)$(PKGCONFIGDIR)
	if [ -f $(HUB)/ztxg-hub ]; then \
		$(INSTALL) -m 755 $(HUB)/ztxg-hub $(HUB)/ztxg-ctl $(DESTDIR)$(BINDIR) && \
		$(INSTALL) -m 644 docs/ztxg-hub.1 docs/ztxg-ctl.1 $(DESTDIR)$(MANDIR)/man1 && \
		sed -e 's|@BINDIR@|$(BINDIR)|g' clients/hub/ztxg-hub@.service > $(HUB)/ztxg-hub@.service && \
		$(INSTALL) -d $(DESTDIR)$(UNITDIR) && \
		$(INSTALL) -m 644 $(HUB)/ztxg-hub@.service clients/hub/ztxg-hub@.socket clients/hub/ztxg-hub-metrics@.socket \
			$(DESTDIR)$(UNITDIR); fi
	[ ! -f $(PLUGIN) ] || $(INSTALL) -D -m 755 $(PLUGIN) $(DESTDIR)$(PLUGINDIR)/nbdkit-topzerad-plugin.so
	[ ! -f $(EXTENSION) ] || $(INSTALL) -m 755 $(EXTENSION) $(DESTDIR)$(LIBDIR)/topzerad.so
	[ -n "$(DESTDIR)" ] || ldconfig 2> /dev/null || :

uninstall:
	rm -f $(addprefix $(DESTDIR),$(INSTALLED))

is_proved: $(ZTXG)
	@said=$$($(ZTXG) --version) || exit 1; case $$said in *unproved*) \
		echo "$(ZTXG) is $$said, and a release has a proved one: make PROVED=1 first" >&2; exit 1;; esac

dist: is_proved all
	rm -rf $(STAGE)
	$(MAKE) install DESTDIR=$(STAGE) PREFIX=
	sed -i 's|^prefix=.*|prefix=$${pcfiledir}/../..|' $(STAGE)/lib/pkgconfig/topzerad.pc
	tar -c $(LEFT_OUT) $(RELEASED) | tar -x -C $(STAGE)
	{ $(ZTXG) --version && rt version; } > $(STAGE)/VERSION
	cd $(STAGE) && find * -type f | LC_ALL=C sort | xargs sha256sum > ../SHA256SUMS && mv ../SHA256SUMS .
	tar -C $(BUILD) --sort=name --owner=0 --group=0 --numeric-owner --mtime=@$(EPOCH) -c $(RELEASE) | gzip -n \
		> $(STAGE).tar.gz
	cd $(BUILD) && sha256sum $(RELEASE).tar.gz > $(RELEASE).tar.gz.sha256

deb: is_proved all
	rm -rf $(BUILD)/deb
	$(MAKE) install DESTDIR=$(BUILD)/deb PREFIX=/usr LIBDIR=/usr/lib/x86_64-linux-gnu
	mkdir $(BUILD)/deb/DEBIAN
	printf '%s\n' 'Package: topzerad' 'Version: $(VERSION)' 'Architecture: amd64' 'Depends: libc6' \
		'Maintainer: $(MAINTAINER)' 'Section: libs' 'Priority: optional' \
		'Description: pools of numbered objects in files' > $(BUILD)/deb/DEBIAN/control
	echo 'activate-noawait ldconfig' > $(BUILD)/deb/DEBIAN/triggers
	dpkg-deb --root-owner-group --build $(BUILD)/deb $(BUILD)/topzerad_$(VERSION)_amd64.deb

check: $(ZTXG)
	$(PYTHON) tools quick --program $(ZTXG)

gate:
	bash .ci/run

clean:
	rm -rf $(BUILD)

help:
	@sed -n 's/^## \{0,1\}//p' Makefile

.DELETE_ON_ERROR:
.PHONY: all library hub plugin extension install uninstall is_proved dist deb check gate clean help
