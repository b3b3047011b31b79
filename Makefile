# make                          proves and links the program, as ./run does: needs the toolchain (README.md says which)
# make install PREFIX= DESTDIR= puts the program, its units, pages and completion there; needs no toolchain once the program is linked
# make uninstall PREFIX= DESTDIR=
# make deb                      a Debian package in packaging/out; needs dpkg-deb and dpkg-shlibdeps (package dpkg-dev)
# make check                    tries all of it: packaging/check
PREFIX = /usr/local
DESTDIR =
PROGRAM = crates/hub/out/hub
OUT = packaging/out

VERSION := $(shell sed -n 's/^const VERSION: &str = "\(.*\)";/\1/p' crates/help_command/src/version.rt)
COMMIT := $(shell git rev-parse --verify --short=12 HEAD 2>/dev/null)

LIB = $(DESTDIR)$(PREFIX)/lib
SHARE = $(DESTDIR)$(PREFIX)/share
UNITS = hub.service hub-proxy.service hub-cull.service hub-guard@.service

.PHONY: all pages install uninstall deb check clean

all:
	./run --version

# what is made from the help of the program and from docs/RUNNING.md
pages:
	packaging/pages $(PROGRAM) $(VERSION) $(OUT)

install: pages
	install -D -m 755 $(PROGRAM) $(LIB)/gorewhahu/hub
	if [ -n "$(COMMIT)" ]; then echo $(COMMIT) > $(LIB)/gorewhahu/commit; fi
	install -d $(DESTDIR)$(PREFIX)/bin $(LIB)/systemd/system $(LIB)/sysusers.d
	sed 's|@PREFIX@|$(PREFIX)|g' packaging/hub > $(DESTDIR)$(PREFIX)/bin/hub
	chmod 755 $(DESTDIR)$(PREFIX)/bin/hub
	for unit in $(UNITS); do \
	    sed 's|@PREFIX@|$(PREFIX)|g' packaging/systemd/$$unit > $(LIB)/systemd/system/$$unit || exit 1; \
	    chmod 644 $(LIB)/systemd/system/$$unit; \
	done
	install -m 644 packaging/systemd/hub.sysusers $(LIB)/sysusers.d/hub.conf
	install -D -m 644 $(OUT)/hub.1 $(SHARE)/man/man1/hub.1
	install -D -m 644 $(OUT)/hub.toml.5 $(SHARE)/man/man5/hub.toml.5
	install -D -m 644 $(OUT)/hub.bash $(SHARE)/bash-completion/completions/hub
	install -D -m 644 CHANGELOG.md $(SHARE)/doc/gorewhahu/CHANGELOG.md
	install -D -m 644 packaging/hub.toml $(SHARE)/doc/gorewhahu/examples/hub.toml

uninstall:
	rm -f $(DESTDIR)$(PREFIX)/bin/hub $(LIB)/sysusers.d/hub.conf $(patsubst %,$(LIB)/systemd/system/%,$(UNITS))
	rm -f $(SHARE)/man/man1/hub.1 $(SHARE)/man/man5/hub.toml.5 $(SHARE)/bash-completion/completions/hub
	rm -rf $(LIB)/gorewhahu $(SHARE)/doc/gorewhahu

deb:
	packaging/deb $(PROGRAM) $(VERSION) $(OUT)

check:
	packaging/check $(PROGRAM)

clean:
	rm -rf $(OUT)
