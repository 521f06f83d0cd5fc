# make build | check | gate | install | deb
#
#   build    proves the program's crates, then builds it and writes the manual pages
#   check    the tests that need no proof, on the program that is built
#   gate     all proofs and tests (.ci/run)
#   install  the program, the tools, units, manual pages, completions for shells and documents below DESTDIR and PREFIX (/usr/local),
#            configuration below DESTDIR and ETC (/etc) unless a file is there, and the library for C if `.ci/run --library` made it
#   deb      Debian packages in the folder OUT: routed_VERSION_ARCH.deb, and routed-dev_VERSION_ARCH.deb for the library for C
PREFIX = /usr/local
DESTDIR =
ETC = /etc
PROGRAM = crates/routed/out/routed
LIBRARY = crates/cspf_c/out/libcspf_c.a
KIT_LIBRARY = crates/cspf_c/out/liblibc_c.a
OUT = out
COMPRESS = -Zxz
VERSION := $(shell cat VERSION)

bin = $(DESTDIR)$(PREFIX)/bin
lib = $(DESTDIR)$(PREFIX)/lib
share = $(DESTDIR)$(PREFIX)/share
etc = $(DESTDIR)$(ETC)/routed
modules = $(lib)/python3/dist-packages/routed
units = $(wildcard deploy/*.service deploy/*.socket deploy/*.timer)
# The paths in units and scripts are those of PREFIX=/usr.
placed = sed 's|/usr/bin/routed|$(PREFIX)/bin/routed|; s|/usr/lib/routed/|$(PREFIX)/lib/routed/|'
completion = PYTHONPATH=python python3 -B -m routed completion
# zsh looks for the functions of packages below /usr, and for those of this machine below /usr/local.
zsh = $(share)/zsh/$(if $(filter /usr,$(PREFIX)),vendor-completions,site-functions)
has_library = $(and $(wildcard $(LIBRARY)),$(wildcard $(KIT_LIBRARY)))

.PHONY: build check gate install install-program install-library deb

build:
	tools/build
	tools/logic $(PROGRAM)
	man/make

check:
	tests/texts
	tests/run

gate:
	.ci/run

$(PROGRAM):
	@echo "there is no $(PROGRAM): make build makes it" >&2; exit 1

install: install-program $(if $(has_library),install-library)

install-program: $(PROGRAM)
	install -d $(bin) $(lib)/routed $(lib)/systemd/system/routed-serve.service.d $(lib)/sysusers.d $(lib)/tmpfiles.d $(etc)
	install -d $(share)/man/man1 $(share)/man/man5 $(share)/man/man7 $(share)/doc/routed/docs $(share)/routed/examples
	install $(PROGRAM) $(bin)/routed
	install tools/routed-tools $(bin)/routed-tools
	sed -i '1s|.*|#!/usr/bin/python3|' $(bin)/routed-tools
	for file in $$(cd python/routed && find . -name '*.py' -o -name '*.c' -o -path './page/static/*'); do install -D -m 644 python/routed/$$file $(modules)/$$file || exit 1; done
	install deploy/keep deploy/serve deploy/fed $(lib)/routed
	[ ! -f $(dir $(PROGRAM))logic ] || install -m 644 $(dir $(PROGRAM))logic $(lib)/routed
	for unit in $(units); do $(placed) $$unit >$(lib)/systemd/system/$${unit##*/} || exit 1; done
	install -m 644 deploy/routed-serve.service.d/port.conf.example $(lib)/systemd/system/routed-serve.service.d
	for file in deploy/etc/routed/*.conf; do [ -e $(etc)/$${file##*/} ] || install -m 644 $$file $(etc) || exit 1; done
	install -m 644 deploy/sysusers.conf $(lib)/sysusers.d/routed.conf
	install -m 644 deploy/tmpfiles.conf $(lib)/tmpfiles.d/routed.conf
	install -m 644 deploy/alarms.yml deploy/dashboard.json $(share)/routed
	cp -R examples/. $(share)/routed/examples
	for page in man/*.[157]; do gzip -9n <$$page >$(share)/man/man$${page##*.}/$${page##*/}.gz || exit 1; done
	install -d $(share)/bash-completion/completions $(zsh) $(share)/fish/vendor_completions.d
	$(completion) bash >$(share)/bash-completion/completions/routed-tools
	$(completion) zsh >$(zsh)/_routed-tools
	$(completion) fish >$(share)/fish/vendor_completions.d/routed-tools.fish
	install -m 644 README.md SECURITY.md THEOREM.md $(share)/doc/routed
	for folder in run believe change; do install -D -m 644 -t $(share)/doc/routed/docs/$$folder docs/$$folder/*.* || exit 1; done
	gzip -9n <CHANGELOG.md >$(share)/doc/routed/NEWS.gz
	ln -sfn ../../routed/examples $(share)/doc/routed/examples

install-library:
	install -d $(DESTDIR)$(PREFIX)/include $(lib)/pkgconfig
	install -m 644 crates/cspf_c/include/routed.h $(DESTDIR)$(PREFIX)/include
	install -m 644 $(LIBRARY) $(lib)/libcspf_c.a
	install -m 644 $(KIT_LIBRARY) $(lib)/liblibc_c.a
	sed 's|@PREFIX@|$(PREFIX)|; s|@VERSION@|$(VERSION)|' deploy/routed.pc >$(lib)/pkgconfig/routed.pc

deb:
	rm -rf $(OUT)/deb $(OUT)/dev
	$(MAKE) install-program DESTDIR=$(OUT)/deb PREFIX=/usr ETC=/etc
	deploy/package routed $(OUT)/deb $(VERSION)
	dpkg-deb --root-owner-group $(COMPRESS) --build $(OUT)/deb $(OUT)
ifneq ($(has_library),)
	$(MAKE) install-library DESTDIR=$(OUT)/dev PREFIX=/usr
	deploy/package routed-dev $(OUT)/dev $(VERSION)
	dpkg-deb --root-owner-group $(COMPRESS) --build $(OUT)/dev $(OUT)
else
	@echo "note: no package routed-dev: .ci/run --library makes the library for C"
endif
