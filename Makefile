# What people ask a Makefile for. The program is proved and built by `rt`, the command of the Rattle kit (`make prove`); what stands in
# release/ was built so, and runs as it is, so that nothing has to be compiled to install or to check it.

PREFIX = /usr/local
DESTDIR =
INSTALL = install
PYTHON = python3

bin = $(DESTDIR)$(PREFIX)/bin
share = $(DESTDIR)$(PREFIX)/share/pgo
doc = $(DESTDIR)$(PREFIX)/share/doc/pgo
man = $(DESTDIR)$(PREFIX)/share/man/man1
bash = $(DESTDIR)$(PREFIX)/share/bash-completion/completions
zsh = $(DESTDIR)$(PREFIX)/share/zsh/site-functions
fish = $(DESTDIR)$(PREFIX)/share/fish/vendor_completions.d

# The pages of share/doc/pgo, with their links as here.
pages = README.md CHANGELOG.md SECURITY.md LICENSE
more = $(wildcard docs/*.md docs/*.svg)
# The scripts for users, all but what fills release/. In bin each has `pgo-` in front, if it has not yet.
scripts = $(filter-out contrib/release, $(shell find contrib -maxdepth 1 -type f -perm -100 | LC_ALL=C sort))
# Each command as it is installed.
commands = pgo pgo-cold $(patsubst contrib/%,pgo-%,$(scripts:contrib/pgo-%=contrib/%))
packages = $(shell find contrib -mindepth 2 -name '*.py' | LC_ALL=C sort)

.PHONY: all help install uninstall check check-all demo prove

all help:
	@echo 'make install [PREFIX=$(PREFIX)] [DESTDIR=]   programs, scripts, pages, man pages and completions'
	@echo 'make uninstall [PREFIX=$(PREFIX)] [DESTDIR=] takes them away'
	@echo 'make check                                   the checks, in some minutes: release/, scripts, documents'
	@echo 'make check-all                               the same with those that take long, as the gate runs them'
	@echo 'make demo                                    a program before and behind its profile, with what it gains (clang, qemu-user)'
	@echo 'make prove                                   the gate: proves, builds and tests every crate by rt, in an hour or two'

# The scripts stand with their packages in share/pgo/contrib, where they find the programs in the folder above. Beside these stands
# of which sources they are, with their sums (`made`), to which they are held before anything is copied.
install:
	for name in pgo pgo-cold; do \
	    grep -qx "$$name $$(sha256sum <release/$$name | cut -d ' ' -f 1)" release/made || \
	        { echo "install: release/$$name has not the sum that release/made tells" >&2; exit 1; }; \
	done
	$(INSTALL) -d '$(bin)' '$(share)/contrib' '$(man)' '$(doc)/docs' '$(bash)' '$(zsh)' '$(fish)'
	made=$$(mktemp -d) && trap 'rm -rf "$$made"' EXIT && \
	PYTHONPATH=contrib $(PYTHON) -B -m pgo_tools.cli.installed "$$made" release/pgo release/pgo-cold && \
	$(INSTALL) -m 644 "$$made"/man/* '$(man)' && $(INSTALL) -m 644 "$$made"/bash/* '$(bash)' && \
	$(INSTALL) -m 644 "$$made"/zsh/* '$(zsh)' && $(INSTALL) -m 644 "$$made"/fish/* '$(fish)'
	$(INSTALL) -m 755 release/pgo release/pgo-cold '$(bin)'
	$(INSTALL) -m 644 $(wildcard docs/*.1) '$(man)'
	$(INSTALL) -m 644 $(pages) '$(doc)'
	$(INSTALL) -m 644 $(more) '$(doc)/docs'
	$(INSTALL) -m 644 release/made release/NOTICE LICENSE bench/repair/recorder.c '$(share)'
	$(INSTALL) -m 755 $(scripts) '$(share)/contrib'
	for file in $(packages:contrib/%=%); do \
	    $(INSTALL) -d "$(share)/contrib/$${file%/*}" && $(INSTALL) -m 644 "contrib/$$file" "$(share)/contrib/$$file" || exit; \
	done
	ln -sf ../../bin/pgo ../../bin/pgo-cold '$(share)'
	for name in $(scripts:contrib/%=%); do ln -sf "../share/pgo/contrib/$$name" "$(bin)/pgo-$${name#pgo-}" || exit; done

uninstall:
	for name in $(scripts:contrib/%=%); do rm -f "$(bin)/pgo-$${name#pgo-}" || exit; done
	rm -f '$(bin)/pgo' '$(bin)/pgo-cold' $(patsubst docs/%,'$(man)/%',$(wildcard docs/*.1))
	rm -f $(commands:%='$(man)/%.1') $(commands:%='$(bash)/%') $(commands:%='$(zsh)/_%') $(commands:%='$(fish)/%.fish')
	rm -rf '$(share)' '$(doc)'

# Neither rt nor git's folder nor a compiler nor pytest is needed: a check that cannot run here is skipped, and named.
check:
	$(PYTHON) checks/run

check-all:
	$(PYTHON) checks/run --all

# It ends in some seconds.
demo:
	demo/demo

# What was built is marked, so that ./pgo and the checks take it.
prove:
	sources=$$(contrib/release --sources) && rt ci && contrib/release --mark "$$sources"
