# Installs pgshard without a package manager: the released program, judge and front, manual pages, completion for bash,
# documentation and examples.
#
#   make install PREFIX=/usr/local
#   make install PREFIX=/usr DESTDIR=/tmp/stage
#
# `make uninstall` removes what it installed. Nothing is built here: the program is in release/, or PROGRAM names
# another.

PREFIX = /usr/local
DESTDIR =
PROGRAM = release/pgshard-x86_64-linux
INSTALL = install

lib = $(DESTDIR)$(PREFIX)/lib/pgshard
bin = $(DESTDIR)$(PREFIX)/bin
share = $(DESTDIR)$(PREFIX)/share
completions = $(share)/bash-completion/completions

commands = judge front explain
package = tools/pgshard_tools
modules = . fronting installation judging pointing
pages = pgshard pgshard-judge pgshard-serve pgshard-publish pgshard-front

all:
	@echo "there is nothing to build; make install PREFIX=.. installs pgshard"

$(PROGRAM):
	@echo "there is no $(PROGRAM): make it with tools/release after a proof, or set PROGRAM" >&2; exit 1

install: $(PROGRAM)
	$(INSTALL) -d $(lib)/release $(lib)/tools $(bin) $(completions) $(share)/doc/pgshard/docs $(share)/doc/pgshard/examples
	$(INSTALL) -m 755 $(PROGRAM) $(lib)/release/pgshard
	$(INSTALL) -m 755 pgshard $(lib)
	$(INSTALL) -m 644 VERSION $(lib)
	$(INSTALL) -m 755 $(addprefix tools/,$(commands)) $(lib)/tools
	$(INSTALL) -m 644 tools/catalog.sql $(lib)/tools
	for module in $(modules); do \
		$(INSTALL) -d $(lib)/$(package)/$$module && $(INSTALL) -m 644 $$(find $(package)/$$module -maxdepth 1 -type f ! -name '*.pyc') $(lib)/$(package)/$$module || exit 1; \
	done
	ln -sf ../lib/pgshard/pgshard $(bin)/pgshard
	tools/manual $(lib)/pgshard $(share)/man/man1 $(PREFIX)
	$(INSTALL) -m 644 packaging/completion $(completions)/pgshard
	$(INSTALL) -m 644 README.md CHANGELOG.md $(share)/doc/pgshard
	$(INSTALL) -m 644 docs/*.md docs/*.svg docs/*.json $(share)/doc/pgshard/docs
	$(INSTALL) -m 644 examples/*.* $(share)/doc/pgshard/examples
	$(INSTALL) -d $(share)/doc/pgshard/examples/ci/migrations
	$(INSTALL) -m 644 examples/ci/*.* $(share)/doc/pgshard/examples/ci
	$(INSTALL) -m 644 examples/ci/migrations/* $(share)/doc/pgshard/examples/ci/migrations

uninstall:
	rm -rf $(lib) $(share)/doc/pgshard
	rm -f $(bin)/pgshard $(completions)/pgshard $(patsubst %,$(share)/man/man1/%.1.gz,$(pages))

.PHONY: all install uninstall
