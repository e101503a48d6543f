# Installs rv and rv-coverage with tools, pages and monitors, and makes what is given to others. `make help` says how; docs/INSTALL.md
# has more. Nothing is proved here but by ./rv and ./rv-coverage, which tell what they do, and by the gate, which tools/release runs.

PREFIX = /usr/local
DESTDIR =
# The name under which rv is installed, since Linux's tools/verification has a program rv too. The pages rv(1), rv-tools(7),
# rv-bindings(5) and rv-trace(5), the completions and the folders below share follow it. rv-coverage keeps its name, as the tools do.
PROGRAM = rv
# The built programs to install, rv and rv-coverage. Where one is not given, it is that of this checkout, which ./rv and ./rv-coverage
# build where it is missing or old.
BUILT =
BUILT_COVERAGE =

BINDIR = $(PREFIX)/bin
DATADIR = $(PREFIX)/share/$(PROGRAM)
DOCDIR = $(PREFIX)/share/doc/$(PROGRAM)
MANDIR = $(PREFIX)/share/man
BASHDIR = $(PREFIX)/share/bash-completion/completions
ZSHDIR = $(PREFIX)/share/zsh/site-functions
# How the manual pages name DATADIR.
SHOWN_DATADIR = $(DATADIR)

# The version stands once, in the first heading of the changes.
VERSION := $(shell sed -n 's/^\#\# *//p' CHANGELOG.md | head -n 1)
SHELL = /bin/sh

# Tools keep their names, and those without the prefix have it below bin.
TOOLS := $(notdir $(wildcard tools/rv-*))
OTHER_TOOLS := record compare-kernel draw
# by their names below bin, which share a completion
COMPLETED := $(TOOLS) $(addprefix rv-,$(OTHER_TOOLS))
PAGES := README.md CHANGELOG.md CONTRIBUTING.md docs
MANUALS := rv.1 rv-tools.7 rv-bindings.5 rv-trace.5
# (a tool's page is rv-tools(7))
OWN_MANUALS := rv-coverage.1

fill = sed -e 's/@PROGRAM@/$(PROGRAM)/g' -e 's/@VERSION@/$(VERSION)/g' -e 's|@DATADIR@|$(SHOWN_DATADIR)|g' -e 's/@TOOLS@/$(COMPLETED)/g'
# rv-tools.7 becomes PROGRAM-tools.7
manual = $(patsubst rv%,$(PROGRAM)%,$(1))
section = $(subst .,,$(suffix $(1)))

.PHONY: help install name files uninstall check-man dist deb
.SILENT:
.NOTPARALLEL:

help:
	echo "make install     rv, rv-coverage, the tools, the documents, the monitors, manual pages and completions, below PREFIX"
	echo "make uninstall   takes away what install put there, with the same words"
	echo "make check-man   looks whether man finds a fault in the manual pages"
	echo "make dist        out/rv-$(VERSION)-x86_64-linux.tar.gz, after the gate passed; with TRIAL=1 a trial without the gate"
	echo "make deb         the same as a package of Debian"
	echo
	echo "PREFIX=$(PREFIX) DESTDIR=$(DESTDIR) PROGRAM=$(PROGRAM)"

# Copies files and those of folders, links followed, below share/PROGRAM.
copy = mkdir -p "$(DESTDIR)$(DATADIR)" && \
	find -L $(1) -name __pycache__ -prune -o -type f -exec cp --parents -t "$(DESTDIR)$(DATADIR)" {} + && \
	chmod -R u=rwX,go=rX "$(DESTDIR)$(DATADIR)"

# (all may read what is installed, whoever installs it)
install: name
	umask 022; $(MAKE) --no-print-directory files

name:
	case "$(PROGRAM)" in '' | *[!a-z0-9_-]*) echo "make: PROGRAM is a name of a-z, 0-9, _ and -" >&2; exit 2 ;; esac

files:
	[ -n "$(BUILT)" ] || { ./rv > /dev/null; [ $$? -eq 2 ]; }
	[ -n "$(BUILT_COVERAGE)" ] || { ./rv-coverage > /dev/null; [ $$? -eq 2 ]; }
	install -D -m 755 "$(or $(BUILT),crates/rv/out/rv)" "$(DESTDIR)$(BINDIR)/$(PROGRAM)"
	install -D -m 755 "$(or $(BUILT_COVERAGE),crates/coverage/out/coverage)" "$(DESTDIR)$(BINDIR)/rv-coverage"
	$(call copy,tools/lib $(addprefix tools/,$(TOOLS) $(OTHER_TOOLS)) $(PAGES) examples monitors)
	for tool in $(TOOLS) $(OTHER_TOOLS); do \
		ln -sfn "../share/$(PROGRAM)/tools/$$tool" "$(DESTDIR)$(BINDIR)/rv-$${tool#rv-}" && \
		mkdir -p "$(DESTDIR)$(MANDIR)/man1" && \
		echo ".so man7/$(call manual,rv-tools.7)" > "$(DESTDIR)$(MANDIR)/man1/rv-$${tool#rv-}.1" || exit; \
	done
	# share/PROGRAM is laid out as a checkout: there the tools and the documents find the programs, by links
	mkdir -p "$(DESTDIR)$(DATADIR)/crates/rv/out" "$(DESTDIR)$(DATADIR)/crates/coverage/out" "$(DESTDIR)$(DOCDIR)"
	ln -sfn "../../bin/$(PROGRAM)" "$(DESTDIR)$(DATADIR)/rv"
	ln -sfn "../../../../../bin/$(PROGRAM)" "$(DESTDIR)$(DATADIR)/crates/rv/out/rv"
	ln -sfn "../../bin/rv-coverage" "$(DESTDIR)$(DATADIR)/rv-coverage"
	ln -sfn "../../../../../bin/rv-coverage" "$(DESTDIR)$(DATADIR)/crates/coverage/out/coverage"
	for page in $(PAGES) examples monitors; do ln -sfn "../../$(PROGRAM)/$$page" "$(DESTDIR)$(DOCDIR)/$$page" || exit; done
	$(foreach page,$(MANUALS),mkdir -p "$(DESTDIR)$(MANDIR)/man$(call section,$(page))" && \
		$(fill) man/$(page).in > "$(DESTDIR)$(MANDIR)/man$(call section,$(page))/$(call manual,$(page))" &&) :
	mkdir -p "$(DESTDIR)$(MANDIR)/man1"
	for page in $(OWN_MANUALS); do $(fill) "man/$$page.in" > "$(DESTDIR)$(MANDIR)/man1/$$page" || exit; done
	mkdir -p "$(DESTDIR)$(BASHDIR)" "$(DESTDIR)$(ZSHDIR)"
	$(fill) completion/rv.bash > "$(DESTDIR)$(BASHDIR)/$(PROGRAM)"
	$(fill) completion/rv.zsh > "$(DESTDIR)$(ZSHDIR)/_$(PROGRAM)"
	install -m 644 completion/rv-coverage.bash "$(DESTDIR)$(BASHDIR)/rv-coverage"
	install -m 644 completion/rv-coverage.zsh "$(DESTDIR)$(ZSHDIR)/_rv-coverage"
	# bash looks for a file of the command's name
	for tool in $(COMPLETED); do $(fill) completion/rv-tools.bash > "$(DESTDIR)$(BASHDIR)/$$tool" || exit; done
	$(fill) completion/rv-tools.zsh > "$(DESTDIR)$(ZSHDIR)/_rv-tools"

uninstall: name
	rm -f "$(DESTDIR)$(BINDIR)/$(PROGRAM)" "$(DESTDIR)$(BINDIR)/rv-coverage" "$(DESTDIR)$(BASHDIR)/$(PROGRAM)" "$(DESTDIR)$(ZSHDIR)/_$(PROGRAM)"
	rm -f "$(DESTDIR)$(BASHDIR)/rv-coverage" "$(DESTDIR)$(ZSHDIR)/_rv-coverage" "$(DESTDIR)$(ZSHDIR)/_rv-tools"
	for tool in $(COMPLETED); do rm -f "$(DESTDIR)$(BASHDIR)/$$tool"; done
	for link in "$(DESTDIR)$(BINDIR)"/rv-*; do \
		case $$(readlink "$$link") in \
		"../share/$(PROGRAM)/tools/"*) rm -f "$$link" "$(DESTDIR)$(MANDIR)/man1/$${link##*/}.1" ;; \
		esac; \
	done
	$(foreach page,$(MANUALS),rm -f "$(DESTDIR)$(MANDIR)/man$(call section,$(page))/$(call manual,$(page))";)
	for page in $(OWN_MANUALS); do rm -f "$(DESTDIR)$(MANDIR)/man1/$$page"; done
	rm -rf "$(DESTDIR)$(DATADIR)" "$(DESTDIR)$(DOCDIR)"

# (man says what it finds on standard error, and ends with 0)
check-man:
	for page in $(MANUALS) $(OWN_MANUALS); do \
		said=$$($(fill) "man/$$page.in" | LC_ALL=C.UTF-8 MANROFFSEQ= MANWIDTH=80 man --warnings -E UTF-8 -l - 2>&1 > /dev/null); \
		[ -z "$$said" ] || { echo "man/$$page.in: $$said" >&2; exit 1; }; \
	done

dist deb:
	tools/release $(if $(TRIAL),--trial) $@
