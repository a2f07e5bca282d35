# make            proves and builds bin/relayd
# make quick      builds bin/relayd-quick within minutes, with no proof: to try an edit with; nothing is made of it
# make demo       runs bin/relayd, or the quick program where that is not up to date, on metrics and a configuration
# make check      proves all crates, over the work that earlier runs kept
# make test       the gate `rt ci`, then the end-to-end tests, whose Debian packages it installs
# make quick-test what to run before a commit: the quick program, the layout of all sources, and its end-to-end tests
# make e2e        the end-to-end tests alone; CASES='NAME ..': some of them
# make hostile    the cases of hostile use in their longer form, and 200 random histories
# make edits      tries the wrong bodies that the gate does not; CRATE=NAME: of one crate
# make bench      relayd beside other programs, and what its commands cost, in one run; draws docs/bench.svg
# make install    installs the program, its man pages and its completions below DESTDIR and PREFIX
# make deb        builds a Debian package with the service, in bin/
# make image      builds the image of a container, by podman or buildah, with nothing fetched
# make notices    writes the notices of what the program links: THIRD_PARTY.md and packaging/copyright
# make deb-test   installs that package on a clean Debian in a folder, looks at it and purges it, and does so where systemd
#                 has booted there; as root, with debootstrap and systemd-container; SUITE=trixie: on another Debian
# make tarball    builds an archive that runs from any folder, in bin/
# make release-check says whether this commit may get the tag of its version
# make clean      removes what was built
# make help       prints this
#
# PROGRAM=bin/relayd-quick has e2e, hostile and bench take the quick program, which is built first; PROGRAM=PATH another.

# make would look through its own rules for each of the thousands of sources.
MAKEFLAGS += --no-builtin-rules

PREFIX ?= /usr/local
SOURCES := crates.txt HANDLES $(shell find crates -name out -prune -o \( -name '*.rt' -o -name '*.antt' \) -print)

# $(call needs,COMMAND,WHAT IT IS): ends with a clear message if a command is missing.
needs = command -v $(1) >/dev/null || { echo "make: $(1) is missing: $(2)" >&2; exit 1; }
needs_rt = $(call needs,rt,the command of the Rattle kit must be on the PATH)
needs_python = $(call needs,python3,the Debian package python3 has it)

# The program that e2e, hostile and bench take, what is built for that, and the words that say so.
PROGRAM ?= bin/relayd
of_program := $(if $(filter bin/relayd-quick,$(PROGRAM)),quick,$(filter bin/relayd,$(PROGRAM)))
driven := $(if $(filter-out bin/relayd,$(PROGRAM)),--relayd $(PROGRAM))

.PHONY: build quick demo check test quick-test e2e hostile edits bench install deb deb-test tarball image notices release-check clean help

build: bin/relayd

# What was built is in the crate's out/, where the gate leaves its own; growth_rows serves the tests alone.
bin/relayd: crates/relayd/out/relayd
	@mkdir -p bin
	cp $< $@

crates/relayd/out/relayd: $(SOURCES)
	@$(needs_rt)
	@$(needs_python)
	@python3 tools/crates.py build relayd

crates/growth_rows/out/growth_rows: $(SOURCES)
	@$(needs_rt)
	@$(needs_python)
	@python3 tools/crates.py build growth_rows

# The script sees by itself whether a source changed. Nothing else is made of what it builds.
quick:
	@$(needs_rt)
	@$(needs_python)
	@python3 tools/quick.py

demo:
	@$(needs_rt)
	@$(needs_python)
	@python3 tools/demo.py

check:
	@$(needs_rt)
	@$(needs_python)
	@python3 tools/crates.py check

test:
	@$(needs_rt)
	@$(needs_python)
	@python3 tools/passed.py test python3 e2e/whole.py

quick-test:
	@$(needs_rt)
	@$(needs_python)
	@python3 tools/layout.py
	@python3 tools/quick.py
	@python3 e2e/run.py --relayd bin/relayd-quick

e2e: $(of_program)
	@python3 e2e/run.py $(driven) $(CASES)

hostile: $(of_program)
	@python3 e2e/run.py $(driven) --longer hostile last_lines long_names memory.OfARelay memory.OfTheService \
		admin_port receiving.Losses limits starved_start histories

edits:
	@$(needs_rt)
	@$(needs_python)
	@python3 tools/crates.py edits $(CRATE)

bench: $(of_program)
	@python3 bench/run.py $(driven)
	@python3 bench/rewriting.py $(driven)
	@python3 bench/pickles.py $(driven)
	@python3 bench/replay.py $(driven)
	@mkdir -p bench/data
	@python3 bench/relaying.py --table bench/data/relaying.tsv $(driven)
	@$(if $(driven),echo "docs/bench.svg is not drawn: it shows the proved program",python3 bench/draw.py bench/data/relaying.tsv docs/bench.svg)
	@python3 bench/page.py bench/data/relaying.tsv
	@python3 bench/status.py $(driven)
	@python3 bench/receivers.py $(driven)
	@python3 bench/bursts.py $(driven)
	@python3 bench/spooling.py $(driven)
	@python3 bench/restarts.py $(driven)
	@python3 bench/reloads.py $(driven)

install: bin/relayd
	install -D -m 755 bin/relayd $(DESTDIR)$(PREFIX)/bin/relayd
	install -D -m 755 packaging/relayd-supervised $(DESTDIR)$(PREFIX)/bin/relayd-supervised
	install -D -m 644 packaging/relayd.1 $(DESTDIR)$(PREFIX)/share/man/man1/relayd.1
	install -D -m 644 packaging/relayd-supervised.1 $(DESTDIR)$(PREFIX)/share/man/man1/relayd-supervised.1
	install -D -m 644 packaging/relay.conf.5 $(DESTDIR)$(PREFIX)/share/man/man5/relay.conf.5
	install -D -m 644 packaging/relayd.bash $(DESTDIR)$(PREFIX)/share/bash-completion/completions/relayd
	ln -sf relayd $(DESTDIR)$(PREFIX)/share/bash-completion/completions/relayd-supervised
	install -D -m 644 packaging/_relayd $(DESTDIR)$(PREFIX)/share/zsh/site-functions/_relayd
	install -D -m 644 packaging/relayd.fish $(DESTDIR)$(PREFIX)/share/fish/vendor_completions.d/relayd.fish
	install -D -m 644 packaging/relayd-supervised.fish $(DESTDIR)$(PREFIX)/share/fish/vendor_completions.d/relayd-supervised.fish

deb: bin/relayd
	@$(call needs,dpkg-deb,the Debian package dpkg has it)
	@$(call needs,strip,the Debian package binutils has it)
	@packaging/deb.sh bin/relayd bin

SUITE ?= bookworm
deb-test: deb
	@$(needs_python)
	@python3 tools/passed.py deb-test-$(SUITE) python3 packaging/clean_machine.py --suite $(SUITE) "bin/relayd_$$(bin/relayd --version | cut -d' ' -f2 | tr - '~')_amd64.deb"

tarball: bin/relayd
	@$(call needs,strip,the Debian package binutils has it)
	@packaging/tarball.sh bin/relayd bin

image: bin/relayd
	@$(call needs,strip,the Debian package binutils has it)
	@packaging/image.sh bin/relayd

notices:
	@$(needs_rt)
	@$(needs_python)
	@python3 tools/notices.py

release-check:
	@$(needs_python)
	@python3 tools/release_check.py

clean:
	rm -rf bin bench/data crates/*/out

help:
	@sed -n '/^#/!q; s/^# \{0,1\}//p' Makefile
