# lc: see README.md. `make run` shows it at work, `make test` runs the tests without proof, `make gate` proves and tests everything.

PREFIX ?= /usr/local
# the oldest processor that lc is to run on, such as x86-64-v3; without it that of the last build, and at first x86-64-v2
CPU ?= $(or $(shell cat crates/lc/out/cpu 2> /dev/null),x86-64-v2)
SHELL := /bin/bash

.PHONY: run test gate test-memory test-program test-git test-faults test-fuzz test-edits test-memcheck test-parts test-picture install uninstall dist deb clean rt FORCE

lc: $(shell find crates -name out -prune -o -type f -print 2>/dev/null) crates.txt tools/build crates/lc/out/cpu | rt
	@echo "make: proves lc and the crates below it, then builds it for $(CPU): 25 minutes on 4 cores the first time, then what has changed"
	@tools/build $(CPU)
	@echo "make: ./lc is ready; it may be copied anywhere"

# changes if CPU is another processor than that of the last build
crates/lc/out/cpu: FORCE
	@mkdir -p $(@D)
	@[ "$$(cat $@ 2> /dev/null)" = $(CPU) ] || echo $(CPU) > $@

# the main job on real input: the files and lines of this repository by extension, or what ARGS asks for in the folder that make was
# started in, as `make run ARGS='count --by dir --share ../linux'`. Without ./lc a build without proof shows it in a minute or two
run: rt
	@tools/build --look "$(or $(PWD),$(CURDIR))" $(or $(ARGS),count --format table --by ext $(CURDIR))

# all tests that need no proof, over builds without proof
test: rt
	@echo "make: runs the tests and the transcripts without proof: some minutes on 4 cores; \`make gate\` proves all crates"
	tools/test

# rt alone would run fewer checks side by side, since it counts a check's memory for more than it takes
gate: rt
	@echo "make: proves every crate from nothing, tries the mutants and runs the tests: 40 minutes on 4 cores"
	tools/formatted
	RT_JOBS=$${RT_JOBS:-$$(tools/build --cores)} tools/gate-times rt ci

# up to 400 allocations of each test fail in turn; every public call that takes memory has a test
test-memory: rt
	tools/refused-calls
	tools/test-memory

# the built program with files, folders, pipes and words as a shell gives them, and what documents, the manual page and completions list
test-program: lc
	tools/cases
	tools/definitions
	tools/proved
	tools/options
	tools/edits
	tools/examples
	tools/test-program
	tools/test-reports
	tools/languages
	tools/test-languages

# random rules and trees through git, a fixed small part of them
test-git: lc
	tools/test-git

# each call of the system that a run makes fails in turn, with each of its errors; then trees and rules that are as large as they can
# be, and a tree that changes while it is walked
test-faults: lc
	tools/test-faults
	tools/test-extremes
	tools/test-changes

# random rules and random trees, against a model of docs/RULES.md (not part of the gate)
test-fuzz: lc
	tools/test-fuzz

# the mutants that the gate does not try (not part of the gate); tools/test-edits NAME tries those of one crate
test-edits: rt
	tools/test-edits

# this repository counted in parts on two hosts that the script makes; no part of the gate
test-parts: lc
	tools/test-parts

# pictures of this repository and of a tree of hostile names, laid out by headless Chromium; no part of the gate
test-picture: lc
	tools/test-picture

# the built program under valgrind's memcheck; no part of the gate
test-memcheck: lc
	tools/test-memcheck

# these take ./lc as it is, and make it only where there is none
install: $(if $(wildcard lc),,lc)
	@[ ! -d crates ] || [ -z "$$(find crates crates.txt -name out -prune -o -type f -newer lc -print -quit)" ] || \
	  echo "make: ./lc is older than a source; \`make lc\` builds it anew" >&2
	install -D -m 755 lc $(DESTDIR)$(PREFIX)/bin/lc
	install -D -m 644 man/lc.1 $(DESTDIR)$(PREFIX)/share/man/man1/lc.1
	install -D -m 644 completions/lc.bash $(DESTDIR)$(PREFIX)/share/bash-completion/completions/lc
	install -D -m 644 completions/_lc $(DESTDIR)$(PREFIX)/share/zsh/site-functions/_lc
	install -D -m 644 completions/lc.fish $(DESTDIR)$(PREFIX)/share/fish/vendor_completions.d/lc.fish

uninstall:
	rm -f $(addprefix $(DESTDIR)$(PREFIX)/,bin/lc share/man/man1/lc.1 share/bash-completion/completions/lc \
	  share/zsh/site-functions/_lc share/fish/vendor_completions.d/lc.fish)

# in dist/, with their checksums: a tarball, and a package for Debian
dist: $(if $(wildcard lc),,lc)
	tools/dist tarball

deb: $(if $(wildcard lc),,lc)
	tools/dist deb

clean:
	rm -rf lc dist crates/*/out bench/*/data

rt:
	@command -v rt > /dev/null || { echo "make: the Rattle kit's command rt is not on the PATH; install the kit that README.md names, and put its folder bin on the PATH" >&2; exit 1; }
FORCE:
