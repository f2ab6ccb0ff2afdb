# What can be made of this repository: `make help` lists it.

SHELL := /bin/bash
.DEFAULT_GOAL := all

# The programs that users install; each is a crate of its name with a src/main.rt.
PROGRAMS := $(patsubst crates/%/src/main.rt,%,$(wildcard crates/*/src/main.rt))

# The folder from which programs are taken. In build/ what is missing or old is built first; those of another one are taken as they are.
BUILT = build

# Where `make install` puts what: below PREFIX, and that below DESTDIR; and where `make deb` puts its package.
PREFIX = /usr/local
DESTDIR =
PACKAGES = build
ZSH_DIR = $(PREFIX)/share/zsh/site-functions
LIB_DIR = $(PREFIX)/lib
# the first folder below PREFIX in which this system's own Python looks for modules, whatever other ones are on the PATH
PYTHON_DIR = $(shell $(firstword $(wildcard /usr/bin/python3) python3) -c 'import site, sys; \
	print(next((it for it in site.getsitepackages() if it.startswith(sys.argv[1])), sys.argv[1] + "python3/dist-packages"))' '$(PREFIX)/lib/')

.PHONY: all kept bench quick check cost walk edits demo soak install uninstall deb release completion pictures clean help toolchain

all: $(addprefix build/,$(PROGRAMS))  ## Prove and build the programs, into build/, by the toolchain's gate; `make check` takes what it has proved

bench: build/kept  ## Prove and build the programs, and build their peers in C, into build/ (bench/README.md)
	@$(MAKE) -C bench --no-print-directory
	@bench/rattle/build.py hall_bench spawn_bench

# What a program is made of: any change of a crate makes it anew.
SOURCES := $(shell find crates -path '*/out' -prune -o -type f \( -name '*.rt' -o -name '*.antt' \) -print) crates.txt

build/proved: $(SOURCES)
	@$(MAKE) --no-print-directory toolchain
	@echo "Proving the crates; the first time takes 40 minutes on four processors (build/ci.log)"
	@tests/check.py --programs || { echo "A crate is not proved: build/ci.log says why." >&2; exit 1; }
	@touch $@

$(addprefix build/,$(PROGRAMS)): build/proved
	@[ -x $@ ] || tests/check.py --programs
	@touch $@

kept: build/kept  ## Prove and build the same over what `rt check` keeps in crates/NAME/out, and keep it there; `make check` takes none of it

# The last verdict of each log is the program's.
build/kept: $(SOURCES)
	@$(MAKE) --no-print-directory toolchain
	@mkdir -p build
	@echo "Proving the crates over what is kept of them; the first time takes 40 minutes on four processors (build/prove.log)"
	@tools/prove.py build/prove.log || { echo "A crate is not proved: build/prove.log says why." >&2; exit 1; }
	@for name in $(PROGRAMS); do \
		(cd crates/$$name && rt run -- --version < /dev/null > ../../build/$$name.log 2>&1); \
		grep -E '^logic=|^rt: nothing has changed' build/$$name.log | tail -n 1 | grep -qE '^logic=proved|since the last proved build' && \
			cp crates/$$name/out/$$name build/$$name || { echo "$$name is not proved: build/$$name.log says why." >&2; exit 1; }; \
	done
	@touch build/proved $(addprefix build/,$(PROGRAMS)) $@

# The program that `make demo` shows. Where it is not built, the toolchain builds it for once, without its proofs.
REQKEYD = build/reqkeyd

demo: toolchain  ## Run the example script and the daemon, and show what they do
	@mkdir -p build
	@if [ -x $(REQKEYD) ]; then \
		examples/demo.py examples/first-path.script $(REQKEYD) replay && echo && examples/serve.py $(REQKEYD); \
	else \
		examples/unproved.py examples/first-path.script build/try.log; \
	fi

quick: toolchain  ## Check what changed since the last time, over kept work, in minutes; no verdict
	@tests/quick.py

check: toolchain  ## Prove every crate and pass all tests; the last line counts them. With ANEW=1 nothing is taken from earlier runs, and edits.lock is written
	@tests/check.py

# The crates of which `make cost` tells, and whose edits `make edits` tries; none for all.
CRATES =

cost:  ## List the longest chain of crates, and the functions that are the dearest to prove, of what the last checks kept; of some crates with CRATES=
	@tools/cost.py $(CRATES)

walk: build/kept  ## Count the calls, the files and the changes of file of a request, in an unoptimized build of the daemon
	@tools/walk.py

edits: toolchain  ## Try all edits that must fail, of some crates with CRATES=, and write edits.lock, which lists what was refused. With ANEW=1 nothing is taken from earlier runs
	@tests/check.py --edits $(CRATES)

# The library for keyutils' own programs.
$(BUILT)/libkeyutils.so.1: $(wildcard clients/keyutils/*) clients/c/reqkey.c clients/c/reqkey.h
	@$(MAKE) --no-print-directory -C clients/keyutils OUT=$(abspath $(BUILT))

# The program for those that make the system calls themselves.
$(BUILT)/reqkey-trap: $(wildcard clients/trap/* clients/keyutils/*) clients/c/reqkey.c clients/c/reqkey.h
	@$(MAKE) --no-print-directory -C clients/trap OUT=$(abspath $(BUILT))

# The client in C, for programs that are linked with it.
$(BUILT)/libreqkey.so.1 $(BUILT)/libreqkey.a &: $(wildcard clients/c/*)
	@$(MAKE) --no-print-directory -C clients/c OUT=$(abspath $(BUILT))

# The door for a machine with several users.
$(BUILT)/reqkey-door: $(wildcard clients/door/*)
	@$(MAKE) --no-print-directory -C clients/door OUT=$(abspath $(BUILT))

# What is installed beside the programs, and is written in C.
IN_C = $(addprefix $(BUILT)/,libkeyutils.so.1 reqkey-trap reqkey-door libreqkey.so.1 libreqkey.a)

INSTALL = BUILT='$(BUILT)' PREFIX='$(PREFIX)' DESTDIR='$(DESTDIR)' ZSH_DIR='$(ZSH_DIR)' LIB_DIR='$(LIB_DIR)' PYTHON_DIR='$(PYTHON_DIR)' packaging/install.sh

install: $(addprefix $(BUILT)/,$(PROGRAMS)) $(IN_C)  ## Install what is built, below PREFIX=/usr/local (docs/INSTALL.md)
	@$(INSTALL) install

uninstall:  ## Remove what make install has put there
	@$(INSTALL) uninstall

deb: $(addprefix $(BUILT)/,$(PROGRAMS)) $(IN_C)  ## Make a Debian package of the same, into build/
	@BUILT='$(BUILT)' PACKAGES='$(PACKAGES)' packaging/debian/build.sh

# Where `make release` puts what.
RELEASE = build/release

release: $(addprefix $(BUILT)/,$(PROGRAMS)) $(IN_C)  ## Make what is handed out, into build/release/: an archive, the Debian packages, SHA256SUMS
	@BUILT='$(BUILT)' RELEASE='$(RELEASE)' packaging/release.sh

completion: $(addprefix $(BUILT)/,$(PROGRAMS)) $(BUILT)/reqkey-trap $(BUILT)/reqkey-door  ## Write what completes words in a shell, as make install has it, into build/completion/
	@tools/completion.py $(BUILT) build/completion

pictures:  ## Draw docs/pictures/ anew, of crates.txt and the tables of tools/picture.py
	@tools/picture.py docs/pictures

# How long the soak takes.
MINUTES = 10

soak: all  ## Use the built daemon hard for MINUTES=10, and look at what is left of it; no part of the gate
	@PROGRAMS=build tests/soak.py $(MINUTES)

clean:  ## Remove what make and the toolchain made
	rm -rf build crates/*/out

help:  ## List the targets
	@sed -n 's/^\([a-z]*\):.*## \(.*\)/make \1\t\2/p' Makefile | expand -t 17

toolchain:
	@command -v rt > /dev/null || { \
		echo "The Rattle toolchain is not here: its command rt has to be on the PATH. It is no part of these sources, and" >&2; \
		echo "no public place of it is known here: ask whoever gave you the sources (README.md, \"Build and install\")." >&2; \
		echo "Built programs are installed without it: make install BUILT=FOLDER, with reqkeyd and reqkeyctl there." >&2; \
		exit 1; }
