# Rithennaw: `make help` lists the targets.
RT ?= rt
CARGO ?= cargo
PREFIX ?= /usr/local
DESTDIR ?=
# How many seeds `make differential` takes, a seed being a made-up image and calls with it.
SEEDS ?= 300000
VERSION := $(shell cat VERSION)

# rt is called in the crates' folders too.
override RT := $(strip $(if $(findstring /,$(firstword $(RT))),$(abspath $(firstword $(RT))),$(firstword $(RT))) \
    $(wordlist 2,$(words $(RT)),$(RT)))
export RT
# The gate tests the archive that is built here, whatever other one a user's Rust programs link.
unexport RITHENNAW_LIB_DIR
# cargo and rustc are often there for one user only, in a folder that not every shell looks into. The values are taken as they
# are: make would carry out what stands in them.
export PATH := $(value PATH):$(or $(value CARGO_HOME),$(value HOME)/.cargo)/bin
MAKEFLAGS += --no-print-directory

archive := target/staticlib/librithennaw.a
slotsheet := target/bin/slotsheet
# A program for the tests alone, which is not installed.
lookprobe := target/bin/lookprobe
# What these are proved from. The folders are listed too, so that a file that was removed is noticed; but not those of the crates,
# in which rt keeps what it proved and built.
sources := crates.txt $(shell find crates -mindepth 2 \( -name must-fail -o -name out \) -prune -o -print)
# rt, with a line for each crate and each edit that is done. That there is one is looked at where it is called and not by a
# target of its own, since what is built already needs none.
prove := tools/check-kit && tools/progress
# No package of another's is used, so cargo needs no network. Of make's -j it would only say that it cannot share it.
cargo := MAKEFLAGS= MFLAGS= $(CARGO) --offline --locked
cargo_words := --release --manifest-path rust/Cargo.toml
differential := $(cargo) run $(cargo_words) --package differential -- --slotsheet $(slotsheet) --lookprobe $(lookprobe)
prefix := $(abspath $(PREFIX))
installed := include/rithennaw.h lib/librithennaw.a lib/pkgconfig/rithennaw.pc bin/slotsheet

# One rt at a time: it uses the processors itself.
.NOTPARALLEL:
# An archive that tools/align has failed on is not taken for one that is built.
.DELETE_ON_ERROR:
.PHONY: all lib check test link-test rust-test examples demo desk differential bench install uninstall fmt clean help

# slotsheet first: all crates are proved side by side for it, where rt lib would prove them one after the other.
all: $(slotsheet) $(archive) ## prove and build the archive and the program slotsheet

lib: $(archive) ## prove and build the archive for C and Rust, target/staticlib/librithennaw.a

# What rt builds stands in a crate's folder out/, and is copied from there.
$(archive): $(sources)
	@$(prove) lib rithennaw
	@mkdir -p $(@D) && cp crates/rithennaw/out/librithennaw.a $@
	@tools/align $@

$(slotsheet) $(lookprobe): $(sources)
	@$(prove) all check
	@tools/progress run slotsheet
	@tools/progress run lookprobe
	@mkdir -p $(@D) && cp crates/slotsheet/out/slotsheet crates/lookprobe/out/lookprobe $(@D)

check: ## prove what has changed since the last check
	@$(prove) all check

# Quick checks first. Then slotsheet and archive are built once, where rt decides what has changed and not file times
# (-B), and tested. Proofs wait for each other and leave a processor free, so the longest test of the gate runs beside them. rt ci
# is last, since its count has to be the last line: it proves all from nothing, but for what an earlier one proved on this machine of the
# same files, and fails here too where a must-fail edit is bad (tools/progress).
# tools/tested keeps the hashes of what was tested, for make install; they count once all has passed.
test: ## the whole gate: every test, then every proof and every must-fail edit
	@tools/tested forget
	@tools/check-kit
	@tools/layout check
	@tools/check-claims
	@tools/check-version
	@tests/kit/run
	@tests/gate/run
	@tests/progress/run
	@tools/beside tests/claims/run $(MAKE) -B all
	@tools/tested note $(archive) $(slotsheet)
	@$(MAKE) link-test rust-test examples
	@tools/tested unchanged
	@$(prove) ci
	@tools/tested pass

link-test: $(archive) ## link the archive into C programs, run them, and measure the stack of a call
	@tests/link/run

rust-test: all $(lookprobe) ## test the Rust packages, and compare the monitor and its programs with the reference interpreter
	@$(cargo) test $(cargo_words) -- --quiet
	@$(differential)

# Other seeds than those of rust-test, which are the first 6,000.
differential: all $(lookprobe) ## the same comparison for a long run; SEEDS says how many seeds
	@$(differential) --first 10000 --seeds $(SEEDS)

examples: all ## test the README's programs, the C host by what is installed below a temporary prefix, the host loops, the desks and the sample day
	@tests/readme/run
	@tests/host/run
	@tests/loop/run
	@tests/desk/run
	@examples/day/run --check
	@examples/desk/run --check

demo: $(archive) ## show what each observer sees of a sample day
	@examples/day/run

desk: $(archive) ## show what owners work out from their views, on desks of their own
	@examples/desk/run

bench: $(archive) ## measure the time of turns and of calls in several code layouts, their instructions, and long texts
	@tools/bench env $(cargo)

# Where a file is installed, quoted: DESTDIR may have blanks. PREFIX may not, as flags of the pkg-config file are words.
below = $(if $(filter 1,$(words $(prefix))),'$(DESTDIR)$(prefix)/$(1)',$(error PREFIX is not one word: $(PREFIX)))

install: all ## install header, archive, pkg-config file and slotsheet below PREFIX (/usr/local), staged below DESTDIR
	install -d $(foreach folder,$(sort $(dir $(installed))),$(call below,$(folder)))
	install -m 644 include/rithennaw.h $(call below,include/rithennaw.h)
	install -m 644 $(archive) $(call below,lib/librithennaw.a)
	sed -e 's|@PREFIX@|$(prefix)|' -e 's|@VERSION@|$(VERSION)|' rithennaw.pc.in >$(call below,lib/pkgconfig/rithennaw.pc)
	chmod 644 $(call below,lib/pkgconfig/rithennaw.pc)
	install -m 755 $(slotsheet) $(call below,bin/slotsheet)
	@tools/tested compare $(archive) $(slotsheet)

uninstall: ## remove what install put there
	rm -f $(foreach file,$(installed),$(call below,$(file)))

fmt: ## lay out every source that is proved
	@tools/check-kit && tools/layout write

clean: ## remove what was built
	@rm -rf target build rust/target crates/*/out

help: ## list the targets
	@awk -F ':.*## ' '/^[a-z-]+:.*## / { printf "make %-14s%s\n", $$1, $$2 }' Makefile
