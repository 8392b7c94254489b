# Builds, tests and installs the LCOV gatherer. `make help` lists the targets.
PREFIX = /usr/local
DESTDIR =

library := crates/lcov_c/out/liblcov_c.a
program := rust/lcov-gather/target/release/lcov-gather
samples := tests/samples/room-a.info tests/samples/room-b.info

# What the two are made of. The time of a folder tells that a file came or went. A crate's out/ is made by rt.
crates := crates.txt $(shell find crates/*/src crates/*/specs crates/*/proofs -type d -o -name '*.rt' -o -name '*.antt')
sources := $(shell find rust/lcov-sys rust/lcov-gather -name target -prune -o \( -name '*.rs' -o -name Cargo.toml \) -print)

# SOURCE=PLACE: `make install` copies each SOURCE to its PLACE below PREFIX, `make uninstall` removes each PLACE.
completions := target/completions/bash target/completions/zsh target/completions/fish
files := \
	$(program)=bin/lcov-gather \
	rust/lcov-gather/lcov-gather.1=share/man/man1/lcov-gather.1 \
	target/completions/bash=share/bash-completion/completions/lcov-gather \
	target/completions/zsh=share/zsh/site-functions/_lcov-gather \
	target/completions/fish=share/fish/vendor_completions.d/lcov-gather.fish \
	include/lcov.h=include/lcov.h \
	$(library)=lib/liblcov.a \
	target/lcov.pc=lib/pkgconfig/lcov.pc

.PHONY: all demo test check bench bench-peers install uninstall clean help
.DELETE_ON_ERROR:

all: $(library) $(program) ## build the static library and the command lcov-gather

# rt and cargo leave a file that is up to date as it is, so its time is set here.
$(library): $(crates)
	cd crates/lcov_c && rt lib
	touch $@

$(program): $(library) $(sources)
	cd rust/lcov-gather && cargo build --offline --release
	touch $@

demo: ## install what is missing, build, and join the two sample tracefiles
	tools/setup build
	$(MAKE) all
	$(program) $(samples)

test: ## install what is missing and run all tests; one that can't run fails
	tools/setup test
	tests/run --strict

check: ## run the gate: proofs from nothing, must-fail edits, programs, tests
	.ci/run

bench: ## measure the speed against the Rust
	tools/setup bench
	$(MAKE) $(library)
	cd rust && cargo run --offline --profile fast --bin bench

bench-peers: ## compare lcov-gather with grcov and lcov on real tracefiles
	tools/setup peers
	$(MAKE) $(program)
	tools/bench-peers

install: all $(completions) ## install the command, its page and completions, the header and the library below PREFIX
	mkdir -p target
	sed -e 's|@PREFIX@|$(PREFIX)|' -e "s|@VERSION@|$$(cat VERSION)|" packaging/lcov.pc.in >target/lcov.pc
	set -e; for file in $(files); do \
		case $$file in *=bin/*) mode=755 ;; *) mode=644 ;; esac; \
		install -D -m $$mode "$${file%%=*}" '$(DESTDIR)$(PREFIX)'/"$${file#*=}"; \
	done

$(completions): target/completions/%: $(program)
	mkdir -p $(@D)
	$(program) --completions $* >$@

uninstall: ## remove what install puts there
	for file in $(files); do rm -f '$(DESTDIR)$(PREFIX)'/"$${file#*=}"; done

clean: ## remove all that was built, proofs included
	rm -rf target crates/*/out rust/target rust/lcov-gather/target

help: ## print this list
	@awk -F':.*## ' '/^[a-z-]+:.*## / { printf "make %-11s %s\n", $$1, $$2 }' Makefile
