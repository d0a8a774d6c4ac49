# The targets for daily work. `tools/test` and `tools/sample` need no make.
.DEFAULT_GOAL := help
.PHONY: help sample test soak bench peers fuzz memory check lib examples picture man build install uninstall dist dev fmt house believed spec limits clean

help: ## List the targets.
	@awk -F ':.*## ' '/^[a-z]+:.*## / { printf "  make %-9s %s\n", $$1, $$2 }' $(MAKEFILE_LIST)

sample: ## Prove the reader, build the example programs, and run them on samples.
	@tools/sample

test: ## Prove every crate, try every must-fail edit, and run every other test: the gate.
	@tools/test

soak: ## Go on comparing with fresh seeds, for ten minutes or as many as are given: make soak MINUTES=60.
	@python3 -m tests.evidence soak $(or $(MINUTES),10)

bench: ## Measure the proved code on this machine, and print the times.
	@python3 -m bench

peers: ## Put damaged files to Skeptolyr and to other readers, and write docs/PEERS.md.
	@python3 -m tests.peers

fuzz: ## Fuzz the proved code, for ten minutes or as many as are given: make fuzz MINUTES=60.
	@python3 -m fuzz $(MINUTES)

memory: ## Run the command under AddressSanitizer and valgrind on all samples and on damaged files.
	@python3 -m tests.memory

check: ## Prove what has changed, lowest crate first.
	rt all check

lib: ## Prove and write target/staticlib/libskeptolyr.a, which C links with include/skeptolyr.h.
	@python3 -m tools.built library skeptolyr

examples: ## Prove the reader, and compile the example programs over it, target/numbers, target/point and target/draw.
	@python3 -m tools.archive examples/numbers.c examples/point.c examples/draw.c

picture: ## Draw the picture of the README anew.
	@python3 -m tests.readme --picture

man: ## Write the manual pages, made from the header, into target/man: man -l target/man/skeptolyr.3 shows one.
	@python3 -m tools.manual target/man

build: ## Prove and build what make install installs, for those who will install as root.
	@tools/install build

install: ## Prove, build and install it: make install PREFIX=/usr/local LIBDIR=lib. DESTDIR, MACHINE, CC, CFLAGS and LDFLAGS are honoured.
	@tools/install install

uninstall: ## Remove what make install has put under the same PREFIX, LIBDIR and DESTDIR.
	@tools/install uninstall

dist: ## Pack what make install installs into target/dist, for people without the kit: make dist MACHINE=x86_64, or aarch64.
	@tools/install dist

dev: ## Check one crate, past its holes: make dev CRATE=bits.
	cd crates/$(CRATE) && rt check --allow-holes

fmt: ## Lay out every file of Rattle and of proofs.
	@for crate in crates/*; do (cd $$crate && rt fmt) || exit 1; done

house: ## Hold the tree to the rules of the house.
	@python3 -m tests.house

believed: ## Count the lines of definitions that the promises stand on.
	@python3 -m tests.help.believed

spec: ## Write docs/SPEC.md, all that is believed on one page, under the heads of docs/RULES.md.
	@python3 -m tools.spec

limits: ## Change each number of the sections' definitions by one, see a row of the table of limits break, and list which.
	@python3 -m tests.help.limits

clean: ## Remove all that was built.
	rm -rf target crates/*/out
