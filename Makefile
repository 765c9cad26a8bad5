# PLAN: the plans of `make try` (several in quotes: PLAN="a.toml b.toml"). TRACE: the traces of `make try-trace`, likewise.
PLAN ?= plans/missing-tables.toml
TRACE ?= traces/granules.trace
# CRATE: the crates whose mutants are tried (all), or that `make quick` is for (those that have changed). SINCE: a commit; only what has changed since then is tried.
# JOBS: how many checks run side by side (one a processor).
CRATE ?=
SINCE ?=
JOBS ?=
# COUNT: how many random inputs of each kind, and random histories, `make fuzz` runs (2,000).
COUNT ?=
# Where `make install` puts the programs and what belongs to them.
PREFIX ?= /usr/local
DESTDIR ?=

PROGRAMS = realmhost rmitrace realmview
SHARE = $(DESTDIR)$(PREFIX)/share
LIB = $(DESTDIR)$(PREFIX)/lib

.PHONY: allocations bench build c-library c-test dist docs-html fuzz help install install-c-library lint memcheck mutants planted quick test try try-trace

help: ## lists the targets
	@grep -E '^[a-z-]+:.*## ' $(MAKEFILE_LIST) | sed 's/:.*## /\t/' | expand -t 20

try: ## one to three minutes: builds realmview with nothing proved, and explains PLAN
	@tools/try realmview $(PLAN) -- why

try-trace: ## one to three minutes: builds rmitrace with nothing proved, and checks TRACE
	@tools/try rmitrace $(TRACE) -- check

quick: ## at most five minutes: proves what has changed since main, or CRATE, and what is above it as far as the time lasts, and runs its tests
	@tools/quick $(CRATE)

build: ## proves the three programs with their libraries, and puts them into bin/
	@tools/build

c-library: ## proves the RMM and the host as libraries for C, and puts them into build/
	@tools/rmm-library

c-test: c-library ## tries the libraries from C, C++ and Python, with sanitizers, valgrind and random calls (needs a C compiler)
	@FUZZ_SECONDS=2 tools/pytest -q -m "" tests/test_c_library.py tests/test_host_library.py tests/test_examples.py tests/test_fuzz_c.py

dist: build c-library ## packs what is installed as a tar.gz and a .deb in build/dist, with sums and a list of contents (needs pandoc)
	@tools/dist

docs-html: ## makes a site of the documents in build/html, which can be read offline (needs pandoc)
	@tools/docs_html

install: ## copies what `make build` and `make c-library` have built, man pages, completions, documents, plans and traces below PREFIX
	@for it in $(PROGRAMS); do test -x bin/$$it || { echo "install: there is no bin/$$it yet: make build" >&2; exit 1; }; done
	install -d $(DESTDIR)$(PREFIX)/bin
	install -m 755 $(PROGRAMS:%=bin/%) $(DESTDIR)$(PREFIX)/bin
	tools/installed.py $(DESTDIR)$(PREFIX)
	@if test -f build/librmm.a; then $(MAKE) --no-print-directory install-c-library; \
	  else echo "install: there is no build/librmm.a, and the library for C is left out: make c-library"; fi

install-c-library: ## copies the library for C and Python alone below PREFIX, after `make c-library`
	install -d $(DESTDIR)$(PREFIX)/include $(LIB)/pkgconfig $(SHARE)/realmhost/python $(SHARE)/realmhost/examples/c
	install -m 644 include/rmm.h include/rmm_commands.h include/rhm.h $(DESTDIR)$(PREFIX)/include
	install -m 644 build/librmm.a build/librhm.a $(LIB)
	if test -f build/librmm.so.0; then install -m 755 build/librmm.so.0 build/librhm.so.0 $(LIB) && ln -sf librmm.so.0 $(LIB)/librmm.so && ln -sf librhm.so.0 $(LIB)/librhm.so; fi
	for it in rmm rhm; do sed 's|^libdir=.*|libdir=$${pcfiledir}/..|; s|^includedir=.*|includedir=$${pcfiledir}/../../include|' include/$$it.pc > $(LIB)/pkgconfig/$$it.pc; done
	install -m 644 python/rmm.py python/rhm.py $(SHARE)/realmhost/python
	install -m 644 examples/c/* $(SHARE)/realmhost/examples/c

test: ## the whole gate from nothing: proofs, tests, what the built programs print, and the documents
	@tools/gate
	@mkdir -p bin
	@for it in $(PROGRAMS) test_memory; do install -m 755 crates/$$it/out/$$it bin/$$it || exit 1; done
	@! command -v $(CC) > /dev/null || tools/rmm-library
	@tools/pytest -q -n auto

mutants: ## tries the mutants of CRATE or all: the prover has to refuse each
	@tests/mutants.py $(if $(JOBS),--jobs $(JOBS)) $(if $(SINCE),--since $(SINCE)) $(CRATE)

planted: ## tries edits that are no mutants, or those of CRATE alone; then all mistakes that are put into an RMM have to be found
	@tests/mutants.py $(if $(JOBS),--jobs $(JOBS)) --planted $(CRATE)
	@test -n "$(CRATE)" || tests/random_laws planted
	@test -n "$(CRATE)" || tools/pytest -q -n auto -m "" -k planted

allocations: ## refuses each allocation of the programs in turn, over all plans and traces; `make test` has the first of them
	@tools/build $(PROGRAMS) test_memory
	@tools/pytest -q -n auto -m "" tests/test_allocations.py

memcheck: build ## runs the programs under valgrind's memcheck
	@tools/pytest -q -n auto -m "" tests/test_memcheck.py

fuzz: build ## runs COUNT plans and traces of each kind of random change, long inputs, COUNT histories by registers, and random calls from C for a minute
	@tools/rmm-library
	@COUNT=$(or $(COUNT),2000) tools/pytest -q -n auto -m random

bench: build ## CPU time and peak memory of the program over plans of several shapes, and how they grow, and CPU time of each command of the RMM by registers, beside plain Rust (needs cargo)
	@tools/build test_memory
	@bench/run --series
	@bench/plot
	@bench/rmm
	@bench/explore
