# `make` alone lists the targets below that have a line of their own.

TEXT ?= samples/hold1.txt
DECK ?=
PREFIX ?= /usr/local
DESTDIR ?=

version := $(shell cat VERSION)
major := $(firstword $(subst ., ,$(version)))
# all that rt reads, so that a file added or removed is seen; rt itself sees to which crate is out of date
sources := crates.txt $(shell find crates -mindepth 2 \( -name must-fail -o -name out \) -prune -o -print)
# the programs: each is a function, NAME_run, that answers the exit status, and a crate NAME_program whose main calls it; those of `make run` stand in a
# library of their own, so that it proves no more
called = $(shell sed -n 's/^pub fn \([a-z]*\)_run\W.*/\1/p' crates/$(1)/src/lib.rt)
first := $(call called,first_programs)
further := $(call called,further_programs)
programs := $(first) $(further)
linked := $(programs:%=target/programs/%)
# the libraries: the crate whose calls each exports, and what it is for
libraries := foambeetle foambeetle_office
crate_of_foambeetle := loading_c
about_foambeetle := How likely it is that a deck's fans last the voyage
crate_of_foambeetle_office := office_c
about_foambeetle_office := Deck files written ashore, chances and ratings in doubles
archives := $(libraries:%=target/lib/lib%.a)
shared := $(libraries:%=target/lib/lib%.so.$(version))
headers := $(libraries:%=target/lib/%.h)
pages := $(wildcard man/*.[0-9])
# the Python package, below the libraries, where it looks for them first
package := $(wildcard python/foambeetle/*.py) python/foambeetle/py.typed
package_place := lib/foambeetle/python/foambeetle
place = $(DESTDIR)$(PREFIX)
library_files = include/$(1).h lib/lib$(1).a lib/lib$(1).so lib/lib$(1).so.$(major) lib/lib$(1).so.$(version) lib/pkgconfig/$(1).pc
installed := $(programs:%=bin/%) $(foreach name,$(libraries),$(call library_files,$(name))) \
    $(package:python/foambeetle/%=$(package_place)/%) \
    $(foreach page,$(pages),share/man/man$(subst .,,$(suffix $(page)))/$(notdir $(page)))
progress := tests/progress.py target/build.log
# programs and archives run on every processor of the kind
processor := x86-64
# a compiler for x86-64, and the kit's C code for programs that take words or open files
cc = $(shell tests/tools.sh | head -n 1)
kit_code = $(addprefix $(shell dirname "$$(dirname "$$(readlink -f "$$(command -v rt)")")")/c/,libos_c.a liblibc_c.a)
export TEXT DECK

.PHONY: help run test samples lib install uninstall bench
.DELETE_ON_ERROR:
# rt works on one folder, and by itself on several crates at once
.NOTPARALLEL:

help: ## this list
	@awk -F ':.*## ' '/^[a-z]+:.*## / { printf "make %-10s %s\n", $$1, $$2 }' Makefile

run: $(first:%=target/programs/%) ## makes a text's deck and prints its figures (TEXT=file, samples/hold1.txt otherwise; DECK=file for a deck file), proving first what has changed
	@if [ -n "$$DECK" ]; then tests/run-program decklist --percent "$$DECK"; \
	    else tests/run-program deckmake "$$TEXT" | tests/run-program decklist --percent; fi

test: ## the gate: every proof from nothing, every must-fail edit, every program, the other tests; log in target/ci.log
	@tests/all.sh

# a text with a fault makes no file, and leaves the old one
samples: target/programs/deckmake ## makes each samples/NAME.deck from samples/NAME.txt, proving first what has changed
	@for text in samples/*.txt; do echo "$$text" && tests/run-program deckmake -o "$${text%.txt}.deck" "$$text" || exit 1; done

lib: $(archives) $(shared) $(headers) ## target/lib: libfoambeetle for the ship, libfoambeetle_office for ashore, .a, .so and .h, for C on x86-64

# a library's names without its version, and its pkg-config file
define put_beside
@ln -sf lib$(1).so.$(version) "$(place)/lib/lib$(1).so.$(major)"
@ln -sf lib$(1).so.$(version) "$(place)/lib/lib$(1).so"
@sed -e "s|@PREFIX@|$(PREFIX)|" -e "s|@VERSION@|$(version)|" -e "s|@NAME@|$(1)|" -e "s|@ABOUT@|$(about_$(1))|" \
    include/library.pc.in > "$(place)/lib/pkgconfig/$(1).pc"

endef

install: lib $(linked) ## programs, libraries, headers, the Python package and man pages to PREFIX (/usr/local), below DESTDIR where it is given
	@mkdir -p $(foreach folder,$(sort $(dir $(installed))),"$(place)/$(folder)")
	@install -m 755 $(linked) "$(place)/bin"
	@install -m 644 $(headers) "$(place)/include"
	@install -m 644 $(archives) $(shared) "$(place)/lib"
	$(foreach name,$(libraries),$(call put_beside,$(name)))
	@install -m 644 $(package) "$(place)/$(package_place)"
	@for page in $(pages); do install -m 644 "$$page" "$(place)/share/man/man$${page##*.}/" || exit 1; done
	@echo "installed below $(place): $(installed)"

uninstall: ## takes away what install put there
	@rm -f $(foreach file,$(installed),"$(place)/$(file)")
	@rm -rf "$(place)/$(package_place)"
	@rmdir "$(place)/lib/foambeetle/python" "$(place)/lib/foambeetle" 2>/dev/null || true

bench: ## the cost of a rating beside peers, and of a worth (docs/BENCH.md); no part of the tests
	@bench/run

# Programs that start without the kit: what rt proved and compiled, the kit's C code and the C library in one file.
$(linked): target/programs/%: target/objects/%.o
	@mkdir -p $(@D)
	@$(cc) -static -o $@ $< $(kit_code)

# rt builds a program to run it, and every program has its version to tell.
$(programs:%=target/objects/%.o): target/objects/%.o: $(sources)
	@mkdir -p $(@D)
	@$(progress) $*_program rt run --cpu $(processor) -- --version
	@cp crates/$*_program/out/$*_program.o $@

archived := $(foreach name,$(libraries),$(crate_of_$(name))) ratings_c
$(archived:%=target/staticlib/lib%.a): target/staticlib/lib%.a: $(sources)
	@mkdir -p $(@D)
	@$(progress) $* rt lib --cpu $(processor)
	@cp crates/$*/out/lib$*.a $@

$(foreach name,$(libraries),$(eval target/lib/lib$(name).a: target/staticlib/lib$(crate_of_$(name)).a))
$(archives):
	@mkdir -p $(@D)
	@cp $< $@

$(headers): target/lib/%: include/%
	@mkdir -p $(@D)
	@cp $< $@

# the shorter names are copies: rt takes no link below the checkout
$(shared): target/lib/lib%.so.$(version): target/lib/lib%.a
	@$(cc) -shared -nostartfiles -Wl,-soname,lib$*.so.$(major),--no-undefined -Wl,-z,noexecstack \
	    -o $@ -Wl,--whole-archive $< -Wl,--no-whole-archive
	@cp $@ $(@D)/lib$*.so.$(major)
	@cp $@ $(@D)/lib$*.so
