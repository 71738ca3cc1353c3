# Builds what the repository makes. `make` alone lists the targets.

MAKEFLAGS += --no-builtin-rules
# rustc warns of a job server that it can't reach.
unexport MAKEFLAGS MFLAGS
.SUFFIXES:
.DELETE_ON_ERROR:
# Crates that don't stand on each other are proved side by side; `tools/prove` shares cores and memory among them.
ifeq ($(filter -j%,$(MAKEFLAGS)),)
MAKEFLAGS += -j6
endif

python := /usr/bin/python3
pytest := $(python) -m pytest -q

.PHONY: help
help: ## list the targets
	@sed -n 's/^\([a-z-]*\):.*## \(.*\)/\1\t\2/p' $(MAKEFILE_LIST) | sort | expand -t 16

## Crates: a rule for each line of crates.txt. A crate is proved after those that it stands on.

sources := $(shell find crates/*/src crates/*/specs crates/*/proofs -type f ! -name 'tests*' 2>/dev/null)
lines := $(shell sed -n 's/^\([a-z_]*\)[^:]*: */\1:/; s/ /,/g; /^[a-z_]*:/p' crates.txt)
crates := $(foreach line,$(lines),$(firstword $(subst :, ,$(line))))
goals := $(or $(MAKECMDGOALS),all)
began := $(shell date +%s)
comma := ,

# Without the kit the first rule that needs it ends with a sentence that names the other command.
kit := $(shell command -v rt)
plain := out/plain
instead_of_bb := `make plain` builds bb, cover and recurrence by cargo, without proofs
instead_of_cover := $(instead_of_bb)
instead_of_recurrence := $(instead_of_bb)
instead_of_library := `make plain-library` builds the library by cargo, without proofs
instead := $(firstword $(foreach goal,$(goals),$(if $(instead_of_$(goal)),$(goal))))
need_kit = $(if $(kit),,$(error `make $(goals)` needs the Rattle kit, and its program rt isn't installed$(if \
    $(instead),; $(instead_of_$(instead)))))

define crate_rule
needs_of_$(1) := $(filter $(crates),$(subst $(comma), ,$(2)))
crates/$(1)/out/proved: $$(patsubst %,crates/%/out/proved,$$(needs_of_$(1))) $(filter crates/$(1)/%,$(sources))
	$$(need_kit)
	@tools/prove $(1) --goals "$(goals)" --since $(began)
endef
$(foreach line,$(lines),$(eval $(call crate_rule,$(firstword $(subst :, ,$(line))),$(word 2,$(subst :, ,$(line))))))

## Programs

.PHONY: bb cover recurrence lister
bb: crates/bb/out/proved ## prove and build the program, crates/bb/out/bb
cover: crates/cover/out/proved ## prove and build the program that checks whether a list is complete
recurrence: crates/recurrence/out/proved ## prove and build the program that finds exact recurrences
lister: tools/out/tree_normal_form ## build the program that lists machines in tree normal form

tools/out/tree_normal_form: tools/tree_normal_form.rs
	@mkdir -p tools/out; part=$$(mktemp -d tools/out/XXXXXX); trap 'rm -rf "$$part"' EXIT; \
	rustc -O --edition 2021 -o "$$part/lister" $< && mv "$$part/lister" $@

## The library

built := crates/bb_c/out

.PHONY: library
library: $(built)/libbb.so ## prove and link the library for other languages: libbb.so, libbb.a, include/bb.h

$(built)/libbb.so: $(built)/proved Makefile
	$(need_kit)
	@echo "linking libbb.so" >&2
	@set -e; parts=$$(mktemp -d); trap 'rm -rf "$$parts"' EXIT; \
	top=$$PWD; kit=$$(dirname "$$(rt doc)"); cd "$$parts"; \
	ar x "$$top/$(built)/libbb_c.a"; ar x "$$kit/c/liblibc_c.a"; ld -r -o bb.o ./*.o; \
	objcopy --wildcard --keep-global-symbol='bb_*' bb.o; \
	rm -f "$$top/$(built)/libbb.a"; ar rcs "$$top/$(built)/libbb.a" bb.o; \
	cc -shared -Wl,-soname,libbb.so -Wl,-z,noexecstack -o libbb.so bb.o; \
	mv libbb.so "$$top/$@"

## Packages and the page

package := $(shell find python/src python/pyproject.toml python/setup.py python/README.md -type f \
    ! -name '*.pyc' ! -name libbb.so 2>/dev/null)
page := $(shell find web -type f ! -path 'web/out/*' ! -path 'web/tests/*' ! -path '*/node_modules/*' 2>/dev/null)

.PHONY: wheel web npm
wheel: python/dist/built ## build the wheel of the Python package, in python/dist
web: web/out/bb.html ## build the engine as WebAssembly and the page, in web/out
npm: web/out/built ## build the npm package, in web/out

# Without the kit packages have the library that cargo builds.
packaged := $(if $(kit),$(built),$(plain)/target/release)/libbb.so

python/dist/built: $(packaged) $(package) python/build_wheel.py tools/build_info.py
	$(python) python/build_wheel.py --library $(packaged)
	@touch $@

web/out/bb.wasm: $(built)/libbb.so web/build_module.sh web/narrow.py
	web/build_module.sh

web/out/bb.html: web/out/bb.wasm $(page) $(wildcard examples/*/*)
	$(python) web/bundle.py

web/out/built: web/out/bb.wasm $(page)
	$(python) web/package.py
	@touch $@

## Without the kit

.PHONY: plain
plain: ## write the crates as a Cargo workspace without contracts, out/plain, and build it
	@plain/build.py

.PHONY: plain-library
plain-library: $(plain)/target/release/libbb.so ## link the library of that workspace: libbb.so and libbb.a in out/plain/target/release

.PHONY: always
$(plain)/built-bb_c: always
	@plain/build.py bb_c

# The nine calls and bb_is_plain stay global; Rust's std becomes local, so that a Rust program has its own beside it.
$(plain)/target/release/libbb.so: $(plain)/built-bb_c
	@set -e; parts=$$(mktemp -d); trap 'rm -rf "$$parts"' EXIT; cd $(@D); \
	calls=$$(nm -g --defined-only libbb_c.a 2>/dev/null | sed -n 's/^.* T \(bb_[a-z_]*\)$$/-u \1/p'); \
	ld -r --strip-debug --gc-sections --force-group-allocation $$calls -o "$$parts/bb.o" libbb_c.a; \
	objcopy --wildcard --keep-global-symbol='bb_*' "$$parts/bb.o"; \
	rm -f libbb.a; ar rcs libbb.a "$$parts/bb.o"; \
	cc -shared -Wl,-soname,libbb.so -Wl,-z,noexecstack -o "$$parts/libbb.so" "$$parts/bb.o"; \
	mv "$$parts/libbb.so" libbb.so

manual_page := out/budlarem.1

.PHONY: manual
manual: ## write the manual page of the command budlarem from its parser, out/budlarem.1
	@mkdir -p $(dir $(manual_page)); $(python) python/build_manual.py $(manual_page)

## The second checker

.PHONY: coq coq-check
coq: ## build the second checkers and their proofs by Coq, coq/out/checker and coq/out/cover
	@MAKEFLAGS='$(MAKEFLAGS)' $(MAKE) --no-print-directory -C coq
coq-check: ## let coqchk look at the second checker's proofs too
	@MAKEFLAGS='$(MAKEFLAGS)' $(MAKE) --no-print-directory -C coq check

## Complete lists

programs := $(if $(kit),bb cover recurrence library,plain plain-library)

.PHONY: complete-lists
complete-lists: lister $(programs) ## decide all machines of eight sizes, some 50 minutes on four cores; fill docs/complete-lists.md
	tools/complete_lists --sample 6x2
	tools/complete_lists --sample 4x3
	tools/complete_lists
	tools/complete_lists --page

four := coq/out/four
.PHONY: coq-four-states
coq-four-states: $(firstword $(programs)) lister coq ## turn the complete list of four states into one theorem of Coq
	@mkdir -p $(four)
	tools/tree_normal_form --states 4 | ./bb decide --steps 200 > $(four)/verdicts.txt
	coq/theorem --cover --jobs $$(nproc) $(four)/verdicts.txt $(four)/Covered.v

## All of it

.PHONY: release test test-all bench clean
release: $(programs) $(if $(kit),web npm) lister ## build the folder that runs without the repository, dist/
	tools/release
test: ## the gate, the build and the tests, without the slow ones
	./test
test-all: ## the gate, the build and all tests
	./test --all
bench: bb ## compare the program's times with those of its peers
	benchmarks/measure.py
clean: ## remove what was built, but for the proofs
	rm -rf web/out python/dist coq/out tools/out dist
