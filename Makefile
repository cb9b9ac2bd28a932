# Proves each library that the program needs, then the program, and links it. `./s10` calls this (docs/BUILDING.md); `make -n`
# shows what is out of date. A crate is proved again if a file of its src, specs or proofs, or a crate that it uses, is newer,
# or if its line of crates.txt or the kit is another. `.build/CRATE.proved` says with what it was proved, and has the time at
# which that began, so that a file which changes meanwhile is newer.

# Crates that are proved at the same time: 1.5 for each processor, and at most one for each 3 GB of free memory. Then jobs
# for a crate that is proved alone.
places := $(shell awk -v n=$$(nproc) '/^MemAvailable:/ { m = int($$2 / 3e6); if (m < 1) m = 1; \
    print (m < n * 3 / 2 ? m : int(n * 3 / 2)), (m < n ? m : n) }' /proc/meminfo)
MAKEFLAGS += --no-builtin-rules --output-sync=target -j$(firstword $(places))
SHELL := bash
.SHELLFLAGS := -eu -o pipefail -c
.ONESHELL:

rattle := $(or $(realpath $(shell command -v rattle)),$(error rattle, of the Rattle kit, must be on the PATH))
kit := $(patsubst %/bin/,%,$(dir $(rattle)))
built := .build

# How a crate is proved if not as most are: with one job, before those that can wait, into a library without proofs, which
# the crates above it read faster.
alone := s10_core s10_wire s10_history s10_host s10# nothing else can be proved beside the first and the last
two_jobs := s10_index s10_ledger s10_jobs# the longest that others wait for
can_wait := s10_notes s10_reports s10_snapshot s10_grammar s10_cli# what is proved last waits for them, and nothing else
with_proofs := s10_statements s10_ledger s10_host# over sqlite, the statements are no shorter than their proofs

# crates.txt as words CRATE/LIBRARY, with CRATE/std for each crate.
uses := $(shell awk -F: '!/^\#/ && NF > 1 { split($$1, name, " "); print name[1] "/std"; \
    for (i = split($$2, names, " "); i; i--) print name[1] "/" names[i] }' crates.txt)
crates := $(patsubst %/std,%,$(filter %/std,$(uses)))
files := $(shell find crates -name out -prune -o \( -name '*.rt' -o -name '*.antt' \) -print)

used_by = $(patsubst $(1)/%,%,$(filter $(1)/%,$(uses)))
sources_of = $(filter crates/$(1)/src/% crates/$(1)/specs/% crates/$(1)/proofs/%,$(files))
# What a crate is proved with, and the word `again` if it was proved with something else.
means_of = $(used_by) by $(shell cat $(kit)/KIT-ID)
again_if_other = $(if $(findstring <$(means_of)>,<$(strip $(file < $(built)/$(1).proved))>),,again)
library_of = $(if $(filter $(1),$(crates)),../../$(built),$(kit)/rlibs)/$(1).rlib
jobs_of = $(if $(filter $(1),$(alone)),$(lastword $(places)),$(if $(filter $(1),$(two_jobs)),2,1))
result_of = $(if $(filter s10,$(1)),src/main.rt --backend rattle --toolchain $(kit)/toolchain -o ../../$(built)/s10.o, \
    src/lib.rt $(if $(filter $(1),$(with_proofs)),,--statements) -o ../../$(built)/$(1).rlib)

crates/s10/out/s10: $(built)/s10.proved
	@mkdir -p $(@D)
	$(kit)/bin/rattle-link --target x86_64-unknown-linux-gnu --toolchain $(kit)/toolchain -o $@ $(built)/s10.o \
	    $(kit)/c/libos_c.a $(kit)/c/liblibc_c.a

define rule
$(built)/$(1).proved: $(sources_of) $(patsubst %,$(built)/%.proved,$(filter $(crates),$(used_by))) $(again_if_other)
	@mkdir -p $(built)
	echo '$(means_of)' >$(built)/$(1).begun
	cd crates/$(1)
	nice -n $(if $(filter $(1),$(can_wait)),5,0) $(rattle) build --crate-name $(1) \
	    $(foreach it,$(used_by),--extern $(it)=$(call library_of,$(it))) -L dependency=../../$(built) \
	    -L dependency=$(kit)/rlibs --logic-built $(kit)/logic_built --antt-project $(kit)/rattle/logic/antt-project.json \
	    --jobs $(jobs_of) $(result_of)
	mv ../../$(built)/$(1).begun ../../$$@
	echo '== $(1)'
endef
$(foreach it,$(crates),$(eval $(call rule,$(it))))
.PHONY: again
