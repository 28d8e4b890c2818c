# Proves and builds the program out of the crates that crates.txt lists, each over what those below it state.
#   make                          out/applystream; after a failure it goes on with what is left
#   make install PREFIX=/usr/local    the program, its man pages, completions, and the stand-in for Terraform
#   make static                   out/applystream-static, which needs no C library
#   make deb · make dist          a Debian package; an archive to publish, with SHA256SUMS
#   make check                    the gate: every proof, edit, test and script
#   make clean                    forgets all of it
SHELL := bash
KIT := $(patsubst %/,%,$(dir $(shell rt doc)))
# rt passes over what lies here, which has the sources of libraries in it.
LIBS := $(CURDIR)/crates/applystream/out/rlib
PREFIX ?= /usr/local
# A job for each of up to four processors, and up to three crates at a time, where there are 7 GiB of memory for each.
JOBS ?= $(shell n=$$(nproc); echo $$((n < 4 ? n : 4)))
MAKEFLAGS += -j$(shell awk '/^MemAvailable/ { n = int($$2 / 7340032); print (n < 1 ? 1 : n > 3 ? 3 : n) }' /proc/meminfo)
OWN := $(shell sed -n 's/^\([a-z_]*\)[ :].*/\1/p' crates.txt)
uses = $(shell sed -n 's/^$(1)\( [^:]*\)\{0,1\}: *//p' crates.txt)
below = $(filter $(OWN),$(call uses,$(1)))
needs = $(sort $(1) $(foreach crate,$(call below,$(1)),$(call needs,$(crate))))
files = $(shell find crates/$(1)/src crates/$(1)/specs crates/$(1)/proofs -type f ! -path '*/src/tests*' 2>/dev/null)
CRATES := $(call needs,applystream)
# What the longest chain of crates does not wait for is proved next to it, and what only tools are made of steps back.
BESIDE := apply_json apply_json_tree apply_resolve apply_bus apply_cli_args apply_writer term_text term_words stream_lines stream_tool
ASIDE := stream_check stream_play stream_view stream_watch stream_timeline input_validate input_validate_cli
above = $(foreach it,$(CRATES),$(if $(filter $(1),$(call needs,$(it))),$(it)))
left = $$(for crate in $(CRATES); do [ -e $(LIBS)/$$crate.stamp ] || echo $$crate; done)
# A prover ends with the make that started it.
ends_with_make = set -m; trap 'kill -- -$$! 2>/dev/null' INT TERM HUP; $(1) & set +m; wait $$!

out/applystream: out/%: $(LIBS)/%.stamp
	@$(KIT)/bin/rattle-link --target x86_64-unknown-linux-gnu --toolchain $(KIT)/toolchain -o $@.new \
	  $@.o $(KIT)/c/libos_c.a $(KIT)/c/liblibc_c.a >$@.link.log 2>&1 || { cat $@.link.log >&2; false; }
	@mv $@.new $@

$(LIBS)/%.stamp: out/toolchain
	@mkdir -p $(LIBS) out; rm -f $(patsubst %,$(LIBS)/%.stamp,$(call above,$*))
	@echo "applystream: proving $*; left:" $(left) >&2
	@cd crates/$* && { $(call ends_with_make,nice -n $(if $(filter $*,$(ASIDE)),19,$(if $(filter $*,$(BESIDE)),5,0)) $(KIT)/bin/rattle build --crate-name $* --jobs $(if $(filter $*,$(BESIDE)),$$((($(JOBS) + 1) / 2)),$(JOBS)) -L dependency=$(KIT)/rlibs -L dependency=$(LIBS) \
	  --antt-project $(KIT)/rattle/logic/antt-project.json --logic-built $(KIT)/logic_built \
	  $(foreach it,std $(call uses,$*),--extern $(it)=$(if $(filter $(it),$(OWN)),$(LIBS),$(KIT)/rlibs)/$(it).rlib) \
	  $(if $(filter applystream,$*),src/main.rt --toolchain $(KIT)/toolchain --backend llvm -o $(CURDIR)/out/$*.o,src/lib.rt --statements -o $(LIBS)/$*.rlib) \
	  </dev/null >$(CURDIR)/out/$*.log 2>&1); } || { echo "applystream: $* was not proved or not built; out/$*.log says why" >&2; false; }
	@touch $@
$(foreach crate,$(CRATES),$(eval $(LIBS)/$(crate).stamp: $(call files,$(crate)) $(patsubst %,$(LIBS)/%.stamp,$(call below,$(crate)))))

# Two makes never build over each other, and what another toolchain made is made anew.
out/toolchain: FORCE
	@mkdir -p out; other=$$(cat out/make.pid 2>/dev/null); [ "$$(cat /proc/$$other/comm 2>/dev/null)" != make ] || [ $$other = $$PPID ] || { echo "applystream: make is at work here already, as process $$other" >&2; false; }
	@echo $$PPID >out/make.pid
	@version=$$(rt version) && { [ "$$version" = "$$(cat $@ 2>/dev/null)" ] || { rm -f $(LIBS)/*.stamp; echo "$$version" >$@; }; }
install: out/applystream; packaging/install $(DESTDIR)$(PREFIX)
static: out/applystream; cc -static -o out/applystream-static out/applystream.o $(KIT)/c/libos_c.a $(KIT)/c/liblibc_c.a
deb: out/applystream; packaging/deb
dist: static deb; packaging/dist
check:; ./check
clean:; rm -rf out crates/*/out
FORCE:
.PHONY: FORCE install static deb dist check clean
.DELETE_ON_ERROR:
