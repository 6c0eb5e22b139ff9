# make                 this help
# make lib             the proved library for C and its header, in build/: libwhemdrosk.a, libwhemdrosk.so (which tools/whemdrosk calls), whemdrosk.h
# make run FORM=FILE   runs a net for 6 cycles, every source with 1, 2, 3, and prints each delivery; FILE is a stored form or a text, as examples/add5.net
# make stall FORM=FILE CYCLE=3 CHANNEL=0   says what a channel of a net waits for after 3 cycles; STREAMS=10,20,30 READY=3,1.. OFFER=1,0
# make placements FORM=FILE   lists where buffers may go in a net of at most 6 channels
# make record FORM=FILE STREAMS=10,20,30 CYCLES=6 TRACE=FILE   runs a net and writes its recording; READY=3,1,3 has the ready masks of the first cycles
# make diff FIRST=FILE SECOND=FILE   lays two recordings beside each other, channel by channel; CHANNEL=1 for one
# make bays            steps two bays of one net, of which one stalls, shows bays that are refused beside others, and lets three bays take turns
# make examples        writes the stored forms and recordings of examples/ again from their texts
# make pictures        writes the pictures and tables of the pages again, by the tool and Graphviz
# make bench           the speed of the library beside plain C
# make soak            the library beside the model over a million random nets; NETS=3000000 SEED=7 for more and for others
# make host            the host tests on the library as it is
# make test            rt ci (every crate proved, the must-fail edits, the programs), then the library and the host tests; its last line is 'N passed, 0 failed'
# make clean           removes what was built and proved
#
# The first command that needs a program or the library proves it and what it rests on, in some minutes, and says which crate is done, of how many; then nothing
# is proved again before it changes. tools/whemdrosk --help is the planner's tool: it checks, runs and draws nets once make lib is done.
SHELL = /bin/bash
MAKEFLAGS += --no-print-directory
LIB = build/libwhemdrosk.a
SHARED = build/libwhemdrosk.so
HEADER = build/whemdrosk.h
TOOL = tools/whemdrosk
# A program lies where rt run and rt ci leave it.
PROGRAM_NAMES = netrun netplace placetry baytry netdiff difftry netstall stalltry
program = crates/$(1)/out/$(1)
NETRUN = $(call program,netrun)
NETPLACE = $(call program,netplace)
PLACETRY = $(call program,placetry)
BAYTRY = $(call program,baytry)
NETDIFF = $(call program,netdiff)
DIFFTRY = $(call program,difftry)
NETSTALL = $(call program,netstall)
STALLTRY = $(call program,stalltry)
PROGRAMS = $(foreach name,$(PROGRAM_NAMES),$(call program,$(name)))
# What is proved; out/ has what rt made.
SOURCES := crates.txt $(wildcard HANDLES) $(shell find crates -name out -prune -o \( -name '*.rt' -o -name '*.antt' \) -print)

NETS = 1000000
SEED = 2
# How many broken copies are tried at once.
CORES := $(shell nproc 2> /dev/null || echo 2)

.PHONY: help test host lib run placements record diff stall shown bays examples pictures soak bench clean
# Two runs of rt at once would share the crates' out/.
.NOTPARALLEL:

# The lines at the head of this file.
help:
	@sed -n '/^# \?/!q; s/^# \?//p' Makefile

# rt ci comes first, with no names, on the tree as it stands, and its last line is the verdict, which is said again once all passes; a must-fail edit that is bad counts for nothing there and
# fails here. Then come the programs as it built them and the library from the crates as it proved them.
test:
	@mkdir -p build
	set -o pipefail; began=$$(date +%s); rt ci 2>&1 | tee build/ci.log && echo "$$(($$(date +%s) - began)) rt ci" > build/steps.log
	@grep -q '^rt: ok' build/ci.log
	@! grep '^rt: ok.*, [1-9][0-9]* bad' build/ci.log
	rm -f $(LIB) $(SHARED)
	tools/timed "the library built" $(MAKE) lib
	$(MAKE) host
	@tools/dearest
	@tail -n 1 build/ci.log

# The pages; the library against a model in C, broken stand-ins that the comparison has to catch, the README's program, netrun on the examples; the placements, the
# bays, the recordings laid beside each other and the stalls that are followed likewise; the header's form writer, reasons and limits, and the editor's example; the planner's tool and its
# pages; what the library needs of memory.
host: lib $(PROGRAMS)
	tools/timed "the pages" $(MAKE) -C tests pages
	tools/timed "library and model" $(MAKE) -C tests check LIB=../$(LIB)
	tools/timed "broken stand-ins" $(MAKE) -j$(CORES) -C tests mutants watchdog
	tools/timed "placements and model" $(MAKE) -C tests placements NETPLACE=../$(NETPLACE) PLACETRY=../$(PLACETRY)
	tools/timed "broken stand-ins of placements" $(MAKE) -j$(CORES) -C tests place-mutants
	tools/timed "bays and model" $(MAKE) -C tests bays BAYTRY=../$(BAYTRY)
	tools/timed "broken stand-ins of bays" $(MAKE) -j$(CORES) -C tests bay-mutants
	tools/timed "recordings and model" $(MAKE) -C tests diffs NETDIFF=../$(NETDIFF) DIFFTRY=../$(DIFFTRY)
	tools/timed "broken stand-ins of recordings" $(MAKE) -j$(CORES) -C tests diff-mutants
	tools/timed "stalls and model" $(MAKE) -C tests stalls NETSTALL=../$(NETSTALL) STALLTRY=../$(STALLTRY)
	tools/timed "broken stand-ins of stalls" $(MAKE) -j$(CORES) -C tests stall-mutants
	tools/timed "the pages' recordings and stalls" $(MAKE) shown
	tools/timed "the README's program" $(MAKE) -C tests readme LIB=../$(LIB) HEADER=../$(HEADER)
	tools/timed "the header and the editor's example" $(MAKE) -C tests header LIB=../$(LIB) HEADER=../$(HEADER)
	tools/timed "broken headers" $(MAKE) -j$(CORES) -C tests header-mutants LIB=../$(LIB) HEADER=../$(HEADER)
	tools/timed "the tool" $(MAKE) -C tests tool
	tools/timed "broken tools" $(MAKE) -C tests tool-mutants
	tools/timed "the pages' commands and pictures" $(MAKE) -C tests consoles
	tools/timed "the commands of make" $(MAKE) -C tests makes
	tools/timed "netrun on the examples" $(MAKE) -C tests netrun NETRUN=../$(NETRUN)
	tools/timed "what the library needs" $(MAKE) -C tests needs LIB=../$(LIB)

lib: $(LIB) $(SHARED) $(HEADER)

$(LIB): $(SOURCES)
	@tools/proved whemdrosk_c lib
	@cp crates/whemdrosk_c/out/libwhemdrosk_c.a $@
	@echo "$@: the proved library"

$(HEADER): include/whemdrosk.h
	@mkdir -p build
	@cp $< $@
	@echo "$@: its header"

# The proved code as a shared object, for the planner's tool and for languages other than C.
$(SHARED): $(LIB)
	@$(CC) -shared -Wl,--whole-archive $(LIB) -Wl,--no-whole-archive -o $@
	@echo "$@: the same, for $(TOOL)"

run: PROGRAM = $(NETRUN)
placements: PROGRAM = $(NETPLACE)
run placements:
	@test -n "$(FORM)" || { echo "usage: make $@ FORM=examples/add5.net" >&2; exit 2; }
	@$(MAKE) -s $(PROGRAM)
	@tools/onnet $(PROGRAM) "$(FORM)"

# The recording of a run, as tests/example.c writes it.
record: $(LIB)
	@test -n "$(FORM)" -a -n "$(CYCLES)" -a -n "$(TRACE)" || { echo "usage: make $@ FORM=examples/fork.form STREAMS=10,20,30,40 CYCLES=6 TRACE=build/ours.trace [READY=3,1,3]" >&2; exit 2; }
	@$(MAKE) -s -C tests build/example LIB=../$(LIB)
	@form=$$(tools/stored "$(FORM)") && tests/build/example -o "$(TRACE)" $(if $(READY),-r $(READY)) "$$form" $(CYCLES) $(STREAMS)

# netdiff prints nothing where it complains, and then this fails.
diff:
	@test -n "$(FIRST)" -a -n "$(SECOND)" || { echo "usage: make $@ FIRST=build/ours.trace SECOND=card.trace [CHANNEL=1]" >&2; exit 2; }
	@for f in "$(FIRST)" "$(SECOND)"; do test -r "$$f" -a ! -d "$$f" || { echo "make $@: cannot read $$f" >&2; exit 2; }; done
	@$(MAKE) -s $(NETDIFF)
	@$(NETDIFF) "$(FIRST)" "$(SECOND)" $(CHANNEL) | grep --line-buffered .

# The streams are arguments of their own, one for each source.
stall:
	@test -n "$(FORM)" -a -n "$(CYCLE)" -a -n "$(CHANNEL)" || { echo "usage: make $@ FORM=examples/fork.form CYCLE=3 CHANNEL=0 [STREAMS=10,20,30,40] [OFFER=1,0] [READY=3,1..]" >&2; exit 2; }
	@$(MAKE) -s $(NETSTALL)
	@tools/onnet $(NETSTALL) "$(FORM)" $(CYCLE) $(CHANNEL) $(if $(OFFER),offer=$(OFFER)) $(if $(READY),ready=$(READY)) $(STREAMS)

# The lines that netstall prints.
STALL_LINES = /^channel [0-9]* delivers$$/p; /^channel [0-9]*: \(no word comes\|its word is\)/p; /^ends \(at block\|in a circle\)/p; /^refused [0-9]*$$/p

# The pages' commands for recordings and stalls, as they stand there, print the lines that stand there.
shown: $(LIB) $(NETDIFF) $(NETSTALL)
	@mkdir -p build
	@sed -n '/^make \(record\|diff\) [A-Z]*=\(examples\|build\)/p' README.md > build/readme.sh
	@test $$(wc -l < build/readme.sh) -eq 3
	@sed -n '/^channel [0-9]*: \(equal\|first\|second\|differ\)/p' README.md > build/readme.lines
	@test $$(wc -l < build/readme.lines) -eq 4
	@$(SHELL) -e build/readme.sh | sed -n '/^channel /p' | diff build/readme.lines -
	@! $(MAKE) -s diff FIRST=build/ours.trace SECOND=examples/card.trace CHANNEL=128 2> build/readme.err
	@grep -q '^netdiff: 128 is no channel' build/readme.err
	@echo "the README's recordings: as it says"
	@for page in README.md docs/STALLS.md; do \
	  sed -n '/^make stall FORM=examples/p' $$page > build/stall.sh; \
	  sed -n '$(STALL_LINES)' $$page > build/stall.lines; \
	  test -s build/stall.sh || exit 1; \
	  $(SHELL) -e build/stall.sh | diff build/stall.lines - || exit 1; \
	  echo "the $$(wc -l < build/stall.sh) stalls of $$page: as it says"; \
	done
	@! $(MAKE) -s stall FORM=examples/fork.form CYCLE=3 CHANNEL=x 2> build/stall.err
	@grep -q '^netstall: ' build/stall.err

# A form for each text and a trace for each list of deliveries.
examples:
	@for f in examples/*.net; do $(TOOL) form --refused -o $${f%.net}.form $$f || exit 1; done
	@for f in examples/*.records; do $(TOOL) trace -o $${f%.records}.trace $$f || exit 1; done

# What the commands of the pages print, and their pictures, written again.
pictures: lib
	$(MAKE) -C tests consoles WRITE=--write

bays:
	@$(MAKE) -s $(BAYTRY)
	@$(BAYTRY)

$(PROGRAMS): $(SOURCES)
	@tools/proved $(@F) run
	@touch $@

soak: $(LIB)
	$(MAKE) -C tests soak LIB=../$(LIB) NETS=$(NETS) SEED=$(SEED)

bench: $(LIB) $(NETPLACE) $(NETDIFF)
	$(MAKE) -C bench run LIB=../$(LIB)
	$(MAKE) -C bench list NETPLACE=../$(NETPLACE)
	$(MAKE) -C bench diff NETDIFF=../$(NETDIFF)

clean:
	rm -rf crates/*/out build
	$(MAKE) -C tests clean
	$(MAKE) -C bench clean
