# The commands of the project; `make help` lists them.

ARCHIVE = target/staticlib/libkyntulei.a
REHEARSE = target/bin/rehearse
SAVE = target/bin/save
COUNT = 2000
CRATES =

.PHONY: help test edits demo soak c-tests contracts rehearsals bench archive programs

help:
	@echo "make test        the gate: proves every crate, tries the edits under must-fail, runs every test"
	@echo "make edits       tries all must-fail edits, those under must-fail-more too (several times as long), or those of CRATES='one other'"
	@echo "make demo        builds the programs and rehearses one evening in front of you"
	@echo "make soak        compares the programs with the plain one on COUNT=$(COUNT) inputs drawn from SEED=1"
	@echo "make rehearsals  the same on the gate's 200 inputs"
	@echo "make c-tests     the tests in C alone, over the archive of the exported functions"
	@echo "make contracts   whether what the pages name is there: contracts, laws, edits, places, links"
	@echo "make bench       instructions of an action, of an entry copied, of the other calls and of the programs, on x86-64 the calls' time too, beside plain C"
	@echo "make programs    target/bin/rehearse and target/bin/save"
	@echo "make archive     target/staticlib/libkyntulei.a, for C to link with include/kyntulei.h"

test:
	@tests/gate

edits:
	@tests/need
	@tests/edits $(CRATES)

demo: programs
	@sed 's/^/    /' tests/sites/whole.txt
	@echo
	@echo 'tests/site < tests/sites/whole.txt | ./rehearse'
	@echo
	@tests/site <tests/sites/whole.txt | ./rehearse | sed 's/^/    /'

soak:
	@$(MAKE) --no-print-directory rehearsals COUNT=$(COUNT)

c-tests: archive
	@$(MAKE) --no-print-directory -C tests test ENGINE=$(abspath $(ARCHIVE))

contracts:
	@tests/need
	@tests/contracts

rehearsals: programs
	@$(MAKE) --no-print-directory -C tests rehearsals PROGRAM=$(abspath $(REHEARSE)) SAVE=$(abspath $(SAVE))

bench: archive programs
	@tests/need bench
	@$(MAKE) --no-print-directory -s -C tests count ENGINE=$(abspath $(ARCHIVE)) PROGRAM=$(abspath $(REHEARSE)) SAVE=$(abspath $(SAVE))

archive:
	@tests/need
	@mkdir -p target/staticlib
	@cd crates/kyntulei && rt lib >../../target/staticlib.log 2>&1 || { cat ../../target/staticlib.log; exit 1; }
	@cp crates/kyntulei/out/libkyntulei.a $(ARCHIVE)

programs:
	@tests/need
	@mkdir -p target/bin
	@for program in rehearse save; do \
	    (cd crates/$$program && rt run >../../target/programs.log 2>&1 </dev/null) || { cat target/programs.log; exit 1; }; \
	    cp crates/$$program/out/$$program target/bin/; \
	done
