.PHONY: help quick run build lib quick-lib install package check test edits lint lines earned bench-index
.PHONY: try-copies try-readers try-points try-devices try-fuzz try-growth-times try-plans try-round-trip try-details try-exports try-recipes try-crashes
.PHONY: map proofs laws mutants words
.NOTPARALLEL:
SECONDS ?= 60
PREFIX ?= /usr/local
TQL ?= tql
SCRIPT ?= examples/pay.sql

define HELP
To use the program:
  make run          runs the script SCRIPT=path (or an example) by ./tql if that is new, else by ./tql-quick, which it makes first
  make quick        compiles ./tql-quick, optimized and without a proof, in some four minutes
  make build        proves it, with a line for each crate, and leaves it as ./tql
  make lib          proves the library for C, Python and Rust, and leaves libtql.so, libtql.a and tql.pc in build/
  make quick-lib    compiles it in minutes and without a proof
  make install      installs ./tql (or TQL=path), its tools, manual page, completions and documents below PREFIX=/usr/local, and the library of build/
  make package      packs the same as dist/tql-VERSION-linux-x86_64.tar.gz and a .deb
To prove and test:
  make check        tries all that needs no proof: cases, units, command lines, documents and tools, in some ten minutes
  make test         runs the gate: make lint, the command lines of the program, every proof and every test, from nothing; says what it cost
                    PLAIN=1 runs rt ci as the kit has it (see tools/gate.py), which takes hours with some kits
  make edits        tries the must-fail edits, which the prover must refuse: all, or CRATE=name, or EDIT=name too
  make lines        tries the command lines of the program and the tools' tests, in a minute once make quick is done, and without a proof
  make lint         checks code, documents, their numbers and what each crate costs the gate, in seconds
  make map          prints what each crate is, by area; with CRATE=name what the modules of one are
  make proofs       prints the public functions that have contracts, by area; with CRATE=name those of one, with all that they say
  make laws         prints the laws about the definitions
  make mutants      prints the mutants of the gate, each with what would be wrong
  make words        counts the words of the documents, by page
To measure and to try at length:
  make bench-index  proves and runs the program that times the indexes; COUNTS="1000 10000" are its numbers of entries
  make try-NAME     copies, readers, points: are the generated cases up to date? devices, fuzz (SECONDS=60), growth-times,
                    crashes (COUNT=1000), plans (COUNT=1000), round-trip, details, exports, recipes: try ./tql at length
endef
export HELP

help:
	@echo "$$HELP"

quick:
	@tools/quick.py

run:
	@tools/run.sh "$(SCRIPT)" || { status=$$?; [ $$status -eq 1 ] || exit $$status; echo "make run: tql ended with status 1" >&2; }

build:
	@tools/build.py

lib:
	@tools/library.py

quick-lib:
	@tools/library.py --quick

install:
	@tools/install.py "$(TQL)" "$(DESTDIR)$(PREFIX)"

package:
	@tools/package.py "$(TQL)"

check:
	@tools/check.py

test: lint lines
	@tools/gate.py $(if $(PLAIN),--plain)

edits:
	@tools/edits.py "$(CRATE)" "$(EDIT)"

lines:
	@tools/lines.py

lint:
	@status=0; for it in earned cost mutants version documents counts; do tools/$$it.py || status=1; done; exit $$status

map:
	@tools/map.py $(CRATE)

proofs:
	@tools/proofs.py $(CRATE)

laws:
	@tools/proofs.py --laws

mutants:
	@tools/mutants.py --said

words:
	@tools/words.py --look

earned:
	@tools/earned.py

bench-index:
	@benches/index.sh $(COUNTS)

try-copies try-readers try-points:
	@tools/$(@:try-%=%).py --look

try-devices:
	@tools/devices.py

try-fuzz:
	@tools/fuzz.py $(SECONDS)

try-growth-times:
	@tools/sizes.py

try-plans:
	@tools/plans.py $(COUNT)

try-crashes:
	@tools/crashes.py $(or $(COUNT),1000) && tools/crashes.py --restarts 500

try-round-trip:
	@tools/round_trip.py

try-details:
	@tools/details.py

try-exports:
	@tools/exports.py

try-recipes:
	@tools/recipes.py
