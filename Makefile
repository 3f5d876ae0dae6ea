# The targets, each with what it is for. `make` alone prints this list.

PREFIX ?= /usr/local

# Words of a run over no bytes: `build` needs a run that ends with status 0.
EMPTY_RUN = encode

MIB ?= 1024

#   make help               prints the targets
help:
	@sed -n 's/^#   make /make /p' $(firstword $(MAKEFILE_LIST))

#   make demo               encodes a file with each code, loses some packets, and decodes it from the others
demo:
	@sh demo/run.sh

#   make datagrams          sends files and datagrams over links that lose some, to two receivers too, on this machine
datagrams: build/eperftool
	@sh demo/datagrams.sh

#   make archive            keeps repair packets of a file apart, and restores the file where its sectors are hurt
archive: build/eperftool
	@sh demo/archive.sh

#   make pieces MIB=..      tries demo/pieces.sh, and times it over a file of so many MiB (1024), by one and by four
pieces: build/eperftool
	@MIB=$(MIB) tools/pieces.sh

#   make test               the gate: proves every crate, tries the must-fail edits, runs the tests and the program
test:
	rt ci
	@! command -v python3 > /dev/null || python3 tools/promises.py
	@! command -v python3 > /dev/null || python3 tools/trusted.py --check

#   make promises           prints the file and line of each promise of docs/PROMISES.md, and fails where one isn't there
promises:
	@python3 tools/promises.py -v

#   make trusted            prints the definitions that a reader must believe, and fails where files mix them with others
trusted:
	@python3 tools/trusted.py

#   make chains NAME=..     prints the way from a promise (IsDecodeRun, Peeler, ..), or from each, to its last definition
chains:
	@python3 tools/chains.py $(NAME)

#   make build              proves and builds the program, and prints its path: build/eperftool
build:
	cd crates/eperftool && rt run -- $(EMPTY_RUN) < /dev/null > /dev/null
	mkdir -p build
	cp crates/eperftool/out/eperftool build/eperftool
	@echo "built: $(CURDIR)/build/eperftool"

build/eperftool:
	$(MAKE) build

build/one_block:
	cd crates/one_block && rt run > /dev/null
	mkdir -p build
	cp crates/one_block/out/one_block build/one_block

#   make install PREFIX=..  installs the built program into PREFIX/bin (PREFIX is /usr/local if not given)
install: build/eperftool
	install -d $(DESTDIR)$(PREFIX)/bin
	install -m 755 build/eperftool $(DESTDIR)$(PREFIX)/bin/eperftool

#   make bench              times the built program, and its peak of memory
bench: build/eperftool
	@bench/run.sh

#   make plots              draws docs/pictures/*.svg from runs of the built program, some minutes; it wants gnuplot
plots: build/eperftool
	@bench/plots.sh

#   make fuzz CASES=.. SEED=..  holds the built program against a slow second reading of the pages, on random files
CASES ?= 2000
fuzz: build/eperftool
	@python3 tools/fuzz.py $(CASES) $(SEED)

#   make pages              runs the commands of README.md and docs/GUIDE.md, and compares what they print
pages: build/eperftool
	@python3 tools/pages.py

#   make faults             meets the built program with faults of the system: reads, writes, pipes, files, memory
faults: build/eperftool build/one_block
	@python3 tools/faults.py

.PHONY: help demo datagrams pieces archive test promises trusted chains fuzz pages faults plots build install bench
