# make            proves and builds the programs of ./clock2q and ./clock2q-simulate
# make try        runs the program of ./clock2q unproved, on five lines
# make check      proves the library for Rattle, without tests, over what is proved already
# make test       the gate: all proofs, must-fail edits, tests and programs
# make edits      tries the must-fail edits outside the gate; CRATES='..' names crates
# make bindings   builds the bindings and tries them with what this machine has
# make install    proves and installs the C library; PREFIX=.. in place of /usr/local
# make dist       makes a release's packages in dist/, and installs each for a test
# make vendor     copies the library and its proofs into the repository INTO=..
# make bench      proves and runs the bench
# make pages      writes docs/CLAUSES.md from the sources, and README's figures from the other pages
# make clean      removes all that was proved and built
# make help       prints these lines
.SILENT:
.NOTPARALLEL:
.PHONY: all try check test edits bindings install dist vendor bench pages clean help
PREFIX = /usr/local
export PREFIX INTO

all: crates/clock2q_program/out/made crates/simulator/out/made

crates/clock2q_program/out/made: needs = some 32 minutes of processor time, 30 of the clock on two cores, \
	3 GB of disk and 6 GB of memory
crates/simulator/out/made: needs = up to 50 minutes of processor time and 6 GB of disk, or 24 minutes and \
	3 GB once clock2q is built, and 6 GB of memory

crates/%/out/made: always
	{ .bin/sources $* && cksum crates/$*/out/$*; } 2>/dev/null | cmp -s - $@ || \
		exec .bin/build $* '$(needs)' $$(cat crates/$*/args 2>/dev/null) <crates/$*/stdin
	test -e $@
always:

try:
	cd crates/clock2q_program && rt try <stdin

check:
	cd crates/clock2q && rt check

test:
	.ci/run

edits:
	.ci/edits $(CRATES)

bindings:
	bindings/test

install:
	bindings/c/install.sh "$$PREFIX"

dist:
	bindings/dist dist

vendor:
	.bin/vendor "$$INTO"

bench:
	cd crates/clock2q_bench && rt run

pages:
	.ci/clauses
	.ci/figures

clean:
	rm -rf crates/*/out

help:
	sed -n 's/^# make/make/p' Makefile
