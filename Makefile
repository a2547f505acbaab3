# make            prove every crate, build the archive, the tool and the programs into build/, then seal and open a line
# make test       the whole gate: tests from outside, proofs from nothing, must-fail edits, programs
# make bench      the archive beside the independent implementation
# make install    header, archive, pkg-config file and tool, below PREFIX
# make clean      remove what was built
.DEFAULT_GOAL := all
.PHONY: all test clean
.NOTPARALLEL:

include outside.mk

all: have-rt have-cc have-rustc
	rt all check
	@$(MAKE) --no-print-directory outside-build programs demo

test: have-rt
	@.ci/run

clean:
	rm -rf build crates/*/out
