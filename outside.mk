# Everything around the verified library.
#
#   have-rt, have-cc, have-c++, have-rustc   say in one line that a tool is missing
#   outside-build   build/libtikhoplav.a and build/tikhoplav, the command-line tool
#   programs        the programs on the proved code, run once each
#   outside-test    the archive, the header, the tool and the installation, tried from outside
#   outside-lint    layout and lints of the code outside; needs rustfmt, clippy-driver and shellcheck
#   bench           the archive beside the independent implementation
#   demo            seals and opens a line
#   install         header, archive, pkg-config file and tool below $(DESTDIR)$(PREFIX)

PREFIX ?= /usr/local
VERSION := $(shell sed -n 's/^.define TIKHOPLAV_VERSION "\(.*\)"/\1/p' include/tikhoplav.h)

ifeq ($(origin CC),default)
CC := gcc
endif
ifeq ($(origin CXX),default)
CXX := g++
endif
# From PATH, or from where rustup puts it.
RUSTC ?= $(or $(shell command -v rustc),$(wildcard $(HOME)/.cargo/bin/rustc),rustc)

OUT := build/outside

.PHONY: outside-build programs outside-test try-model try-calls outside-lint bench demo install have-rt have-cc have-c++ have-rustc

outside-build: have-rt have-cc have-rustc build/libtikhoplav.a build/tikhoplav

need = @command -v $(1) >/dev/null || { echo "missing: $(1), $(2), on PATH" >&2; exit 1; }

have-rt:
	$(call need,rt,the command of the Rattle toolchain (rattle-kit-13f))

have-cc:
	$(call need,$(CC),a C compiler)

have-c++:
	$(call need,$(CXX),a C++ compiler)

have-rustc:
	$(call need,$(RUSTC),the Rust compiler)

$(OUT):
	mkdir -p $@

# The archive depends on the files that are proved and on their folders, so that a removed file counts too. It is for every x86-64 processor.
VERIFIED := bits key lengths refusals tagged untagged length_codes captures generators preoutput strokes authenticator machine startup strings payload checks frame_checks mode_checks limits grain128aead grain128a grainv1 named_edition frames named_frames stream_checks stream_state streams signals capi capi_c
PROVED := $(shell find $(foreach crate,$(VERIFIED),$(wildcard $(addprefix crates/$(crate)/,src specs proofs))))

build/libtikhoplav.a: crates.txt $(PROVED) | $(OUT)
	cd crates/capi_c && rt lib --cpu x86-64
	cp crates/capi_c/out/libcapi_c.a $@

# rt builds a program to run it. What it writes is compared.
programs: have-rt | $(OUT)
	@for program in vectors table3 editions engines; do \
	  (cd crates/$$program && rt run | cmp - stdout) && cp crates/$$program/out/$$program build/ || exit 1; \
	done

# The Rust crates: what all share, the tool, the independent implementation, and the two programs that use it.
RUST := $(RUSTC) --edition 2021 -C opt-level=3 -C linker=$(CC)
SHARED := $(OUT)/libtikhoplav.rlib
MODEL := $(OUT)/libmodel.rlib
EXTERNS := --extern tikhoplav=$(SHARED) --extern model=$(MODEL)

$(SHARED): cli/lib.rs $(addprefix cli/,$(addsuffix .rs,archive capture_vectors captures frames grain128a grain128a_vectors grainv1 grainv1_vectors hex pieces signal_vectors signals sizes vectors)) cli/capture.hex build/libtikhoplav.a
	$(RUST) --crate-type rlib --crate-name tikhoplav -L native=build -o $@ $<

build/tikhoplav: cli/main.rs $(wildcard cli/*.rs) cli/help.txt include/tikhoplav.h $(SHARED)
	TIKHOPLAV_VERSION=$(VERSION) $(RUST) -C strip=symbols --crate-name tool --extern tikhoplav=$(SHARED) -o $@ $<

$(MODEL): tests/model.rs $(wildcard tests/model/*.rs) | $(OUT)
	$(RUST) --crate-type rlib --crate-name model -o $@ $<

$(OUT)/harness: tests/harness/main.rs $(wildcard tests/harness/*.rs tests/harness/*/*.rs) $(SHARED) $(MODEL)
	$(RUST) --crate-name harness $(EXTERNS) -o $@ $<

# What the bench times beside the calls.
$(OUT)/libprobes.a: crates.txt $(PROVED) $(shell find $(wildcard $(addprefix crates/probes/,src specs proofs))) | $(OUT)
	cd crates/probes && rt lib --cpu x86-64
	cp crates/probes/out/libprobes.a $@

$(OUT)/bench: bench/main.rs $(wildcard bench/*.rs) $(SHARED) $(MODEL) $(OUT)/libprobes.a
	$(RUST) --crate-name bench $(EXTERNS) -L native=$(OUT) -o $@ $<

# The C programs: as C and as C++ with sanitizers, and without them for valgrind, which sees into the archive too.
WARNINGS := -Wall -Wextra -Wpedantic -Wshadow -Wconversion -Wsign-conversion -Wcast-qual -Wundef -Werror
C99 := $(CC) -std=c99 $(WARNINGS) -Wstrict-prototypes -Wmissing-prototypes -Wc++-compat -Iinclude
CXX11 := $(CXX) -std=c++11 $(WARNINGS) -Iinclude -x c++
SANITIZE := -O1 -g -fsanitize=address,undefined -fno-sanitize-recover=all
PROGRAMS := calls frames captures signals streams grain128a grainv1
TRIED := $(foreach program,$(PROGRAMS),$(addprefix $(OUT)/$(program)-,c c++ plain))

$(TRIED): tests/checks.h tests/sections.h include/tikhoplav.h build/libtikhoplav.a

# memset is bound before the first call, so that the dynamic linker takes no stack in it.
$(OUT)/stack: tests/stack.c tests/sections.h include/tikhoplav.h build/libtikhoplav.a
	$(C99) -Wl,-z,now $< build/libtikhoplav.a -o $@

$(OUT)/%-c: tests/%.c
	$(C99) $(SANITIZE) -pthread $< build/libtikhoplav.a -o $@

$(OUT)/%-c++: tests/%.c
	$(CXX11) $(SANITIZE) -pthread $< -x none build/libtikhoplav.a -o $@

$(OUT)/%-plain: tests/%.c
	$(C99) -g -pthread $< build/libtikhoplav.a -o $@

# The model's comparisons take as long as all the others: they run beside them.
outside-test: have-c++ outside-build $(TRIED) $(OUT)/stack $(OUT)/harness
	@$(MAKE) -s --no-print-directory -f outside.mk -j 2 -Otarget try-model try-calls

try-model:
	@echo '== the archive beside the model'
	@$(OUT)/harness

try-calls:
	@echo '== the header alone, as C and as C++'
	@$(C99) -fsyntax-only -x c include/tikhoplav.h
	@$(CXX11) -fsyntax-only include/tikhoplav.h
	@echo '== what the archive needs from elsewhere'
	@needed=$$(nm --undefined-only --format=posix build/libtikhoplav.a | sed -n 's/ U.*//p') && echo $$needed && \
	  [ "$$(echo $$needed)" = memset ] || { echo 'the header says memset' >&2; exit 1; }
	@echo '== the stack that the calls take'
	@$(OUT)/stack
	@echo '== the calls from C, with sanitizers'
	@for program in $(PROGRAMS); do $(OUT)/$$program-c || exit 1; done
	@echo '== the calls from C++, with sanitizers'
	@for program in $(PROGRAMS); do $(OUT)/$$program-c++ || exit 1; done
	@echo '== the calls from C, under valgrind'
	@if command -v valgrind >/dev/null; then \
	  for program in $(PROGRAMS); do \
	    valgrind --quiet --error-exitcode=1 --leak-check=full $(OUT)/$$program-plain || exit 1; \
	  done; \
	else echo 'left out: valgrind is not on PATH'; fi
	@echo '== the command-line tool'
	@tests/tool.sh build/tikhoplav include/tikhoplav.h
	@echo '== the command-line tool on payloads in pieces'
	@tests/check.sh build/tikhoplav include/tikhoplav.h
	@echo '== the command-line tool on CAN FD frames'
	@tests/frames.sh build/tikhoplav include/tikhoplav.h
	@echo '== the command-line tool on captures'
	@tests/captures.sh build/tikhoplav include/tikhoplav.h
	@echo '== the command-line tool on signals'
	@tests/signals.sh build/tikhoplav include/tikhoplav.h
	@echo '== the command-line tool with Grain-128a'
	@tests/grain128a.sh build/tikhoplav include/tikhoplav.h
	@echo '== the command-line tool with Grain v1'
	@tests/grainv1.sh build/tikhoplav include/tikhoplav.h
	@echo '== the installation'
	@$(MAKE) -s --no-print-directory -f outside.mk install DESTDIR= PREFIX=$(CURDIR)/$(OUT)/installed
	@tests/installed.sh $(CURDIR)/$(OUT)/installed $(VERSION) $(CC)

CLIPPY := clippy-driver --edition 2021 -D warnings --emit=metadata --out-dir $(OUT)/lint -L native=build

outside-lint: $(SHARED) $(MODEL) $(OUT)/libprobes.a
	rustfmt --edition 2021 --check cli/lib.rs cli/main.rs tests/model.rs tests/harness/main.rs bench/main.rs
	shellcheck cli/*.sh tests/*.sh
	$(CLIPPY) --crate-type rlib --crate-name tikhoplav cli/lib.rs
	$(CLIPPY) --crate-type rlib --crate-name model tests/model.rs
	TIKHOPLAV_VERSION=$(VERSION) $(CLIPPY) --crate-name tool $(EXTERNS) cli/main.rs
	$(CLIPPY) --crate-name harness $(EXTERNS) tests/harness/main.rs
	$(CLIPPY) --crate-name bench $(EXTERNS) -L native=$(OUT) bench/main.rs

bench: outside-build $(OUT)/bench
	@$(OUT)/bench

demo: outside-build
	@cli/demo.sh build/tikhoplav

install: build/libtikhoplav.a build/tikhoplav
	install -d $(addprefix $(DESTDIR)$(PREFIX)/,include lib/pkgconfig bin)
	install -m 644 include/tikhoplav.h $(DESTDIR)$(PREFIX)/include/tikhoplav.h
	install -m 644 build/libtikhoplav.a $(DESTDIR)$(PREFIX)/lib/libtikhoplav.a
	install -m 755 build/tikhoplav $(DESTDIR)$(PREFIX)/bin/tikhoplav
	sed 's|@PREFIX@|$(abspath $(PREFIX))|; s|@VERSION@|$(VERSION)|' include/tikhoplav.pc.in \
	  >$(DESTDIR)$(PREFIX)/lib/pkgconfig/tikhoplav.pc
