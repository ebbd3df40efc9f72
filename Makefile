# `make help` prints the targets with what stands after ## here.
.PHONY: help demo test test-code format clippy test-c test-rust test-dist archive soak bench bench-peers curves dist install uninstall clean FORCE
# rt keeps its work in crates/*/out, and proves on all processors: no two at a time. What a failed command wrote does not count as built.
.NOTPARALLEL:
.DELETE_ON_ERROR:

CC = cc
CFLAGS = -std=c11 -O2 -Wall -Wextra -Werror -pedantic
CXX = c++
CXXFLAGS = -std=c++11 -O2 -Wall -Wextra -Werror -pedantic
# cm256cc's headers ask for USE_SSSE3; its library is built with it
PEERFLAGS = $(CXXFLAGS) -DUSE_SSSE3 -mssse3
CARGO = cargo
SECONDS = 3600
SEED =

archive = target/staticlib/liblipvezor.a
mir = target/mir/lipvezor.json
# LIPVEZOR_LIB_DIR may name a folder with an archive, for what neither tests nor packs; cargo gets absolute paths
given = $(if $(LIPVEZOR_LIB_DIR),$(abspath $(LIPVEZOR_LIB_DIR))/liblipvezor.a,$(archive))
cargo_given = $(foreach name,LIPVEZOR_LIB_DIR LIPVEZOR_EARLIER,$(if $($(name)),$(name)=$(abspath $($(name))) ))$(CARGO)
compile = $(CC) $(CFLAGS) -Iinclude
valgrind = valgrind -q --error-exitcode=1 --leak-check=full --malloc-fill=A5
clippy = $(cargo_given) clippy --quiet --offline --manifest-path rust/Cargo.toml
# tests take the archive that is built here, whatever is set
cargo_test = env -u LIPVEZOR_LIB_DIR -u LIPVEZOR_EARLIER $(CARGO) test --offline --release --manifest-path rust/Cargo.toml

help: ## this list
	@sed -n 's/^\([a-z-]*\):.*## /\1\t/p' Makefile | expand -t 14
	@echo "LIPVEZOR_LIB_DIR=FOLDER: clippy, bench, bench-peers and curves take the archive in FOLDER and build none"

demo: target/bin/demo ## a sample pass: encode, write units, lose some, take the rest, close, compare
	@target/bin/demo <crates/demo/stdin

# rt ci comes last: its last line is the verdict
test: test-code ## all that decides whether a change may land; the last line says it
	tools/ci

test-code: need-test format clippy test-c test-dist test-rust ## all of make test but rt ci

format: need-format ## is the Rust code in cargo fmt's layout?
	$(CARGO) fmt --check --manifest-path rust/Cargo.toml

clippy: need-clippy $(given) ## what clippy says of the Rust code, with and without its features
	$(clippy) --all-targets -- -D warnings
	$(clippy) --lib --no-default-features -- -D warnings
	$(clippy) --lib --no-default-features --features alloc -- -D warnings

test-c: need-test-c $(archive) ## C examples, plainly and under valgrind; the header from C and C++; the stack that each call takes
	$(compile) examples/roundtrip.c $(archive) -o target/roundtrip
	target/roundtrip
	$(valgrind) target/roundtrip
	$(compile) examples/file.c $(archive) -o target/file
	target/file
	$(valgrind) target/file -2 -w 5 -l 20 include/lipvezor.h target/file.recovered
	cmp include/lipvezor.h target/file.recovered
# a third is lost: some block can't be whole, and the status is 1
	target/file -l 34 >target/file.log; [ $$? = 1 ] || { cat target/file.log; exit 1; }
	$(compile) tests/header/sizes.c $(archive) -o target/sizes
	target/sizes
	$(CXX) $(CXXFLAGS) -Iinclude tests/header/calls.cc $(archive) -o target/calls
	target/calls
	$(valgrind) target/calls
	sh tests/header/unused.sh '$(CC)'
	sh tests/header/symbols.sh $(archive)
# memset bound at the start, and at its first call
	$(compile) -Wl,-z,now tests/stack/stack.c $(archive) -o target/stack
	target/stack
	$(compile) -Wl,-z,lazy tests/stack/stack.c $(archive) -o target/stack
	target/stack
	$(compile) tests/stack/bound.c -o target/bound
	objdump -dr --no-show-raw-insn $(archive) | target/bound

test-dist: need-test-dist $(archive) ## the tar of make dist, unpacked, installed and used from C and Rust elsewhere
	tests/dist/run

test-rust: need-test-rust $(archive) $(mir) target/bin/gather ## Rust tests
	$(cargo_test)
	$(cargo_test) --lib --no-default-features
	$(cargo_test) --lib --no-default-features --features alloc

archive: $(archive) ## the proved library for C and Rust, target/staticlib/liblipvezor.a: minutes at first, then only after a change
	@echo "$(archive), proved by $$(cat $(archive).kit)"

soak: need-soak $(archive) $(mir) target/bin/gather ## Rust tests for SECONDS (3600) with a new seed; SEED=... runs an earlier one again
	@seed=$(SEED); seed=$${seed:-$$(od -An -N8 -tu8 /dev/urandom | tr -d ' ')}; echo "soak: SECONDS=$(SECONDS) SEED=$$seed"; \
	LIPVEZOR_SECONDS=$(SECONDS) LIPVEZOR_SEED=$$seed $(cargo_test)

bench: need-bench $(given) ## speeds, from Rust; LIPVEZOR_EARLIER=FOLDER with an earlier version's archive measures that too
	$(cargo_given) run --offline --release --manifest-path rust/Cargo.toml --example bench

bench-peers: need-bench-peers need-peers $(given) ## encode and close beside ISA-L and cm256cc (Reed-Solomon) and lcrq (RaptorQ), where these are installed
	@mkdir -p target
	$(CXX) $(PEERFLAGS) -Iinclude bench/peers.cc $(given) -lisal -lcm256cc -llcrq -o target/peers
	target/peers

curves: need-curves $(given) ## how often a block closes whole, by how much is lost: docs/curves.csv and two figures
	$(cargo_given) run --offline --release --manifest-path rust/Cargo.toml --example curves

dist: need-dist $(archive) ## dist/lipvezor-VERSION-x86_64-linux.tar.gz: library, header, Rust crate and examples, for use without the prover
	@tools/pack $(archive)

install: need-prefix $(archive) ## library, header and pkg-config file to PREFIX (/usr/local), below DESTDIR if given
	@$(MAKE) --no-print-directory -f tools/packed/Makefile install ARCHIVE=$(archive) PC=include/lipvezor.pc.in

uninstall: ## removes what install put there
	@$(MAKE) --no-print-directory -f tools/packed/Makefile uninstall

clean: ## removes all that was built or proved: target/, rust/target/, dist/, crates/*/out/
	rm -rf target rust/target dist crates/*/out

# What the targets need besides make and rt: said in one line before anything is done. Who needs rt is told when there is something to prove.
need_format = $(firstword $(CARGO)) rustfmt
need_clippy = $(firstword $(CARGO)) clippy cc
need_test-c = $(firstword $(CC)) $(firstword $(CXX)) valgrind objdump
need_test-rust = rt $(firstword $(CARGO)) cc ar
need_test-dist = $(need_dist) $(firstword $(CARGO)) $(firstword $(CC))
need_test = $(sort bash rt $(need_format) $(need_clippy) $(need_test-c) $(need_test-rust) $(need_test-dist))
need_soak = $(need_test-rust)
need_bench = $(firstword $(CARGO)) cc $(if $(LIPVEZOR_EARLIER),objcopy)
need_bench-peers = $(firstword $(CXX))
need_curves = $(firstword $(CARGO)) cc
need_dist = tar gzip sha256sum
needs = $(addprefix need-,test format clippy test-c test-rust test-dist soak bench bench-peers curves dist)
.PHONY: $(needs) need-peers need-prefix
$(needs): need-%:
	@tools/need 'make $*' $(need_$*)

need-peers: need-bench-peers
	@for need in isa-l.h:libisal-dev cm256cc/cm256.h:libcm256cc-dev lcrq.h:liblcrq-dev; do \
	    echo "#include <$${need%:*}>" | $(CXX) $(PEERFLAGS) -x c++ -E - >/dev/null 2>&1 || missing="$$missing $${need#*:}"; \
	done; if [ -n "$$missing" ]; then echo "make bench-peers needs the Debian packages:$$missing" >&2; exit 1; fi

need-prefix:
	@$(MAKE) --no-print-directory -f tools/packed/Makefile need-prefix

# an archive that LIPVEZOR_LIB_DIR names is taken as it is
ifneq ($(LIPVEZOR_LIB_DIR),)
$(given):
	@echo 'LIPVEZOR_LIB_DIR is $(LIPVEZOR_LIB_DIR), and no liblipvezor.a is there (the path has no spaces)' >&2; exit 1
endif

# rt is asked only if a source is newer than what stands there, or if another kit built it; the file beside it with .kit has that kit's identity.
# What rt builds gets the time of the start, so that an edit made meanwhile is not passed over.
sources = $(shell tools/crates --files $(1)) $(shell ! command -v rt >/dev/null || rt version 2>&1 | cmp -s - $(2).kit || echo FORCE)
crates = $(shell tools/crates $(1))
begin = @tools/need 'make $(firstword $(MAKECMDGOALS))' rt && mkdir -p target && touch target/began
end = @touch -r target/began $@ && rt version >$@.kit

$(archive): $(call sources,lipvezor,$(archive))
	$(begin)
	@tools/quietly archive $(words $(call crates,lipvezor)) tools/prove lipvezor $@
	$(end)

# what is proved and compiled, as a Rust test reads it
$(mir): $(archive)
	$(begin)
	@tools/quietly mir $(words $(call crates,lipvezor)) tools/mir lipvezor $(@D)
	$(end)

target/bin/demo: $(call sources,demo,target/bin/demo)
target/bin/gather: $(call sources,gather,target/bin/gather)
target/bin/demo target/bin/gather:
	$(begin)
	@tools/quietly $(@F) $(words $(call crates,$(@F))) tools/prove $(@F) $@
	$(end)
