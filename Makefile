.PHONY: help jxldec jxlenc jxlmod demo demo-encode demo-plain demo-triangle demo-groups bench compare-djxl compare-random compare-encode check-docs check-alloc check-commands clib test-clib install test

help: ## this list
	@awk -F ':.*## ' '/^[a-z-]+:.*## / { printf "make %-14s %s\n", $$1, $$2 }' Makefile

jxldec: ## prove and build the decoder of .jxl files: crates/jxldec/out/jxldec
	@python3 scripts/build.py jxldec --version

jxlenc: ## prove and build the encoder of .jxl files: crates/jxlenc/out/jxlenc
	@python3 scripts/build.py jxlenc --version

jxlmod: ## prove and build the program of the plain formats: crates/jxlmod/out/jxlmod
	@python3 scripts/build.py jxlmod $$(cat crates/jxlmod/args)

demo: ## decode examples/ball.jxl and draw it in the terminal, without any proof
	@(cd crates/jxldec && rt try -- $(CURDIR)/examples/ball.jxl --format pgm) | python3 examples/pgm_to_text.py

demo-encode: ## decode examples/ball.jxl, encode the picture again, decode that file and draw it, without any proof
	@folder=$$(mktemp -d) && trap 'rm -rf "$$folder"' EXIT && \
	    (cd crates/jxldec && rt try -- - --format pgm) < examples/ball.jxl > "$$folder/a.pgm" && \
	    (cd crates/jxlenc && rt try -- - -o -) < "$$folder/a.pgm" > "$$folder/a.jxl" && \
	    (cd crates/jxldec && rt try -- - --format pgm) < "$$folder/a.jxl" | python3 examples/pgm_to_text.py

demo-plain: ## decode the ten bytes of crates/jxlmod/stdin, without any proof
	@cd crates/jxlmod && rt try -- $$(cat args) < stdin

demo-triangle: ## decode examples/triangle.hex and draw it in the terminal, without any proof
	@python3 -c 'import sys; sys.stdout.buffer.write(bytes.fromhex(sys.stdin.read()))' < examples/triangle.hex \
	    | (cd crates/jxlmod && rt try -- decode 32 16 1 8 i32) | awk -f examples/to_text.awk

demo-groups: ## decode examples/groups.hex, a picture of two groups, without any proof
	@python3 -c 'import sys; sys.stdout.buffer.write(bytes.fromhex(sys.stdin.read()))' < examples/groups.hex \
	    | (cd crates/jxlmod && rt try -- sections 3 1 1 8 i32 2)

bench: jxldec ## time jxldec beside djxl, by turns; with CRATE=PROGRAM also jxlbench beside the Rust crate: docs/SPEED.md
	@python3 scripts/bench_clock.py files crates/jxldec/out/jxldec
	@if [ -n "$(CRATE)" ]; then \
	    (cd crates/jxlbench && rt run -- $$(cat args) < stdin > /dev/null) && \
	    python3 scripts/bench_clock.py pictures crates/jxlbench/out/jxlbench $(CRATE); fi

compare-djxl: jxldec ## decode what cjxl encodes, and compare with djxl, which must both be installed
	@sh scripts/compare_djxl.sh crates/jxldec/out/jxldec

compare-random: jxldec ## the same of 3000 pictures and options that are drawn: CJXL and DJXL name several programs
	@python3 scripts/compare_random.py crates/jxldec/out/jxldec 3000

compare-encode: jxlenc jxldec ## encode drawn pictures, decode them with jxldec and djxl, which must be installed, and compare
	@sh scripts/compare_encode.sh crates/jxlenc/out/jxlenc crates/jxldec/out/jxldec

check-docs: ## look up the names and the code that the documents cite
	@sh scripts/check_docs.sh

check-alloc: ## refuse each request for memory of each call that takes memory, in turn; it proves nothing
	@python3 scripts/check_alloc.py

check-commands: ## run jxldec and jxlenc, as they were last built, by their command lines, and compare what they do
	@sh scripts/commands.sh crates/jxldec/out/jxldec crates/jxlenc/out/jxlenc

clib: ## prove and build the library for C: crates/jxl_c/out/c (docs/C.md)
	@sh scripts/clib.sh build

test-clib: clib ## try the library for C, from C and Python; it needs gcc and python3
	@sh scripts/clib.sh test

PREFIX ?= /usr/local
install: clib ## copy the library for C, its header and its pkg-config file below PREFIX
	@sh scripts/clib.sh install $(PREFIX)

test: check-docs check-alloc ## check-docs, check-alloc, every proof, must-fail edit and test, the programs' runs, check-commands, and test-clib if the library for C was built
	@bash -c 'TIMEFORMAT="rt ci: %0R s of wall time, %0U and %0S s of processor time"; time rt ci'
	@sh scripts/commands.sh crates/jxldec/out/jxldec crates/jxlenc/out/jxlenc
	@if [ -f crates/jxl_c/out/c/libjxl_lossless.a ] && command -v gcc > /dev/null; then sh scripts/clib.sh test; fi
