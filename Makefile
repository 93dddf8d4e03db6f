# run: proves the demo, then runs it, a visit to a chip told in text.  test: the gate.
# lib: proves and builds the library for C.  soak: compares it with the model on SCRIPTS scripts, from SEED on if one is given.
# bench: measures it beside the model.
.PHONY: run test lib soak bench

SCRIPTS ?= 10000000

run:
	@log=$$(mktemp); (cd crates/demo && rt run 2>"$$log") || { cat "$$log"; rm -f "$$log"; exit 1; }; rm -f "$$log"

test:
	@.ci/run

lib:
	@tools/libraries

soak: lib
	@cd oracle && cargo run --release --offline --locked --quiet --features library --bin soak -- $(SCRIPTS) $(SEED)

bench: lib
	@cd oracle && cargo run --release --offline --locked --quiet --features library --bin bench
