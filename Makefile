# `make test` is the whole gate: it holds the text to the formatters and clippy, proves every crate, tries every must-fail edit,
# runs the programs, builds and runs the examples, and compares the static libraries with the second program. Its last line is the
# last line of `rt ci`, printed only if all of it passed.

SHELL := bash
.SHELLFLAGS := -eu -o pipefail -c
.ONESHELL:
.PHONY: run test libraries program soak bench

# Checks the sample vault file with the proved program.
run: program
	@cat samples/keys samples/log.c9r | target/bin/vault_check

# `rt ci` passes with an edit that cannot be applied or read, `bad` on its line `rt: ok`; the gate does not.
test:
	@for folder in bindings/rust second; do
		(cd "$$folder" && cargo fmt --check && cargo clippy --all-targets --offline -- -D warnings)
	done
	log=$$(mktemp)
	trap 'rm -f "$$log"' EXIT
	rt ci 2>&1 | tee "$$log"
	if ! grep -q '^rt: ok' "$$log" || grep -E '^rt: ok.*, [1-9][0-9]* bad' "$$log"; then
		echo "a must-fail edit is bad, or rt ci did not end well" >&2
		exit 1
	fi
	$(MAKE) --no-print-directory libraries program
	mkdir -p target/examples
	for example in unlock vault mend pages; do
		cc -std=c99 -Wall -Wextra -Werror -Iinclude "examples/c/$$example.c" target/staticlib/libskrapnefja.a -o "target/examples/$$example"
		"target/examples/$$example"
	done
	(cd bindings/rust && cargo test --offline && cargo run --offline --example unlock && cargo run --offline --example vault &&
		cargo run --offline --example mend && cargo run --offline --example pages)
	(cd second && cargo test --release --offline)
	tail -n 1 "$$log"

# The static libraries: what firmware links, and the building blocks for the comparisons.
libraries:
	@mkdir -p target/staticlib
	for library in skrapnefja primitives; do
		(cd "crates/$${library}_c" && rt lib)
		cp "crates/$${library}_c/out/lib$${library}_c.a" "target/staticlib/lib$$library.a"
		names=$$(nm -u "target/staticlib/lib$$library.a")
		if grep ' U ' <<< "$$names" | grep -v -w -e memcpy -e memset; then
			echo "lib$$library.a needs more of the C library than memcpy and memset, which the C header promises" >&2
			exit 1
		fi
	done

# The check program.
program:
	@mkdir -p target/bin
	(cd crates/vault_check && rt run </dev/null >/dev/null)
	cp crates/vault_check/out/vault_check target/bin/

# Compares random calls: SEED=7 CALLS=1000000 make soak. The seed is printed, and a call that failed can be made again.
soak: libraries
	@cd second
	SEED=$${SEED:-$$(date +%s)} CALLS=$${CALLS:-1000000} cargo test --release --offline --test vault -- random

# Times the library beside the second program, and measures the stack of each call.
bench: libraries
	@cd second
	cargo bench --offline
