# Builds the static library and the programs that call it, and runs these. Proofs, edits and the other programs: .ci/run.

LIBRARY = crates/cehmoli/out/libcehmoli.a
SOURCES = crates.txt $(shell find crates -name out -prune -o \( -name '*.rt' -o -name '*.antt' \) -print)
SPOILED = crates/generalise/stdin
MOUNTS = $(addprefix examples/mounts/, dirty-and-worn.record one-of-two-worn.record clean-and-worn.record dirty-and-new.record damaged.record)
CFLAGS = -std=c11 -O2 -Wall -Wextra -Wpedantic

.PHONY: all run stack
all: target/c/planner target/c/kinds target/rust/release/planner

# Proves the crate and those below it, and then builds the library.
$(LIBRARY): $(SOURCES)
	cd crates/cehmoli && rt lib
	touch $@

target/c/%: examples/c/%.c include/cehmoli.h $(LIBRARY)
	mkdir -p target/c
	$(CC) $(CFLAGS) -Iinclude $< $(LIBRARY) -pthread -o $@

target/rust/release/planner: $(LIBRARY) $(wildcard examples/rust/*.* examples/rust/src/*)
	cargo build --release --offline --manifest-path examples/rust/Cargo.toml --target-dir target/rust

# Both planners say the same, and each kind of answer comes as the header says.
run: all
	target/c/planner $(SPOILED) $(MOUNTS) > target/c/said
	cat target/c/said
	target/rust/release/planner $(SPOILED) $(MOUNTS) > target/rust/said
	cmp target/c/said target/rust/said
	target/c/kinds

# How much stack the calls take.
stack: target/c/stack
	target/c/stack
