# make: proves all crates, builds and runs the test programs and the C examples. make test: the gate. make bench: speed beside Rust.
.PHONY: run test bench

run:
	@tools/need rt gcc
	rt all check
	tools/programs
	target/bin/vectors
	target/bin/edit_vectors
	tools/archive
	tools/cc examples/labels.c
	target/c/labels
	tools/cc examples/incident.c
	target/c/incident

test:
	@tools/test

bench:
	@bench/run
