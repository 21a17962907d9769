# `make` builds ./tlmrun, `make test` runs the gate, `make clean` removes what was built.
.PHONY: all test clean

all: tlmrun

tlmrun: crates.txt $(shell find crates -name '*.rt' -o -name '*.antt')
	@echo "The first build proves each of the program's libraries: on four quiet processors 16 minutes (51 minutes of processor time), and on slow ones more than twice as long. If it is stopped, the next one goes on."
	@tools/prove --bare tlmrun
	@cp crates/tlmrun/out/tlmrun tlmrun

# As in .ci/run: one prover a crate, and four crates side by side at most.
test: export RT_JOBS ?= $(shell n=$$(nproc 2>/dev/null || echo 2); echo $$((n < 4 ? n : 4)))
test:
	rt ci

clean:
	rm -rf crates/*/out tlmrun
