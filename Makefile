# make example   inspect the bench's record under the office's card
# make test      the gate: prove everything, try the must-fail edits, run programs and tests
# make files     make the example files anew from their sources
.PHONY: example test files

example: target/bin/tusnagol
	target/bin/tusnagol inspect examples/bench.record examples/office.card

# The program is built only once it and all below it are proved; the first time takes a few minutes.
target/bin/tusnagol: crates.txt $(wildcard crates/*/src/*.rt crates/*/src/*/*.rt)
	@echo 'proving and building tusnagol ..'
	@mkdir -p target/bin
	@cd crates/tusnagol && rt run < /dev/null > ../../target/build.log 2>&1 || { tail -n 20 ../../target/build.log; exit 1; }
	@cp crates/tusnagol/out/tusnagol $@

test:
	bash .ci/run

files:
	for source in examples/*.txt examples/damaged/*.txt; do examples/make_file $$source $${source%.txt}; done
	for file in crates/tusnagol/data/*; do cp examples/$$(basename $$file) $$file 2> /dev/null || cp examples/damaged/$$(basename $$file) $$file; done
