# make demo: the hall roof and the floor beams of examples/, judged, and the strengths of the hall roof. make test: the whole gate; its last line, printed only if
# everything passed, is the prover's count 'N passed, 0 failed'. make bench: rows per second beside the second implementation. make archive: the add-in to link,
# target/staticlib/libaddin.a. make program: target/bin/schedule, and replay for the tests.

CARGO = cargo
HOST = cd host && $(CARGO)

.PHONY: test demo bench prove archive program host-tests
# The archive is made when the gate has proved everything, the tests when it is made.
.NOTPARALLEL:

test: prove archive host-tests
	@tail -n 1 target/gate.log | grep -x '[0-9]* passed, 0 failed'

# Every crate proved, every must-fail edit refused, the programs run on their stored inputs. An edit that cannot be applied shows nothing and yet fails nothing of
# rt ci, which counts it as bad: here it fails. The tests take the programs that the gate has built.
prove:
	@log=$$(mktemp); code=$$(mktemp); \
	{ rt ci; echo $$? > $$code; } 2>&1 | tee $$log; \
	mkdir -p target/bin; mv $$log target/gate.log; \
	status=$$(cat $$code); rm $$code; exit $$status
	@grep -q '^rt: ok;' target/gate.log
	@! grep '^rt: ok;.*, [0-9]* bad' target/gate.log
	@cp crates/schedule/out/schedule crates/replay/out/replay target/bin/

# The add-in as C and Rust link it, for every x86-64 processor. It lies apart from what the prover makes, which rt ci moves away.
archive:
	cd crates/addin && rt lib --cpu=x86-64
	@mkdir -p target/staticlib
	@cmp -s crates/addin/out/libaddin.a target/staticlib/libaddin.a || cp crates/addin/out/libaddin.a target/staticlib/

program:
	cd crates/schedule && rt run < /dev/null
	cd crates/replay && rt run < /dev/null
	@mkdir -p target/bin
	@cp crates/schedule/out/schedule crates/replay/out/replay target/bin/

# The second implementation against the add-in, demand 3 on its verdicts, the wrong copies, the header, the sheet, the program;
# and that no package needs a later Rust than it says.
host-tests:
	$(HOST) clippy --offline --workspace --all-targets -- --deny warnings
	$(HOST) test --offline --profile checked --workspace -- --nocapture

# The command ends with 1 where a member or a beam fails or is refused, as some of both sheets do; for strengths, where one is refused.
demo: archive
	@$(HOST) build --offline --release --quiet --bin sheet
	@host/target/release/sheet examples/hall-roof.csv; test $$? -le 1
	@echo
	@host/target/release/sheet --floor examples/floor-beams.csv; test $$? -le 1
	@echo
	@host/target/release/sheet --strengths examples/hall-roof.csv; test $$? -le 1

bench: archive
	@$(HOST) build --offline --release --quiet --bin bench
	@host/target/release/bench
