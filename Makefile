# make demo     lists a sample stream, then runs a controller's main loop in C: stop, close, start afresh; save, drop, pick up; then stacks two patches and joins them; then tidies four files; then salvages seven; then boots a board from its EPROM; then prints a month's load sheet
# make test     every proof, must-fail edit and program from nothing; then what the documents cite, header, C examples, comparison with the model, stack, shorter ways out, listing program: the last line is rt's own
# make lib      the archive for C: target/staticlib/libat6000.a
# make listing  the listing program: target/bin/listing
# make bench    the archive against safe Rust and memcpy, and its instructions counted job by job (docs/SPEED.md)
# make fmt      lay out the Rattle sources
.PHONY: demo test lib listing bench fmt

archive = target/staticlib/libat6000.a
program = target/bin/listing

demo: lib listing
	sh examples/list.sh $(program)
	sh examples/run.sh $(archive) controller
	sh examples/run.sh $(archive) patches
	sh examples/run.sh $(archive) onefile
	sh examples/run.sh $(archive) salvage
	sh examples/run.sh $(archive) eprom
	sh examples/run.sh $(archive) sheet

test:
	.ci/run

lib:
	cd crates/at6000_c && rt lib
	mkdir -p $(dir $(archive))
	cp crates/at6000_c/out/libat6000_c.a $(archive)

# rt run proves, builds and runs it: on its own test's input
listing:
	cd crates/listing && rt run <stdin | diff stdout -
	mkdir -p $(dir $(program))
	cp crates/listing/out/listing $(program)

bench: lib
	sh bench/run.sh $(archive)
	sh bench/count/run.sh $(archive)

fmt:
	for crate in crates/*/; do (cd $$crate && rt fmt) || exit 1; done
