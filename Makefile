# make try       builds the program WITHOUT a proof, in minutes, and runs the counter example through
# make demo      proves, builds and runs the counter example, and shows its final checkpoint
# make test      the gate: every proof, the edits in must-fail/, every test, the program, the examples
# make edits     tries all edits that must fail, also those for which the gate has no time
# make starve    refuses each allocation of eleven runs of the built program in turn
# make bench     prints what runs, readers and checkpoints cost on this machine
# make tricks    proves and builds the program, at build/tricks, and says how far it is
# make install   the program, at $(PREFIX)/bin/tricks, its man page, and completion for bash

PREFIX ?= /usr/local

.PHONY: try demo test edits starve bench tricks install clean

COUNTER = ../../examples/counter

try:
	@echo 'make try: builds without a proof, in some five processor minutes; make demo proves.'
	@cd crates/tricks && rt try --data counter.S_define=$(COUNTER)/counter.S_define \
	  --data counter_input.py=$(COUNTER)/counter_input.py -- serial counter.S_define counter_input.py </dev/null
	@echo 'make try: unproved, as proved=no says; nothing was kept.'

demo: tricks
	rm -rf build/demo && mkdir -p build/demo && cp examples/counter/counter.S_define examples/counter/counter_input.py build/demo
	cd build/demo && ../tricks serial counter.S_define counter_input.py && cat final.chk

test:
	rt ci
	.ci/names
	examples/check
	.ci/hostile
	.ci/served

edits:
	.ci/edits

starve:
	.ci/starve

bench:
	bench/run
	bench/clients

tricks:
	.ci/program build/tricks

install: tricks
	install -D build/tricks $(DESTDIR)$(PREFIX)/bin/tricks
	install -D -m 644 docs/tricks.1 $(DESTDIR)$(PREFIX)/share/man/man1/tricks.1
	install -D -m 644 docs/tricks.bash $(DESTDIR)$(PREFIX)/share/bash-completion/completions/tricks

clean:
	rm -rf build crates/*/out
