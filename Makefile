# `view` and its checks. CONTRIBUTING.md says when to use which; CRATE, ONLY and CASE are given as in `make check CRATE=morton`.
VIEW = crates/view/out/view
PREFIX = /usr/local

.PHONY: demo test build install uninstall check unit edits texts outside refused-memory times

# Builds `view` and runs it on the example. It says first what it does, what is left to prove, and how long the whole took.
demo:
	@echo "This proves and builds view, and asks it for the five tiles of examples/one_subtree."
	@bash tests/build
	cd examples/one_subtree && ../../$(VIEW) tiles 1 0,0 1,1

# The gate, and the checks of the built program.
test:
	bash .ci/run

# Building means proving: what was proved before is kept in crates/*/out, and rt says how far it is as it goes.
build:
	bash tests/build

# Installs the program and its manual page below PREFIX, and nothing else: make install PREFIX=/opt/view
install: build
	install -D -m 755 $(VIEW) $(DESTDIR)$(PREFIX)/bin/view
	install -D -m 644 docs/view.1 $(DESTDIR)$(PREFIX)/share/man/man1/view.1

# Takes both away again.
uninstall:
	rm -f $(DESTDIR)$(PREFIX)/bin/view $(DESTDIR)$(PREFIX)/share/man/man1/view.1

# Proves one crate, or of it one function: make check CRATE=morton ONLY=index2
check:
	cd crates/$(CRATE) && rt check $(if $(ONLY),--only $(ONLY))

# Proves and runs the tests of one crate.
unit:
	cd crates/$(CRATE) && rt test

# Tries the must-fail edits of one crate.
edits:
	rt must-fail $(CRATE)

# The documents and the edits as texts, with no proof.
texts:
	bash tests/run --texts

# The built program from outside, or only the cases whose name has a word: make outside CASE=octree
outside: build
	python3 tests/black_box.py $(VIEW) $(CASE)

# Each command with each of its allocations refused in turn: make refused-memory CASE=make
refused-memory: build
	python3 tests/refused_memory.py $(VIEW) $(CASE)

# The gate's proofs, and what each crate took of the processors.
times:
	python3 tests/gate_times.py rt ci
