# make demo: runs rlscript on an example (SCRIPT=FILE names another). Where no proved program is built yet, it is one
#            built without its proofs, for a first look, and says so.
# make program: proves and builds rlscript, with every crate below it.
# make test: the tests and the gate.
PROGRAM := crates/rlscript/out/rlscript
SOURCES := crates.txt $(wildcard crates/*/src/*.rt crates/*/specs/*.antt)
SCRIPT := examples/hello.script

.PHONY: demo program test

demo:
	@if $(MAKE) --question $(PROGRAM) 2> /dev/null; then \
	    $(PROGRAM) < $(SCRIPT); \
	else \
	    echo "No proved program is built yet: this one is built without its proofs, for a first look. 'make program' proves and builds it." >&2; \
	    (cd crates/rlscript && rt try) < $(SCRIPT); \
	fi

program: $(PROGRAM)

test:
	rt ci

$(PROGRAM): $(SOURCES)
	@echo "Proving and building rlscript. With nothing proved yet every crate below it is proved, which takes half an hour or more." >&2
	cd crates/rlscript && rt run < /dev/null > /dev/null
	@touch $(PROGRAM)
