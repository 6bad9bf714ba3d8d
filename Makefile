.PHONY: demo test programs docs check-docs check-edits check-use check-program check-depth check-refusals check-broken check-bench check-bindings bindings library call-bindings bench-bindings timings pictures

# Runs README's first program, in about a minute. It proves nothing.
demo:
	@echo 'Running the first program. Nothing is proved here: make test does that.'
	@cd crates/sj_first && rt try

# Proves every crate from nothing, tries the edits that have to be refused, and runs the tests.
# It leaves the programs that the checks below run.
test:
	rt ci

# Proves and builds the programs, where they are not built of these sources.
programs:
	cd crates/sjval && rt run -- owned < stdin > /dev/null
	cd crates/refusals && rt run -- insert insert 32 > /dev/null
	cd crates/refusals_paths && rt run -- print owned canonical > /dev/null
	cd crates/refusals_commands && rt run -- run_fault > /dev/null
	cd crates/sjroute && rt run -- --help > /dev/null
	cd crates/sjpatch && rt run -- --help > /dev/null
	cd crates/sjconf && rt run -- --help > /dev/null
	cd crates/patch_lines && rt run -- owned < stdin > /dev/null
	cd crates/deep && rt run -- copies owned 10 > /dev/null

# Writes what the sources make of the pages: docs/calling, and README's numbers.
docs:
	tools/calling.py
	tools/trusted.py --write README.md

# Looks whether the pages are true: snippets, clauses, contracts, numbers. Needs python3.
check-docs:
	tools/snippets.py
	tools/links.py
	tools/reasons.py
	tools/clauses.py
	tools/calling.py --check
	tools/trusted.py --check README.md
	tools/words.py
	tools/bindings_picture.py --check
	tools/picture.py docs/TIMINGS.md docs/timings.svg --check

# Looks whether each edit that has to be refused still applies. Needs python3.
check-edits:
	tools/edits.py

# Takes the crates into a scratch repository, and runs README's program there. It proves nothing.
check-use:
	tools/taken.sh

# Runs the built programs as a user would. Needs gcc and python3, and `make test` or `make programs` before it.
check-program:
	tools/program.sh crates/sjval/out/sjval
	tools/replies.py crates/sjval/out/sjval
	tools/sessions.py crates/sjval/out/sjval
	tools/lookups.py crates/sjval/out/sjval
	tools/members.py crates/sjval/out/sjval
	tools/sjroute.sh crates/sjroute/out/sjroute
	tools/console.py docs/SJROUTE.md crates/sjroute/out/sjroute
	tools/sjpatch.sh crates/sjpatch/out/sjpatch
	tools/console.py docs/SJPATCH.md crates/sjpatch/out/sjpatch
	tools/sjconf.sh crates/sjconf/out/sjconf
	tools/console.py docs/SJCONF.md crates/sjconf/out/sjconf
	tools/patches.py crates/patch_lines/out/patch_lines

# Edits that make documents 50,000 levels deep, and calls on documents of 1,000,000 levels, on a small stack.
# Needs python3, and the programs built.
check-depth:
	tools/deep.py crates/sjval/out/sjval crates/deep/out/deep

# Refuses each request for memory of each call in turn. Needs gcc and python3, and the programs built.
check-refusals:
	tools/refusals.sh crates/refusals/out/refusals crates/refusals_paths/out/refusals_paths crates/refusals_commands/out/refusals_commands

# Gives the built programs broken documents, lines, nodes and rules. Needs python3, and the programs built.
check-broken:
	tools/broken.py crates/sjval/out/sjval --seconds 10
	tools/broken_nodes.py crates/refusals/out/refusals --seconds 5
	tools/faults.py crates/sjroute/out/sjroute --seconds 5
	tools/routed.py crates/sjroute/out/sjroute --seconds 5

# Counts what the benchmark's programs take, beside bench/instructions.txt. Needs valgrind and gcc, and `make test` before it.
check-bench:
	bench/instructions

# Looks at what C, Rust and Python call the static library by, without building that. Needs gcc; what it leaves out without
# cargo, python3 and their kin it says.
check-bindings:
	tools/bindings.sh

# Builds the static library, and builds and tests what calls it. Needs gcc; what it leaves out without valgrind, cargo, python3
# and their kin it says.
bindings: library call-bindings

# Builds the static library, which proves it and all crates below anew.
library:
	cd crates/sj_c && rt lib

# Builds and tests what calls the static library.
call-bindings:
	tools/bindings.sh crates/sj_c/out/libsj_c.a

# Measures the Rust side beside serde_json, where Debian's package of that is there. It asserts nothing.
bench-bindings:
	tools/bench_bindings.sh crates/sj_c/out/libsj_c.a

# Measures documents, maps, patches and sessions beside other libraries, and prints tables for docs/TIMINGS.md. Needs `make test`
# before it, cargo, g++ and the peers that bench/tables names; run it while nothing else runs. It asserts nothing.
timings:
	bench/tables .

# Draws the pictures of docs/TIMINGS.md of its tables of documents and of its last one.
pictures:
	tools/bindings_picture.py
	tools/picture.py docs/TIMINGS.md docs/timings.svg
