SOURCES := crates.txt $(shell find crates -type f \( -path '*/src/*' -o -path '*/specs/*' -o -path '*/proofs/*' \) | sort)
BUNDLE := crates/kmin/stdin
PROGRAM ?= build/kmin
PREFIX ?= /usr/local
DESTDIR ?=

.PHONY: help run check edits test bench docs install dist clean

help:            # lists the targets
	@sed -n 's/^\([a-z/]*\):[^#]*# \(.*\)$$/make \1|\2/p' Makefile | awk -F '|' '{ printf "%-18s%s\n", $$1, $$2 }'

run:             # a first look: a small bundle, by a program that checks while it runs what a proof shows before
	@if make --silent --question build/kmin; then \
	    build/kmin < $(BUNDLE); \
	else \
	    echo "make run: not proved: this build checks while it runs what a proof shows before; 'make build/kmin' proves and builds kmin, in three to four hours of processor time" >&2; \
	    mkdir -p build; \
	    (cd crates/kmin && rt try < stdin 2> ../../build/try.log) || { cat build/try.log >&2; exit 1; }; \
	fi

build/kmin: $(SOURCES) # proves and builds the program
	cd crates/kmin && rt run < stdin > /dev/null
	mkdir -p build
	cp crates/kmin/out/kmin build/kmin

check:           # proves the crates that changed since they last passed it, with their tests, and runs the rows
	tests/check_changed_crates

edits:           # tries all wrong bodies, or with CRATE=NAME those of a crate
	tests/try_edits $(CRATE)

test:            # the gate: tries the wrong bodies that changed, proves all, runs every test; leaves the program in build/kmin
	tests/check_format
	bench/run try
	tests/try_edits --changed
	rt ci
	mkdir -p build
	cp crates/kmin/out/kmin build/kmin
	tests/run_rows
	tests/check_minimal_files
	tests/cut_trees
	tests/cut_configurations
	tests/random_trees
	tests/random_reasons
	tests/read_in_pieces
	tests/check_texts
	tests/run_examples
	tests/kill_runs
	tests/check_outputs
	tests/check_replacements
	tests/check_streams
	tests/random_macros
	tests/cut_expansions
	tests/answer_questions
	tests/check_dist
	tests/refuse_allocations

bench:           # time, memory and instructions of the libraries and the program, beside other programs
	bench/run

docs: $(PROGRAM) # writes the parts of the manual page, the completions and FAULTS.md that are made of the program's help
	tests/documents.py $(PROGRAM)

install: $(PROGRAM) # program, script of answers, manual page, completions and two documents, below DESTDIR and PREFIX
	install -D -m 755 $(PROGRAM) $(DESTDIR)$(PREFIX)/bin/kmin
	install -D -m 755 kmin-answer $(DESTDIR)$(PREFIX)/bin/kmin-answer
	install -D -m 644 man/kmin.1 $(DESTDIR)$(PREFIX)/share/man/man1/kmin.1
	install -D -m 644 completions/kmin.bash $(DESTDIR)$(PREFIX)/share/bash-completion/completions/kmin
	install -D -m 644 completions/kmin.zsh $(DESTDIR)$(PREFIX)/share/zsh/site-functions/_kmin
	install -D -m 644 completions/kmin.fish $(DESTDIR)$(PREFIX)/share/fish/vendor_completions.d/kmin.fish
	install -D -m 644 docs/FAULTS.md $(DESTDIR)$(PREFIX)/share/doc/kmin/FAULTS.md
	install -D -m 644 docs/RULES.md $(DESTDIR)$(PREFIX)/share/doc/kmin/RULES.md

dist: $(PROGRAM) # an archive and a Debian package, in build/dist
	packaging/make_dist $(PROGRAM)

clean:           # removes what was built
	rm -rf build crates/*/out
