# make            proves and builds the program, and puts it here as ./cssmin
# make check      the whole gate: every proof, must-fail edit, test and program, and the process tried
# make install    installs it below PREFIX (/usr/local), with its man page and completions for bash, zsh and fish
# make library    proves and builds the library for C into dist/lib; make install-library installs it (library/library.mk)
# make package    makes packages of it in dist/packages; make try-packages installs, runs and removes each (packages/packages.mk)
# make examples   checks that the program gives the outputs beside the examples, and that both have the same winners
# make bench      measures it, its reading of tokens and its answers for pairs, against wc -c on the same files
# make sizes      prints the sizes of the examples, as they are and made smaller by it and by other tools
# make recipes    tries the recipes for builds in examples/build, and the plugins in the tools that node finds

PREFIX ?= /usr/local
RT ?= rt
SHEETS := $(filter-out %.min.css,$(wildcard examples/*.css))
SOURCES := crates.txt $(shell find crates -path '*/out' -prune -o \( -name '*.rt' -o -name '*.antt' \) -print)

all: cssmin

cssmin: $(SOURCES)
	@echo 'Proving each function, then compiling: long from nothing, minutes after a change.'
	cd crates/cssmin && $(RT) run -- min </dev/null
	cp crates/cssmin/out/cssmin $@
	@echo 'Built ./cssmin'

check:
	.ci/run

install: cssmin
	install -D -m 755 cssmin '$(DESTDIR)$(PREFIX)/bin/cssmin'
	install -D -m 644 docs/cssmin.1 '$(DESTDIR)$(PREFIX)/share/man/man1/cssmin.1'
	install -D -m 644 completions/cssmin.bash '$(DESTDIR)$(PREFIX)/share/bash-completion/completions/cssmin'
	install -D -m 644 completions/_cssmin '$(DESTDIR)$(PREFIX)/share/zsh/site-functions/_cssmin'
	install -D -m 644 completions/cssmin.fish '$(DESTDIR)$(PREFIX)/share/fish/vendor_completions.d/cssmin.fish'

examples: cssmin
	for sheet in $(SHEETS); do ./cssmin min <$$sheet | cmp - $${sheet%.css}.min.css || exit 1; done
	for sheet in $(SHEETS); do CSSMIN=./cssmin examples/same/same.sh $$sheet $${sheet%.css}.min.css || exit 1; done

bench: cssmin
	cd crates/bench_counts && $(RT) run -- pairs </dev/null
	python3 bench/min.py ./cssmin $(SHEETS)
	python3 bench/slow.py ./cssmin
	python3 bench/sites.py ./cssmin
	python3 bench/tokens.py crates/bench_counts/out/bench_counts
	python3 bench/pairs.py crates/bench_counts/out/bench_counts $(SHEETS)

sizes: cssmin
	python3 bench/sizes.py ./cssmin $(SHEETS)

recipes: cssmin
	node examples/build/try.mjs ./cssmin
	CSSMIN=$(abspath cssmin) node --test bindings/node/tests/plugins.test.mjs

clean:
	rm -rf cssmin dist crates/*/out

include library/library.mk
include packages/packages.mk

.PHONY: all check install examples bench sizes recipes clean
