# make          build/bulhyemik (the command line) and its man pages, build/replay, build/bench, build/differ, build/world,
#               build/libbulhyemik.a and the shared library build/libbulhyemik.so.MAJOR; for bench alone build/libtimed.a
# make library  build/libbulhyemik.a alone
# make install [PREFIX=/usr/local] [LIBDIR=lib] [DESTDIR=]
#               the program, the C header, both libraries, files for pkg-config and bash, man pages, the papers for users; LIBDIR is
#               within PREFIX, DESTDIR stands before it while a package is made
# make uninstall [PREFIX=/usr/local] [DESTDIR=]
#               takes away what make install put there
# make demo     the examples through the command line
# make check    the quick round: every crate proved, without the must-fail edits and the programs' runs
# make test     the gate: every test there is
# make bench    times against plain C and plain Rust; where the tools for it are installed, instructions, divisions, and times against PROJ
# make clean    removes build/ and the out/ of each crate: the next make proves every crate anew
# make help     this list
.PHONY: all library programs pages install uninstall demo check test bench clean help tools always

PREFIX ?= /usr/local
DESTDIR ?=
LIBDIR ?= lib
# The version that the C header has. What finds it is make's own, so that make can say which tool is missing where there are none.
number := $(patsubst @%,%,$(filter @%,$(subst define BULHYEMIK_VERSION , @,$(file < include/bulhyemik.h))))
VERSION := $(shell echo $$(($(number) / 1000000)).$$(($(number) / 1000 % 1000)).$$(($(number) % 1000)))
shared := build/libbulhyemik.so.$(firstword $(subst ., ,$(VERSION)))
export PREFIX DESTDIR LIBDIR VERSION

all: library $(shared) programs pages

# Before any work: each tool that is missing, what it is for, and which version is known to work.
need = command -v $(1) > /dev/null 2>&1 || { echo 'make: $(1) is missing: it $(2); $(3) is known to work' >&2; missing=1; }
all_there = if [ $$missing = 1 ]; then echo 'make: install it, or put its folder into PATH' >&2; exit 1; fi
tools:
	@missing=0; \
	$(call need,rt,proves the crates and builds the library,rt of rattle-kit-13f); \
	$(call need,cargo,builds the command line and runs the tests,cargo 1.95.0); \
	$(call need,cc,links the programs and compiles the C tests,gcc 12.2.0); \
	$(all_there)

library: build/libbulhyemik.a

# What the library is made of: the toolchain, and the bytes of every file of the crates but the must-fail edits. The list is
# replaced only where it differs, so that the library is built anew if a file was changed, added or deleted, or the toolchain changed.
build/crates.sums: always | tools
	@mkdir -p build
	@rt version > $@.new
	@find crates.txt crates \( -name must-fail -o -name out \) -prune -o -type f -print | LC_ALL=C sort | xargs sha256sum >> $@.new
	@if cmp -s $@.new $@; then rm $@.new; else mv $@.new $@; fi

# The library, and for the benchmark alone the rounding by itself: each is made of one crate with those below it, and has its C functions.
build/libbulhyemik.a: crate = capi
build/libtimed.a: crate = timed

build/libbulhyemik.a build/libtimed.a: build/crates.sums
	@echo "proving crate $(crate) and those below it and building $@ (some minutes for the first on a fresh clone)"
	@(cd crates/$(crate) && rt lib) > $(@:.a=.log) 2>&1 || { cat $(@:.a=.log); exit 1; }
	@cp crates/$(crate)/out/lib$(crate).a $@

# both stand on the same crates below: one archive after the other, however many jobs make runs
build/libtimed.a: | build/libbulhyemik.a

# The same code for programs that load it when they start, under the name that a program of this major version asks for.
$(shared): build/libbulhyemik.a install/exports Makefile
	@cc -shared -Wl,-soname,$(@F) -Wl,--version-script=install/exports -Wl,-z,defs -Wl,--whole-archive $< -Wl,--no-whole-archive -o $@

# cargo itself knows what has changed
programs: library build/libtimed.a | tools
	@cd host && cargo build --quiet --release --offline --features library
	@for program in bulhyemik replay bench differ world; do \
		cmp -s build/cargo/release/$$program build/$$program || cp build/cargo/release/$$program build/ || exit 1; \
	done

# The man pages: of the program from its own help, of the C header from its comments.
pages: programs
	@for command in '' $$(build/bulhyemik help | sed -n 's/^  \([a-z]*\) .*/\1/p' | uniq); do \
		build/bulhyemik help $$command || exit 1; \
	done > build/bulhyemik.help
	@awk -v version=$(VERSION) -f install/roff.awk -f install/program.awk build/bulhyemik.help > build/bulhyemik.1
	@awk -v version=$(VERSION) -f install/roff.awk -f install/header.awk include/bulhyemik.h > build/bulhyemik.3

# Where the tools are at hand all is made up to date first; where they are not, as for another user, what is built already is installed.
install: $(if $(shell command -v rt > /dev/null && command -v cargo > /dev/null && command -v cc),all)
	@install/install.sh install

uninstall:
	@install/install.sh uninstall

demo: all
	@sh examples/demo.sh build/bulhyemik

check: | tools
	@rt all check

test: | tools
	@missing=0; \
	$(call need,python3,checks the papers and runs the Python example,python 3.11); \
	$(call need,pkg-config,finds what was installed,pkgconf 1.8.1); \
	$(all_there)
	@tests/gate

bench: all
	@build/bench
	@if command -v valgrind > /dev/null; then echo; build/bench --instructions; else echo 'make: no valgrind: instructions are not counted'; fi
	@if command -v valgrind > /dev/null && command -v objdump > /dev/null; then \
		echo; build/bench --divisions --rows 'one lookup' --rows 'points at once' --rows 'rounding alone'; \
	else echo 'make: no valgrind or no objdump: divisions are not counted'; fi
	@if pkg-config --exists proj 2> /dev/null; then \
		cc -std=c99 -O3 -Iinclude host/c/proj.c build/libbulhyemik.a $$(pkg-config --cflags --libs proj) -lm -o build/proj && echo && build/proj; \
	else echo 'make: no PROJ: nothing is timed against it'; fi

clean:
	@rm -rf build crates/*/out

help:
	@sed -n '/^#/!q; s/^# //p' Makefile
