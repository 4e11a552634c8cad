CARGO = cargo --offline
TESTS = --release --manifest-path tests/Cargo.toml --target-dir target/rust
JOURNAL = crates/vetchdawn/stdin

# where install puts things; LIBDIR may be given below PREFIX, as lib/x86_64-linux-gnu
PREFIX = /usr/local
LIBDIR = lib

# how many crates are proved at a time: one a processor, with 2 GB for each
AT_ONCE = $(shell awk '/^processor/ { n++ } /^MemAvailable/ { m = int($$2 / 2000000) } END { print m < 1 ? 1 : m < n ? m : n }' /proc/cpuinfo /proc/meminfo)
PROGRESS = .ci/progress
# the seconds that PROGRESS shows are counted from here
ifndef BEGAN
export BEGAN := $(shell date +%s)
endif

define HELP
make help                      this list; minutes are from nothing, on four cores
make run               8 min   the program, run on an example, or on another journal: JOURNAL=file
make program           8 min   the program; the archives are built with it
make library           8 min   the archive; the program is built with it
make archives          8 min   the program, the archive and the shared library: all that install puts in place
make install           8 min   archives, put in place: PREFIX=/usr/local LIBDIR=lib, and DESTDIR=folder for packages
make uninstall                 removes what install put there; with the same PREFIX and DESTDIR
make prove             7 min   proves every crate that has changed
make edits NAME=crate          tries the must-fail edits of one crate
make test             26 min   the gate: every crate proved, the must-fail edits, the program, the tests
make check-rust                archives, then the tests alone
make fuzz                      the archive, then five minutes of calls on any tables
make bench                     the archive, then the figures of docs/BENCHMARKS.md
make plot                      draws docs/bench/search.svg from them
make picture                   README's picture and list, after a change of crates.txt or of definitions
endef
export HELP

.PHONY: help run test prove edits picture program library archives check-rust fuzz bench plot install places uninstall need-cc need-tests
# two runs of rt would wait for one another
.NOTPARALLEL:
# what a failed command began is not left behind
.DELETE_ON_ERROR:

help:
	@printf '%s\n' "$$HELP"

# a tool that a target needs at its end is asked for before its beginning
need-%:
	@.ci/need $*
need-cc:
	@.ci/need $(firstword $(CC))
need-tests:
	@.ci/need cargo cc c++ valgrind

run: program
	@$(PROGRAM) < $(JOURNAL)

test: need-rt need-ar need-cc need-tests
	@.ci/run

prove: need-rt
	@$(PROGRESS) target/log/prove rt all check --jobs $(AT_ONCE)

edits: need-rt
	@[ -n '$(NAME)' ] || { echo 'make edits NAME=crate: which crate?' >&2; exit 1; }
	@$(PROGRESS) target/log/edits rt must-fail $(NAME)

picture: need-python3
	@docs/picture
	@docs/definitions

SOURCES := crates.txt $(shell find crates -name out -prune -o \( -name '*.rt' -o -name '*.antt' \) -print)
PROGRAM = target/bin/vetchdawn
program: $(PROGRAM)

# what the proved crates offer to C, each as an archive, and all of it in one
EXPORTS = version sketch_calls_c journal_form_c capi_changes capi_readings
LIBRARY = target/staticlib/libvetchdawn.a
PARTS = $(EXPORTS:%=target/staticlib/lib%.a)
library: $(LIBRARY)
library archives: TOOLS = ar $(firstword $(CC))

# all crates are proved in one run, and these are built; until that is through those of before stay
.PRECIOUS: $(PROGRAM) $(PARTS)
$(PROGRAM) $(PARTS) &: $(SOURCES)
	@.ci/need rt $(TOOLS)
	@$(PROGRESS) target/log/proofs rt all check --jobs $(AT_ONCE)
	@$(PROGRESS) target/log/build .ci/build $(EXPORTS)

$(LIBRARY): $(PARTS)
	@.ci/need ar
	@rm -f $@
	@{ echo create $@; for part in $(PARTS); do echo addlib $$part; done; echo save; } | ar -M

# the same as a shared library; the header has the version
VERSION := $(shell awk '$$2 ~ /^VETCHDAWN_VERSION_(MAJOR|MINOR|PATCH)$$/ { printf "%s%s", dot, $$3; dot = "." }' include/vetchdawn.h)
SONAME = libvetchdawn.so.$(firstword $(subst ., ,$(VERSION)))
SHARED = target/lib/libvetchdawn.so.$(VERSION)
$(SHARED): $(LIBRARY) include/vetchdawn.h vetchdawn.map
	@.ci/need $(firstword $(CC))
	@mkdir -p $(@D)
	@$(CC) $(LDFLAGS) -shared -o $@ -Wl,-soname,$(SONAME) -Wl,--version-script=vetchdawn.map -Wl,--no-undefined -Wl,-z,text \
	  -Wl,-z,relro -Wl,-z,now -Wl,--whole-archive $(LIBRARY) -Wl,--no-whole-archive
	@for name in $(SONAME) libvetchdawn.so; do cp $@ $(@D)/$$name; done

archives: $(PROGRAM) $(LIBRARY) $(SHARED)

# some tests make links, which rt takes nowhere below the top: their folder is elsewhere, and goes with them
check-rust: need-tests archives
	@export TMPDIR=$$(mktemp -d) && trap 'rm -rf "$$TMPDIR"' EXIT && $(CARGO) test $(TESTS) --lib --test '*'

# the gate has ten seconds of it
fuzz: need-cargo library
	@FUZZ_SECONDS=300 $(CARGO) test $(TESTS) --test fuzz -- --nocapture

bench: need-cargo library
	@$(CARGO) build --quiet $(TESTS) --bins
	@for name in sketches tries adds lengths nodes saving worst rights bits search; do target/rust/release/bench_$$name | tee docs/bench/$$name.txt; done
	@target/rust/release/bench_search rows | tee docs/bench/rows.txt
	@target/rust/release/bench_search wide | tee docs/bench/wide.txt
	@$(MAKE) --no-print-directory plot

plot: need-cargo library
	@$(CARGO) run --quiet $(TESTS) --bin plot < docs/bench/search.txt > docs/bench/search.svg

prefix = $(abspath $(PREFIX))
libdir = $(if $(filter /%,$(LIBDIR)),$(abspath $(LIBDIR)),$(prefix)/$(LIBDIR))
PLACES = DESTDIR='$(DESTDIR)' PREFIX='$(prefix)' LIBDIR='$(libdir)' VERSION='$(VERSION)'
install: places archives
	@$(PLACES) .ci/install

places:
	@$(PLACES) .ci/places

uninstall:
	@$(PLACES) .ci/uninstall
