# make                    plays 01's session
# make session FILE=F     plays the records in F
# make lib                target/staticlib/libdoor.a and include/curlywether.h, for C and Rust
# make example            the C program of examples/c over that archive, under valgrind
# make soak SECONDS=N     the second program against the core, at random, for so long
# make picture            docs/session.svg, of 01's session
# make bench              the core beside a scan, a balanced map, a tree by hand and Horizon (docs/BENCHMARKS.md)
# make test               everything that is checked: ends in `rt ci`'s output, whose last line is the verdict
.PHONY: all session lib example test soak picture
FILE ?= crates/session/stdin
SECONDS ?= 600

all: session

session: target/bin/session
	@target/bin/session < $(FILE)

SOURCES := $(shell find crates -name out -prune -o \( -name '*.rt' -o -name '*.antt' \) -print) crates.txt

# rt keeps what it builds in a crate's out/: a program that was run, a static library
target/bin/session: $(SOURCES)
	@mkdir -p target/bin
	@(cd crates/session && rt run < stdin) > target/session.log 2>&1 || { tail -5 target/session.log; exit 1; }
	@cp crates/session/out/session $@

lib: target/staticlib/libdoor.a

target/staticlib/lib%.a: $(SOURCES)
	@mkdir -p target/staticlib
	@(cd crates/$* && rt lib) > target/lib-$*.log 2>&1 || { tail -5 target/lib-$*.log; exit 1; }
	@cp crates/$*/out/lib$*.a $@

example: lib
	@cc -std=c99 -Wall -Wextra -Werror -Iinclude examples/c/link.c target/staticlib/libdoor.a -o target/link
	@valgrind -q --error-exitcode=1 target/link

test:
	@tests/run

soak: lib target/bin/session
	@tests/second/build.sh target/staticlib/libdoor.a target/second
	@target/second soak --orders 100000000 --spoiled 10000000 --seconds $(SECONDS) --program target/bin/session

picture:
	@tools/picture crates/session/stdin crates/session/stdout > docs/session.svg

# the tree's operations in ns, through its archive (docs/BENCHMARKS.md)
.PHONY: bench-tree
bench-tree: target/staticlib/libtree_archive.a
	@rustc -O --edition 2021 -L target/staticlib -l static=tree_archive bench/tree/main.rs -o target/bench-tree
	@target/bench-tree

# the link's check, sweep and run, through its archives (docs/BENCHMARKS.md); link_archive has the link's own booking and sweep, for the
# benchmarks alone: it is no part of `make lib`
.PHONY: bench-link
bench-link: lib target/staticlib/liblink_archive.a
	@rustc -O --edition 2021 -L target/staticlib -l static=door -l static=link_archive bench/link/main.rs -o target/bench-link
	@target/bench-link

# The core beside a scan, a balanced map, a tree by hand and Horizon, on 004's streams (docs/BENCHMARKS.md). Each prints Markdown tables:
# make bench              times, voids, visits, losses, bytes (a minute); fails where one that fills voids answers otherwise
# make bench-instructions instructions an order by callgrind, and where the core's go (some minutes)
# make bench-worst        the worst booking of each stream, in instructions (some minutes)
# make bench-forms        what a tree with the voids as its leaves could still gain, form by form (two minutes)
# make bench-docs         all four on an idle machine, put into docs/BENCHMARKS.md, and both plots drawn from it
.PHONY: bench bench-instructions bench-worst bench-forms bench-docs bench-plots
RUSTC := rustc -O -C codegen-units=1 --edition 2021 -L target/staticlib -l static=door -l static=link_archive

PEERS := $(wildcard bench/peers/*.rs bench/peers/leaves/*.rs) include/curlywether.rs target/staticlib/libdoor.a target/staticlib/liblink_archive.a

target/bench-peers: $(PEERS)
	@$(RUSTC) bench/peers/main.rs -o $@

target/bench-bytes: $(PEERS)
	@$(RUSTC) bench/peers/bytes.rs -o $@

bench: target/bench-peers target/bench-bytes
	@target/bench-peers
	@target/bench-bytes

bench-instructions: target/bench-peers
	@bench/peers/instructions

bench-worst: target/bench-peers
	@bench/peers/worst

bench-forms: target/bench-peers
	@bench/peers/forms

bench-docs:
	@$(MAKE) -s bench > target/bench.md
	@$(MAKE) -s bench-instructions >> target/bench.md
	@$(MAKE) -s bench-worst >> target/bench.md
	@$(MAKE) -s bench-forms >> target/bench.md
	@bench/peers/fill target/bench.md docs/BENCHMARKS.md
	@$(MAKE) -s bench-plots

bench-plots:
	@bench/peers/plots docs/BENCHMARKS.md docs
