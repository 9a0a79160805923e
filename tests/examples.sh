#!/usr/bin/env bash
# Builds and runs the examples in C, Rust and Python over target/staticlib/libdoor.a; each must print examples/expected.
# Silent on success; otherwise the difference, and exit status 1. The C program runs under valgrind where there is one.
set -euo pipefail
cd "$(dirname "$0")/.."
archive=target/staticlib/libdoor.a
[ -f "$archive" ] || { echo "examples: $archive is missing (make lib)"; exit 1; }
out=$(mktemp -d)
trap 'rm -rf "$out"' EXIT
failed=0

same() { # same NAME COMMAND..: what the command prints is examples/expected
    local name=$1
    shift
    "$@" > "$out/$name.out" || { echo "examples: $name ended with status $?"; failed=1; }
    diff -u --label examples/expected --label "$name" examples/expected "$out/$name.out" || failed=1
}

watch=()
if command -v valgrind > /dev/null; then watch=(valgrind -q --error-exitcode=1); fi
cc -std=c99 -Wall -Wextra -Werror -Iinclude examples/c/link.c "$archive" -o "$out/link_c"
rustc -O --edition 2021 -D warnings -L target/staticlib -l static=door examples/rust/link.rs -o "$out/link_rs"
cc -shared -o "$out/libcurlywether.so" -Wl,--whole-archive "$archive" -Wl,--no-whole-archive
same c ${watch[@]+"${watch[@]}"} "$out/link_c"
same rust "$out/link_rs"
same python python3 examples/python/link.py "$out/libcurlywether.so"
exit $failed
