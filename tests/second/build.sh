#!/bin/sh
# build.sh LIBRARY.a [OUTPUT]: builds the second program against a static library with the functions of curlywether.h.
set -e
lib=$(realpath "${1:?the static library}")
out=${2:-second}
exec rustc --edition 2021 -O -o "$out" "$(dirname "$0")/main.rs" -C link-arg="$lib"
