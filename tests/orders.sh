#!/usr/bin/env bash
# tools/orders there and back on 01's session, its refusals, and tools/picture on that session against docs/session.svg.
# Silent on success; otherwise the difference, and exit status 1.
set -euo pipefail
cd "$(dirname "$0")/.."
out=$(mktemp -d)
trap 'rm -rf "$out"' EXIT

refused() { # refused TEXT COMMAND..: the command ends with status 1 and says TEXT
    local text=$1 status=0
    shift
    "$@" > "$out/said" 2>&1 || status=$?
    if [ "$status" != 1 ] || ! grep -qF -- "$text" "$out/said"; then
        echo "orders: '$*' ended with $status, without '$text'"
        exit 1
    fi
}

tools/orders write tests/session/orders > "$out/records"
cmp "$out/records" crates/session/stdin
sed 's/#.*//; s/ *$//; /^$/d' tests/session/orders > "$out/orders"
tools/orders read "$out/records" | diff -u "$out/orders" -
head -c 20 "$out/records" > "$out/cut"
refused '# at byte 18: OB cut short, 2 bytes remain' tools/orders read "$out/cut"
printf 'OSabcdefOQ' > "$out/unknown"
refused '# at byte 8: unknown mark 4F 51' tools/orders read "$out/unknown"
printf '# a comment\nOS 7\nOC 1 65536\n' > "$out/wide"
refused 'wide:3: length: 65536 is not a whole number from 0 to 65535' tools/orders write "$out/wide"
tools/picture crates/session/stdin crates/session/stdout > "$out/session.svg"
diff -u docs/session.svg "$out/session.svg"
