#!/usr/bin/env bash
# Whether a busy machine costs a client that reads its session:
#
#   floods.sh BNC [FLOODS [BUSY]]
#
# A network sends 200,000 lines as fast as they are taken, 100 times if left out, to eight sessions
# that read on, beside 16 processes that take every processor. It prints how many sessions were cut,
# and how long a flood took. It uses the ports 26660 and 26667 of the loopback range.
set -eu
bnc=$1
here=$(cd "$(dirname "$0")" && pwd)
out=$here/out
mkdir -p "$out"
[ -x "$out/load" ] || rustc -O --edition 2024 "$here/load/main.rs" -o "$out/load"
at=$(mktemp -d)
trap 'kill "$pid" 2> /dev/null || true; rm -rf "$at"' EXIT
"$out/load" settings 26667 26660 1 > "$at/bnc.toml"
chmod 600 "$at/bnc.toml"
"$bnc" serve "$at/bnc.toml" > "$at/log" 2>&1 &
pid=$!
"$out/load" 26660 26667 "$pid" ann@x/net:bc floods "${2:-100}" "${3:-16}"
