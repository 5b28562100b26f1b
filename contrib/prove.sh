#!/usr/bin/env bash
# Proves bnc and the crates that it uses, leaves the program at crates/bnc/out/bnc, and compares
# it with the one that dist/ hands out, if dist/ is there.
#
# `rt ci` does it, in a folder with a copy of these crates alone, without their planted bugs: as many
# at once as there are processors and memory, each after those below it. RT_JOBS sets another number.
# A crate gets a line with the seconds so far. What was proved is kept, by the sums of all that it was
# made from: a run that was broken off goes on where it was, and the gate takes it over.
set -euo pipefail
cd "$(dirname "$0")/.."
at=$(mktemp -d)
trap 'rm -rf "$at"' EXIT
mkdir "$at/crates"
cp HANDLES "$at"
for crate in $(contrib/dist.sh --crates); do
  grep "^$crate\b" crates.txt >> "$at/crates.txt"
  mkdir "$at/crates/$crate"
  find "crates/$crate" -mindepth 1 -maxdepth 1 ! -name out ! -name must-fail \
    -exec cp -r -t "$at/crates/$crate" {} +
done

# prints rt's own lines, with the seconds so far
with_times() {
  local line
  while IFS= read -r line; do printf '%6d s %s\n' "$SECONDS" "${line#rt: }"; done
}
if ! (cd "$at" && rt ci 2>&1) | tee "$at/log" | grep --line-buffered '^rt: ' | with_times; then
  grep -v ': proved$' "$at/log"
  exit 1
fi
install -D "$at/crates/bnc/out/bnc" crates/bnc/out/bnc
echo "proved bnc, $SECONDS s in all"
if [ -f dist/README.md ]; then contrib/dist.sh --check; fi
