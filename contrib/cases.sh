#!/usr/bin/env bash
# Runs the built program on each case of crates/bnc/cases, whose README says what a case is, and
# prints what differs as `diff -u` does. It ends with status 1 if a case differs, if there is none,
# or if a file is no part of a case. BNC names another program than the one that `rt ci` built.
set -eu
cd "$(dirname "$0")/.."
bnc=$(realpath -e "${BNC:-crates/bnc/out/bnc}")
cd crates/bnc/cases
at=$(mktemp -d "${TMPDIR:-/tmp}/bnc-cases.XXXXXX")
trap 'rm -rf "$at"' EXIT
mkdir "$at/want" "$at/got"
umask 077 # bnc warns of settings that others can read
files=$(find . -type f ! -path ./README.md)
if grep -vE '^\./(view|attach|check|setup|log|words)/[^/. ]+\.(in|toml|args|out|err|status)$' <<< "$files"; then
  echo "cases: these are no parts of a case" >&2
  exit 1
fi
passed=0 failed=0
for case in $(sed 's/\.[a-z]*$//' <<< "$files" | sort -u); do
  folder=$(basename "$(dirname "$case")") room=$at/$case input=/dev/null words=() status=0
  mkdir -p "$room"
  if [ "$folder" != words ]; then words=("$folder"); fi
  if [ -e "$case.args" ]; then mapfile -t -O "${#words[@]}" words < "$case.args"
  elif [ "$folder" = check ] || [ "$folder" = log ]; then words+=(bnc.toml)
  elif [ "$folder" = setup ]; then words+=(new.toml); fi
  if [ -e "$case.in" ]; then input=$PWD/$case.in && cat "$input" > "$room/bnc.toml"; fi
  if [ -e "$case.toml" ]; then cat "$case.toml" > "$room/profile.toml"; fi
  (cd "$room" && exec timeout 60 "$bnc" "${words[@]}") < "$input" > "$at/got/out" 2> "$at/got/err" || status=$?
  echo $status > "$at/got/status"
  for part in out err; do cat "$case.$part" > "$at/want/$part" 2> "$at/missing" || true; done
  cat "$case.status" > "$at/want/status" 2> "$at/missing" || echo 0 > "$at/want/status"
  if (cd "$at" && diff -u --text want got); then
    passed=$((passed + 1))
  else
    failed=$((failed + 1))
    echo "cases: ${case#./} differs"
  fi
done
echo "cases: $passed passed, $failed failed"
[ "$passed" -gt 0 ] && [ "$failed" -eq 0 ]
