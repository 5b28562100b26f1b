#!/usr/bin/env bash
# Prints what each source file is about, a line a file: its path and the first sentence of its
# `//!` comment, for the crates that are named or else for all, the lowest first.
#
#   contrib/files.sh [CRATE..]
#
# A file without such a comment is named on standard error, and the status is then 1.
set -eu
cd "$(dirname "$0")/.."
export LC_ALL=C
shopt -s globstar
mapfile -t crates < <(sed -n 's/^\([a-z_]*\)[: ].*/\1/p' crates.txt)
if (($#)); then crates=("$@"); fi
status=0
for crate in "${crates[@]}"; do
  echo "$crate"
  for file in "crates/$crate"/src/**/*.rt; do
    about=$(sed -n '/^\/\/! */!q; s///p' "$file" | paste -sd ' ' | sed 's/\. .*/./')
    if [ "$about" ]; then echo "  ${file#"crates/$crate/"}: $about"
    else echo "files: $file does not begin with //!" >&2 && status=1; fi
  done
done
exit $status
