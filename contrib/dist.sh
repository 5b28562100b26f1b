#!/usr/bin/env bash
# The program that is handed out, in dist/.
#
#   contrib/dist.sh           puts crates/bnc/out/bnc there, which contrib/prove.sh or the gate has
#                             just proved and built, with its sum and what it was made of
#   contrib/dist.sh --check   compares the program that was built here with the one in dist/
#   contrib/dist.sh --crates  prints the crates that the program is made of
#
# With the same text and the same kit the proofs make the same program, byte for byte. --check ends
# with status 1 if they made another one, if dist/ is not there, if its files do not belong together,
# or if README.md names another kit. If the text or the kit is another one, it says so, compares
# nothing, and ends with status 0.
set -eu
cd "$(dirname "$0")/.."
name=bnc-x86_64-linux-gnu
built=crates/bnc/out/bnc

# bnc and the crates that it uses, as crates.txt has them
crates() {
  local known=bnc before=
  while [ "$known" != "$before" ]; do
    before=$known
    known=$(for crate in $known; do
      echo "$crate"
      sed -n "s/^$crate\b[^:]*://p" crates.txt | tr ' ' '\n' | while read -r below; do
        if [ -d "crates/$below" ]; then echo "$below"; fi
      done
    done | sort -u)
  done
  echo "$known"
}

# a sum of the text that the program is made of: the sources, definitions and proofs of these crates
text_sum() {
  local crate
  for crate in $(crates); do
    grep "^$crate\b" crates.txt
    find "crates/$crate/src" "crates/$crate/specs" "crates/$crate/proofs" -type f 2> /dev/null \
      | LC_ALL=C sort | xargs -r sha256sum
  done | sha256sum | cut -d ' ' -f 1
}

# a sum of the kit: its compilers, its libraries, and what it knows of them
kit_sum() { sha256sum < "$(dirname "$(rt doc)")/WHAT" | cut -d ' ' -f 1; }

# the value of a row of dist/README.md
row() { sed -n "s/^| $1 | \`\(.*\)\` |\$/\1/p" dist/README.md; }

make() {
  if [ ! -x "$built" ]; then echo "dist: $built is not there: contrib/prove.sh makes it" >&2 && exit 1; fi
  mkdir -p dist
  gzip -9 -n -c "$built" > "dist/$name.gz"
  (cd dist && { sha256sum "$name.gz"; sha256sum "../$built" | sed "s# .*#  $name#"; } > SHA256SUMS)
  cat > dist/README.md <<END
# The program, ready to run

\`$name.gz\` is \`bnc\` as the proofs made it: [contrib/install.sh](../contrib/install.sh) checks its sum and
installs it, and \`contrib/dist.sh --check\` compares it with the one that you have proved yourself.

| | |
|---|---|
| system | \`Linux on x86-64-v2 (2009 or later), with glibc $(needed_glibc) or later\` |
| text | \`$(text_sum)\` |
| kit | \`$(rt version)\` |
| kit's sum | \`$(kit_sum)\` |

The text's sum is of the sources, definitions and proofs of \`bnc\` and the crates that it stands on.
END
  echo "dist: made of the program that was built here"
}

# the newest version of glibc whose names the program asks for
needed_glibc() { grep -aoE 'GLIBC_[0-9]+(\.[0-9]+)+' "$built" | sed 's/GLIBC_//' | sort -uV | tail -n 1; }

check() {
  if [ ! -f dist/README.md ]; then echo 'dist: there is no dist/README.md' >&2 && exit 1; fi
  (cd dist && sha256sum --quiet --check --ignore-missing SHA256SUMS)
  local handed here
  handed=$(sed -n "s/ *$name\$//p" dist/SHA256SUMS)
  if [ "$(gzip -dc "dist/$name.gz" | sha256sum | cut -d ' ' -f 1)" != "$handed" ]; then
    echo "dist: $name.gz does not hold the program that SHA256SUMS names" >&2 && exit 1
  fi
  if ! grep -qF "$(row kit)" README.md; then
    echo "dist: README.md does not name the kit of dist, $(row kit)" >&2 && exit 1
  fi
  if [ "$(row text)" != "$(text_sum)" ]; then echo 'dist is of an earlier text: not compared' && return; fi
  if [ "$(row "kit's sum")" != "$(kit_sum)" ]; then
    echo "dist was made with kit $(row kit), this is $(rt version): not compared" && return
  fi
  here=$(sha256sum < "$built" | cut -d ' ' -f 1)
  if [ "$here" = "$handed" ]; then echo 'dist: the proofs made the program that dist hands out'
  else echo 'dist: the proofs made another program than dist hands out' >&2 && exit 1; fi
}

case "${1-}" in
  '') make ;;
  --check) check ;;
  --crates) crates ;;
  *) echo 'usage: contrib/dist.sh [--check | --crates]' >&2 && exit 2 ;;
esac
