#!/usr/bin/env bash
# Shows what a bouncer does, in ten seconds: a network, bnc at it, and a laptop that leaves and attaches
# late, with each line and who sent it. The status is 1 if the laptop receives anything wrong.
#
# BNC names the program; else it is the one that was built here, or the one that is installed.
set -eu
if [ "${BNC:-}" ]; then BNC=$(realpath -e "$BNC"); fi
cd "$(dirname "$0")"
for bnc in "${BNC:-}" ../crates/bnc/out/bnc ~/.local/bin/bnc /usr/local/bin/bnc /usr/bin/bnc; do
  if [ -x "$bnc" ]; then exec python3 demo.py "$bnc"; fi
done
echo 'demo: there is no bnc: contrib/install.sh installs it' >&2
exit 1
