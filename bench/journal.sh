#!/usr/bin/env bash
# Measures what it costs to keep messages over a restart, in two parts:
#
#   journal.sh BNC [ROUNDS]    the program with and without `kept`, in turn, three rounds if left out
#
# First lines to sessions at full speed and the processor time of a delivery; then a start over 64,000
# messages. Last, over the repository's crates, how long a snapshot of 64,000 messages takes, which
# holds a hub's lock; this part is left out if there is no `rt`.
set -eu
here="$(cd "$(dirname "$0")" && pwd)"
python3 "$here/journal.py" "$1" "${2:-3}"
if command -v rt > /dev/null; then "$here/run.sh" kept 500 128; fi
