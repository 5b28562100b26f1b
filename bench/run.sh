#!/usr/bin/env bash
# Runs a program of this folder over the repository's crates:
#
#   run.sh hub_alone SESSIONS LINES CHANNELS   what a delivery and an attach cost a hub alone
#   run.sh by_place < LINES                    what it costs to read all members by place
#   run.sh kept CAPACITY TARGETS               what the messages that are kept cost
#
# The gate reads each .rt file of the repository, and the programs are no crates of it. So their
# files are here as text, and are built in the folder BNC_BENCH, or else ~/bnc_bench, beside copies
# of the crates below, which are made if there is no such folder yet.
set -eu
here="$(cd "$(dirname "$0")" && pwd)"
top="$(cd "$here/.." && pwd)"
there="${BNC_BENCH:-$HOME/bnc_bench}"
program="$1"
shift
below="irc_names irc_line irc_support net_view block_list network_tables quick_view client_caps"
below="$below history frames journal welcome hub_ends hub_core receipts hub_threads"
if [ ! -d "$there" ]; then
    mkdir -p "$there/crates"
    git init -q "$there"
    cp "$top/HANDLES" "$there"
    for crate in $below; do
        cp -a "$top/crates/$crate" "$there/crates"
        grep "^$crate[ :]" "$top/crates.txt" >> "$there/crates.txt"
    done
    {
        echo "hub_alone: client_caps hub_core hub_ends hub_threads irc_line net_view quick_view rtrb welcome"
        echo "by_place: irc_line net_view quick_view"
        echo "kept: client_caps history irc_line journal"
    } >> "$there/crates.txt"
fi
for name in hub_alone by_place kept; do
    mkdir -p "$there/crates/$name/src"
    for file in "$here/$name"/*.rt.txt; do
        cp "$file" "$there/crates/$name/src/$(basename "$file" .txt)"
    done
done
cd "$there/crates/$program"
exec rt run -- "$@"
