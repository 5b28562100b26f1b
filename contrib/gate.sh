#!/usr/bin/env bash
# The whole gate. Each source file says in its first line what it is about. `rt ci` proves every crate
# from nothing, runs the tests and has planted bugs refused. Then the programs that it built are
# tried, side by side, since each of these trials waits more than it works: bnc on the cases, each
# allocation refused in turn, a network and clients at random, clients that vanish, logins by SASL, what
# else networks and proxies may ask, a network that fills the memory, what is kept and played back, the
# figures, a journal over fifty kills, and the demonstration. All of them are printed, and one that fails makes the gate fail. Last, if dist/ is
# there, the program has to be the one that dist/ hands out, if its text and its kit are these.
#
# The planted bugs, each an edit in a crate's must-fail/, cost more than all else together, so they
# take turns: the crates form five groups, and a gate tries the edits of one, which goes by the
# text of the repository. EDITS=hub, lines, journal, sessions or steward names the group, EDITS=all
# tries all. Who changes a crate tries its edits: `rt must-fail NAME`. The edits that wait are in
# .edits-waiting/ meanwhile. A crate with edits that is in no group, or in two, ends the gate.
#
# A crate gets one job, since each further one reads all libraries again for every few functions. As
# many crates are checked at once as there are processors, with 4.5 GB of memory for each; RT_JOBS
# sets another number.
set -eu
cd "$(dirname "$0")/.."
at_once=$(awk '/^MemAvailable:/ { print int($2 / 4500000) }' /proc/meminfo)
if [ "$at_once" -gt "$(nproc)" ]; then at_once=$(nproc); fi
if [ "$at_once" -lt 1 ]; then at_once=1; fi
export RT_JOBS=${RT_JOBS:-$at_once}
contrib/files.sh > /dev/null

# the groups, which take about as long as each other
hub='hub_core welcome'
lines='block_list client_caps irc_line irc_names irc_support net_view network_tables proxy_line
    quick_view sasl tape_view weights'
journal='bnc_config figures first_settings frames history journal journal_files journal_writer
    profile_settings'
sessions='commands hub_ends hub_runs hub_threads receipts sessions'
steward='shell steward upstream'
groups=(hub lines journal sessions steward)
waiting=.edits-waiting

# gives the crates their edits back, also after a gate that was killed
give_back() {
    local folder
    for folder in "$waiting"/*; do
        if [ -d "$folder" ]; then mv "$folder" "crates/${folder##*/}/must-fail"; fi
    done
    rm -rf "$waiting"
}
give_back
for folder in crates/*/must-fail; do
    crate=$(basename "$(dirname "$folder")")
    turns=0
    for group in "${groups[@]}"; do
        for member in ${!group}; do
            if [ "$member" = "$crate" ]; then turns=$((turns + 1)); fi
        done
    done
    if [ "$turns" != 1 ]; then
        echo "gate: $crate has planted bugs, and contrib/gate.sh has it in $turns groups, not in one" >&2
        exit 2
    fi
done
sum=$(find crates contrib docs README.md -type f -not -path '*/out/*' -print0 | LC_ALL=C sort -z | xargs -0 cat | cksum)
turn=${EDITS:-${groups[$((${sum%% *} % ${#groups[@]}))]}}
later=
is_known=
if [ "$turn" = all ]; then is_known=yes; fi
for group in "${groups[@]}"; do
    if [ "$turn" = "$group" ]; then is_known=yes; fi
    if [ "$turn" != all ] && [ "$turn" != "$group" ]; then later="$later ${!group}"; fi
done
if [ -z "$is_known" ]; then
    echo "gate: EDITS is one of ${groups[*]} all, and not $turn" >&2
    exit 2
fi
logs=$(mktemp -d)
trap 'rm -rf "$logs"; give_back' EXIT
echo "gate: planted bugs of this turn: $turn ($RT_JOBS crates at once)"
mkdir -p "$waiting"
for crate in $later; do
    if [ -d "crates/$crate/must-fail" ]; then mv "crates/$crate/must-fail" "$waiting/$crate"; fi
done

# prints what it reads, with the seconds so far in each line of rt's own
with_times() {
    local line
    while IFS= read -r line; do
        case $line in
            'rt: '*) printf '%6d s %s\n' "$SECONDS" "$line" ;;
            *) printf '%s\n' "$line" ;;
        esac
    done
}
status=0
rt ci > >(with_times) 2>&1 || status=$?
wait
give_back
if [ "$status" != 0 ]; then exit "$status"; fi

bnc=crates/bnc/out/bnc
trials=()
begin() {
    "$@" > "$logs/${#trials[@]}" 2>&1 &
    trials+=("$!")
}
begin contrib/cases.sh
begin contrib/refuse_memory.sh
begin python3 contrib/try_random.py "$bnc" 1 20
begin python3 contrib/try_vanished.py "$bnc"
begin python3 contrib/try_sasl.py "$bnc"
begin python3 contrib/try_networks.py "$bnc"
begin python3 contrib/try_budget.py "$bnc"
begin python3 contrib/try_profile.py "$bnc"
begin python3 contrib/try_metrics.py "$bnc"
begin python3 contrib/try_journal.py "$bnc" 1 50
begin env BNC="$bnc" contrib/demo.sh
for place in "${!trials[@]}"; do
    if ! wait "${trials[$place]}"; then status=1; fi
    cat "$logs/$place"
done
echo "gate: $SECONDS s in all"
if [ -f dist/README.md ] && ! contrib/dist.sh --check; then status=1; fi
exit "$status"
