#!/bin/sh
# Splits a settings file among several processes, each with its share of the users.
#
#   contrib/shard.sh N FILE.toml
#
# Beside FILE.toml it writes FILE.1.toml to FILE.N.toml, mode 0600, and FILE.map, by which HAProxy knows
# the process of each user (docs/SCALE.md). Which process a user gets goes by a hash of the name alone,
# so it stays the same when others come and go. All that comes before the users, and all other
# tables, go into each file; there `listen` and `listen_proxy` have one port further than in the file
# before, and `metrics` names a file of its own (bnc.1.prom). Each of these keys takes one line, and so does
# a user's name. Nothing is written if FILE.toml is not of that form.
set -eu
[ $# = 2 ] || { echo 'usage: contrib/shard.sh N FILE.toml' >&2; exit 2; }
count=$1 file=$2
case $count in '' | *[!0-9]* | 0*) echo 'shard: N is a number from 1 on' >&2; exit 2 ;; esac
[ -r "$file" ] || { echo "shard: cannot read $file" >&2; exit 1; }
base=${file%.toml}
umask 077
at=$(mktemp -d)
trap 'rm -rf "$at"' EXIT

# NUMBER of each user's process, and what goes where
LC_ALL=C awk -v count="$count" -v at="$at" '
  function refuse(why) { print "shard: line " NR ": " why > "/dev/stderr"; failed = 1; exit 1 }
  # a number below 2^31 for a text
  function hash(text,    i, sum) {
    sum = 5381
    for (i = 1; i <= length(text); i++) sum = (sum * 33 + ordinal[substr(text, i, 1)]) % 2147483648
    return sum
  }
  # a line with each port so much further
  function further(line, by,    before, port) {
    before = ""
    while (match(line, /:[0-9]+"/)) {
      port = substr(line, RSTART + 1, RLENGTH - 2) + by
      before = before substr(line, 1, RSTART) port "\""
      line = substr(line, RSTART + RLENGTH)
    }
    return before line
  }
  # each port of a line, which no other one of the top may come near; two hosts may have the same
  function note_ports(line,    port) {
    while (match(line, /:[0-9]+"/)) {
      port = substr(line, RSTART + 1, RLENGTH - 2) + 0
      if (port + count - 1 > 65535) refuse("the last port would be above 65535")
      for (other in ports)
        if (other != port && other - port < count && port - other < count) refuse("ports " other " and " port " are less than " count " apart")
      ports[port] = 1
      line = substr(line, RSTART + RLENGTH)
    }
  }
  # a line whose file has the number of a process in its name, before the last dot
  function numbered(line, i,    name, start, dot) {
    start = index(line, "\"") + 1
    name = substr(line, start)
    name = substr(name, 1, index(name, "\"") - 1)
    dot = match(name, /\.[^.\/]*$/) ? RSTART : length(name) + 1
    return substr(line, 1, start + dot - 2) "." i substr(line, start + dot - 1)
  }
  function put(text, i) { parts[i] = parts[i] text "\n" }
  function end_user(    i) {
    if (user == "") return
    if (name == "") refuse("a user above has no name = \"..\" of its own line")
    i = hash(name) % count + 1
    parts[i] = parts[i] user
    map = map name " bnc" i "\n"
    user = name = ""
  }
  BEGIN { for (i = 0; i < 256; i++) ordinal[sprintf("%c", i)] = i; where = "top" }
  /^[ \t]*\[\[?[ \t]*"?user/ && !/^[ \t]*\[\[user(\.network)?\]\]/ { refuse("the tables of users are to be [[user]] and [[user.network]]") }
  /^[ \t]*\[\[user\]\]/ { end_user(); where = "user"; is_own = 1 }
  /^[ \t]*\[\[user\.network\]\]/ { if (where != "user") refuse("a network without a user"); is_own = 0 }
  /^[ \t]*\[[^\[]/ && !/^[ \t]*\[user\./ { end_user(); where = "table" }
  where == "user" {
    if (is_own && match($0, /^[ \t]*name[ \t]*=[ \t]*"[^"\\]*"/)) {
      name = substr($0, RSTART, RLENGTH); sub(/^[^"]*"/, "", name); sub(/"$/, "", name)
    }
    user = user $0 "\n"
    next
  }
  where == "top" && /^[ \t]*(listen|listen_proxy|metrics)[ \t]*=/ && !/=[ \t]*("[^"]*"|\[[ \t]*("[^"]*"[ \t]*,?[ \t]*)*\])[ \t]*(#.*)?$/ {
    refuse("listen, listen_proxy and metrics are to be double-quoted texts, each in one line")
  }
  where == "top" && /^[ \t]*metrics[ \t]*=/ {
    for (i = 1; i <= count; i++) put(numbered($0, i), i)
    next
  }
  where == "top" && /^[ \t]*listen(_proxy)?[ \t]*=/ {
    note_ports($0)
    for (i = 1; i <= count; i++) put(further($0, i - 1), i)
    next
  }
  where == "top" { for (i = 1; i <= count; i++) put($0, i); next }
  { last = last $0 "\n" }
  END {
    if (failed) exit 1
    end_user()
    if (!failed && map == "") refuse("no [[user]] in all of the file")
    if (failed) exit 1
    for (i = 1; i <= count; i++) printf "%s%s", parts[i], last > (at "/" i)
    printf "%s", map > (at "/map")
  }' "$file"
for i in $(seq "$count"); do mv "$at/$i" "$base.$i.toml"; done
mv "$at/map" "$base.map"
echo "wrote $base.1.toml to $base.$count.toml and $base.map, $(wc -l < "$base.map") users"
