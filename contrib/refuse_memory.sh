#!/bin/sh
# Refuses each allocation in turn: for n from 1 on, until a run meets no refusal, a program is run
# and its nth allocation is refused. It ends with status 1 at the first answer that is neither that
# of the run with memory nor a refusal by its name, and says which n that was.
#
# `bnc view`, `attach` and `check` answer in full, or with `bnc: out of memory`, status 1 and
# nothing printed. The tests `once_refused` pass, or say that memory was refused to the test itself:
# what a refused call promises, and that the call made again answers as ever, is looked at in them.
#
# It runs the programs that `rt ci` leaves in the folders out of the crates; BNC and TESTS (a list)
# name others. It needs a C compiler, `cc` or the one of the kit.
set -eu
cd "$(dirname "$0")/.."
bnc=${BNC:-crates/bnc/out/bnc}
tests=${TESTS:-
  crates/tests_hub/out/tests_hub_tests
  crates/tests_handshakes/out/tests_handshakes_tests
  crates/tests_journals/out/tests_journals_tests
  crates/tests_threads/out/tests_threads_tests}
most=20000

for program in "$bnc" $tests; do
  if ! [ -x "$program" ]; then
    echo "refuse_memory: there is no $program: run rt ci first" >&2
    exit 1
  fi
done

at=$(mktemp -d "${TMPDIR:-/tmp}/refuse-memory.XXXXXX")
trap 'rm -rf "$at"' EXIT
lib=$at/refuse_memory.so
if ! cc -O2 -shared -fPIC -o "$lib" contrib/refuse_memory.c 2> "$at/cc"; then
  kit=$(dirname "$(rt doc)")/toolchain/bin
  PATH=$kit:$PATH clang -O2 -shared -nostdlib -fPIC -fuse-ld=lld -o "$lib" contrib/refuse_memory.c
fi

# run N COMMAND..: runs a command whose Nth allocation is refused; what it answers is left in out,
# err and status
run() {
  nth=$1; shift
  rm -f "$at/sign"
  status=0
  timeout 60 env REFUSE_NTH="$nth" REFUSE_SIGN="$at/sign" LD_PRELOAD="$lib" "$@" \
    < "$at/input" > "$at/out" 2> "$at/err" || status=$?
  # a warning may be lost with the memory for it
  sed -i '/^bnc: warning: /d' "$at/err"
}

is_full() {
  [ "$status" -eq "$full" ] && cmp -s "$at/out" "$at/full.out" && cmp -s "$at/err" "$at/full.err"
}

# the programs print nothing else at a refusal
is_refused_bnc() {
  [ "$status" -eq 1 ] && [ ! -s "$at/out" ] && [ "$(cat "$at/err")" = "bnc: out of memory" ]
}

# a test was refused memory for something of its own; assertions have other texts
is_refused_test() {
  [ "$status" -eq 101 ] || return 1
  [ "$(sed 1d "$at/err")" = "the test failed: its result gives status 1" ] || return 1
  case $(sed -n 1p "$at/err") in
    "error: AllocError" | "error: AllocFailed { .. }" | "error: OutOfMemory") return 0 ;;
    *) return 1 ;;
  esac
}

fault() {
  echo "FAULT: $name, allocation $n refused (0: none): status $status" >&2
  sed 's/^/  /' "$at/out" "$at/err" >&2
  exit 1
}

# sweep NAME KIND STATUS COMMAND..: refuses each allocation of a command that reads $at/input, and
# ends with this status if none is refused
sweeps=0
refusals=0
sweep() {
  name=$1; kind=$2; full=$3; shift 3
  n=0
  run 0 "$@"
  [ "$status" -eq "$full" ] || fault
  cp "$at/out" "$at/full.out"
  cp "$at/err" "$at/full.err"
  n=1
  while run $n "$@"; [ -e "$at/sign" ]; do
    is_full || "is_refused_$kind" || fault
    n=$((n + 1))
    [ $n -lt $most ] || fault
  done
  is_full || fault
  [ $n -gt 1 ] || fault
  sweeps=$((sweeps + 1))
  refusals=$((refusals + n - 1))
}

joined() {
  cat << END
:s 001 Me :hi
:s 005 Me PREFIX=(ov)@+ CHANTYPES=# :are supported
:s 376 Me :end
:Me!m@h JOIN #c
END
}

# a channel with modes, a topic, members and what is known of one of them; messages; a line that is
# none
busy() {
  joined
  cat << END
:s 332 Me #c :Hello all
:s 324 Me #c +kl key 9
:s 353 Me = #c :Me @+bob +eve
:s 366 Me #c :End
:bob!b@h ACCOUNT bobacc
:bob!b@h AWAY :gone fishing
12 x
:bob!b@h PRIVMSG #c m1
:bob!b@h PRIVMSG Me :hi there
:bob!b@h NICK rob
:s MODE #c -o rob
:eve!e@h NOTICE #C m2
END
}

programs() {
  joined > "$at/input"
  sweep "bnc view of a channel" bnc 0 "$bnc" view
  sweep "bnc attach to a channel" bnc 0 "$bnc" attach
  busy > "$at/input"
  sweep "bnc view of a busy channel" bnc 0 "$bnc" view
  sweep "bnc attach to a busy channel" bnc 0 "$bnc" attach --history 2 \
    --caps multi-prefix,extended-join,account-notify,away-notify,server-time,batch
  : > "$at/input"
  sweep "bnc attach before the welcome" bnc 1 "$bnc" attach
  sweep "bnc check" bnc 0 "$bnc" check crates/bnc/data/bnc.toml
  sed 's/^salt.*//' crates/bnc/data/bnc.toml > "$at/bad.toml"
  sweep "bnc check without a salt" bnc 1 "$bnc" check "$at/bad.toml"
  sweep "bnc --help" bnc 0 "$bnc" --help
}

# repeated_calls PROGRAM: the tests `once_refused` of a program, of which there has to be one
repeated_calls() {
  : > "$at/input"
  "$1" --list > "$at/list"
  sed -n 's/^\(once_refused::.*\): test$/\1/p' "$at/list" > "$at/names"
  if ! [ -s "$at/names" ]; then
    echo "refuse_memory: $1 has no test once_refused" >&2
    exit 1
  fi
  for test in $(cat "$at/names"); do
    sweep "$test" test 0 "$1" "$test"
  done
}

programs
for program in $tests; do
  repeated_calls "$program"
done
echo "refuse_memory: $refusals refusals in $sweeps runs, no fault"
