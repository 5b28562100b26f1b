#!/usr/bin/env bash
# Measures bnc beside ZNC and bip, if these are installed (Debian: apt install znc bip), and bnc's
# view beside plain Rust, in turn, and prints the medians side by side:
#
#   bench/table.sh ~/.local/bin/bnc [ROUNDS [STEP..]]
#
# The steps are lines, attach, many, listening and view; all if none is named, and three rounds.
# It uses two ports of the loopback range, 26660 and 26667. It is not for root, for whom ZNC waits
# half a minute before it starts. rustc builds what it needs into bench/out, if that is empty.
set -eu
bnc=$1 rounds=${2:-3}
shift $(($# < 2 ? $# : 2))
steps=${*:-lines attach many listening view}
here=$(cd "$(dirname "$0")" && pwd)
out=$here/out
mkdir -p "$out" 2> /dev/null || true
[ -x "$out/load" ] || rustc -O --edition 2024 "$here/load/main.rs" -o "$out/load"
[ -x "$out/plain" ] || rustc -O --edition 2024 "$here/plain.rs" -o "$out/plain"
[ -x "$out/lines" ] || rustc -O --edition 2024 "$here/lines.rs" -o "$out/lines"
at=$(mktemp -d /tmp/bnc_table.XXXXXX)
trap 'rm -rf "$at"' EXIT
ulimit -n "$(ulimit -Hn)"

"$out/load" settings 26667 26660 1 > "$at/bnc.toml"
"$out/load" settings 26667 26660 1000 > "$at/many.toml"
"$out/load" settings 26667 26660 100 > "$at/some.toml"

# ZNC: no limit on what it sends a network, as many clients as are wanted from one address, and 500
# lines kept for each channel.
mkdir -p "$at/znc/configs"
cat > "$at/znc/configs/znc.conf" <<'END'
Version = 1.8.2
AnonIPLimit = 1000
ConnectDelay = 1
ServerThrottle = 1
ProtectWebSessions = false
MaxBufferSize = 10000
<Listener l>
	Host = 127.0.0.1
	Port = 26667
	IPv4 = true
	IPv6 = false
	SSL = false
	AllowIRC = true
	AllowWeb = false
</Listener>
<User ann>
	Nick = ann
	AltNick = ann_
	Ident = ann
	RealName = Ann A
	Pass = plain#bc
	MultiClients = true
	AutoClearChanBuffer = false
	Buffer = 500
	ChanBufferSize = 500
	JoinTries = 1
	<Network net>
		FloodBurst = 9999
		FloodRate = 9999.00
		IRCConnectEnabled = true
		JoinDelay = 0
		Server = 127.0.0.1 26660
		<Chan #c0>
		</Chan>
	</Network>
</User>
END

# bip: the log is kept in memory, 500 lines.
mkdir "$at/bip"
cat > "$at/bip/bip.conf" <<'END'
ip = "127.0.0.1";
port = 26667;
log = false;
log_system = false;
log_level = 1;
reconn_timer = 1;
network { name = "net"; server { host = "127.0.0.1"; port = 26660; }; };
user {
	name = "ann";
	password = "3aaff2f800b87c6359a782fd35bb6897c04dd1c7";
	default_nick = "ann"; default_user = "ann"; default_realname = "Ann A";
	backlog = true; backlog_lines = 500; backlog_always = true; backlog_msg_only = true;
	connection { name = "net"; network = "net"; channel { name = "#c0"; }; };
};
END

# Starts a bouncer, runs a step against it, and ends it: step BOUNCER FILE WORD..
step() {
  local which=$1 file=$2 pass=ann@x/net:bc pid
  shift 2
  case $which in
    bnc) "$bnc" serve "$at/$file" > "$at/log" 2>&1 & ;;
    znc) znc -f -r -d "$at/znc" > "$at/log" 2>&1 & ;;
    bip) bip -n -s "$at/bip" > "$at/log" 2>&1 & pass=ann:bc:net ;;
  esac
  pid=$!
  # a step that fails is a figure too: how often it did
  if ! timeout 240 "$out/load" 26660 26667 $pid "$pass" "$@" >> "$at/told.$which" 2> "$at/fault"; then
    echo "failed_$(tr ' ' _ <<< "$*") 1" >> "$at/told.$which"
    sed "s/^/$which $*: /" "$at/fault" >> "$at/faults"
  fi
  # one that has ended by itself is no fault of the script
  kill $pid 2> /dev/null && wait $pid 2> /dev/null || true
  sleep 0.5
}

people=account-notify,away-notify
bouncers=bnc
for which in znc bip; do
  ! command -v $which > /dev/null || bouncers="$bouncers $which"
done
for _ in $(seq "$rounds"); do
  for what in $steps; do
    case $what in
      lines) for sessions in 1 8 32; do
          for which in $bouncers; do step $which bnc.toml $sessions; done
        done ;;
      attach) for which in $bouncers; do step $which bnc.toml attach none; done
        # bip has no capabilities
        for which in ${bouncers%bip}; do step $which bnc.toml attach $people; done ;;
      many) step bnc many.toml many ;;
      listening) for file in some many; do
          "$out/load" listening "$bnc" "$at/$file.toml" | sed "s/^/${file}_/" >> "$at/told.bnc"
        done ;;
      view) for kind in "churn 20 500" "wide 200 100"; do
          set -- $kind
          "$out/lines" $2 $3 5000 300000 > "$at/lines"
          "$out/load" cost $1 "$bnc" view < "$at/lines" >> "$at/told.bnc"
          "$out/load" cost $1 "$out/plain" < "$at/lines" >> "$at/told.plain"
        done ;;
    esac
  done
done
[ ! -s "$at/faults" ] || sort "$at/faults" | uniq -c >&2

# The medians of one column; of cuts and failures, how many there were.
medians() {
  [ -e "$at/told.$1" ] || return 0
  sort -k1,1 -k2,2g "$at/told.$1" | awk -v which="$1" '
    function tell() { if (n) print last, which, (last ~ /^(cut|failed)/ ? n : seen[int((n + 1) / 2)]) }
    $1 != last { tell(); last = $1; n = 0 }
    { seen[++n] = $2 }
    END { tell() }'
}
for which in bnc znc bip plain; do medians $which; done | awk '
  { value[$1, $2] = $3; if (!($1 in known)) { known[$1]; order[++count] = $1 } }
  END {
    printf "%-24s %12s %12s %12s %12s\n", "figure", "bnc", "znc", "bip", "plain"
    for (i = 1; i <= count; i++) {
      f = order[i]
      printf "%-24s %12s %12s %12s %12s\n", f, value[f, "bnc"], value[f, "znc"], value[f, "bip"], value[f, "plain"]
    }
  }'
