#!/bin/sh
# Tries bnc with two linked servers and the clients ii, irssi, WeeChat and HexChat, all on the loopback
# range. It compares each client's member list with the server's own NAMES after the client attaches
# late, after the link between the servers is cut and restored, and after a server restarts. Servers
# have their default flood limits and clients their default pace. The exit status is 1 if a check fails.
#
#   sh contrib/try_clients.sh ~/.local/bin/bnc [ngircd|inspircd|ircd-hybrid]
#
# Debian packages: ngircd (or one of the other two) and ii; irssi, weechat-curses with tmux, and hexchat
# with hexchat-lua and xvfb. A client that isn't installed is left out. If root runs this script,
# HexChat and ircd-hybrid, which refuse to run as root, run as the user nobody.
#
# It uses ports 16660 to 16667, and a folder that it creates; its last line names the folder.
set -eu
bnc=${1:-bnc}
kind=${2:-ngircd}
persons=25
at=$(mktemp -d /tmp/bnc-try.XXXXXX)
cd "$at"
failed=0
started=

title() { printf '\n== %s\n' "$1"; }
there() { command -v "$1" > /dev/null; }
ok() { echo "ok: $1"; }
fail() { echo "FAILED: $1"; failed=1; }
note() { started="$started $!"; }

# as_user COMMAND..: runs it as nobody if we are root
if [ "$(id -u)" = 0 ]; then
  chown 65534:65534 "$at"
  chmod 755 "$at"
  as_user() { exec setpriv --reuid=65534 --regid=65534 --clear-groups -- "$@"; }
else
  as_user() { exec "$@"; }
fi

# until_it TEXT COMMAND..: tries a command each half second until it holds, for 30 seconds
until_it() {
  what=$1; shift
  for _ in $(seq 60); do
    if "$@" > last.try 2>&1; then ok "$what"; return; fi
    sleep 0.5
  done
  fail "$what"; cat last.try
}

# the two servers: a for bob and bnc, b for the others

ngircd_conf() {
  cat << END
[Global]
Name = $1.example.net
Listen = 127.0.0.1
Ports = $2
[Limits]
MaxConnectionsIP = 0
MaxJoins = 0
ConnectRetry = 5
PingTimeout = 600
[Options]
DNS = no
Ident = no
PAM = no
[Server]
Name = $3.example.net
MyPassword = pw
PeerPassword = pw
$4
END
}

inspircd_conf() {
  cat << END
<server name="$1.example.net" description="try" network="try" id="00$5">
<admin name="x" nick="x" email="x@example.net">
<bind address="127.0.0.1" port="$2" type="clients">
<bind address="127.0.0.1" port="$6" type="servers">
<connect allow="*" localmax="500" globalmax="500" useident="no" resolvehostnames="no">
<pid file="$at/$1.pid">
<log method="file" type="*" level="default" target="$at/$1.log">
<module name="cap"><module name="ircv3"><module name="ircv3_servertime"><module name="namesx">
<module name="spanningtree">
<link name="$3.example.net" ipaddr="127.0.0.1" port="$7" allowmask="127.0.0.1" sendpass="pw" recvpass="pw">
$4
END
}

hybrid_conf() {
  cat << END
serverinfo { name = "$1.example.net"; sid = "0A$5"; description = "try"; network_name = "try";
  network_description = "try"; hub = yes; default_max_clients = 512; };
admin { name = "x"; description = "x"; email = "<x@example.net>"; };
class { name = "users"; ping_time = 10 minutes; number_per_ip_local = 500; number_per_ip_global = 500;
  max_number = 500; sendq = 1 megabytes; recvq = 8000 bytes; };
class { name = "server"; ping_time = 90 seconds; connectfreq = 2 seconds; max_number = 5; sendq = 2 megabytes; };
listen { host = "127.0.0.1"; port = $2; flags = server; port = $6; };
auth { user = "*@*"; class = "users"; flags = exceed_limit; };
connect { name = "$3.example.net"; host = "127.0.0.1"; port = $7; send_password = "pw"; accept_password = "pw";
  class = "server"; $4 };
general { disable_auth = yes; throttle_count = 500; throttle_time = 1 second; };
modules { path = "/usr/lib/ircd-hybrid/modules"; path = "/usr/lib/ircd-hybrid/modules/autoload"; };
END
}

case $kind in
  ngircd)
    ngircd_conf a 16660 b '' > a.conf
    ngircd_conf b 16661 a 'Host = 127.0.0.1
Port = 16660' > b.conf ;;
  inspircd)
    inspircd_conf a 16660 b '' A 16662 16663 > a.conf
    inspircd_conf b 16661 a '<autoconnect period="2s" server="a.example.net">' B 16663 16662 > b.conf ;;
  ircd-hybrid)
    hybrid_conf a 16660 b '' A 16662 16663 > a.conf
    hybrid_conf b 16661 a 'flags = autoconn;' B 16663 16662 > b.conf ;;
  *) echo "no server $kind"; exit 2 ;;
esac

# server NAME: starts it; its process is then in the variable of that name
server() {
  case $kind in
    ngircd) /usr/sbin/ngircd -n -f "$at/$1.conf" >> "$1.out" 2>&1 & ;;
    inspircd) /usr/sbin/inspircd --runasroot --nofork --config="$at/$1.conf" >> "$1.out" 2>&1 & ;;
    ircd-hybrid)
      as_user /usr/sbin/ircd-hybrid -foreground -configfile "$at/$1.conf" -pidfile "$at/$1.pid" \
        -logfile "$at/$1.log" -klinefile "$at/$1.k" -dlinefile "$at/$1.d" -xlinefile "$at/$1.x" \
        -resvfile "$at/$1.r" >> "$1.out" 2>&1 & ;;
  esac
  note
  eval "$1=$!"
  sleep 2
}

# the persons on the network itself, by ii

person() { ii -i "$at/p/$1" -s 127.0.0.1 -p "$2" -n "$1" >> "$1.raw" 2> /dev/null & note; }
say() { echo "$2" > "p/$1/127.0.0.1/in"; }
is_there() { [ -p "p/$1/127.0.0.1/in" ] && grep -q ' 00[14] ' "$1.raw"; }
bob() { : > bob.raw; person bob 16660; until_it 'bob is there' is_there bob; say bob '/j #c'; sleep 1; }

# the members of #c as the server lists them to bob, each with its highest symbol in front
members() {
  from=$(($(wc -l < bob.raw) + 1))
  say bob '/NAMES #c'
  for _ in $(seq 50); do
    tail -n +"$from" bob.raw | tr -d '\r' > names.raw
    if grep -q ' 366 bob #c ' names.raw; then break; fi
    sleep 0.1
  done
  sed -n 's/.* 353 bob . #c ://p' names.raw | tr ' ' '\n' | grep . | sort
}
counted() { members > server.names; [ "$(wc -l < server.names)" = "$1" ]; }

all_there() { for number in $(seq $persons); do is_there "$1$number" || return 1; done; }

# crowd LETTER: $persons persons come to server b and to #c
crowd() {
  for number in $(seq $persons); do person "$1$number" 16661; done
  until_it "the persons $1" all_there "$1"
  for number in $(seq $persons); do say "$1$number" '/j #c'; done
}

# the clients, which write the members that they hold

cat > names.pl << END
use Irssi;
sub names {
  my \$channel = Irssi::channel_find('#c') or return;
  open(my \$out, '>', '$at/irssi.new');
  print \$out map { substr(\$_->{prefixes}, 0, 1) . \$_->{nick} . "\n" } \$channel->nicks();
  close(\$out);
  rename('$at/irssi.new', '$at/irssi.raw');
}
Irssi::timeout_add(500, \&names, '');
END
cat > names.lua << END
hexchat.register('names', '1', 'the members of a channel')
hexchat.hook_timer(500, function()
  local channel = hexchat.find_context(nil, '#c')
  if not channel then return true end
  local out = io.open('$at/hexchat.new', 'w')
  for user in channel:iterate('users') do out:write((user.prefix or '') .. user.nick .. '\n') end
  out:close()
  os.rename('$at/hexchat.new', '$at/hexchat.raw')
  return true
end)
END

screen() { tmux -S "$at/tmux" capture-pane -p -t "$1"; }
held_by() {
  case $1 in
    weechat) screen weechat | awk -F '│' 'NF > 1 { gsub(/ /, "", $NF); print $NF }' | grep . | sort ;;
    *) sort "$1.raw" ;;
  esac
}
holds_the_members() { members > server.names; held_by "$1" > "$1.names"; diff server.names "$1.names"; }
each_holds_the_members() { for one in $clients; do until_it "$one: $1" holds_the_members "$one"; done; }

irssi_comes() {
  tmux -S "$at/tmux" -f /dev/null new-session -d -s irssi -x 100 -y 50 \
    "irssi --home=$at/irssi -c 127.0.0.1 -p 16667 -w ann@desk/net:bc -n ann"
  sleep 2; tmux -S "$at/tmux" send-keys -t irssi "/script load $at/names.pl" Enter
  sleep 1; tmux -S "$at/tmux" send-keys -t irssi Escape 2
}
weechat_comes() {
  tmux -S "$at/tmux" -f /dev/null new-session -d -s weechat -x 110 -y 60 "weechat -d $at/weechat \
    -r '/bar hide buflist;/server add net 127.0.0.1/16667 -notls -password=ann@couch/net:bc -nicks=ann;/connect net'"
  sleep 5; tmux -S "$at/tmux" send-keys -t weechat '/buffer #c' Enter
}
hexchat_comes() {
  as_user Xvfb -screen 0 1000x640x24 -displayfd 3 3> display > xvfb.log 2>&1 &
  note
  mkdir -p home/hexchat/addons
  cp names.lua home/hexchat/addons
  printf 'gui_slist_skip = 1\ngui_join_dialog = 0\nirc_nick1 = ann\n' > home/hexchat/hexchat.conf
  printf 'N=net\nE=UTF-8 (Unicode)\nF=8\nD=0\nL=7\nI=ann\nU=ann\nR=Ann\nP=ann@window/net:bc\nS=127.0.0.1/16667\n\n' \
    > home/hexchat/servlist.conf
  if [ "$(id -u)" = 0 ]; then chown -R 65534:65534 home; fi
  sleep 2
  as_user env "DISPLAY=:$(cat display)" "XDG_CONFIG_HOME=$at/home" "HOME=$at/home" hexchat > hexchat.log 2>&1 &
  note
}

end() {
  tmux -S "$at/tmux" kill-server 2> /dev/null || true
  for one in $started; do kill "$one" 2> /dev/null || true; done
}
trap end EXIT
trap 'exit 1' HUP INT TERM

title "two linked servers, $kind"
server a
server b
bob
echo '/t Hello all' > 'p/bob/127.0.0.1/#c/in'
crowd m
until_it "bob and $persons of the other server" counted $((persons + 1))

cat > bnc.toml << 'END'
listen = "127.0.0.1:16667"
retry = 1
[[user]]
name = "ann"
salt = "61"
password = "ba7816bf8f01cfea414140de5dae2223b00361a396177a9cb410ff61f20015ad"
[[user.network]]
name = "net"
address = "127.0.0.1:16660"
nick = "ann"
user = "ann"
realname = "Ann A"
join = ["#c"]
END
"$bnc" serve bnc.toml > bnc.out 2> bnc.log &
note
until_it 'bnc is on the channel' counted $((persons + 2))
echo 'first one' > 'p/bob/127.0.0.1/#c/in'; sleep 1

phone() {
  BNC=ann@phone/net:bc ii -i "$at/phone$1" -s 127.0.0.1 -p 16667 -k BNC -n ann > "phone$1.raw" &
  note
  phone=$!
}
# heard FILE TEXT: the text came once
heard() { [ "$(grep -c "PRIVMSG #c :$2" "$1")" = 1 ]; }

title 'ii comes late, goes, and comes back'
phone 1
until_it 'ii: the message that came before, once' heard phone1.raw 'first one'
until_it 'ii: the topic' grep ' 332 ann #c :Hello all' phone1.raw
echo 'hi from the phone' > 'phone1/127.0.0.1/#c/in'
until_it 'bob heard it, once' heard bob.raw 'hi from the phone'
kill $phone; sleep 1
echo 'second one' > 'p/bob/127.0.0.1/#c/in'; sleep 1; echo 'third one' > 'p/bob/127.0.0.1/#c/in'; sleep 1
phone 2
until_it 'ii: the third, once' heard phone2.raw 'third one'
until_it 'ii: the second, once' heard phone2.raw 'second one'
if grep -q 'first one' phone2.raw; then fail 'ii: the first again'; else ok 'ii: the first not again'; fi

title 'the other clients come late'
clients=
if there irssi; then clients="$clients irssi"; irssi_comes; fi
if there weechat; then clients="$clients weechat"; weechat_comes; fi
if there hexchat && there Xvfb; then clients="$clients hexchat"; hexchat_comes; fi
each_holds_the_members 'the members, late'

title 'the link is cut'
kill $b
until_it 'the others are gone' counted 2
each_holds_the_members 'the members without the others'

title 'the link is back, with others'
server b
crowd n
until_it 'others are there' counted $((persons + 2))
each_holds_the_members 'the members with them'

title 'the server is started again'
kill $a; sleep 3
server a
bob
until_it 'bnc is on the channel again, and so are the others' counted $((persons + 2))
each_holds_the_members 'the members on the server started again'
echo 'fourth one' > 'p/bob/127.0.0.1/#c/in'
until_it 'ii, which stayed: the fourth, once' heard phone2.raw 'fourth one'

for one in $clients; do
  case $one in
    hexchat)
      if there import; then import -display ":$(cat display)" -window root window.png; echo "its window: $at/window.png"; fi ;;
    *) title "$one at the end"; screen "$one" | grep -v '^ *$' ;;
  esac
done
title 'the log'
cat bnc.log
printf '\nall files: %s\n' "$at"
exit $failed
