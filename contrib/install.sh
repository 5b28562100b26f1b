#!/bin/sh
# Installs the program of dist/, which the proofs made. It needs no kit and no network.
#
#   contrib/install.sh [PREFIX]
#
# PREFIX is where bin/bnc and the manual page go: ~/.local, or /usr/local for root. The settings are
# ~/.config/bnc/bnc.toml; for root they are /etc/bnc/bnc.toml, and there is a systemd unit too if the
# machine has systemd. If there are no settings yet, they are written with a random password, which
# is printed once; messages are then kept in a folder beside them, for root in /var/lib/bnc. Settings
# that are there stay as they are. contrib/uninstall.sh takes all of it back, except the settings and
# the messages that were kept.
set -eu
here=$(cd "$(dirname "$0")/.." && pwd)
name=bnc-x86_64-linux-gnu
umask 077

refuse() { echo "install: $1" >&2; exit 1; }

if [ "$(id -u)" = 0 ]; then
  prefix=${1:-/usr/local} folder=/etc/bnc kept=/var/lib/bnc
else
  prefix=${1:-$HOME/.local} folder=${XDG_CONFIG_HOME:-$HOME/.config}/bnc kept=kept
fi
settings=$folder/bnc.toml
at=$(mktemp -d)
trap 'rm -rf "$at"' EXIT

# what the machine has to be
[ "$(uname -s)" = Linux ] || refuse 'the program is for Linux'
[ "$(uname -m)" = x86_64 ] || refuse "the program is for x86-64, and this is $(uname -m)"
[ -r /proc/cpuinfo ] || refuse '/proc is not mounted'
for flag in cx16 lahf_lm popcnt sse4_1 sse4_2 ssse3; do
  grep -qw "$flag" /proc/cpuinfo || refuse "the processor lacks $flag, a part of x86-64-v2"
done
for tool in gzip sha256sum install mkfifo od; do
  command -v "$tool" > "$at/found" || refuse "$tool is not installed"
done

# the program, if it is the one that dist/ names
gzip -dc "$here/dist/$name.gz" > "$at/$name" || refuse "dist/$name.gz can't be read"
grep " $name\$" "$here/dist/SHA256SUMS" > "$at/sum" || refuse 'dist/SHA256SUMS names no program'
(cd "$at" && sha256sum --status --check sum) ||
  refuse 'dist does not hold the program whose sum SHA256SUMS has'
chmod 755 "$at/$name"
if ! version=$("$at/$name" --version 2> "$at/why"); then
  sed 's/^/install: /' "$at/why" >&2
  system=$(sed -n 's/^| system | `\(.*\)` |$/\1/p' "$here/dist/README.md")
  refuse "the program does not run here; it needs $system"
fi
install -D -m 755 "$at/$name" "$prefix/bin/bnc"
install -D -m 644 "$here/docs/bnc.1" "$prefix/share/man/man1/bnc.1"
echo "installed $version as $prefix/bin/bnc"

# random bytes, as many as asked for, each as two characters
random() { head -c "$1" /dev/urandom | od -An -tx1 | tr -d ' \n'; }

# settings with a password of their own, and the FIFO that controls the program
if [ ! -e "$settings" ]; then
  password=$(random 8)
  salt=$(random 8)
  bytes=$(printf '%s' "$salt" | od -An -tx1 | tr -d ' \n')
  digest=$(printf '%s%s' "$salt" "$password" | sha256sum | cut -c 1-64)
  mkdir -p "$folder"
  sed "/^# 16 random/d; s/^salt = .*/salt = \"$bytes\"/; s/^password = .*/password = \"$digest\"/
    s|^#kept = .*|kept = \"$kept\"|" "$here/contrib/bnc.toml" > "$settings"
  echo "wrote $settings; the password for your clients, shown this once: $password"
fi
[ -e "$settings.control" ] || mkfifo -m 600 "$settings.control"

start=
if [ "$(id -u)" = 0 ] && [ -d /run/systemd/system ]; then
  sed "s#/usr/local/bin/bnc#$prefix/bin/bnc#" "$here/contrib/bnc.service" > "$at/bnc.service"
  install -D -m 644 "$at/bnc.service" /etc/systemd/system/bnc.service
  systemctl daemon-reload
  echo 'installed the unit bnc.service'
  start='systemctl enable --now bnc'
fi

# a path as it is typed: in quotes if it has a space or another character that the shell reads
typed() {
  case $1 in
    *[!A-Za-z0-9_./,:@%+=~-]*) printf "'%s'" "$(printf '%s' "$1" | sed "s/'/'\\\\''/g")" ;;
    *) printf '%s' "$1" ;;
  esac
}

# what to type next
bnc=bnc
case ":$PATH:" in
  *":$prefix/bin:"*) ;;
  *) bnc=$(typed "$prefix/bin/bnc")
     echo "$prefix/bin is not in your PATH, so call it by its whole name" ;;
esac
file=$(typed "$settings")
echo 'next:'
echo "  \${EDITOR:-vi} $file        # your network and your nick"
echo "  $bnc check $file"
echo "  ${start:-$bnc serve $file}"
