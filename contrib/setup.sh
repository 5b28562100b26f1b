#!/bin/sh
# Asks for what a first run needs (a network, a nick, channels, a password) and writes the settings.
#
#   contrib/setup.sh [FILE]
#
# FILE is ~/.config/bnc/bnc.toml, or /etc/bnc/bnc.toml for root. `bnc setup FILE` asks and writes; this
# script turns the terminal's echo off while a password is typed, and on again at the end and at
# signals. It makes the FIFO too, and has messages kept in a folder beside FILE, for root in
# /var/lib/bnc. BNC names another program than the one that is installed.
set -eu
if [ "$(id -u)" = 0 ]; then
  folder=/etc/bnc kept=/var/lib/bnc
else
  folder=${XDG_CONFIG_HOME:-$HOME/.config}/bnc kept=kept
fi
file=${1:-$folder/bnc.toml}
bnc=${BNC:-}
for place in bnc ~/.local/bin/bnc /usr/local/bin/bnc /usr/bin/bnc; do
  if [ -z "$bnc" ] && command -v "$place" > /dev/null; then bnc=$place; fi
done
[ "$bnc" ] || { echo 'setup: bnc is not installed: contrib/install.sh does it' >&2; exit 1; }
if [ -e "$file" ]; then echo "setup: $file exists" >&2; exit 1; fi
(umask 077 && mkdir -p "$(dirname "$file")")

at=$(mktemp -d)
saved=
if [ -t 0 ]; then saved=$(stty -g); fi
restore() { if [ "$saved" ]; then stty "$saved"; fi; }
trap 'restore; rm -rf "$at"' EXIT
trap 'exit 1' HUP INT TERM
mkfifo "$at/answers" "$at/questions"
"$bnc" setup "$file" < "$at/answers" > "$at/questions" &
asks=$!
exec 3> "$at/answers" 4< "$at/questions"

# each line that ends with a question mark wants an answer
answer() {
  if IFS= read -r line; then printf '%s\n' "$line" >&3; else exec 3>&-; fi
}
while IFS= read -r question <&4; do
  case $question in
    *password*\?)
      printf '%s ' "$question"
      if [ "$saved" ]; then stty -echo; fi
      answer
      restore
      if [ "$saved" ]; then echo; fi ;;
    *\?)
      printf '%s ' "$question"
      answer ;;
    # that is done below
    'to control it:'*) ;;
    *) printf '%s\n' "$question" ;;
  esac
done
status=0
wait "$asks" || status=$?
if [ "$status" = 0 ]; then
  sed -i "s|^#kept = .*|kept = \"$kept\"|" "$file"
  [ -e "$file.control" ] || mkfifo -m 600 "$file.control"
fi
exit "$status"
