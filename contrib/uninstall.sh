#!/bin/sh
# Takes back what contrib/install.sh installed: program, manual page, unit and FIFO. The settings and
# the messages that were kept stay; the last line says where.
#
#   contrib/uninstall.sh [PREFIX]
set -eu
if [ "$(id -u)" = 0 ]; then
  prefix=${1:-/usr/local} folder=/etc/bnc kept=/var/lib/bnc
else
  prefix=${1:-$HOME/.local} folder=${XDG_CONFIG_HOME:-$HOME/.config}/bnc kept=$folder/kept
fi
if [ "$(id -u)" = 0 ] && [ -e /etc/systemd/system/bnc.service ]; then
  systemctl disable --now bnc || echo 'uninstall: the service could not be stopped' >&2
  rm /etc/systemd/system/bnc.service
  systemctl daemon-reload
fi
rm -f "$prefix/bin/bnc" "$prefix/share/man/man1/bnc.1"
if [ -p "$folder/bnc.toml.control" ]; then rm "$folder/bnc.toml.control"; fi
echo "removed $prefix/bin/bnc; your settings are still in $folder, and what was kept in $kept"
